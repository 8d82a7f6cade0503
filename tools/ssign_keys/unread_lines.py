"""Lines of a log that `ssign` refuses to read as messages: empty ones, too long ones, and one in which the log breaks off."""
from __future__ import annotations

from typing import BinaryIO, Iterator, NamedTuple

from .frames import PIECE, read_at


class Unread(NamedTuple):
    """A line that is no message."""

    place: int
    """How many lines stand before it."""
    start: int
    end: int
    """The octets of the log from one to the other, without the LF; of an empty line, its LF."""
    behind: int
    """The octet at which the next line begins."""
    what: str
    """What it is: `empty`, `long` with its octets, or `torn`."""


def unread_lines(file: BinaryIO, size: int, longest: int) -> Iterator[Unread]:
    """These lines of a file of so many octets, in their order. No other line has more than `longest` octets."""
    at = place = 0
    while at < size:
        # each piece begins with a line, and what stands before its last LF are whole lines that aren't too long
        piece = read_at(file, at, min(longest + 1, size - at))
        last = piece.rfind(b"\n")
        if last < 0:
            line = long_line(file, at, at + len(piece), size, place)
            yield line
            at, place = line.behind, place + 1
            continue
        yield from empty_lines(piece, last, at, place)
        at, place = at + last + 1, place + piece.count(b"\n")


def empty_lines(piece: bytes, last: int, start: int, place: int) -> Iterator[Unread]:
    """The empty lines of a piece that begins with a line, up to its last LF."""
    counted = 0
    at = next_empty(piece, 0)
    while 0 <= at <= last:
        place += piece.count(b"\n", counted, at)
        counted = at
        yield Unread(place, start + at, start + at + 1, start + at + 1, "empty")
        at = next_empty(piece, at + 1)


def next_empty(piece: bytes, at: int) -> int:
    """Where an empty line begins, from an octet on at which a line begins; -1 where none does."""
    if piece.startswith(b"\n", at):
        return at
    found = piece.find(b"\n\n", at)
    return -1 if found < 0 else found + 1


def long_line(file: BinaryIO, start: int, at: int, size: int, place: int) -> Unread:
    """A line that goes on at an octet, up to its LF or the end of the file."""
    while at < size:
        piece = read_at(file, at, min(PIECE, size - at))
        end = piece.find(b"\n")
        if end >= 0:
            return Unread(place, start, at + end, at + end + 1, f"long {at + end - start}")
        if not piece:
            break
        at += len(piece)
    return Unread(place, start, at, at, "torn")
