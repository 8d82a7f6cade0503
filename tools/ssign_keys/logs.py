"""The logs that are given: opened, made plain where they are compressed, and put one after the other.

A single plain file is read where it lies. Everything else is spooled, so that each program that reads the log reads the
same octets.
"""
from __future__ import annotations

import bisect
import hashlib
import itertools
import os
import stat
import sys
from dataclasses import dataclass, replace
from typing import BinaryIO, Iterable, Iterator, List, NamedTuple, Optional, Sequence, Tuple, cast

from .damage import Damage
from .digests import sum_of
from .expand import FRONT, PIECE, expanded, expanded_zstd, form_of, limited, most_expanded
from .faults import Fault
from .files import IS_LINK, is_shared, open_given, reason
from .form import form_of as form_of_log
from .frames import LONGEST, read_at
from .progress import Progress
from .streams import say_waiting
from .words import shown_name
from .workplace import Workplace, finish, put


class Packed(NamedTuple):
    """A log as it was given, where it is compressed: the form, how many octets it has, and their SHA-256."""

    form: str
    size: int
    sha256: str


@dataclass(frozen=True)
class Part:
    """One of the given logs within all of them: its name, its first octet, and how many messages stand before it."""

    name: str
    offset: int
    place: int
    packed: Optional[Packed] = None
    """The compressed octets; None where it is given plain."""


class Log:
    """All that was given, as one plain file.

    A frame may begin in one of the logs and end in the next. So how many messages stand before each is known once `place_parts` was
    called.
    """

    def __init__(self, file: BinaryIO, parts: Sequence[Part], are_lines: bool, is_copy: bool) -> None:
        self.file = file
        self.parts = parts
        self.are_lines = are_lines
        self.is_copy = is_copy
        self.damage: Optional[Damage] = None
        """What is damaged, where ssign reads on after it."""
        self.longest = sys.maxsize
        """How many octets a message has at most."""
        self._places = [it.place for it in parts]
        self._offsets = [it.offset for it in parts]
        self._seen = look(file)
        self.size = self._seen[0]
        self._sums: List[Tuple[int, str]] = []
        # those of the octets that ssign was handed
        self._handed: List[Tuple[int, str]] = []

    def rewind(self) -> BinaryIO:
        """The file, from its front on."""
        self.file.seek(0)
        return self.file

    def place_parts(self, places: Sequence[int]) -> None:
        """Learns how many messages begin before each log."""
        self._places = list(places)
        self.parts = [replace(part, place=place) for part, place in zip(self.parts, places)]

    def position(self) -> int:
        """How far whoever reads the file has come, since a child that was given it moves the same position."""
        return os.lseek(self.file.fileno(), 0, os.SEEK_CUR)

    def octets(self, progress: Progress) -> Iterator[bytes]:
        """All octets, from the front on. From then on `sums` is about these, and no others are given a second time.

        Whoever maps the file into memory changes it without a trace, so it may hold other octets at each time.
        """
        sums = []
        for part, end in self.spans():
            hasher, at = hashlib.sha256(), part.offset
            while at < end:
                piece = self._piece(at, min(PIECE, end - at))
                if not piece:
                    raise self.changed()
                hasher.update(piece)
                at += len(piece)
                yield piece
                progress.show("reviewing", at, self.size, "octets")
            sums.append((end - part.offset, hasher.hexdigest()))
        if self._handed and self._handed != sums:
            raise self.changed()
        self._sums = self._handed = sums

    def _piece(self, offset: int, size: int) -> bytes:
        """So many octets from there on, or fewer."""
        try:
            return os.pread(self.file.fileno(), size, offset)
        except OSError as error:
            raise Fault(f"the log {shown_name(self.parts[0].name)} can't be read: {error.strerror}") from error

    def spans(self) -> Iterator[Tuple[Part, int]]:
        """Each part, with the octet at which the next one begins, or the log ends."""
        return zip(self.parts, [*self._offsets[1:], self.size])

    def sums(self) -> List[Tuple[int, str]]:
        """How many octets each part has, and their SHA-256. They are read for it once."""
        self._sums = self._sums or [sum_of(self.file, part.offset, end) for part, end in self.spans()]
        return self._sums

    def check_unchanged(self) -> None:
        """Refuses a file that somebody wrote to meanwhile, since two runs over it may have read two logs."""
        if not self.is_copy and look(self.file) != self._seen:
            raise self.changed()

    def changed(self) -> Fault:
        """What is said of a log that isn't what it was."""
        return Fault(f"the log {shown_name(self.parts[0].name)} was changed while it was read: run again, or hand over a copy")

    def part_of_place(self, place: int) -> Part:
        """The part in which the message at this place lies. A part without a message has none."""
        return self.parts[bisect.bisect_right(self._places, place) - 1]

    def part_of_offset(self, offset: int) -> Part:
        """The part in which this octet lies."""
        return self.parts[bisect.bisect_right(self._offsets, offset) - 1]


def look(file: BinaryIO) -> Tuple[int, int, int]:
    """What tells that a file was written to: its size, and when it was changed last.

    Whoever writes to a file can set its time of change back, but not that of its status, which each of the two moves on.
    """
    seen = os.fstat(file.fileno())
    return seen.st_size, seen.st_mtime_ns, seen.st_ctime_ns


def open_log(names: Sequence[str], named_form: Optional[bool], workplace: Workplace, progress: Progress,
             max_expanded: Optional[int] = None, refuses_links: bool = False) -> Log:
    """Opens the given logs as one. Where nobody says whether they are lines, their first octets do.

    A compressed log grows to so many octets at most, or else to what `most_expanded` allows. A link may be refused where it
    stands in a folder that others may write to: they choose where it leads.
    """
    if list(names).count("-") > 1:
        raise Fault("standard input, `-`, can be given only once")
    if len(names) == 1 and names[0] != "-":
        file = open_file(names[0], refuses_links)
        if stat.S_ISREG(os.fstat(file.fileno()).st_mode) and form_of(os.pread(file.fileno(), FRONT, 0)) is None:
            return Log(file, [Part(names[0], 0, 0)], form_of_log(file, [(names[0], 0)], named_form).are_lines, False)
        # whoever writes to a pipe writes to the one that reads it first, so it isn't opened a second time
        sources: Iterator[BinaryIO] = iter([file])
    else:
        sources = (open_source(name) for name in names)
    spool = workplace.new_file("log")
    starts = []
    packed = []
    for name in names:
        starts.append((name, spool.tell()))
        with next(sources) as source:
            packed.append(spool_log(name, source, max_expanded, spool, workplace, progress))
    form = form_of_log(spool, starts, named_form)
    form.refuse_odd()
    if form.are_lines:
        refuse_torn(spool, starts)
    parts = [Part(name, start, 0, it) for (name, start), it in zip(starts, packed)]
    return Log(spool, parts, form.are_lines, True)


def open_file(name: str, refuses_links: bool = False) -> BinaryIO:
    """Opens a log that isn't standard input."""
    if not name:
        raise Fault("the name of a log is empty; - is standard input")
    try:
        is_careful = refuses_links and is_shared(os.path.dirname(name) or ".")
        return cast(BinaryIO, open(open_given(name, os.O_NOFOLLOW if is_careful else 0), "rb", buffering=0))
    except (OSError, ValueError) as error:
        where = " in a folder to which others may write: name the log itself" if reason(error) == IS_LINK else ""
        raise Fault(f"the log {shown_name(name)} can't be read: {reason(error)}{where}") from error


def open_standard_input() -> BinaryIO:
    """Opens standard input a second time, so that it can be closed."""
    if sys.stdin is None:
        raise Fault("standard input is closed")
    say_waiting()
    try:
        return cast(BinaryIO, os.fdopen(os.dup(0), "rb", buffering=0))
    except OSError as error:
        raise Fault(f"standard input can't be read: {error.strerror}") from error


# ---- copies

def open_source(name: str) -> BinaryIO:
    """Opens a log."""
    return open_standard_input() if name == "-" else open_file(name)


def spool_log(name: str, source: BinaryIO, max_expanded: Optional[int], spool: BinaryIO, workplace: Workplace,
              progress: Progress) -> Optional[Packed]:
    """Puts the plain octets of a log after those that stand there. Gives what it was, where it is compressed."""
    pieces = read_pieces(source, name, "copying the log", progress)
    front = b""
    for piece in pieces:
        front += piece
        if len(front) >= FRONT:
            break
    form = form_of(front)
    pieces = itertools.chain([front], pieces)
    if form is None:
        put_all(spool, pieces)
        return None
    # how long it is, a pipe says only at its end
    with workplace.new_file("packed") as packed:
        hasher = hashlib.sha256()
        put_all(packed, hashed(pieces, hasher))
        most = most_expanded(packed.tell(), max_expanded)
        given = Packed(form, packed.tell(), hasher.hexdigest())
        packed.seek(0)
        grown = expanded_zstd(name, packed, workplace) if form == "zstd" else \
            expanded(name, form, read_pieces(packed, name, "expanding the log", progress))
        put_all(spool, limited(name, form, grown, most))
    os.remove(workplace.path("packed"))
    return given


def put_all(file: BinaryIO, pieces: Iterable[bytes]) -> None:
    """Has these pieces stand in a passing file."""
    for piece in pieces:
        put(file, piece)
    finish(file)


def hashed(pieces: Iterable[bytes], hasher: "hashlib._Hash") -> Iterator[bytes]:
    """The same pieces, which the hasher gets too."""
    for piece in pieces:
        hasher.update(piece)
        yield piece


def read_pieces(source: BinaryIO, name: str, phase: str, progress: Progress) -> Iterator[bytes]:
    """The octets of a file that are left."""
    total = 0
    while True:
        try:
            piece = source.read(PIECE)
        except OSError as error:
            raise Fault(f"the log {shown_name(name)} can't be read: {error.strerror}") from error
        if piece is None:
            raise Fault(f"the log {shown_name(name)} can't be read: it has nothing yet, and doesn't wait")
        if not piece:
            return
        yield piece
        total += len(piece)
        progress.show(phase, total, 0, "octets")


# ---- several logs

def refuse_torn(spool: BinaryIO, starts: Sequence[Tuple[str, int]]) -> None:
    """Refuses a log of lines that breaks off in a message, but for the last.

    The octets of the next log would be read as the rest of that message. Whether they are its rest, only whoever cut
    the logs knows.
    """
    for (name, start), (_, end) in zip(starts, starts[1:]):
        tail = read_at(spool, max(start, end - LONGEST - 1), min(end - start, LONGEST + 1))
        left = len(tail) - tail.rfind(b"\n") - 1
        if left > LONGEST:
            # this is for ssign to refuse, and nothing after it counts
            return
        if left:
            octet = end - left - start
            raise Fault(
                f"the log {shown_name(name)} breaks off in the message that begins at its octet {octet}, so the next log "
                f"can't be read after it: keep only what stands before (`head -c {octet}`), or, where the next log goes "
                "on with this message, join the two (`cat`) and hand them over as one"
            )
