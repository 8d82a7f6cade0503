"""Standard output: all that is written there is checked, whatever the interpreter would do with it.

Octets go to the descriptor itself. Python's own streams write less than they were given where PYTHONUNBUFFERED is set
and a disk gets full, and say so to nobody who doesn't count; and what they hold, they write when the run has ended.
"""
from __future__ import annotations

import os
import sys
from typing import BinaryIO, Iterable, Iterator

from .faults import Fault
from .files import reason

PIECE = 1 << 20


def need_standard_files() -> None:
    """Refuses a closed standard output, and has no other file take the place of a closed one."""
    if sys.stdout is None:
        raise Fault("standard output is closed")
    while True:
        number = os.open(os.devnull, os.O_RDWR)
        if number > 2:
            os.close(number)
            return


def write_out(pieces: Iterable[bytes]) -> None:
    """Writes these pieces, each of them whole, and sees that they have arrived."""
    for piece in pieces:
        put_out(piece)
    settle()


def put_out(octets: bytes) -> None:
    """Writes all of these octets, as often as it takes. `settle` has to follow the last ones."""
    if sys.stdout is None:
        raise Fault("standard output is closed")
    left = memoryview(octets)
    try:
        while left:
            left = left[os.write(1, left):]
    except OSError as fault:
        raise Fault(f"standard output can't be written: {reason(fault)}") from fault


def settle() -> None:
    """Closes what was written, because some file systems say only then that it has no room. More can be written after it."""
    try:
        os.close(os.dup(1))
    except OSError as fault:
        raise Fault(f"standard output can't be written: {reason(fault)}") from fault


def print_text(text: str) -> None:
    """Writes a text, such as a help. A name in it that isn't UTF-8 is written in its own octets."""
    write_out([text.encode("utf-8", "surrogateescape")])


def batched(pieces: Iterable[bytes]) -> Iterator[bytes]:
    """The same octets in longer pieces, so that a short line doesn't cost a call of the system."""
    held = bytearray()
    for piece in pieces:
        held += piece
        if len(held) >= PIECE:
            yield bytes(held)
            held.clear()
    yield bytes(held)


def file_pieces(file: BinaryIO) -> Iterator[bytes]:
    """A passing file from its front on."""
    file.seek(0)
    while True:
        piece = file.read(PIECE)
        if not piece:
            return
        yield piece
