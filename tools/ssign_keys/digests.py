"""Files as whoever repeats a check finds them again: their sizes and SHA-256."""
from __future__ import annotations

import hashlib
import os
from typing import BinaryIO, Dict, NamedTuple, Tuple

from .words import shown_name

PIECE = 1 << 20


class Digest(NamedTuple):
    """A file that was read: its name as the command line has it, how many octets it has, and their SHA-256."""

    name: str
    size: int
    sha256: str

    def fields(self) -> Dict[str, object]:
        """As JSON has it."""
        return {"name": shown_name(self.name), "size": self.size, "sha256": self.sha256}


def sum_of(file: BinaryIO, start: int, end: int) -> Tuple[int, str]:
    """How many octets of a file lie between two, and their SHA-256."""
    hasher = hashlib.sha256()
    at = start
    while at < end:
        piece = os.pread(file.fileno(), min(PIECE, end - at), at)
        if not piece:
            break
        hasher.update(piece)
        at += len(piece)
    return at - start, hasher.hexdigest()


def digest_of(name: str, path: str) -> Digest:
    """A file that stands at this path. Raises as `open` does."""
    with open(path, "rb") as file:
        return Digest(name, *sum_of(file, 0, os.fstat(file.fileno()).st_size))
