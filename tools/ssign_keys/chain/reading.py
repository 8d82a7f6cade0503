"""What stands in a file of a folder: its octets, expanded if they are compressed, their SHA-256, and a signed one's link."""
from __future__ import annotations

import hashlib
import os
from typing import BinaryIO, Dict, Iterable, Iterator, NamedTuple, Optional, Sequence, cast

from ..expand import FRONT, PIECE, expanded, expanded_zstd, form_of, limited, most_expanded
from ..faults import Fault
from ..files import open_regular, reason
from ..frames import frame_at
from ..words import shown_name
from ..workplace import Workplace
from .link import Link, stated_in
from .names import BZIP2, bare

# in so many first octets of a signed file the message of its link stands, after the certificate blocks
HEAD = 1 << 18
FIRST_PIECE = 1 << 14


class Digests(NamedTuple):
    """The SHA-256 of a file, and of some fronts of it."""

    size: int
    sha256: str
    fronts: Dict[int, str]
    """By how many octets they have. A front that the file doesn't have isn't there."""


class First(NamedTuple):
    """The first message of a signed file that spells a link. Whether that is its own link, a review says."""

    message: bytes
    names: bytes
    """HOSTNAME, APP-NAME and PROCID, with a space between two."""
    link: Link


def open_in(folder: int, name: str) -> BinaryIO:
    """Opens a regular file of a folder, which is no link. Raises Fault with what is wrong."""
    try:
        return cast(BinaryIO, open(open_regular(name, folder=folder), "rb", buffering=0))
    except OSError as fault:
        raise Fault(f"it can't be read: {reason(fault)}") from fault


def plain_pieces(file: BinaryIO, name: str, workplace: Workplace, most: Optional[int] = None,
                 piece: int = PIECE) -> Iterator[bytes]:
    """The octets of a file, expanded where they are compressed. Raises Fault where they can't be."""
    front = os.pread(file.fileno(), FRONT, 0)
    form = form_of(front)
    file.seek(0)
    if form is None and name.endswith(BZIP2):
        raise Fault("bzip2 isn't read here: expand it (`bunzip2`), and have files compressed by gzip, xz or zstd")
    if form is None and bare(name) != name:
        raise Fault("it isn't compressed as its name says: put a good copy in its place")
    if form is None:
        return chunks(file, name, piece)
    grown = expanded_zstd(name, file, workplace) if form == "zstd" else expanded(name, form, chunks(file, name, piece))
    return limited(name, form, grown, most_expanded(os.fstat(file.fileno()).st_size, most))


def chunks(file: BinaryIO, name: str, size: int) -> Iterator[bytes]:
    """The octets of a file that are left, so many at once."""
    while True:
        try:
            chunk = file.read(size)
        except OSError as fault:
            raise Fault(f"{shown_name(name)} can't be read: {reason(fault)}") from fault
        if not chunk:
            return
        yield chunk


def digests(pieces: Iterable[bytes], ends: Sequence[int] = ()) -> Digests:
    """The SHA-256 of all octets, and of the first ones up to each of these ends."""
    hashed, size, fronts = hashlib.sha256(), 0, {}
    left = sorted(set(ends), reverse=True)
    for piece in pieces:
        while left and left[-1] <= size + len(piece):
            cut = left.pop()
            hashed.update(piece[:cut - size])
            piece, size = piece[cut - size:], cut
            fronts[cut] = hashed.hexdigest()
        hashed.update(piece)
        size += len(piece)
    fronts.update({it: hashed.hexdigest() for it in left if it == size})
    return Digests(size, hashed.hexdigest(), fronts)


def first_of(folder: int, name: str, workplace: Workplace) -> Optional[First]:
    """The first message of a signed file that spells a link; None where there is none near its front. What it says is known once
    it is verified."""
    head = b""
    try:
        with open_in(folder, name) as file:
            for piece in plain_pieces(file, name, workplace, piece=FIRST_PIECE):
                head += piece[:HEAD - len(head)]
                first = first_in(head)
                if first is not None or len(head) >= HEAD:
                    return first
    except (Fault, OSError):
        pass
    return None


def first_in(head: bytes) -> Optional[First]:
    """The first message in these octets that spells a link; None where none is there in whole."""
    at = 0
    while True:
        start, length = frame_at(head, at)
        at = start + length
        if not length or at > len(head):
            return None
        stated = stated_in(head[start:at])
        if stated is not None:
            return First(head[start:at], stated.names, stated.link)
