"""Expands compressed logs, up to a limit: gzip and xz by the standard library, zstd by its command."""
from __future__ import annotations

import argparse
import lzma
import os
import re
import select
import subprocess
import zlib
from typing import BinaryIO, Callable, Dict, Iterator, Optional, Protocol

from . import commands
from .faults import Fault
from .sizes import read_size
from .words import shown, shown_name
from .workplace import Workplace

PIECE = 1 << 20
# A decoder copies what stands after the end of its stream, and a piece may hold 50,000 streams of nothing.
SLICE = 1 << 17
# the first octets of a file tell its form; the longest of them are xz's
FRONT = 6
FORMS = {b"\x1f\x8b": "gzip", b"\xfd7zXZ\x00": "xz", b"\x28\xb5\x2f\xfd": "zstd"}
# no file of `xz -9` asks for more than 65 MiB
XZ_MEMORY = 1 << 28
# What a compressed log may grow to: so many times its size, and at least so many octets. A log of text grows to ten or
# twenty times its size; zeros, to a thousand times in gzip, and to many thousand times in xz and zstd.
TIMES = 100
LEAST = 10 ** 9


def add_arguments(parser: argparse.ArgumentParser) -> None:
    """Says how far a compressed log may grow; `max_expanded` of the parsed arguments."""
    parser.add_argument("--max-expanded", type=read_size, metavar="SIZE", help="refuse a compressed log that expands to "
                        "more octets than this, as 500M or 5G (default: 100 times its size, and at least 1G)")


def most_expanded(size: int, given: Optional[int]) -> int:
    """How many octets a compressed file of this size may expand to."""
    return max(TIMES * size, LEAST) if given is None else given


def limited(name: str, form: str, pieces: Iterator[bytes], most: int) -> Iterator[bytes]:
    """Gives on what a compressed file expands to, and refuses it at the first piece that goes past a limit."""
    total = 0
    for piece in pieces:
        total += len(piece)
        if total > most:
            raise Fault(f"{shown_name(name)} is compressed by {form} and expands to more than {most} octets: if it may, say "
                        "up to how many with --max-expanded")
        yield piece


# what the command zstd calls the source of the octets
ZSTD_NAME = re.compile(rb"\A(?:zstd: )?/\*stdin\*\\ ?: ?")


class Decoder(Protocol):
    """Expands one stream."""

    def expand(self, octets: bytes) -> Iterator[bytes]:
        """What these octets expand to, in pieces that memory has room for."""

    def rest(self) -> Optional[bytes]:
        """What stands after the end of the stream, or None where that hasn't come."""


class Gzip:
    """Expands one member of a gzip file (RFC 1952)."""

    def __init__(self) -> None:
        self._decoder = zlib.decompressobj(16 + zlib.MAX_WBITS)

    def expand(self, octets: bytes) -> Iterator[bytes]:
        """What these octets expand to, in pieces that memory has room for."""
        while octets and not self._decoder.eof:
            yield self._decoder.decompress(octets, PIECE)
            octets = self._decoder.unconsumed_tail

    def rest(self) -> Optional[bytes]:
        """What stands after the end of the member, or None where that hasn't come."""
        return self._decoder.unused_data if self._decoder.eof else None


class Xz:
    """Expands one stream of an xz file."""

    def __init__(self) -> None:
        self._decoder = lzma.LZMADecompressor(lzma.FORMAT_XZ, XZ_MEMORY)

    def expand(self, octets: bytes) -> Iterator[bytes]:
        """What these octets expand to, in pieces that memory has room for."""
        while not self._decoder.eof and (octets or not self._decoder.needs_input):
            yield self._decoder.decompress(octets, PIECE)
            octets = b""

    def rest(self) -> Optional[bytes]:
        """What stands after the end of the stream, or None where that hasn't come."""
        return self._decoder.unused_data if self._decoder.eof else None


DECODERS: Dict[str, Callable[[], Decoder]] = {"gzip": Gzip, "xz": Xz}


def form_of(front: bytes) -> Optional[str]:
    """How a file that begins so is compressed, or None where it isn't."""
    for octets, form in FORMS.items():
        if front.startswith(octets):
            return form
    return None


class Damaged(Fault):
    """A compressed file can't be expanded to its end. `cause` says why, without the name of the file."""

    def __init__(self, name: str, form: str, why: str) -> None:
        super().__init__(f"{shown_name(name)} is compressed by {form} and damaged, so there is no verdict: {why}")
        self.cause = f"it is compressed by {form} and damaged: {why}"


def expanded(name: str, form: str, pieces: Iterator[bytes]) -> Iterator[bytes]:
    """Expands streams of gzip or xz that stand after one another. Zeros may stand after each, as both formats allow.

    The modules of the standard library leave out what follows a stream where it isn't the front of another one. Here
    that is damage, because messages may have stood there.
    """
    decoder: Optional[Decoder] = None
    try:
        for piece in slices(pieces):
            while piece:
                if decoder is None:
                    piece = piece.lstrip(b"\0")
                    if not piece:
                        break
                    decoder = DECODERS[form]()
                yield from decoder.expand(piece)
                rest = decoder.rest()
                if rest is None:
                    break
                decoder, piece = None, rest
    except (zlib.error, lzma.LZMAError) as error:
        raise Damaged(name, form, str(error)) from error
    if decoder is not None:
        raise Damaged(name, form, "its end is missing")


def slices(pieces: Iterator[bytes]) -> Iterator[bytes]:
    """The same octets in shorter pieces."""
    for piece in pieces:
        for place in range(0, len(piece), SLICE):
            yield piece[place:place + SLICE]


def silent(name: str) -> Fault:
    """What is said of a command that neither goes on nor ends."""
    return Fault(f"{shown_name(name)} is compressed by zstd, and the command zstd was silent for {commands.PATIENCE:g} seconds")


def expanded_zstd(name: str, packed: BinaryIO, workplace: Workplace) -> Iterator[bytes]:
    """Expands a file of zstd by its command, which ends with the workplace at the latest."""
    with workplace.new_file("zstd.errors") as errors:
        try:
            child = workplace.start(["zstd", "-dcq"], packed, subprocess.PIPE, errors)
        except OSError as error:
            raise Fault(
                f"{shown_name(name)} is compressed by zstd, and there is no command zstd here that can be run: "
                "apt-get install zstd"
            ) from error
        assert child.stdout is not None
        try:
            with child.stdout as out:
                while True:
                    # how long all of it takes, the log decides
                    if not select.select([out], [], [], commands.PATIENCE)[0]:
                        raise silent(name)
                    piece = os.read(out.fileno(), PIECE)
                    if not piece:
                        break
                    yield piece
        except GeneratorExit:
            # only its front is wanted
            child.kill()
            child.wait()
            raise
        try:
            status = child.wait(commands.PATIENCE)
        except subprocess.TimeoutExpired as error:
            raise silent(name) from error
        errors.seek(0)
        said = errors.read(1000).splitlines()
    if status != 0:
        raise Damaged(name, "zstd", shown(ZSTD_NAME.sub(b"", said[-1])) if said else f"zstd ended with status {status}")
