"""Reads the logs of a folder as one log: expanded, each from its own front on, without what is damaged, and cut after its last
whole message. Which octets are whole messages, ssign reports."""
from __future__ import annotations

import hashlib
import itertools
import os
import stat
import subprocess
import sys
from dataclasses import dataclass, field
from typing import BinaryIO, Iterator, List, Optional, Tuple, cast

from ssign_keys.expand import FRONT, PIECE, Damaged, expanded, form_of, limited, most_expanded
from ssign_keys.faults import Fault
from ssign_keys.files import reason
from ssign_keys.frames import frame_at
from ssign_keys.programs import Refused, Run
from ssign_keys.progress import Progress
from ssign_keys.salvage import SALVAGE, salvaged
from ssign_keys.words import shown_name
from ssign_keys.workplace import Workplace

from .folder import Stored, look, stored_of

DEFAULT_LONGEST = 65536
# the codes with which ssign refuses a line: one that is longer than may be, and an empty one
LONG, EMPTY = "F2", "F9"


@dataclass
class Read:
    """A file that was read: where its messages stand in the log of its folder, and where it couldn't be read on."""

    stored: Stored
    place: int = 0
    messages: int = 0
    sha256: str = ""
    # the octet, of the expanded file, of the first message that wasn't read, and why; "torn" is a finding alone
    octet: Optional[int] = None
    why: str = ""
    # each damaged stretch: how many messages of the file stand before it, its first octet, and its length
    damaged: List[List[int]] = field(default_factory=list)


@dataclass(frozen=True)
class How:
    """How the logs of a folder are read."""

    program: str
    words: Tuple[str, ...]
    """The words of ssign for it."""
    max_expanded: Optional[int]
    """How many octets a compressed file may expand to, or None for what `most_expanded` allows."""

    @property
    def are_lines(self) -> bool:
        """Whether they are lines."""
        return "--lines" in self.words

    @property
    def longest(self) -> int:
        """The longest message that is read, in octets."""
        given = [it.partition("=")[2] for it in self.words if it.startswith("--max-len=")]
        return int(given[-1]) if given else DEFAULT_LONGEST


class Reader:
    """Goes over the files of a folder, and has what was read of each."""

    def __init__(self, folder: str, files: List[Stored], how: How, workplace: Workplace) -> None:
        """Has ssign look at them. Raises Fault where a file can't be read."""
        self._sources = [Source(os.path.join(folder, it.name), it, how) for it in files]
        messages = 0
        for source in self._sources:
            source.look(workplace)
            source.read.place = messages
            messages += source.read.messages

    @property
    def read(self) -> List[Read]:
        """What was read of each file."""
        return [it.read for it in self._sources]

    def octets(self) -> Iterator[bytes]:
        """The whole messages of all files, one file after the other. Raises Fault where one isn't what it was."""
        return itertools.chain.from_iterable(it.whole() for it in self._sources)


class Source:
    """Goes over one file."""

    def __init__(self, path: str, stored: Stored, how: How) -> None:
        """Nothing is known of it yet."""
        self._path = path
        self._how = how
        self.read = Read(stored)
        self._size = 0
        self._front = b""
        # what is wrong with the compressed octets, where they end too early or are damaged
        self._broken = ""

    def look(self, workplace: Workplace) -> None:
        """Learns what ssign can read of it. How many messages there may be in all, isn't asked of one file."""
        words = ["inspect", "--findings", *([] if self._how.are_lines else [SALVAGE])]
        words += [it for it in self._how.words if not it.startswith("--max-messages=")]
        refused: Optional[Refused] = None
        with workplace.new_file("looked") as out:
            try:
                run_over(self._all(), self._how.program, words, workplace, out)
            except Refused as it:
                refused = it
            # whoever refuses a line doesn't read on
            for _ in self._all() if refused else ():
                pass
            out.seek(0)
            self._take(out, refused)

    def _take(self, said: BinaryIO, refused: Optional[Refused]) -> None:
        """Keeps what ssign reports about the file."""
        read, where = self.read, 0 if refused is None else refused.where or 0
        if refused is not None and self._how.are_lines and refused.code in (LONG, EMPTY):
            is_empty = refused.code == EMPTY
            read.octet = where if is_empty else where - self._how.longest
            read.why = "an empty line stands there" if is_empty else f"a line of more than {self._how.longest} octets begins there"
            read.messages = sum(it.count(b"\n") for it in self.whole())
            return
        if refused is not None:
            raise fault_of(refused)
        found = salvaged(said)
        if not found.is_log:
            length = frame_at(self._front, 0)[1]
            read.octet = 0
            is_long = length > self._how.longest
            read.why = f"a frame of more than {self._how.longest} octets begins there" if is_long else "no frame begins there"
            return
        damaged = [list(it) for it in found.damage]
        read.messages, read.octet, read.why = found.messages, found.torn, "" if found.torn is None else "torn"
        if self._broken:
            # where the compressed octets end too early, a message may have begun that they don't have to its end
            is_last = bool(damaged) and sum(damaged[-1][1:]) == self._size
            last = damaged.pop()[1] if is_last else self._size if found.torn is None else found.torn
            read.octet, read.why = last, self._broken
        read.damaged = damaged

    def _all(self) -> Iterator[bytes]:
        """Its octets, as far as they can be expanded. Raises Fault where it isn't what it was."""
        read, hasher = self.read, hashlib.sha256()
        self._size, self._front, self._broken = 0, b"", ""
        with open_file(self._path) as file:
            refuse_changed(self._path, file, read.stored)
            try:
                for it in plain_pieces(self._path, hashed(self._path, file, hasher), most_of(read.stored, self._how)):
                    self._size += len(it)
                    self._front = self._front or it[:FRONT]
                    yield it
            except Damaged as fault:
                self._broken = fault.cause
            for _ in hashed(self._path, file, hasher):
                pass
            refuse_changed(self._path, file, read.stored)
            if look(self._path) != read.stored or read.sha256 not in ("", hasher.hexdigest()):
                raise changed(self._path)
            read.sha256 = hasher.hexdigest()

    def whole(self) -> Iterator[bytes]:
        """Its whole messages, in pieces."""
        at, gaps = 0, iter([*self.read.damaged, [0, sys.maxsize if self.read.octet is None else self.read.octet, sys.maxsize]])
        _, start, length = next(gaps)
        for piece in self._all():
            kept = []
            begin, end = at, at + len(piece)
            while begin < end:
                if begin < start:
                    kept.append(piece[begin - at:start - at])
                    begin = min(end, start)
                elif begin < start + length:
                    begin = min(end, start + length)
                else:
                    _, start, length = next(gaps)
            at = end
            yield b"".join(kept)


def run_over(pieces: Iterator[bytes], program: str, words: List[str], workplace: Workplace, out: BinaryIO) -> int:
    """Hands octets to ssign, and gives its status, 0 or 1. Raises Refused where it refuses them."""
    run = Run(program, words, workplace, Progress(), subprocess.PIPE, out)
    run.feed(pieces)
    return run.end(lambda: None)


def fault_of(refused: Refused) -> Fault:
    """What is said of a refusal."""
    where = "" if refused.where is None else f" {refused.where}"
    return Fault(f"ssign inspect refuses it: {refused.mistake or f'ssign: {refused.code}{where}'}")


def most_of(stored: Stored, how: How) -> int:
    """To how many octets a file may expand."""
    return most_expanded(stored.size, how.max_expanded)


def open_file(path: str) -> BinaryIO:
    """Opens a file for reading. One that only waits for somebody to write to it is refused."""
    try:
        # a pipe that was put in place of a file would wait for ever without O_NONBLOCK
        number = os.open(path, os.O_RDONLY | os.O_NONBLOCK | os.O_CLOEXEC)
    except OSError as fault:
        raise Fault(f"{shown_name(path)} can't be read: {reason(fault)}") from fault
    file = cast(BinaryIO, os.fdopen(number, "rb", buffering=0))
    if not stat.S_ISREG(os.fstat(number).st_mode):
        file.close()
        raise Fault(f"{shown_name(path)} is no regular file")
    return file


def refuse_changed(path: str, file: BinaryIO, stored: Stored) -> None:
    """Refuses an open file that isn't the one that was listed, or that was written to since."""
    if stored_of(path, os.fstat(file.fileno())) != stored:
        raise changed(path)


def changed(path: str) -> Fault:
    """What is said of a file that isn't what it was."""
    return Fault(f"{shown_name(path)} was changed while it was read")


def hashed(path: str, file: BinaryIO, hasher: "hashlib._Hash") -> Iterator[bytes]:
    """The octets that are left of a file, which the hasher gets too."""
    while True:
        try:
            piece = file.read(PIECE)
        except OSError as fault:
            raise Fault(f"{shown_name(path)} can't be read: {reason(fault)}") from fault
        if not piece:
            return
        hasher.update(piece)
        yield piece


def plain_pieces(path: str, pieces: Iterator[bytes], most: int) -> Iterator[bytes]:
    """What a file holds, expanded to so many octets at most where it is compressed."""
    front = b""
    for piece in pieces:
        front += piece
        if len(front) >= FRONT:
            break
    form = form_of(front)
    if form == "zstd":
        raise Fault(f"{shown_name(path)} is compressed by zstd, and only gzip and xz are expanded here")
    everything = itertools.chain([front], pieces)
    return limited(path, form, expanded(path, form, everything), most) if form else everything
