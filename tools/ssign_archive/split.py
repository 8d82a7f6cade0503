"""Cuts the log of a collector into parts that can be reviewed apart, and says whether they can be.

The reports on the parts add up to the report on the whole log where (a) all blocks of a session lie in one part, and (b) a
message without a block, that has a hash which a block announces, lies in the part of that block. (a) holds for each split
here. Whether (b) does is looked at, message by message.
"""
from __future__ import annotations

import argparse
import os
import shutil
from dataclasses import dataclass, field
from typing import BinaryIO, Dict, Iterator, List, NamedTuple, Set, Tuple

from ssign_keys import expand as expand_options
from ssign_keys.faults import Fault
from ssign_keys.files import reason
from ssign_keys.frames import frame_at
from ssign_keys.output import print_text
from ssign_keys.programs import Refused, add_log_arguments, add_program_argument
from ssign_keys.words import counted, shown_name
from ssign_keys.workplace import Workplace, notify

from .announced import Announced
from .findings import Places, file_findings
from .folder import files_of, look
from .join import how_of
from .parts import Parts, name_of
from .sources import Reader, fault_of, run_over

# RFC 5424, section 6.2: HOSTNAME is the third word
HOST = 2
BLOCKS = (b"signature", b"certificate")
ORDINARY = (b"plain", b"unparsed")


def add_arguments(parser: argparse.ArgumentParser) -> None:
    """Says which words the command takes."""
    parser.add_argument("--by", required=True, choices=("host", "session"), metavar="HOW", help="a part for each HOSTNAME, or "
                        "for each session with the messages that its blocks announce [possible values: host, session]")
    add_log_arguments(parser)
    expand_options.add_arguments(parser)
    add_program_argument(parser)
    parser.add_argument("log", metavar="IN", help="the log, plain or compressed by gzip or xz, or a folder of logs that "
                        "follow one another by their names")
    parser.add_argument("out", metavar="OUTDIR", help="the folder for the parts, which may not be there yet")


class Message(NamedTuple):
    """A message of the log: what ssign calls it, its text, and its octets as they are stored."""

    place: int
    words: List[bytes]
    text: bytes
    stored: bytes


@dataclass
class Misplaced:
    """Announced hashes whose message lies in another part than the block that announces it."""

    count: int = 0
    first_parts: Tuple[int, int] = (0, 0)
    first_place: int = 0
    _told: Set[Tuple[bytes, int]] = field(default_factory=set)

    def add(self, digest: bytes, place: int, part: int, announcing: int) -> None:
        """Takes one into account, once for each part that announces it."""
        if (digest, announcing) in self._told:
            return
        self._told.add((digest, announcing))
        self.count += 1
        if self.count == 1:
            self.first_place, self.first_parts = place, (part, announcing)


def run(arguments: argparse.Namespace) -> int:
    """Writes the parts. The status is 1 where (b) isn't met, or the log breaks off or is damaged."""
    out = os.path.abspath(arguments.out)
    if os.path.lexists(out):
        raise Fault(f"{shown_name(out)} is there already")
    passing = f"{out}.{os.getpid()}.new"
    with Workplace() as workplace:
        try:
            os.mkdir(passing)
        except OSError as fault:
            raise Fault(f"{shown_name(passing)} can't be made: {reason(fault)}") from fault
        try:
            split = Split(arguments, Parts(passing))
            split.run(workplace)
            os.rename(passing, out)
        except BaseException:
            shutil.rmtree(passing, ignore_errors=True)
            raise
    return split.tell()


class Split:
    """A split of one log."""

    def __init__(self, arguments: argparse.Namespace, parts: Parts) -> None:
        self._log = os.path.normpath(arguments.log)
        self._how = how_of(arguments)
        self._by_host = arguments.by == "host"
        self._parts = parts
        self._announced = Announced()
        self._misplaced = Misplaced()
        # the parts of the names that were met, because to spell the name of a folder for each message takes long
        self._known: Dict[Tuple[bytes, ...], int] = {}

    def run(self, workplace: Workplace) -> None:
        """Asks ssign what each message is, learns which hashes are announced, and writes the parts."""
        with workplace.new_file("inspection") as inspection:
            reader = self._reader = self._reader_of(workplace)
            try:
                run_over(reader.octets(), self._how.program, ["inspect", *self._how.words], workplace, inspection)
            except Refused as refused:
                raise fault_of(refused) from refused
            for message in self._messages(inspection):
                if message.words[0] == b"signature":
                    self._announced.add(message.text, self._block_part(message))
            for message in self._messages(inspection):
                self._put(message)
        self._parts.write()

    def _reader_of(self, workplace: Workplace) -> Reader:
        if os.path.isdir(self._log):
            folder, files = self._log, files_of(self._log)
        else:
            folder, files = os.path.dirname(self._log), [look(self._log)]
        if not files:
            raise Fault(f"no file lies in {shown_name(folder)}")
        return Reader(folder, files, self._how, workplace)

    def _messages(self, inspection: BinaryIO) -> Iterator[Message]:
        """The messages of the log, each with what ssign calls it."""
        inspection.seek(0)
        place = 0
        for text, stored in each_message(self._reader.octets(), self._how.are_lines):
            words = inspection.readline().split()
            if words[1:2] != [b"%d" % place] or words[0] == b"torn":
                raise Fault("ssign inspect says something of other messages than were handed to it")
            yield Message(place, words, text, stored)
            place += 1
        if inspection.readline() != b"end %d\n" % place:
            raise Fault("ssign inspect says something of other messages than were handed to it")

    def _block_part(self, message: Message) -> int:
        """The part of a block, by its session."""
        return self._part_of("host", *message.words[2:3]) if self._by_host else self._part_of("session", *message.words[2:6])

    def _part_of(self, kind: str, *words: bytes) -> int:
        """The part of these words."""
        known = self._known.get(words)
        if known is None:
            known = self._known[words] = self._parts.number(name_of(kind, *words))
        return known

    def _put(self, message: Message) -> None:
        """Puts a message into its part."""
        word = message.words[0]
        if word in BLOCKS:
            self._parts.put(self._block_part(message), message.stored, message.place, True)
            return
        announced = self._announced.of(message.text) if word in ORDINARY else {}
        if self._by_host:
            is_parsed = word != b"unparsed"
            part = self._part_of("host", message.text.split(b" ", HOST + 1)[HOST]) if is_parsed else self._part_of("unparsed")
        else:
            part = next(iter(announced.values()))[0] if announced else self._part_of("rest")
        for digest, announcing in announced.items():
            for other in announcing:
                if other != part:
                    self._misplaced.add(digest, message.place, part, other)
        self._parts.put(part, message.stored, message.place, False)

    def tell(self) -> int:
        """Prints the parts and the premises, and gives the status."""
        print_text("".join(f"{line}\n" for line in self._lines()))
        found = file_findings(".", self._reader.read)
        for it in found:
            notify(f"ssign-archive: {it}")
        if any(it.octet is not None and it.why != "torn" for it in self._reader.read):
            return 2
        return 1 if self._misplaced.count or found else 0

    def _lines(self) -> Iterator[str]:
        """A line for each part, one for all of them, and one for each premise."""
        parts, misplaced = self._parts, self._misplaced
        for number in sorted(range(len(parts.names)), key=parts.names.__getitem__):
            yield f"{parts.names[number]}: {counted(parts.messages[number], 'message')}, {counted(parts.blocks[number], 'block')}"
        yield f"{counted(sum(parts.messages), 'message')} in {counted(len(parts.names), 'part')}"
        yield "(a) met: all blocks of a session lie in one part"
        if not misplaced.count:
            yield "(b) met: each message with an announced hash lies in the part of the block that announces it"
            return
        here, there = (parts.names[it] for it in misplaced.first_parts)
        yield (f"(b) NOT MET: {counted(misplaced.count, 'announced hash', 'announced hashes')} with the message in another part. "
               f"First: the message at {self._where(misplaced.first_place)} lies in {here}, and a block of {there} announces it. "
               "The reports on the parts don't add up to the report on the whole log.")

    def _where(self, place: int) -> str:
        """A place of the log, with its file."""
        return f"place {place} ({Places('.', self._reader.read).at(place)})"


def each_message(pieces: Iterator[bytes], are_lines: bool) -> Iterator[Tuple[bytes, bytes]]:
    """Each of some whole messages, which ssign read before: its text, and its octets as they are stored."""
    left = b""
    for piece in pieces:
        chunk, at = left + piece, 0
        while True:
            text, length = (at, chunk.find(b"\n", at) - at) if are_lines else frame_at(chunk, at)
            end = text + length + are_lines
            if length <= 0 or end > len(chunk):
                break
            yield chunk[text:text + length], chunk[at:end]
            at = end
        left = chunk[at:]
