"""Messages that can't be signed: each is put apart with its place in the log, and the others are signed without it.

`ssign inspect` says which messages these are: those that `ssign sign` refuses with O2 or O3. Lines that it doesn't read as
messages are put apart before it is asked.
"""
from __future__ import annotations

import argparse
import contextlib
import json
import os
import re
from array import array
from types import TracebackType
from typing import BinaryIO, Dict, Iterable, Iterator, List, NamedTuple, Optional, Type

from .explanations import first_sentence
from .faults import Fault
from .frames import LONGEST, read_at
from .kept_file import KeptFile
from .logs import Log, Part
from .programs import Run
from .progress import Progress
from .runs import write_places
from .unread_lines import Unread, unread_lines
from .words import counted, shown_name
from .workplace import Workplace, finish, put, notify

COPIED = 1 << 20
# how many messages are named by their place
NAMED = 20
BLOCKS = {"signature": "it is a signature block", "certificate": "it is a certificate block",
          "spoilt": "it has the element ssign or ssign-cert"}
UNREAD = {"empty": "an empty line", "long": "a line that is longer than --max-len", "torn": "the log breaks off in this line"}
DEFAULT_LONGEST = 65536


class Odd(NamedTuple):
    """A message that can't be signed."""

    place: int
    what: str
    """What it is, in the words of `ssign inspect`, as `unparsed M3 17`; or of a line that it doesn't read."""
    octets: int = 0
    """How many octets it has, if it was read as a message."""

    def kind(self, program: str) -> str:
        """Why it can't be signed, in the words of the program where it has a code."""
        kind, *rest = self.what.split(" ")
        if kind == "unparsed":
            return first_sentence(program, rest[0])
        if kind in UNREAD:
            return UNREAD[kind]
        return BLOCKS[kind] + (f", {rest[0]}" if kind == "spoilt" else "")

    def why(self, program: str) -> str:
        """The same, with where it fails in front."""
        kind, *rest = self.what.split(" ")
        return f"{rest[0]} at octet {rest[1]}: {self.kind(program)}" if kind == "unparsed" else self.kind(program)


def add_arguments(parser: argparse.ArgumentParser) -> None:
    """Says how messages that can't be signed are put apart; `set_aside` of the parsed arguments."""
    parser.add_argument("--set-aside", metavar="FILE", help="write each message that can't be signed to FILE, as frames, and "
                        "its place to FILE.places, and sign the others; the status is 1 then. FILE may not be there yet")


class SetAside:
    """The files of --set-aside. They stand there whole before the signed log is written, and go if the run fails."""

    def __init__(self, path: Optional[str]) -> None:
        """None where the option isn't given: then nothing is put apart."""
        self._path = path
        self._messages = KeptFile("--set-aside", "messages", path)
        self._places = KeptFile("--set-aside", "the places of messages", None if path is None else path + ".places")
        self._files = contextlib.ExitStack()
        self.count = 0

    def __enter__(self) -> SetAside:
        """Itself."""
        self._files.enter_context(self._messages)
        self._files.enter_context(self._places)
        return self

    def __exit__(self, kind: Optional[Type[BaseException]], fault: Optional[BaseException],
                 trace: Optional[TracebackType]) -> None:
        """Removes the files of a run that failed."""
        self._files.__exit__(kind, fault, trace)

    def check(self) -> None:
        """Refuses names that are taken, before anything is done."""
        self._messages.check()
        self._places.check()

    def sort_out(self, program: str, words: List[str], log: Log, workplace: Workplace, progress: Progress) -> Log:
        """The log without the messages that can't be signed; the same log where there are none, or without the option."""
        if self._path is None:
            return log
        sorting = Sorting(program, words, log, workplace, progress)
        signable = sorting.run()
        log.check_unchanged()
        self.count = sorting.count
        if not sorting.count:
            return log
        self._messages.keep(workplace.path("aside"))
        self._places.keep(workplace.path("aside.places"))
        self._sorting = sorting
        return signable

    def notify(self) -> None:
        """Says what was put apart, once the signed log is written."""
        if not self.count:
            return
        said = counted(self.count, "message can't be signed, and was set aside", "messages can't be signed, and were set aside")
        notify(f"ssign-keys: {said} in {shown_name(self._path or '')}:")
        for it in self._sorting.named:
            notify(f"  place {it.place}: {it.why(self._sorting.program)}")
        if self.count > len(self._sorting.named):
            for kind, count in sorted(self._sorting.kinds.items()):
                notify(f"  in all: {kind}, {counted(count, 'message')}")
            notify(f"  {shown_name((self._path or '') + '.places')} has the place of each")


def odd_messages(objects: Iterable[bytes], log: Log) -> Iterator[Odd]:
    """The messages that can't be signed, by rising place, from the objects of `ssign inspect --findings`. The last one is the end,
    whose place is how many messages there are."""
    for it in map(json.loads, objects):
        word = it["line"]
        if word == "torn":
            raise Fault(f"the log {shown_name(log.parts[0].name)} breaks off in the message that begins at its octet "
                        f"{it['offset']}, so it can't be signed")
        if word == "end":
            yield Odd(it["count"], word)
        elif word == "unparsed":
            yield Odd(it["place"], f"{word} {it['part']} {it['offset']}", it["octets"])
        elif word in BLOCKS:
            yield Odd(it["place"], f"{word} {it['cause']}" if word == "spoilt" else word, it["octets"])
        else:
            raise Fault(f"ssign inspect wrote a line that isn't known here: {word}")


def longest_of(words: List[str]) -> int:
    """How many octets a message has at most that ssign reads under these words, of which it refuses wrong ones."""
    given = [it.partition("=")[2] for it in words if it.startswith("--max-len=")]
    return int(given[-1]) if given and re.fullmatch("[0-9]{1,7}", given[-1]) else DEFAULT_LONGEST


def unread_of(log: Log, longest: int) -> Iterator[Unread]:
    """The lines of a log that ssign doesn't read; none of a log of frames."""
    return unread_lines(log.file, log.size, longest) if log.are_lines else iter(())


def without_unread(log: Log, longest: int, workplace: Workplace) -> Log:
    """The log without the lines that ssign doesn't read; the same log where there are none."""
    if next(unread_of(log, longest), None) is None:
        return log
    file = workplace.new_file("readable")
    at = 0
    for it in unread_of(log, longest):
        copy(log, at, it.start, file)
        at = it.behind
    copy(log, at, log.size, file)
    finish(file)
    return Log(file, [Part(log.parts[0].name, 0, 0)], log.are_lines, True)


def copy(log: Log, start: int, end: int, file: BinaryIO) -> None:
    """Copies octets of a log."""
    while start < end:
        piece = read_at(log.file, start, min(COPIED, end - start))
        if not piece:
            raise log.changed()
        put(file, piece)
        start += len(piece)


class Sorting:
    """Puts apart what can't be signed of a log. The messages themselves, ssign copies."""

    def __init__(self, program: str, words: List[str], log: Log, workplace: Workplace, progress: Progress) -> None:
        """Nothing is put apart yet."""
        self.program = program
        self._words = words
        self._whole = log
        self._workplace = workplace
        self._progress = progress
        longest = longest_of(words)
        # the log without the lines that ssign doesn't read
        self._log = without_unread(log, longest, workplace)
        self._unread = unread_of(log, longest)
        self._next = next(self._unread, None)
        # how many of these lines stand before the message at hand
        self._before = 0
        self._messages, self._places = workplace.new_file("aside"), workplace.new_file("aside.places")
        self.count = 0
        self.named: List[Odd] = []
        self.kinds: Dict[str, int] = {}

    def run(self) -> Log:
        """The log without what is put apart."""
        with self._output("odd", ["inspect", "--findings", "--json", f"--facts={os.devnull}"]) as objects:
            *places, end = (it.place for it in odd_messages(objects, self._whole))
            odd = array("I", places)
            objects.seek(0)
            with self._output("odd-messages", ["extract", self._places_word("odd-places", odd)]) as frames:
                for it in odd_messages(objects, self._whole):
                    self._take(it, frames)
        self._take_unread()
        for file in (self._messages, self._places):
            finish(file)
            file.close()
        if not odd:
            return self._log
        others = self._places_word("other-places", others_than(odd, end))
        signable = self._output("signable", ["extract", others, *(["--lines-out"] if self._whole.are_lines else [])])
        return Log(signable, [Part(self._whole.parts[0].name, 0, 0)], self._whole.are_lines, True)

    def _output(self, name: str, words: List[str]) -> BinaryIO:
        """What ssign writes of the log, in a passing file."""
        out, log = self._workplace.new_file(name), self._log
        run = Run(self.program, [*words, *self._words], self._workplace, self._progress, log.rewind(), out)
        run.end(lambda: self._progress.show("setting messages aside", log.position(), log.size, "octets"))
        out.seek(0)
        return out

    def _places_word(self, name: str, places: Iterable[int]) -> str:
        """The option that names places."""
        return f"--places={write_places(self._workplace, name, places)}"

    def _take(self, odd: Odd, frames: BinaryIO) -> None:
        """Puts a message apart, whose frame is the next one of these."""
        self._take_unread(odd.place)
        if odd.octets:
            it = odd._replace(place=odd.place + self._before)
            put(self._messages, frames.read(len(b"%d " % it.octets) + it.octets))
            self._count(it)

    def _take_unread(self, place: Optional[int] = None) -> None:
        """Puts the lines apart that ssign doesn't read, and that stand before a message; all where none is given."""
        while self._next is not None and (place is None or self._next.place <= place + self._before):
            it, self._next = self._next, next(self._unread, None)
            self._before += 1
            for at in range(it.start, it.end, LONGEST):
                # no frame is longer than what ssign can read
                piece = read_at(self._whole.file, at, min(LONGEST, it.end - at))
                if not piece:
                    raise self._whole.changed()
                put(self._messages, b"%d %s" % (len(piece), piece))
                put(self._places, f"{it.place} {it.what}\n".encode("ascii"))
            self._count(Odd(it.place, it.what), False)

    def _count(self, odd: Odd, is_message: bool = True) -> None:
        """Counts what was put apart."""
        if is_message:
            put(self._places, f"{odd.place} {odd.what}\n".encode("ascii"))
        self.count += 1
        if len(self.named) < NAMED:
            self.named.append(odd)
        kind = odd.kind(self.program)
        self.kinds[kind] = self.kinds.get(kind, 0) + 1


def others_than(places: Iterable[int], end: int) -> Iterator[int]:
    """The places up to an end that aren't among these rising ones."""
    first = 0
    for it in (*places, end):
        yield from range(first, it)
        first = it + 1
