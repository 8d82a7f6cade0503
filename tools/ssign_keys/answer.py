"""Answers what a review asks about keys and signatures: writes the answers to those lines of `ssign questions` that hold."""
from __future__ import annotations

import argparse
from dataclasses import dataclass
from types import TracebackType
from typing import Generator, Iterable, Iterator, List, NamedTuple, Optional, Tuple, Type

from . import trust as trusts
from .asked import About, PayloadText
from .blocks import Session
from .checking import Held
from .commands import PROCESSES, SECONDS
from .describer import Describer
from .faults import Fault
from .identity import UNKNOWN, Finding
from .numbers import add_jobs
from .processes import Workers
from .programs import add_program_argument, find_program
from .questions import Line, Reader
from .streams import Output, input_lines
from .trust import Trust
from .words import counted
from .workplace import notify


class Answered(NamedTuple):
    """The answer to a line that holds, or what is to be said of one that doesn't: a `trust?` line, or one about a block that
    ssign described."""

    line: bytes
    """The line `trust PAYLOAD` or `yes PAYLOAD OCTETS SIGNATURE` with its LF; empty where it doesn't hold."""
    session: Optional[Session]
    """The session that it is asked for; None for a `trust?` line after which no block of that payload is asked about."""
    finding: Finding
    """Whose key it is, or why none is trusted."""
    about: Optional[About] = None
    """What ssign read in the block; None for a payload, and where the question doesn't state it."""
    unproved: Optional[Tuple[bytes, bytes]] = None
    """Of a signature block under a trusted payload that isn't validly signed: the payload, and what an answer has after it."""


@dataclass
class Counts:
    """How many payloads were asked about, and how many of them are trusted."""

    payloads: int = 0
    trusted_payloads: int = 0
    # payloads that are too long to be looked at, with the greatest length of these and the greatest that is looked at
    long_payloads: int = 0
    longest: int = 0
    most: int = 0
    # how often no command was asked, because what commands may take was used up
    unasked: int = 0

    def add(self, line: Line, holds: bool) -> None:
        """Counts a line about a payload."""
        if not line.asked.is_block:
            self.payloads += 1
            self.trusted_payloads += holds

    def sentences(self) -> List[str]:
        """What is to be said of questions that weren't looked at."""
        said = []
        if self.long_payloads:
            said.append(f"{counted(self.long_payloads, 'payload has', 'payloads have')} more than {self.most} octets, the "
                        f"longest {self.longest}, and {'is' if self.long_payloads == 1 else 'are'} not trusted: "
                        "--max-payload looks at longer ones")
        if self.unasked:
            said.append(self.unasked_sentence())
        return said

    def unasked_sentence(self) -> str:
        """What is to be said where what commands may take was used up."""
        return (f"{counted(self.unasked, 'certificate was', 'certificates were')} not checked, and no payload with one is "
                f"trusted: openssl may take {PROCESSES} processes and {SECONDS} seconds for one log")


class Answers(Iterator[Answered]):
    """The answers to the lines that hold, in their order. `counts` is complete once they were all taken.

    Used with `with`, or ended by `close`, it leaves no process running, wherever the taking stopped.
    """

    def __init__(self, lines: Iterable[bytes], trust: Trust, jobs: int, describer: Optional[Describer]) -> None:
        """Takes no line yet."""
        self.counts = Counts()
        # the payload of the last `trust` line, if that holds
        self._trusted: Optional[PayloadText] = None
        self._taken = self._take(lines, trust, jobs, describer)

    def __iter__(self) -> Answers:
        """Itself."""
        return self

    def __next__(self) -> Answered:
        """The answer to the next line that holds."""
        return next(self._taken)

    def __enter__(self) -> Answers:
        """Itself."""
        return self

    def __exit__(self, kind: Optional[Type[BaseException]], fault: Optional[BaseException],
                 trace: Optional[TracebackType]) -> None:
        """Ends the processes."""
        self.close()

    def close(self) -> None:
        """Ends the processes that check signatures."""
        self._taken.close()

    def _take(self, lines: Iterable[bytes], trust: Trust, jobs: int,
              describer: Optional[Describer]) -> Generator[Answered, None, None]:
        """The answers to the lines that hold. Raises Fault at the first that is no question."""
        workers, reader = Workers(trust, jobs), Reader(trust.longest, describer)
        self.counts.most = trust.longest
        try:
            for asked, checked in workers.check(reader.chunks(lines)):
                self.counts.long_payloads, self.counts.longest = reader.long_payloads, reader.longest
                self.counts.unasked += checked.unasked
                for line in asked:
                    # lines after the first wrong one have no answer
                    if line.question < len(checked.held):
                        yield from self._answer(line, checked.held[line.question])
                if checked.fault is not None:
                    raise Fault(checked.fault)
        finally:
            workers.close()

    def _answer(self, line: Line, held: Optional[Held]) -> Iterator[Answered]:
        """The answer to a line, where it holds or something is to be said of it."""
        is_so = held is not None and held.is_so
        self.counts.add(line, is_so)
        about, session, payload = line.asked.about, line.asked.session, line.asked.payload
        if not line.asked.is_block:
            self._trusted = payload if is_so else None
        if held:
            yield Answered(line.text if is_so else b"", held.session, held.finding, about)
        elif about is not None and about.gbc is not None and payload is self._trusted and payload.text is not None:
            yield Answered(b"", session, UNKNOWN, about, (payload.text, line.asked.rest))


def answers(lines: Iterable[bytes], trust: Trust, jobs: int = 1, describer: Optional[Describer] = None) -> Answers:
    """Answers lines of `ssign questions`, each with its LF, by so many processes; without a describer, those of
    `ssign review --ask --json`, which say by themselves what is in a block.

    No more lines are held at once than a few chunks. Raises Fault, while lines are taken, at one that is no question.
    """
    return Answers(lines, trust, jobs, describer)


def add_arguments(parser: argparse.ArgumentParser) -> None:
    """Says which words the command takes."""
    parser.add_argument("keys", nargs="*", metavar="PUBLIC.pem",
                        help="a file with public keys: trust a payload that states one of them")
    trusts.add_arguments(parser)
    add_jobs(parser)
    add_program_argument(parser)


def run(arguments: argparse.Namespace) -> int:
    """Writes the answers to the lines of standard input that hold. Status 1 if payloads are asked about and none is trusted."""
    trust = Trust.from_arguments(arguments)
    with Output() as output, Describer(find_program(arguments)) as describer, \
            answers(input_lines(), trust, arguments.jobs, describer) as held:
        for answered in held:
            output.add(answered.line)
        counts = held.counts
        for sentence in counts.sentences():
            notify(f"ssign-keys: {sentence}")
        output.release()
    if not counts.payloads or counts.trusted_payloads:
        return 0
    what = "state this key" if trust.has_one_key else "are trusted"
    notify(f"ssign-keys: {counts.trusted_payloads} of {counts.payloads} payloads {what}")
    return 1
