"""One run of `ssign review --ask`: it reads the log, asks, is answered, and reports (docs/dev/FORMATS.md, "Questions").

The log, the questions and the answers go through named pipes. At these each side sees when the other opens and closes its end.
So nobody waits for a run that has ended, and a run that doesn't keep this order is refused.
"""
from __future__ import annotations

import contextlib
import errno
import os
import select
import time
from typing import BinaryIO, Callable, Iterable, Iterator, List, Optional, Sequence, Tuple, cast

from .commands import PATIENCE
from .faults import Fault
from .programs import Run
from .progress import Progress
from .report_lines import wrong
from .workplace import Workplace

PIECE = 1 << 16
# so many seconds pass until it is looked at again whether a run waits for its answers
MOMENT = 0.001
LAST = b'{"line":"end"}\n'
EARLY = "ssign asks or waits for answers too early"


class Asking(contextlib.ExitStack):
    """A run that was begun. `feed`, `questions`, `answer` and `end` follow one another. With `with`, all pipes are closed."""

    def __init__(self, program: str, words: List[str], workplace: Workplace, progress: Progress, report: BinaryIO) -> None:
        """The report goes to a passing file."""
        super().__init__()
        self._log, self._answers, questions = map(workplace.pipe, ("fed", "given", "asked"))
        self._asked = self.enter_context(opened(questions, "rb"))
        with opened(self._log, "rb") as log:
            self._fed = self.enter_context(opened(self._log, "wb"))
            os.set_blocking(log.fileno(), True)
            words = ["review", f"--ask={questions}", f"--answers={self._answers}", "--json", *words]
            self._run = Run(program, words, workplace, progress, log, report)
        # open as soon as the run waits for the answers
        self._given: Optional[BinaryIO] = None
        # what was written, and where it would still stand if the run left some of it; None where the run didn't take all
        self._rests: List[Tuple[str, Optional[BinaryIO]]] = []

    def feed(self, pieces: Iterable[bytes]) -> None:
        """Writes the log."""
        self._write("the log", self._log, self._fed, pieces, [self._asked.fileno()])

    def questions(self) -> Iterator[bytes]:
        """The objects of questions, each with its LF. Raises Refused or Fault where the run doesn't come to the one that is the end."""
        for line in self._lines():
            if line == LAST:
                return
            yield line
        limit, endless = time.monotonic() + PATIENCE, wrong("its questions have no end")
        # if it ends by itself, its own words come first
        self.end(lambda: refuse(self._is_awaited() or time.monotonic() > limit, endless))
        raise endless

    def answer(self, answers: BinaryIO) -> None:
        """Writes the answers, once all questions were read."""
        limit = time.monotonic() + PATIENCE
        while not self._is_awaited() and self._run.child.poll() is None:
            refuse(time.monotonic() > limit, wrong("ssign doesn't read the answers"))
            time.sleep(MOMENT)
        if self._given is None:
            self._rests.append(("the answers", None))
        else:
            self._write("the answers", self._answers, self._given, iter(lambda: answers.read(PIECE), b""), [])

    def end(self, tick: Callable[[], None]) -> int:
        """Waits for the end, and gives the status, 0 or 1. Raises Refused or Fault where the run didn't succeed."""
        status = self._run.end(tick)
        for what, rest in self._rests:
            refuse(rest is None or bool(rest.read(1)), wrong(f"ssign didn't read {what} to the end"))
        return status

    def _write(self, what: str, path: str, pipe: BinaryIO, pieces: Iterable[bytes], early: Sequence[int]) -> None:
        """Writes octets, as far as the run takes them. Where it ends before they do, its own words say why."""
        rest: Optional[BinaryIO] = None
        with pipe, contextlib.suppress(BrokenPipeError):
            for piece in pieces:
                left = memoryview(piece)
                while left:
                    for _ in self._run.moments(early, [pipe.fileno()]):
                        pass
                    left = left[self._taken(pipe, left):]
            rest = self.enter_context(opened(path, "rb"))
        self._rests.append((what, rest))

    def _taken(self, pipe: BinaryIO, octets: memoryview) -> int:
        """How many of these the pipe has room for. If there is none, the run has ended, or asks before it may."""
        count: Optional[int] = pipe.write(octets)
        if count is None:
            refuse(self._run.child.poll() is None, wrong(EARLY))
            raise BrokenPipeError
        return count

    def _lines(self) -> Iterator[bytes]:
        """All whole lines that come."""
        pending: List[bytes] = []
        while True:
            for _ in self._run.moments([self._asked.fileno()]):
                # what it wrote before it opened the answers is there by now
                refuse(self._is_awaited() and not select.select([self._asked], [], [], 0)[0], wrong(EARLY))
            first, *others = (self._asked.read(PIECE) or b"").split(b"\n")
            if not first and not others:
                return
            pending.append(first)
            for it in others:
                yield b"".join(pending) + b"\n"
                pending = [it]

    def _is_awaited(self) -> bool:
        """Whether the run has opened the answers."""
        if self._given is None:
            try:
                self._given = self.enter_context(opened(self._answers, "wb"))
            except OSError as error:
                if error.errno != errno.ENXIO:
                    raise
        return self._given is not None


def opened(path: str, mode: str) -> BinaryIO:
    """An end of a named pipe, at which nobody waits."""
    return cast(BinaryIO, open(path, mode, buffering=0, opener=lambda name, flags: os.open(name, flags | os.O_NONBLOCK)))


def refuse(is_so: bool, fault: Fault) -> None:
    """Raises a fault, if it is so."""
    if is_so:
        raise fault
