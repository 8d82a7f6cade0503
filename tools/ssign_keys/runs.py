"""Runs of ssign over one log: each is handed the same octets, and reads them in the same form."""
from __future__ import annotations

import argparse
import subprocess
from typing import BinaryIO, Iterable, Iterator, List, Union

from .logs import Log
from .programs import Run, log_words
from .progress import Progress
from .salvage import SALVAGE
from .workplace import Workplace, finish, put


class Runs:
    """Has ssign read a log. Frames are read on after damage."""

    def __init__(self, program: str, arguments: argparse.Namespace, log: Log, workplace: Workplace, progress: Progress) -> None:
        """The options say how long a message may be, and how many there may be."""
        self.program = program
        self.arguments = arguments
        self.log = log
        self.workplace = workplace
        self.progress = progress
        self.words: List[str] = []
        """How the log is read."""
        self.take_form()

    def take_form(self) -> None:
        """Has the log be read in its form."""
        are_lines = self.log.are_lines
        self.words = [*log_words(self.arguments, are_lines), *([] if are_lines else [SALVAGE])]

    def octets(self) -> Iterator[bytes]:
        """The octets of the log."""
        return self.log.octets(self.progress)

    def run(self, words: List[str], out: BinaryIO) -> int:
        """Has ssign read the log, and gives the status."""
        run = Run(self.program, [*words, *self.words], self.workplace, self.progress, subprocess.PIPE, out)
        run.feed(self.octets())
        return run.end(lambda: None)

    def output(self, name: str, words: List[str]) -> BinaryIO:
        """What ssign writes, in a passing file of this name."""
        out = self.workplace.new_file(name)
        self.run(words, out)
        out.seek(0)
        return out

    def lines_over(self, log: Union[BinaryIO, int], words: List[str]) -> Iterator[bytes]:
        """The lines of a run over another file, which is read from where it stands."""
        return Run(self.program, words, self.workplace, self.progress, log, subprocess.PIPE).lines(lambda: None)

    def places_file(self, name: str, places: Iterable[int]) -> str:
        """The path of a passing file with these places."""
        return write_places(self.workplace, name, places)


def write_places(workplace: Workplace, name: str, places: Iterable[int]) -> str:
    """The path of a passing file with these places, one a line, as ssign reads them."""
    with workplace.new_file(name) as file:
        for it in places:
            put(file, b"%d\n" % it)
        finish(file)
    return workplace.path(name)
