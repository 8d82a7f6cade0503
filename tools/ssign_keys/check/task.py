"""A task of a check that many machines share: it verifies its share of the files, and leaves what came of it in the memory.

It writes to a file of its own, and locks nothing. So any number of tasks may run at once; what was stopped is done again.
"""
from __future__ import annotations

import os
import secrets
from typing import Dict, NamedTuple, Optional, Sequence

from ..faults import Fault
from ..files import reason
from ..progress import Progress
from ..store import sync_folder
from ..words import grouped, shown_name
from ..workplace import Workplace
from .accept import doubted_in
from .files import Reader
from .keys import Judges
from .lines import MODE, Lines, Row
from .memory import Memory, file_place, now
from .options import Options
from .originator import Originator
from .part import Part
from .record import Record
from .stamps import Checker
from .taken import ENDING, Taken
from .verdicts import Pool
from .verifying import refuse_unknown, verify


class TaskFile:
    """The file of a task. It is made where there is something to write."""

    def __init__(self, folder: str, part: Part, judges: Judges) -> None:
        self._folder = folder
        self._part = part
        self._of = list(judges.of)
        self._lines: Optional[Lines] = None

    def append(self, rows: Sequence[Row]) -> None:
        """Adds lines, which stand on the disk afterwards."""
        if self._lines is None:
            self._lines = self._make()
            rows = [{"kind": "part", "part": f"{self._part.number}/{self._part.of}", "time": now(), "of": self._of}, *rows]
        elif not os.path.lexists(self._lines.path):
            raise Fault("a check ended meanwhile, and took what this task had found: run the task again if files are left")
        self._lines.append(rows)

    def _make(self) -> Lines:
        """The empty file, under a name that no other task has."""
        name = f"{self._part.number}-of-{self._part.of}-{secrets.token_hex(8)}{ENDING}"
        path = os.path.join(self._folder, name)
        try:
            os.close(os.open(path, os.O_WRONLY | os.O_CREAT | os.O_EXCL | os.O_CLOEXEC, MODE))
            sync_folder(self._folder)
        except OSError as fault:
            raise Fault(f"the memory {shown_name(path)} can't be written: {reason(fault)}") from fault
        return Lines(path)

    def end(self) -> None:
        """Adds the last line, so that each other one counts."""
        if self._lines is not None:
            self.append([{"kind": "end"}])


class TaskLines(Lines):
    """What the memory has of an originator. Lines are added to the file of the task."""

    def __init__(self, path: str, originator: str, file: TaskFile) -> None:
        """Reads it, where a check wrote it."""
        super().__init__(path, os.path.lexists(path))
        self._originator = originator
        self._file = file

    def append(self, rows: Sequence[Row]) -> None:
        """Adds lines to the file of the task."""
        if rows:
            self._file.append([{**it, "originator": self._originator} for it in rows])


class TaskMemory(Memory):
    """The memory as a task sees it, which neither locks it nor begins a file of a check."""

    def __init__(self, folder: str, is_begun: bool, file: TaskFile) -> None:
        """Reads it. Raises Fault where it is lost."""
        self._file = file
        super().__init__(folder, is_begun)

    def _hold(self, path: str) -> None:
        pass

    def _lines(self, path: str) -> Lines:
        return Lines(path, os.path.lexists(path))

    def record(self, originator: str) -> Record:
        """That of an originator."""
        if originator not in self._records:
            self._records[originator] = Record(TaskLines(self._path(originator), originator, self._file))
        return self._records[originator]


class Reading(NamedTuple):
    """What a task reads with."""

    workplace: Workplace
    progress: Progress
    checker: Optional[Checker]
    """What checks time stamps, if an authority is given."""


def run_task(options: Options, judges: Judges, folders: Dict[str, str], reading: Reading) -> str:
    """Verifies a share of the files, but for those that other tasks did. Gives what there is to say."""
    assert options.part is not None
    file = TaskFile(options.memory, options.part, judges)
    memory = TaskMemory(options.memory, options.is_begun, file)
    refuse_unknown(folders, memory)
    taken = Taken(options.memory, judges.of)
    doubted = doubted_in(memory, memory.faults(None, None))
    originators = []
    for name, path in sorted(folders.items()):
        record = memory.record(name)
        done = taken.merge(name, record)
        record.forget_put()
        originators.append(Originator(name, path, record, options, now(), memory.count, file_place(name) in doubted, done))
    workplace, progress, checker = reading
    reader = Reader(workplace, progress, options.keys.max_expanded)
    verified = verify(originators, reader, judges, Pool(judges, options.jobs, workplace, progress), checker)
    for it in originators:
        it.record.save()
    file.end()
    files = sum(it.counts.files for it in originators)
    return f"part {options.part.number} of {options.part.of}: {grouped(files, 'file')}, {verified:,} verified now"
