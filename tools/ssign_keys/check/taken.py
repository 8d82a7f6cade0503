"""What tasks left in the memory for the next check: which files they read, and what came of those that they verified.

Each task wrote a file of its own, chained as the other files of the memory are. A line counts once another one follows it,
which has its SHA-256: so a letter that was changed in what counts is always seen.
"""
from __future__ import annotations

import contextlib
import os
from dataclasses import dataclass, field
from typing import Callable, Dict, List, Set, Tuple

from .. import cli
from ..chain.names import few
from ..faults import Fault
from ..files import reason
from ..usage import complain
from ..words import grouped, shown_name
from .findings import Finding
from .lines import Lines, Row
from .memory import PLACE
from .record import Record, file_of

ENDING = ".part"
KINDS = ("file", "read")


@dataclass(frozen=True)
class Done:
    """What tasks did for this check."""

    names: Set[str] = field(default_factory=set)
    """Of files that were read."""
    sums: Set[str] = field(default_factory=set)
    """The SHA-256 of files that were verified."""


class Taken:
    """What all tasks left."""

    def __init__(self, folder: str, of: Tuple[str, str, str]) -> None:
        """Reads it, as far as it was made with the same keys, rules and programs."""
        self.faults: List[Finding] = []
        """Files that were edited, of which nothing is taken."""
        self._rows: Dict[str, List[Row]] = {}
        self._paths: List[str] = []
        self._other: List[str] = []
        """The names of files that were made with other keys or programs, of which nothing is taken."""
        self._edited: Dict[str, Finding] = {}
        made = [self._read(folder, name, of) for name in sorted(os.listdir(folder)) if name.endswith(ENDING)]
        self.faults += self._edited.values()
        # of two tasks that saw the same file, the first one counts
        for rows in sorted(filter(None, made), key=lambda it: (it[0]["time"], it[0]["part"])):
            self._take(rows)

    def _read(self, folder: str, name: str, of: Tuple[str, str, str]) -> List[Row]:
        """The lines of a file of which something may be taken."""
        path = os.path.join(folder, name)
        try:
            lines = Lines(path)
        except Fault:
            if os.path.lexists(path):
                raise
            # a check ended meanwhile, and a task has no lock
            return []
        fault = lines.fault
        if fault is None and lines.rows and lines.rows[0]["kind"] != "part":
            fault = "its first line isn't that of a task"
        if fault is not None:
            text = f"{fault}, and nothing of it is taken: it may be removed"
            self._edited[path] = Finding(f"{PLACE}/{shown_name(name)}", "edited", lines.fact or lines.mark, text)
        elif lines.rows and tuple(lines.rows[0]["of"]) != of:
            self._other.append(name)
        else:
            self._paths.append(path)
            return lines.rows
        return []

    def _take(self, rows: List[Row]) -> None:
        """Takes the lines of a task. What nothing follows doesn't count."""
        for row in rows[1:-1]:
            if row["kind"] in KINDS and isinstance(row.get("originator"), str):
                self._rows.setdefault(row["originator"], []).append(row)

    def merge(self, originator: str, record: Record) -> Done:
        """Has what is known of an originator hold what tasks found, where it is new."""
        done = Done()
        for row in self._rows.get(originator, []):
            fields = {name: value for name, value in row.items() if name not in ("n", "previous", "originator")}
            with contextlib.suppress(ValueError, TypeError, IndexError, KeyError):
                if row["kind"] == "read":
                    merge_read(record, fields, done)
                else:
                    merge_file(record, fields, done)
        return done

    def complain(self) -> None:
        """Says which files of tasks are of no use here."""
        if self._other:
            complain(cli.TOOL, f"nothing is taken of {grouped(len(self._other), 'file')} of tasks in the memory, made with "
                     f"other keys or another program: check with those, or remove {few(self._other)}")

    def remove(self, is_accepted: Callable[[Finding], bool]) -> None:
        """Removes the files whose lines the memory has now, and those that were accepted as edited."""
        for path in [*self._paths, *(path for path, it in self._edited.items() if is_accepted(it))]:
            try:
                with contextlib.suppress(FileNotFoundError):
                    os.remove(path)
            except OSError as fault:
                raise Fault(f"{shown_name(path)} can't be removed: {reason(fault)}") from fault


def merge_read(record: Record, row: Row, done: Done) -> None:
    """A file as it lay there."""
    name, seen = row["name"], (tuple(row["stat"]), row["sha256"])
    if record.reads.get(name) != seen:
        record.put(row)
    done.names.add(name)


def merge_file(record: Record, row: Row, done: Done) -> None:
    """A verdict. It was made for the time at which the file was seen first, so a verdict for another time isn't taken."""
    file = file_of(row)
    before = record.files.get(file.sha256)
    if before is None or before.seen == file.seen:
        if before != file:
            record.put(row)
        done.sums.add(file.sha256)
