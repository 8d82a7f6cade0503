"""The memory of checks: a folder that only they write to. docs/dev/FORMATS.md has its files.

`runs` has a line for each check, with the end of each other file. ORIGINATOR.memory has what was seen of an originator.
"""
from __future__ import annotations

import fcntl
import os
import time
from typing import Dict, List, Optional, Set

from ..faults import Fault
from ..files import OTHERS_WRITE, open_lock, reason
from ..words import shown_name
from .findings import Finding
from .lines import Lines, Row, begin
from .record import Held, Record

RUNS, LOCK, ENDING = "runs", "lock", ".memory"
# what findings about the memory have in place of an originator
PLACE = "memory"


def file_place(originator: str) -> str:
    """What findings about the file of an originator have in place of the originator."""
    return f"{PLACE}/{shown_name(originator)}{ENDING}"


def now() -> int:
    """The present time, in seconds since 1970."""
    return int(time.time())


class Memory:
    """All of it, under a lock that the process keeps."""

    def __init__(self, folder: str, is_begun: bool) -> None:
        """Opens it, or begins one. Raises Fault where it is lost, or another check uses it."""
        self.folder = folder
        path = os.path.join(folder, RUNS)
        self._make(path, is_begun)
        self.runs = self._lines(path)
        checks = [it for it in self.runs.rows if it["kind"] == "check"]
        if is_begun and checks:
            raise Fault(f"there is a memory in {shown_name(folder)} already: leave --begin out")
        self.count = len(checks)
        self.has_status = any(it["has_status"] for it in checks)
        self.heads: Dict[str, str] = {}
        """The end of each file of an originator, when it was written last."""
        self.accepted = Held()
        self.open: Dict[str, str] = {}
        self._records: Dict[str, Record] = {}
        for row in self.runs.rows:
            self._take(row)

    def _make(self, path: str, is_begun: bool) -> None:
        """Has the folder be there, and holds it. Makes it, if that was asked for."""
        try:
            if is_begun and not os.path.lexists(path):
                os.makedirs(self.folder, 0o700, exist_ok=True)
                self._refuse_rest()
            if os.stat(self.folder).st_mode & OTHERS_WRITE:
                raise Fault(f"others may write to the memory {shown_name(self.folder)}: `chmod go-w`, and look at it")
            if not is_begun and not os.path.lexists(path):
                raise FileNotFoundError
            self._hold(path)
        except FileNotFoundError as fault:
            raise Fault(f"there is no memory in {shown_name(self.folder)}: put it back; --begin begins one, and then nobody "
                        "knows what was there before") from fault
        except BlockingIOError as fault:
            raise Fault(f"another check uses the memory {shown_name(self.folder)} now: wait until it ends") from fault
        except OSError as fault:
            raise Fault(f"the memory {shown_name(self.folder)} can't be used: {reason(fault)}") from fault

    def _hold(self, path: str) -> None:
        """Locks it, and has the file `runs` be there. Raises OSError."""
        self._lock = open_lock(os.path.join(self.folder, LOCK))
        fcntl.flock(self._lock, fcntl.LOCK_EX | fcntl.LOCK_NB)
        if not os.path.lexists(path):
            begin(path, {"kind": "begin", "time": now(), "known": True})

    def _lines(self, path: str) -> Lines:
        return Lines(path)

    def _refuse_rest(self) -> None:
        """Refuses to begin a memory where another one was."""
        if any(it.endswith(ENDING) for it in os.listdir(self.folder)):
            raise Fault(f"the memory {shown_name(self.folder)} has lost its file {RUNS}: put that back, or move the folder "
                        "away before you begin another")

    def _take(self, row: Row) -> None:
        """Takes a line of `runs`."""
        if row["kind"] in ("accept", "lapse"):
            self.accepted.take(row)
        elif row["kind"] == "check":
            self.heads.update({str(name): str(mark) for name, mark in row["heads"].items()})
            self.open = {str(it[0]): str(it[1]) for it in row["open"] if isinstance(it, list) and len(it) == 2}

    @property
    def is_first(self) -> bool:
        """Whether no check has ended yet, so that all originators are known by --begin."""
        return self.count == 0

    def _path(self, originator: str) -> str:
        return os.path.join(self.folder, originator + ENDING)

    def record(self, originator: str) -> Record:
        """That of an originator, which is begun where it isn't there."""
        if originator not in self._records:
            path = self._path(originator)
            is_known = self.is_first or originator in self.heads
            if not os.path.lexists(path):
                begin(path, {"kind": "begin", "time": now(), "known": is_known})
            self._records[originator] = Record(Lines(path))
        return self._records[originator]

    def recorded(self) -> List[str]:
        """The originators of which there is a file."""
        return sorted(it[:-len(ENDING)] for it in os.listdir(self.folder) if it.endswith(ENDING) and it != ENDING)

    def faults(self, marked: Optional[str], status: Optional[str]) -> List[Finding]:
        """What is wrong with it. `marked` is how far it went by the status file `status`; None where that isn't there."""
        found = []
        if self.runs.fault:
            found.append(Finding(PLACE, "edited", self.runs.fact, f"{self.runs.fault} in the file {RUNS}"))
        if status is not None and marked is None and self.has_status:
            found.append(Finding(PLACE, "status", self.runs.mark, f"{shown_name(status)} isn't there, or can't be read"))
        if marked is not None and not self.runs.goes_on(marked):
            found.append(Finding(PLACE, "older", marked, "it doesn't go on from the run that the status file names"))
        for name, mark in sorted(self.heads.items()):
            found += self._faults_of(name, mark)
        return found

    def _faults_of(self, originator: str, mark: str) -> List[Finding]:
        """What is wrong with the file of an originator, which went so far."""
        place = file_place(originator)
        if not os.path.lexists(self._path(originator)):
            return [Finding(place, "edited", mark, "it isn't there any more")]
        lines = self.record(originator).lines
        if lines.fault:
            return [Finding(place, "edited", lines.fact, lines.fault)]
        if not lines.goes_on(mark):
            return [Finding(place, "edited", mark, "lines of it were cut or changed, or an older one was put back")]
        return []

    def save(self, row: Row, stays: Set[str]) -> None:
        """Adds the line of this check, with the end of each file, but for those that findings name so."""
        heads = {name: it.lines.mark for name, it in self._records.items() if file_place(name) not in stays}
        changed = {name: mark for name, mark in heads.items() if self.heads.get(name) != mark}
        self.heads.update(changed)
        self.runs.append([{**row, "heads": changed}])
