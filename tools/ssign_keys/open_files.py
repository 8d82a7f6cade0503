"""Which processes may still write to a file: a daemon writes its last lines after a rotation."""
from __future__ import annotations

import contextlib
import os
import time
from typing import Dict, Iterator, Tuple

from .words import shown

PROCESSES = "/proc"
# so many seconds what was seen holds
STALE = 2.0
# the last two bits of the flags of open(2): 0 is for reading alone
ACCESS = 3


class Writers:
    """The processes that have files open for writing, as far as this process may see, looked at anew after some seconds."""

    def __init__(self) -> None:
        """Nothing is looked at yet."""
        self._found: Dict[Tuple[int, int], str] = {}
        self._until = 0.0

    def of(self, file: os.stat_result) -> str:
        """A process that has a file open, as `NUMBER (NAME)`; empty where there is none."""
        if time.monotonic() >= self._until:
            began = time.monotonic()
            self._found = self._look()
            # on a machine of many processes most of a run isn't spent so
            self._until = time.monotonic() + STALE + 10 * (time.monotonic() - began)
        return self._found.get((file.st_dev, file.st_ino), "")

    def _look(self) -> Dict[Tuple[int, int], str]:
        found: Dict[Tuple[int, int], str] = {}
        own = str(os.getpid())
        for it in os.listdir(PROCESSES) if os.path.isdir(PROCESSES) else []:
            # a process of another user, or one that has ended meanwhile
            with contextlib.suppress(OSError):
                if it.isdigit() and it != own:
                    found.update({(seen.st_dev, seen.st_ino): f"{it} ({name_of(it)})" for seen in open_for_writing(it)})
        return found


def open_for_writing(number: str) -> Iterator[os.stat_result]:
    """The files that a process has open for writing."""
    folder = os.path.join(PROCESSES, number)
    for it in os.listdir(os.path.join(folder, "fd")):
        try:
            with open(os.path.join(folder, "fdinfo", it), "rb") as facts:
                flags = next(int(line.split()[1], 8) for line in facts if line.startswith(b"flags:"))
            if flags & ACCESS:
                yield os.stat(os.path.join(folder, "fd", it))
        except (FileNotFoundError, StopIteration):
            # it was closed meanwhile
            continue


def name_of(number: str) -> str:
    """The name of a process."""
    with open(os.path.join(PROCESSES, number, "comm"), "rb") as file:
        return shown(file.read(100).rstrip(b"\n"))
