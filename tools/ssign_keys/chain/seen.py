"""What was read of logs before: an aid, so that a log that nobody touched isn't read again in each run.

The file may be removed at any time: then all logs are read again, and a log that waits begins to wait.
"""
from __future__ import annotations

import contextlib
import hashlib
import json
import os
from typing import Dict, NamedTuple, Tuple

from ..faults import Fault
from ..files import open_regular
from ..store import replace
from .folder import Whole

NAME = ".ssign-seen"
FORMAT = 1
# the facts of a million logs
LONGEST = 1 << 28


class Fact(NamedTuple):
    """A log as it was read."""

    inode: int
    size: int
    changed: int
    """When its octets were changed last, in nanoseconds."""
    touched: int
    """When anything of it was: its mode, its owner, its name."""
    end: int
    sha256: str
    """Of all its octets, which are `end`, expanded."""

    @property
    def whole(self) -> Whole:
        """Its octets."""
        return Whole(self.end, self.sha256)


class Seen:
    """The file of a folder. What isn't as it was written is as nothing."""

    def __init__(self, folder: str) -> None:
        """Reads it."""
        self._path = os.path.join(folder, NAME)
        self._facts: Dict[str, Fact] = {}
        self._by_inode: Dict[int, Fact] = {}
        self._waits: Dict[str, Tuple[int, int]] = {}
        self.facts: Dict[str, Fact] = {}
        """What this run found."""
        self.waits: Dict[str, Tuple[int, int]] = {}
        """Since when the log of an inode waits, in seconds since 1970, and how many octets it has."""
        with contextlib.suppress(OSError, ValueError, TypeError, KeyError, RecursionError, OverflowError):
            self._read()

    def _read(self) -> None:
        with open(open_regular(self._path), "rb") as file:
            body, _, last = file.read(LONGEST).rstrip(b"\n").rpartition(b"\n")
        fields = json.loads(body)
        if hashlib.sha256(body).hexdigest() != last.decode() or fields["format"] != FORMAT:
            return
        self._facts = {str(name): as_fact(*it) for name, it in fields["logs"].items()}
        self._by_inode = {it.inode: it for it in self._facts.values()}
        self._waits = {str(inode): (int(since), int(size)) for inode, (since, size) in fields["waits"].items()}

    def find(self, name: str, seen: os.stat_result) -> None:
        """Takes over what is known of a log, if nobody touched it since, or if it has another name alone."""
        fact = self._facts.get(name)
        if fact is None or fact.inode != seen.st_ino:
            # logrotate gives a log another name, and leaves its octets
            fact = self._by_inode.get(seen.st_ino)
            is_same = fact is not None and (fact.size, fact.changed) == (seen.st_size, seen.st_mtime_ns)
        else:
            is_same = fact[:4] == (seen.st_ino, seen.st_size, seen.st_mtime_ns, seen.st_ctime_ns)
        if fact is not None and is_same:
            self.take(name, seen, fact.whole)

    def take(self, name: str, seen: os.stat_result, whole: Whole) -> None:
        """Remembers the octets of a log, as it was before they were read."""
        self.facts[name] = Fact(seen.st_ino, seen.st_size, seen.st_mtime_ns, seen.st_ctime_ns, *whole)

    def wait(self, seen: os.stat_result, now: int) -> int:
        """Since when a log waits. One that was cut meanwhile is another log in the same file."""
        inode = str(seen.st_ino)
        since, size = self._waits.get(inode, (now, 0))
        self.waits[inode] = (min(since, now) if size <= seen.st_size else now, seen.st_size)
        return self.waits[inode][0]

    def keep(self) -> None:
        """Writes it, if it is another than before. That it can't be written changes nothing."""
        if (self.facts, self.waits) == (self._facts, self._waits):
            return
        body = json.dumps({"format": FORMAT, "logs": self.facts, "waits": self.waits}, separators=(",", ":")).encode("ascii")
        with contextlib.suppress(Fault):
            replace(self._path, body + b"\n" + hashlib.sha256(body).hexdigest().encode() + b"\n", 0o600)


def seconds_of(seen: os.stat_result) -> int:
    """When a file was changed last, in whole seconds since 1970."""
    return max(0, seen.st_mtime_ns // 10 ** 9)


def as_fact(inode: int, size: int, changed: int, touched: int, end: int, sha256: str) -> Fact:
    """The fact that was written so. Raises ValueError or TypeError where it is none."""
    return Fact(int(inode), int(size), int(changed), int(touched), int(end), str(sha256))
