"""Which logs of a folder are to be signed, and from which octet on."""
from __future__ import annotations

import os
import stat
import time
from dataclasses import dataclass, field
from typing import Dict, Iterator, List, NamedTuple, Optional, Sequence, Set, Tuple

from ..faults import Fault
from ..files import NOT_REGULAR, reason
from ..open_files import Writers
from ..words import counted, shown_name
from ..workplace import Workplace
from .folder import Folder, Known, Whole
from .link import Log
from .names import SIGNED, bare, is_dated
from .reading import Digests, digests, open_in, plain_pieces
from .same_logs import Here, Matcher
from .seen import Seen, seconds_of

DAY = 86400


class Part(NamedTuple):
    """What of a log is to be signed."""

    log: str
    """The name of its file."""
    start: int
    name: str
    """That of the signed file, without what says that it is one; it may be taken."""


@dataclass
class Notes:
    """What is said of logs."""

    others: List[str] = field(default_factory=list)
    """Of those that have the name of another log, which isn't here any more."""
    waits: List[str] = field(default_factory=list)
    """Of those that aren't signed yet."""
    troubles: List[str] = field(default_factory=list)
    """Of those that can't be signed."""


class Finder:
    """Finds each log of a folder in the links."""

    def __init__(self, folder: Folder, known: Known, seen: Seen, quiet: float, max_expanded: Optional[int],
                 workplace: Workplace) -> None:
        """Nothing is looked at yet."""
        self._folder = folder
        self._known = known
        self._seen = seen
        self._closed = Closed(folder, quiet)
        self._max_expanded = max_expanded
        self._workplace = workplace
        self._matcher = Matcher(known)
        self._here: Dict[Tuple[Whole, str], Here] = {}
        # those that weren't looked at whether they are closed, because all of their octets were signed
        self._unlooked: Set[str] = set()
        self.notes = Notes()

    def parts(self, logs: Sequence[str]) -> List[Part]:
        """What is to be signed of these logs. A log that was changed, or can't be read, is named."""
        for it in logs:
            try:
                self._look(it)
            except (Fault, OSError) as fault:
                self.trouble(it, str(fault) if isinstance(fault, Fault) else f"it can't be read: {reason(fault)}")
        here = list(self._here.values())
        self._matcher.match(here)
        found = [part for it in here for part in self._part(it)]
        # late lines first: they go on after the last log of a name, and here another one may have that name by now
        return sorted(found, key=lambda it: it.start == 0)

    def trouble(self, log: str, why: str) -> None:
        """Notes that a log isn't signed."""
        self.notes.troubles.append(f"{shown_name(log)} isn't signed: {why}")

    # ---- what is known of a log

    def _look(self, log: str) -> None:
        """Finds how far a log is signed; it isn't known here where no links hold it."""
        seen = self._folder.entries[log]
        if not stat.S_ISREG(seen.st_mode):
            raise Fault(f"{NOT_REGULAR}: leave it out by --match, or move it into another folder")
        self._seen.find(log, seen)
        fact = self._seen.facts.get(log)
        if fact is not None and fact.whole in self._known.signings:
            self._unlooked.add(log)
            self._take(log, seen, Digests(*fact.whole, {}))
            return
        why = self._closed.why_not(log, seen)
        if why:
            self._wait(log, seen, why)
            return
        self._read(log)

    def _wait(self, log: str, seen: os.stat_result, why: str) -> None:
        """Notes that a log waits."""
        now = int(time.time())
        waited = now - self._seen.wait(seen, now)
        sentence = f"{shown_name(log)} waits: {why}"
        if waited <= DAY:
            self.notes.waits.append(sentence)
        else:
            hours = counted(waited // 3600, "hour")
            self.notes.troubles.append(f"{sentence}. It has waited for {hours}: have it rotated each day and closed then, or "
                                       "leave it out by --match")

    def _read(self, log: str) -> None:
        """Takes the octets of a log, unless it is gone or was written to meanwhile."""
        if self._folder.stat(log) is None:
            return
        with open_in(self._folder.number, log) as file:
            before = os.fstat(file.fileno())
            ends = [it.log.end for it in self._known.candidates(bare(log))]
            found = digests(plain_pieces(file, log, self._workplace, self._max_expanded), ends)
            after = os.fstat(file.fileno())
        if (before.st_size, before.st_mtime_ns) != (after.st_size, after.st_mtime_ns):
            self._wait(log, after, "it was written to while it was read")
            return
        self._seen.take(log, before, Whole(found.size, found.sha256))
        self._take(log, before, found)

    def _take(self, log: str, seen: os.stat_result, found: Digests) -> None:
        """Notes a log. One that is being compressed has its name twice, and is one log."""
        it = Here(log, seconds_of(seen), Whole(found.size, found.sha256), found.fronts)
        self._here.setdefault((it.whole, it.name), it)

    # ---- what follows from it

    def _part(self, it: Here) -> Iterator[Part]:
        """What is to be signed of a log, if anything is."""
        own, name = self._known.last.get(it.name), it.name
        is_gone = own is not None and not self._matcher.is_here(own)
        if it.signing is not None:
            if it.whole.end > it.signing.log.end:
                yield self.rest(it.file, it.signing.log.end)
        elif own is not None and is_gone and (is_dated(name) or it.changed <= own.log.changed):
            self.notes.troubles.append(changed(it.file, own.log))
        elif own is None and name in self._known.unread:
            self.trouble(it.file, f"no link can be read in {shown_name(name + SIGNED)}: put a good copy of it in its place, or "
                                  "move it into another folder")
        elif it.whole.end and self._is_closed(it.file):
            if is_gone:
                self.notes.others.append(f"{shown_name(it.file)} isn't the log that was signed under this name before: it "
                                         "is signed as another one")
            yield Part(it.file, 0, name)

    def _is_closed(self, log: str) -> bool:
        """Whether a log is closed, if that wasn't looked at."""
        seen = self._folder.entries[log]
        why = self._closed.why_not(log, seen) if log in self._unlooked else ""
        if why:
            self._wait(log, seen, why)
        return not why

    def rest(self, log: str, start: int) -> Part:
        """What stands in a log after its signed octets."""
        return Part(log, start, f"{bare(log)}.late-{max(1, self._known.parts.get(bare(log), 0))}")


def changed(log: str, own: Log) -> str:
    """What is said of a log whose signed octets aren't what they were."""
    return f"{shown_name(log)} was changed after it was signed: its first {counted(own.end, 'octet')} aren't those that the " \
        "signed file of it holds, which `ssign extract` writes. Compare the two; then remove the log, or give it another " \
        "name, and it is signed under that"


class Closed:
    """Which logs nobody writes to, as far as this user can see."""

    def __init__(self, folder: Folder, quiet: float) -> None:
        """Nothing was waited for yet."""
        self._folder = folder
        self._quiet = quiet
        self._writers = Writers()
        self._has_waited = False

    def why_not(self, log: str, seen: os.stat_result) -> str:
        """Why a log isn't closed; empty where it is. In a run it is waited once until the logs are quiet."""
        age = time.time() - seen.st_mtime
        if age < self._quiet and not self._has_waited:
            # a time that lies ahead of now says nothing
            time.sleep(self._quiet if age < 0 else self._quiet - age)
            self._has_waited = True
        now = self._folder.stat(log)
        if now is not None and (now.st_size, now.st_mtime_ns) != (seen.st_size, seen.st_mtime_ns):
            return f"it was written to {f'in the last {self._quiet:g} seconds' if self._quiet else 'just now'}"
        writer = self._writers.of(seen)
        return f"the process {writer} has it open for writing" if writer else ""
