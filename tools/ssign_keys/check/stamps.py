"""Time stamps beside signed files: one shows that its file, and each file that this one's chain names, existed at its time.

Whether files of a chain existed depends on no signature: octets that existed at a time have the SHA-256 of the file before.
"""
from __future__ import annotations

import os
from typing import Any, Callable, Dict, Iterable, List, NamedTuple, Optional, Protocol, Sequence, Set, Tuple

from ..chain.link import Link
from ..chain.names import bare
from ..chain.reading import first_of
from ..commands import BUDGET, Missing
from ..faults import Fault
from ..rfc3161 import SECOND, Authorities, TimeStamp, check_stamp, read_authorities
from ..stamped import ENDING, read_stamp
from ..store import open_folder
from ..words import grouped, shown_name
from ..workplace import Workplace
from .files import Lying, raw_sha256
from .findings import Finding, find
from .lines import Row
from .record import Record, digest

Before = Callable[[str], Optional[str]]


class File(Protocol):
    """A signed file that is here."""

    name: str
    lying: Lying
    sha256: str


class Cover(NamedTuple):
    """How far time stamps go in a folder: each field as the report has it."""

    name: str
    """The newest file that one covers."""
    sha256: str
    time: str
    """When that existed, with the accuracy."""
    service: str
    stamp: str
    """The name of the time stamp."""
    files: int
    """How many files time stamps cover."""
    later: int
    """How many newer files they don't cover."""
    judged: int
    """How many files are judged by one, because a check saw them first later."""

    def fields(self) -> Dict[str, Any]:
        """As JSON has it."""
        return {**self._asdict(), "name": shown_name(self.name), "stamp": shown_name(self.stamp)}

    def sentence(self) -> str:
        """As the text has it."""
        more = f"; {grouped(self.later, 'later file')} {'has' if self.later == 1 else 'have'} none" if self.later else ""
        if self.judged:
            more += f"; {grouped(self.judged, 'file')} {'is' if self.judged == 1 else 'are'} judged by time stamps, because " \
                "a check saw them first later"
        who = shown_name(self.name) if self.files == 1 else f"{grouped(self.files, 'file')} up to {shown_name(self.name)}"
        return f"{who} existed at {self.time}, by the time stamp {shown_name(self.stamp)} of {self.service}{more}"


class Checker:
    """Checks time stamps under the authorities that are given."""

    def __init__(self, authorities: Authorities, workplace: Workplace) -> None:
        self._authorities = authorities
        self._workplace = workplace
        self.of = digest(sorted([it.option, it.file_sha256 or ""] for it in authorities.given))
        """The digest of what is trusted."""

    def check(self, it: Lying, sha256: str) -> Row:
        """What a time stamp of this SHA-256 shows. Raises Fault where it doesn't hold."""
        # what commands may take is for each of them
        BUDGET.renew()
        stamped = check_stamp(read_stamp(it.path), it.name, {"signed file beside it": sha256}, self._authorities,
                              self._workplace)
        return {"kind": "stamp", "name": it.name, "stat": list(it.stat), "sha256": sha256, "latest": latest(stamped.stamp),
                "when": stamped.stamp.when, "service": stamped.service, "of": self.of}


def make_checker(cas: Sequence[str], anchors: Sequence[str], workplace: Workplace) -> Optional[Checker]:
    """What checks time stamps; None where no authority is given."""
    return Checker(read_authorities(cas, anchors), workplace) if cas or anchors else None


def latest(stamp: TimeStamp) -> int:
    """The second at which a stamped file existed at the latest: what the service says, with its accuracy, rounded up."""
    digits = stamp.time.partition(".")[2].rstrip("Z")
    more = (int(digits.ljust(9, "0")) + 999) // 1000 if digits else 0
    return stamp.moment - -(more + (stamp.accuracy or 0)) // SECOND


def link_in(it: Lying, workplace: Workplace) -> Optional[Link]:
    """What the first message of a file says, verified or not."""
    folder = open_folder(os.path.dirname(it.path) or ".")
    try:
        first = first_of(folder, it.name, workplace)
    finally:
        os.close(folder)
    return None if first is None else first.link


class Stamps:
    """The time stamps of one originator."""

    def __init__(self, originator: str, record: Record, checker: Optional[Checker]) -> None:
        self._originator = originator
        self._record = record
        self._checker = checker
        self._held: List[Row] = []
        self._faults: Dict[str, Tuple[str, str, str]] = {}
        """For the name of a stamp that doesn't hold, the name of its file, what was seen and why."""
        self._lone: Dict[str, str] = {}
        """For the name of a stamp whose file isn't here, the name of that."""
        self._by: Dict[str, Row] = {}
        """For the SHA-256 of each file that is covered, the earliest stamp that does it."""
        self.unchecked = 0
        """How many there are that no authority was given for."""

    def read(self, stamps: Sequence[Lying], files: Iterable[File], is_due: Callable[[str], bool]) -> None:
        """Checks those that are here, each again where it or its file changed, and when the turn of its file comes."""
        if self._checker is None:
            self.unchecked = len(stamps)
            return
        by_name: Dict[str, File] = {}
        for file in files:
            by_name.setdefault(file.lying.bare, file)
            by_name[file.lying.name] = file
        for it in stamps:
            name = it.name[:-len(ENDING)]
            found = by_name.get(name) or by_name.get(bare(name))
            if found is None:
                self._lone[it.name] = bare(name)
            else:
                self._read_one(it, found, self._checker, is_due)

    def _read_one(self, it: Lying, file: File, checker: Checker, is_due: Callable[[str], bool]) -> None:
        row = self._record.stamps.get(it.name)
        is_known = row is not None and (row["stat"], row["sha256"], row["of"]) == (list(it.stat), file.sha256, checker.of)
        if row is None or not is_known or is_due(file.sha256):
            try:
                found = checker.check(it, file.sha256)
            except Missing:
                raise
            except (Fault, OSError) as fault:
                self._faults[it.name] = file.name, raw_sha256(it.path), str(fault)
                return
            if row is None or any(row[name] != value for name, value in found.items()):
                self._record.put(found)
            row = found
        self._held.append(row)

    # ---- what they cover

    def cover(self, before: Before) -> None:
        """Finds the earliest stamp for each file that one covers. `before` gives the file before, as far as it is known."""
        self._by = {}
        for row in sorted(self._held, key=lambda it: (it["latest"], it["name"])):
            sha256: Optional[str] = row["sha256"]
            while sha256 is not None and sha256 not in self._by:
                self._by[sha256] = row
                sha256 = before(sha256)

    @property
    def are_any(self) -> bool:
        """Whether one holds."""
        return bool(self._held)

    def time_of(self, sha256: str, seen: int) -> Optional[int]:
        """When a file existed by a stamp; None where a check saw it first before that."""
        row = self._by.get(sha256)
        return row["latest"] if row is not None and row["latest"] < seen else None

    def how(self, sha256: str) -> str:
        """What shows when a file existed, as the end of a sentence."""
        return f"by the time stamp {shown_name(self._by[sha256]['name'])}"

    def summary(self, files: Sequence[Tuple[str, str]], judged: int) -> Optional[Cover]:
        """How far they go over these files, which have names and SHA-256 and stand from the oldest on."""
        places = [place for place, (_, sha256) in enumerate(files) if sha256 in self._by]
        if not places:
            return None
        name, sha256 = files[places[-1]]
        row = self._by[sha256]
        return Cover(name, sha256, row["when"], row["service"], row["name"], len(places), len(files) - places[-1] - 1, judged)

    # ---- what is found

    def find(self, others: Iterable[Finding], absent: Set[str], is_wanted: Callable[[str], bool]) -> List[Finding]:
        """The findings. The stamp of a file that has another finding has none.

        `absent` has the names of files that are known and aren't here. `is_wanted` answers for the SHA-256 of a file: whether it
        is here, and its stamp has to be.
        """
        if self._checker is None:
            return []
        places = {it.place for it in others}
        found = [self._find(name, fact, why) for name, (file, fact, why) in self._faults.items()
                 if find("stamp", "", "", self._originator, file).place not in places]
        found += [self._find(name, "lone", f"it is the time stamp of {shown_name(file)}, which isn't there")
                  for name, file in self._lone.items() if file not in absent]
        times = {it["sha256"]: it["latest"] for it in sorted(self._held, key=lambda it: -int(it["latest"]))}
        for sha256, row in self._record.earliest.items():
            if row["name"] not in self._faults and times.get(sha256, row["latest"] + 1) > row["latest"] and is_wanted(sha256):
                text = f"it isn't there any more: it showed that its file existed at {row['when']}, by {row['service']}"
                found.append(self._find(row["name"], f"gone {row['when']}", text))
        return found

    def _find(self, name: str, fact: str, text: str) -> Finding:
        return find("stamp", fact, text, self._originator, name)
