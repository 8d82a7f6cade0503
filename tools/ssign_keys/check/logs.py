"""Compares logs that lie beside their signed files, and files of messages that were set aside, with what the links name."""
from __future__ import annotations

from typing import Dict, List, NamedTuple, Optional, Sequence, Set, Tuple

from ..chain.folder import Whole
from ..chain.link import Link
from ..chain.names import SIGNED, is_dated, root
from ..words import grouped
from .files import Folder, Lying, Reader, Unread
from .findings import Finding, find
from .lines import Row
from .options import TURNS
from .record import Record


class Claim(NamedTuple):
    """What a signed file states about the log that it signs."""

    start: int
    end: int
    sha256: str
    changed: int
    """When the log was changed last, in seconds."""


class Sums(NamedTuple):
    """A log as it was read."""

    size: int
    up_to: Dict[int, str]
    """The SHA-256 of so many first octets."""
    sha256: str
    since: int
    """Since when it has these octets, as far as is known."""

    @property
    def whole(self) -> Whole:
        """Its octets."""
        return Whole(self.size, self.sha256)


class Logs:
    """The logs of one originator, and its files of messages that were set aside."""

    def __init__(self, originator: str, links: Sequence[Link], record: Record, reader: Reader, now: int, turn: int) -> None:
        """The links of the chain, the older first. A file is read again where it changed, and when its turn comes."""
        self._originator = originator
        self._record = record
        self._reader = reader
        self._now = now
        self._turn = turn
        self._logs: Dict[str, List[List[Claim]]] = {}
        self._whole: Dict[Whole, List[str]] = {}
        for it in links:
            self._take(it)
        self.found: List[Finding] = []

    def _take(self, link: Link) -> None:
        """Takes what a link says. A file from the front on begins another log, which has the name of an older one."""
        if link.log is None:
            return
        claim = Claim(link.log.start, link.log.end, link.log.sha256, link.log.changed)
        claims = self._logs.setdefault(link.log.name, [])
        if claim.start == 0 or not claims:
            claims.append([])
        claims[-1].append(claim)
        self._whole.setdefault(Whole(claim.end, claim.sha256), []).append(link.log.name)

    def check(self, folder: Folder, absent: Set[str], late: int) -> None:
        """Looks at all logs. One with octets that aren't signed after so many seconds is a finding.

        `absent` has the names of signed files that should be here.
        """
        names = {it.bare for it in folder.signed} | absent
        read: List[Tuple[Lying, Sums]] = []
        for number, it in enumerate(folder.logs):
            claims = self._logs.get(it.bare, [])
            if not claims and it.bare + SIGNED in names:
                # about its signed file there is a finding already
                continue
            sums = self._sums(it, sorted({claim.end for log in claims for claim in log}), number)
            if sums is not None:
                read.append((it, sums))
        held = self._held(read)
        for it, sums in read:
            self._compare(it, sums, (it.bare, sums.whole) in held, late)

    def _held(self, read: Sequence[Tuple[Lying, Sums]]) -> Set[Tuple[str, Whole]]:
        """The logs all of whose octets signed files hold. Each of several logs with the same octets needs a file of its own."""
        alike: Dict[Whole, Set[str]] = {}
        for it, sums in read:
            alike.setdefault(sums.whole, set()).add(it.bare)
        found: Set[Tuple[str, Whole]] = set()
        for whole, names in alike.items():
            signed = self._whole.get(whole, [])
            own, roots = set(signed), set(map(root, signed))
            held = sorted(names, key=lambda it: (it not in own, root(it) not in roots, it))[:len(signed)]
            found.update((it, whole) for it in held)
        return found

    def _compare(self, it: Lying, sums: Sums, is_held: bool, late: int) -> None:
        """Compares a log with what signed files say of it. logrotate may have given it another name since."""
        covered, claims, age = 0, self._logs.get(it.bare, []), self._now - min(it.changed, sums.since)
        fits = [log for log in claims if all(sums.up_to.get(claim.end) == claim.sha256 for claim in log)]
        if is_held:
            covered = sums.size
        elif fits:
            covered = max(claim.end for log in fits for claim in log)
        elif claims and (is_dated(it.bare) or it.changed <= claims[-1][-1].changed or sums.size and age > late):
            # else the name may be that of a new log by now, which nothing was written to or which isn't signed yet
            end = max(claim.end for claim in claims[-1])
            signed = grouped(end, "octet")
            self._find("log", sums.sha256, f"its first {signed} aren't those that were signed" if sums.size >= end else
                       f"it has {grouped(sums.size, 'octet')}, and {signed} were signed", it)
            return
        if sums.size > covered and age > late:
            what = f"its last {grouped(sums.size - covered, 'octet')} have" if covered else "it has"
            self._find("unsigned", sums.sha256, f"{what} no signed file, for {age // 3600} hours by now", it)

    def _find(self, kind: str, fact: str, text: str, it: Lying) -> None:
        self.found.append(find(kind, fact, text, self._originator, it.bare))

    def _sums(self, it: Lying, ends: List[int], number: int) -> Optional[Sums]:
        """What is known of the octets of a file. None where it can't be read, which is a finding."""
        kept = self._record.logs.get(it.name)
        if kept is not None and kept["stat"] == list(it.stat) and (number + self._turn) % TURNS and \
                all(str(end) in kept["sums"] for end in ends if end <= kept["size"]):
            return Sums(kept["size"], {int(end): sha256 for end, sha256 in kept["sums"].items()}, kept["sha256"], kept["since"])
        try:
            found = self._reader.digests(it, ends)
        except Unread as fault:
            self._find("unreadable", fault.fact, fault.why, it)
            return None
        since = kept["since"] if kept is not None and kept["sha256"] == found.sha256 else self._now
        row: Row = {"kind": "log", "name": it.name, "stat": list(it.stat), "size": found.size,
                    "sums": {str(end): sha256 for end, sha256 in sorted(found.fronts.items())}, "sha256": found.sha256,
                    "since": since}
        if kept is None or any(kept[name] != value for name, value in row.items()):
            self._record.put(row)
        return Sums(found.size, found.fronts, found.sha256, since)

    def check_asides(self, links: Sequence[Tuple[str, Link]], folder: Folder) -> None:
        """Compares each file of messages that were set aside with the link that names it. The files of the links are here."""
        for number, (name, link) in enumerate(links):
            if link.aside is None:
                continue
            it = folder.asides.get(link.aside.name)
            if it is None:
                self.found.append(find("aside", "missing", f"it isn't there, and {name} names it, with "
                                       f"{grouped(link.aside.messages, 'message')}", self._originator, link.aside.name))
                continue
            sums = self._sums(it, [], number)
            if sums is not None and sums.sha256 != link.aside.sha256:
                self._find("aside", sums.sha256, f"its SHA-256 isn't the one that {name} names", it)
