"""What a manifest shows of logs: each that is missing, cut, changed, renamed or unknown, and what is wrong with itself."""
from __future__ import annotations

from bisect import bisect_left
from dataclasses import dataclass
from typing import Dict, Iterator, List, NamedTuple, Optional, Sequence, Tuple

from .blocks import Session
from .json_text import compact
from .manifest_form import Entry, Extent, Manifest, Mark
from .words import counted, shown_name

# how a compressed log is named after the one that was compressed
ENDINGS = (".gz", ".xz", ".zst")
# how numbers came to be left out
STOPPED = ": by the signer's state, a run had given them when it was stopped"


class Stored(NamedTuple):
    """A log as it lies there, expanded where it is compressed."""

    label: str
    """What a person is shown."""
    name: str
    """Its name, without its folder and without what says how it is compressed; empty where it has none."""
    size: Optional[int]
    """None where it wasn't expanded to know it."""
    sha256: Optional[str]
    """None where it wasn't read."""


@dataclass(frozen=True)
class Found:
    """A finding. The first word of `what` is its kind."""

    where: str
    what: str
    entry: Optional[int] = None

    @property
    def kind(self) -> str:
        """The first word."""
        return self.what.partition(" ")[0].rstrip(",:")

    def text(self) -> str:
        """As a line of text."""
        return f"{self.where}: {self.what}"

    def line(self) -> str:
        """As an object of JSON."""
        fields = {"line": "manifest", "kind": self.kind, "where": self.where, "entry": self.entry, "what": self.what}
        return compact(fields)


def bare(name: str) -> str:
    """The name of a log before it was compressed."""
    for ending in ENDINGS:
        if name.endswith(ending) and name != ending:
            return name[: -len(ending)]
    return name


def of_manifest(manifest: Manifest, kept: Optional[Mark], seen: Optional[Mark] = None) -> List[Found]:
    """What is wrong with the manifest itself: lines that were changed or cut, entries twice, RSIDs that were skipped, and copies of
    no file that an entry has.

    What an entry says was left out is no finding again, up to the entry that was `seen`: an earlier check reported it.
    """
    found = [Found(f"line {it}", "broken, it doesn't follow the line before; a line was changed, put in or taken out", it)
             for it in manifest.broken]
    if manifest.torn is not None:
        found.append(Found(f"line {manifest.torn}", "torn, the manifest breaks off in this line"))
    if kept is not None:
        found += not_kept(manifest, kept)
    if seen is not None and seen != kept:
        found += not_kept(manifest, seen)
    return found + twice(manifest) + skipped(manifest, seen_up_to(manifest, seen)) + copied_from_nothing(manifest)


def seen_up_to(manifest: Manifest, seen: Optional[Mark]) -> int:
    """Up to which line an earlier check has reported; none, where this isn't the manifest that it saw."""
    if seen is None or not_kept(manifest, seen):
        return 0
    return seen.number


def not_kept(manifest: Manifest, kept: Mark) -> List[Found]:
    """What is wrong where the entry isn't there whose number and hash were kept."""
    number, given = kept
    if number == 0:
        return []
    if number > len(manifest.lines):
        return [Found(f"entry {number}", f"cut, the manifest has {counted(len(manifest.lines), 'entry', 'entries')}, and this "
                      "one was kept", number)]
    if manifest.lines[number - 1].sum != given:
        return [Found(f"entry {number}", "replaced, it isn't the one whose SHA-256 was kept", number)]
    return []


def numbered(manifest: Manifest) -> Iterator[Tuple[int, Entry]]:
    """The entries of logs, each with its line, from 1."""
    return ((line, it) for line, it in enumerate(manifest.lines, 1) if isinstance(it, Entry))


class Nights:
    """The nights of one session, of which each has to go on after all before it."""

    def __init__(self) -> None:
        """None yet."""
        # of the GBC, and of each group: the lines at which it got greater, and what it was from then on
        self._lines: Dict[Optional[Tuple[int, int]], List[int]] = {}
        self._reached: Dict[Optional[Tuple[int, int]], List[int]] = {}

    def first_against(self, entry: Entry) -> Optional[int]:
        """The first line whose entry this one doesn't go on after (`Entry.goes_on`), or None where there is none."""
        if not entry.groups:
            return None
        firsts = [self._first(None, entry.gbc), *(self._first((it.sg, it.spri), it.first + 1) for it in entry.groups)]
        return min((it for it in firsts if it is not None), default=None)

    def _first(self, what: Optional[Tuple[int, int]], least: int) -> Optional[int]:
        reached = self._reached.get(what, [])
        at = bisect_left(reached, least)
        return self._lines[what][at] if at < len(reached) else None

    def add(self, line: int, entry: Entry) -> None:
        """Takes an entry."""
        if not entry.groups:
            return
        self._reach(None, line, entry.gbc)
        for sg, spri, number in entry.ends.groups:
            self._reach((sg, spri), line, number)

    def _reach(self, what: Optional[Tuple[int, int]], line: int, number: int) -> None:
        reached = self._reached.setdefault(what, [])
        if not reached or number > reached[-1]:
            reached.append(number)
            self._lines.setdefault(what, []).append(line)


def twice(manifest: Manifest) -> List[Found]:
    """Entries of one log, one file, or one session whose numbers don't go on."""
    found: List[Found] = []
    names: Dict[str, int] = {}
    sums: Dict[str, Tuple[int, Entry]] = {}
    sessions: Dict[Session, Nights] = {}
    for line, it in numbered(manifest):
        nights = sessions.setdefault(it.session, Nights())
        same = sums.setdefault(it.sha256, (line, it))
        firsts = {"log": names.setdefault(it.name, line), "file": line if it.is_like(same[1]) else same[0],
                  "session": nights.first_against(it) or line}
        what = next((what for what, first in firsts.items() if first < line), None)
        if what is None:
            nights.add(line, it)
        else:
            found.append(Found(f"line {line}", f"twice, the line {firsts[what]} has this {what} too", it.number))
    return found


def copied_from_nothing(manifest: Manifest) -> List[Found]:
    """Lines about copies of files that no entry before them has."""
    return [Found(f"line {it.line}", f"copied, no line before it has a file {shown_name(it.copied.name)} with the SHA-256 of the copy",
                  it.copied.number) for it in manifest.copies if not it.is_named]


def skipped(manifest: Manifest, seen: int) -> List[Found]:
    """RSIDs that no entry has, between those of two entries of one signer, and numbers between two nights of one session.

    Numbers that runs left out are a finding too, but for those of the lines up to one that was seen.
    """
    found: List[Found] = []
    last: Dict[Tuple[bytes, ...], int] = {}
    ends: Dict[Tuple[Session, int, int], int] = {}
    for line, it in numbered(manifest):
        signer, rsid = it.session[:3], int(it.session.rsid)
        before = last.get(signer)
        names = b" ".join(signer).decode("ascii")
        if before is not None and rsid > before + 1:
            which = f"RSID {before + 1}" if rsid == before + 2 else f"RSID {before + 1} to {rsid - 1}"
            found.append(Found(f"line {line}", f"skipped, no line before it has {which} of {names}", it.number))
        elif before is not None and rsid < before:
            found.append(Found(f"line {line}", f"order, its RSID of {names} is less than the one before", it.number))
        last[signer] = max(rsid, before or 0)
        for sg, spri, number in it.ends.groups:
            end = ends.get((it.session, sg, spri))
            if end is None and (before == rsid or it.left_out is not None):
                end = 0
            for kind, least, most in () if end is None else lacking(it, (sg, spri), end):
                if kind == "left-out" and line <= seen:
                    continue
                found.append(Found(f"line {line}", f"{kind}, no line before it has the numbers {least} to {most} of SG {sg}, SPRI "
                                   f"{spri} of the session {it.session}{STOPPED if kind == 'left-out' else ''}", it.number))
            ends[it.session, sg, spri] = max(number - 1, end or 0)
    return found


def lacking(entry: Entry, group: Tuple[int, int], end: int) -> Iterator[Tuple[str, int, int]]:
    """The numbers after an end that an entry doesn't have, up to its own: those that runs left out, and all others."""
    left = entry.left_out
    if left is not None:
        first, after = max(left.before.number(group), end + 1), left.after.number(group)
        if first < after:
            if end + 1 < first:
                yield "skipped", end + 1, first - 1
            yield "left-out", first, after - 1
            end = after - 1
    for it in entry.groups:
        if (it.sg, it.spri) == group and end + 1 < it.first:
            yield "skipped", end + 1, it.first - 1


class Names:
    """The entries of a manifest by the names and by the octets of their logs."""

    def __init__(self, manifest: Manifest) -> None:
        self._by_name = {it.name: it for it in reversed(manifest.entries)}
        self._by_sum = {it.sha256: it for it in reversed(manifest.entries)}
        self._aside = {it.set_aside.name: it for it in manifest.entries if it.set_aside is not None}

    def entry(self, stored: Stored) -> Optional[Entry]:
        """The entry of a log: the one that has its name, or else its octets."""
        return self._by_name.get(stored.name) or self._with_octets(stored)

    def _with_octets(self, stored: Stored) -> Optional[Entry]:
        return None if stored.sha256 is None else self._by_sum.get(stored.sha256)

    def look(self, stored: Stored) -> Optional[Found]:
        """What is wrong with a log."""
        entry = self._by_name.get(stored.name)
        other = self._with_octets(stored)
        if entry is None:
            aside = self._aside.get(stored.name)
            if aside is not None and aside.set_aside is not None:
                return differs(stored, aside.number, aside.set_aside.size, aside.set_aside.sha256)
            if other is None:
                return Found(stored.label, "unknown, no entry names this log")
            if not stored.name:
                return None
        elif entry.sha256 == stored.sha256:
            return None
        if other is not None:
            return Found(stored.label, f"renamed, it has the octets of {shown_name(other.name)} in entry {other.number}",
                         other.number)
        assert entry is not None
        return differs(stored, entry.number, entry.size, entry.sha256)


def differs(stored: Stored, number: int, size: int, sha256: str) -> Optional[Found]:
    """How a file differs from the one of an entry, as far as it was looked at."""
    if stored.sha256 == sha256 or stored.size is None or (stored.sha256 is None and stored.size == size):
        return None
    if stored.size == 0:
        return Found(stored.label, f"empty, entry {number} has {counted(size, 'octet')}", number)
    if stored.size != size:
        word = "shorter" if stored.size < size else "longer"
        return Found(stored.label, f"{word}, it has {counted(stored.size, 'octet')}, and entry {number} has {size}", number)
    return Found(stored.label, f"changed, it has the size of entry {number}, and another SHA-256", number)


def of_logs(manifest: Manifest, logs: Sequence[Stored]) -> List[Found]:
    """What is wrong with all logs that are there, and which are missing. One that was copied away may be gone.

    Where there is nothing to compare, that is a finding too: somebody may have emptied both.
    """
    names = Names(manifest)
    found = [it for it in map(names.look, logs) if it is not None]
    here, copied = {it.name for it in logs}, manifest.copied
    for entry in manifest.entries:
        for file in (entry, entry.set_aside):
            if file is not None and file.name not in here and (file.name, file.sha256) not in copied:
                found.append(Found(shown_name(file.name), f"missing, entry {entry.number} names it, and it isn't here",
                                   entry.number))
    if not manifest.entries and not logs:
        found.append(Found("manifest", "empty, it names no log, and none is here: so nothing is shown"))
    return found


class Reviewed(NamedTuple):
    """What a review reports of sessions: their states, and the first and the last number of each group."""

    states: Dict[Session, str]
    groups: Dict[Session, List[Extent]]
    announced: Dict[Session, List[Extent]]
    """The same from the first number on that is announced: a later night of a session lacks the numbers before it."""


def of_review(nights: Sequence[Entry], label: str, reviewed: Reviewed) -> Optional[Found]:
    """Whether the session of an entry, or of the entries of its nights, and the numbers, are those that a review has."""
    entry = nights[0]
    state = reviewed.states.get(entry.session)
    if state is None or state == "absent":
        return Found(label, f"session, entry {entry.number} has the session {entry.session}, which isn't here", entry.number)
    if state != "joined":
        return Found(label, f"session, the session {entry.session} of entry {entry.number} is {state}", entry.number)
    wanted = joined(nights)
    here = reviewed.groups.get(entry.session, [])
    if here != wanted and reviewed.announced.get(entry.session, []) != wanted:
        return Found(label, f"numbers, entry {entry.number} has {extents(entry.groups)}, and here are {extents(here)}"
                     if len(nights) == 1 else f"numbers, the entries {entry.number} to {nights[-1].number} of the session have "
                     f"{extents(wanted)}, and here are {extents(here)}", entry.number)
    return None


def joined(nights: Sequence[Entry]) -> List[Extent]:
    """The numbers of all nights of a session."""
    found: Dict[Tuple[int, int], Extent] = {}
    for it in (group for night in nights for group in night.groups):
        known = found.get((it.sg, it.spri), it)
        found[it.sg, it.spri] = Extent(it.sg, it.spri, min(it.first, known.first), max(it.last, known.last))
    return [found[it] for it in sorted(found)]


def of_sessions(entries: Sequence[Entry], reviewed: Reviewed) -> List[Found]:
    """Sessions of a review that no entry of its logs has."""
    known = {it.session for it in entries}
    return [Found(f"session {it}", "unknown, no entry of these logs has it") for it, state in reviewed.states.items()
            if it not in known and state != "absent"]


def extents(groups: Sequence[Extent]) -> str:
    """The numbers of groups in words."""
    return ", ".join(f"numbers {it.first} to {it.last} of SG {it.sg}, SPRI {it.spri}" for it in groups) or "no numbers"
