"""Checks the logs that are verified against a manifest: their octets, their names, their sessions and their numbers."""
from __future__ import annotations

import argparse
from typing import BinaryIO, Dict, List, Optional, Tuple

from .blocks import Session
from .digests import Digest
from .faults import Fault
from .logs import Log
from .manifest_findings import Found, Names, Reviewed, Stored, bare, of_manifest, of_review, of_sessions, seen_up_to
from .manifest_form import Entry, Extent, Manifest, Mark, Reached, read_manifest, read_mark
from .report import Group, ReportVisitor
from .words import counted, shown_name
from .workplace import put, notify


def read_marks(arguments: argparse.Namespace) -> Tuple[Optional[Mark], Optional[Mark]]:
    """The entry that was kept apart, and the one that was seen, where the options name them."""
    kept, seen = arguments.manifest_last, arguments.manifest_seen
    return (None if kept is None else read_mark(kept, "--manifest-last"),
            None if seen is None else read_mark(seen, "--manifest-seen"))


class Extents(ReportVisitor):
    """Keeps the states of the sessions, and the first and last number of each group."""

    def __init__(self) -> None:
        """Nothing is read yet."""
        super().__init__()
        self.reviewed = Reviewed({}, {}, {})

    def session(self, session: Session, state: str) -> None:
        """Keeps its state."""
        self.reviewed.states[session] = state

    def end_group(self, group: Group) -> None:
        """Keeps its numbers."""
        self.reviewed.groups.setdefault(group.session, []).append(Extent(group.sg, group.spri, group.first, group.last))
        self.reviewed.announced.setdefault(group.session, []).append(Extent(group.sg, group.spri, group.announced, group.last))


class Listed:
    """The given logs, beside a manifest."""

    def __init__(self, manifest: Manifest, kept: Optional[Mark], seen: Optional[Mark]) -> None:
        self.path = manifest.path
        self._seen = seen
        self._manifest = manifest
        self._kept = kept
        self._entries: List[Entry] = []
        self._labels: Dict[int, str] = {}
        # the sizes and the SHA-256 of the logs as they were compared
        self._sums: List[Tuple[int, str]] = []
        self.found: List[Found] = []
        # beside the survey of the report
        self._extents = Extents()

    @classmethod
    def from_arguments(cls, arguments: argparse.Namespace) -> Optional[Listed]:
        """The manifest that the options name, or None where they name none."""
        if arguments.manifest is None:
            if arguments.manifest_last is not None:
                raise Fault("--manifest-last says something of a manifest: name it with --manifest")
            if arguments.manifest_seen is not None:
                raise Fault("--manifest-seen says something of a manifest: name it with --manifest")
            if arguments.from_manifest:
                raise Fault("--from-manifest begins at the counters of a manifest: name it with --manifest")
            return None
        return cls(read_manifest(arguments.manifest), *read_marks(arguments))

    @property
    def digest(self) -> Digest:
        """The manifest as it was read."""
        return Digest(self.path, self._manifest.size, self._manifest.sha256)

    def look(self, log: Log) -> List[bytes]:
        """Compares the logs with their entries. Gives the counters of these, as lines of a counters file."""
        names = Names(self._manifest)
        self.found = of_manifest(self._manifest, self._kept, self._seen)
        self._sums = log.sums()
        for part, (size, sha256) in zip(log.parts, self._sums):
            name = "" if part.name == "-" else bare(part.name.rpartition("/")[2])
            self._take(names, Stored(shown_name(part.name), name, size, sha256))
        return [f"{line}\n".encode("ascii") for it in self._entries for line in it.counters]

    def begin_extents(self) -> Extents:
        """What is handed a report from its front on."""
        self._extents = Extents()
        return self._extents

    def refuse_other(self, log: Log) -> None:
        """Refuses a log of which other octets were reviewed than were compared."""
        if self._sums != log.sums():
            raise log.changed()

    def begin(self) -> bytes:
        """The counters with which the nights begin that the logs are, as lines of a counters file."""
        firsts: Dict[Session, int] = {}
        for entry in self._entries:
            firsts[entry.session] = min(entry.number, firsts.get(entry.session, entry.number))
        known: Dict[Session, Reached] = {}
        seen = seen_up_to(self._manifest, self._seen)
        for entry in self._manifest.entries:
            first = firsts.get(entry.session, 0)
            if entry.number < first:
                known.setdefault(entry.session, Reached()).go_on(entry)
            elif entry.number == first <= seen and entry.left_out is not None:
                known.setdefault(entry.session, Reached()).pass_over(entry.left_out)
        return b"".join(it.lines(session) for session, it in known.items())

    def _take(self, names: Names, stored: Stored) -> None:
        """Compares a log with its entry."""
        found = names.look(stored)
        if found is not None:
            self.found.append(found)
        entry = names.entry(stored)
        if entry is None:
            return
        if entry.number in self._labels:
            self.found.append(Found(stored.label, f"twice, entry {entry.number} is of {self._labels[entry.number]} too",
                                    entry.number))
            return
        self._labels[entry.number] = stored.label
        self._entries.append(entry)

    def compare(self) -> int:
        """Compares the sessions and numbers of the entries with those of the report. Gives all findings' number."""
        reviewed = self._extents.reviewed
        nights: Dict[Session, List[Entry]] = {}
        for it in self._entries:
            nights.setdefault(it.session, []).append(it)
        for entries in nights.values():
            found = of_review(entries, self._labels[entries[0].number], reviewed)
            if found is not None:
                self.found.append(found)
        self.found += of_sessions(self._entries, reviewed)
        return len(self.found)

    def sentence(self) -> str:
        """What was found, in a sentence."""
        name = shown_name(self.path)
        if not self.found:
            return f"Manifest {name}: each log, its session and its numbers are those of its entry."
        return f"Manifest {name}: {counted(len(self.found), 'finding')}."

    def put(self, out: BinaryIO, is_json: bool) -> None:
        """Writes the findings into a passing file."""
        lines = [it.line() if is_json else f"  {it.text()}" for it in self.found]
        lines = lines if is_json else [self.sentence(), *lines]
        put(out, "".join(f"{it}\n" for it in lines).encode("utf-8", "backslashreplace"))

    def notify(self) -> None:
        """Says the findings on standard error, where standard output has the report alone."""
        for it in self.found:
            notify(f"ssign-keys: {it.text()}")
