"""What a check prints: a line for each finding, and one for the verdict; or the same as objects of JSON."""
from __future__ import annotations

from dataclasses import dataclass, field
from typing import Any, Dict, List

from ..json_text import compact
from ..words import counted, grouped, shown_name
from .accept import is_held, reason_of
from .findings import KINDS, Finding, in_order
from .options import utc
from .originator import Originator
from .record import Held
from .stamps import Cover


@dataclass
class Report:
    """What there is to say."""

    open: List[Finding] = field(default_factory=list)
    accepted: List[Finding] = field(default_factory=list)
    whys: Dict[str, str] = field(default_factory=dict)
    """Why each accepted finding is accepted, with its day."""
    originators: List[Dict[str, Any]] = field(default_factory=list)
    covers: Dict[str, Cover] = field(default_factory=dict)
    """How far time stamps go, by the names of originators."""
    files: int = 0
    removed: int = 0
    unchecked: int = 0
    """How many time stamps no authority was given for."""
    checked: List[Originator] = field(default_factory=list)
    """The originators whose folders were looked at."""

    def add(self, found: List[Finding], held: Held) -> None:
        """Sorts findings by what was accepted."""
        look = is_held(held)
        self.open += [it for it in found if not look(it)]
        for it in filter(look, found):
            self.accepted.append(it)
            self.whys[it.name] = f"{utc(held.rows[it.name]['time'])[:10]}: {reason_of(held, it)}"

    def add_originator(self, it: Originator) -> None:
        """Counts the files of an originator."""
        look, newest = is_held(it.record.accepted), it.counts.newest
        self.files += it.counts.files
        self.removed += it.counts.removed
        fields = None if newest is None else {"name": shown_name(newest.name), "sha256": newest.sha256, "rsid": newest.rsid,
                                              "seen": utc(newest.seen)}
        accepted = sum(map(look, it.found))
        self.originators.append({"name": shown_name(it.name), "files": it.counts.files, "newest": fields,
                                 "findings": len(it.found) - accepted, "accepted": accepted})
        self.unchecked += it.counts.unchecked
        self.checked.append(it)
        if it.counts.cover is not None:
            self.covers[shown_name(it.name)] = it.counts.cover
            self.originators[-1]["stamped"] = it.counts.cover.fields()

    @property
    def status(self) -> int:
        """1 where something is open."""
        return 1 if self.open else 0

    def verdict(self) -> str:
        """All of it in a line."""
        said = f"{grouped(self.files, 'file')} of {grouped(len(self.originators), 'originator')}: "
        said += grouped(len(self.open), "finding") if self.open else "clean"
        said += f", {self.removed:,} removed after their time" if self.removed else ""
        said += f", {grouped(self.unchecked, 'time stamp')} not checked without --tsa-ca" if self.unchecked else ""
        return said + (f", {counted(len(self.accepted), 'accepted finding')}" if self.accepted else "")

    def text(self, shows_head: bool) -> str:
        """For a person."""
        lines = [f"{it.name}: {it.text}. To do: {KINDS[it.kind].act}" for it in in_order(self.open)]
        lines += [f"accepted: {it.name}: {it.text} (accepted {self.whys[it.name]})" for it in in_order(self.accepted)]
        lines += [f"stamp: {name}: {it.sentence()}" for name, it in self.covers.items()]
        if shows_head:
            lines += [f"newest: {it['name']}: {it['newest']['name']}, SHA-256 {it['newest']['sha256']}"
                      for it in self.originators if it["newest"] is not None]
        return "".join(f"{it}\n" for it in [*lines, self.verdict()])

    def json(self) -> str:
        """For a program."""
        rows: List[Dict[str, Any]] = []
        for it in [*in_order(self.open), *in_order(self.accepted)]:
            rows.append({"line": "finding", "name": it.name, "kind": it.kind, "fact": it.fact, "text": it.text,
                         "act": KINDS[it.kind].act, "accepted": self.whys.get(it.name)})
        rows += [{"line": "originator", **it} for it in self.originators]
        rows.append({"line": "verdict", "verdict": self.verdict(), **self.fields()})
        return "".join(f"{compact(it)}\n" for it in rows)

    def fields(self) -> Dict[str, Any]:
        """Its counts."""
        return {"status": self.status, "files": self.files, "originators": len(self.originators), "findings": len(self.open),
                "accepted": len(self.accepted), "removed": self.removed}

    def status_fields(self) -> Dict[str, Any]:
        """What the status file has of it."""
        return {**self.fields(), "verdict": self.verdict(), "originators": self.originators,
                "findings": [it.name for it in in_order(self.open)], "accepted": [it.name for it in in_order(self.accepted)]}
