"""Accepted findings: a name and the fact that was seen. They hold as long as the same is seen, and lapse when it is gone."""
from __future__ import annotations

from typing import Callable, Dict, Iterable, List, Sequence, Set

from ..faults import Fault
from ..words import shown_text
from .findings import Finding
from .lines import Row
from .memory import Memory
from .record import Held


def accept(memory: Memory, names: Sequence[str], why: str, now: int) -> None:
    """Has findings be accepted, each with the fact that the last check saw. Raises Fault, before any is,."""
    opened = open_findings(memory)
    known = {name for it in opened.values() for name in it}
    for name in names:
        if name not in known:
            raise Fault(f"the last check has no open finding '{name}': its output has the names, each up to its colon")
    for owner, found in opened.items():
        rows: List[Row] = [{"kind": "accept", "name": name, "fact": found[name], "why": why, "time": now}
                           for name in dict.fromkeys(names) if name in found]
        if owner is None:
            memory.runs.append(rows)
            for row in rows:
                memory.accepted.take(row)
            continue
        for row in rows:
            memory.record(owner).put(row)
        memory.record(owner).save()


def open_findings(memory: Memory) -> "Dict[str | None, Dict[str, str]]":
    """The open findings of the last check, by originator; None has those of the memory."""
    return {None: memory.open, **{it: memory.record(it).open for it in memory.recorded()}}


def is_held(held: Held) -> Callable[[Finding], bool]:
    """Whether a finding is accepted as it is."""
    def look(finding: Finding) -> bool:
        row = held.rows.get(finding.name)
        return row is not None and row["fact"] == finding.fact
    return look


def doubted_in(memory: Memory, found: Iterable[Finding]) -> Set[str]:
    """The places of files of the memory that were edited, unless that is accepted."""
    look = is_held(memory.accepted)
    return {it.place for it in found if it.kind == "edited" and not look(it)}


def lapses(held: Held, found: Iterable[Finding]) -> List[Row]:
    """Lines that let accepted findings lapse that are gone, or of which something else is seen."""
    look = is_held(held)
    names = {it.name for it in found if look(it)}
    return [{"kind": "lapse", "name": name} for name in sorted(held.rows) if name not in names]


def reason_of(held: Held, finding: Finding) -> str:
    """Why a finding was accepted, as it is shown."""
    return shown_text(str(held.rows[finding.name]["why"]))
