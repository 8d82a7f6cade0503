"""Writes a report for programs: one object of JSON a line (docs/dev/FORMATS.md, "A verdict as JSON")."""
from __future__ import annotations

from typing import BinaryIO, Dict, Optional, Sequence, Union

from . import sha1
from .blocks import Session
from .broken_blocks import Broken
from .damage import Damaged
from .identity import UNKNOWN, identity_fields
from .inspected import most_shown
from .json_text import compact
from .pairs import Neighbour, Stretch
from .reach import Reached
from .report import Group
from .reviewed import Reviewed
from .claims import Claim
from .strangers import NO_CLAIMS
from .stretch_visitor import StretchVisitor
from .verdict import sentence
from .words import shown_name, spelled
from .workplace import put

Fields = Dict[str, Union[str, int, None]]

# what the report calls a cause or a message, and the word of a verdict for it
FINDINGS = {"lost": "missing", "disputed": "disputed", "unlisted": "unlisted", "refused": "unverified", "spoilt": "spoilt"}


def names_of(session: Session) -> Fields:
    """The four names of a session."""
    host, app, procid, rsid = session
    return {"host": spelled(host), "app": spelled(app), "procid": spelled(procid), "rsid": int(rsid)}


class JsonVerdict(StretchVisitor):
    """Writes JSON into a passing file, as the report is read."""

    def __init__(self, out: BinaryIO, reviewed: Reviewed, only_findings: bool) -> None:
        super().__init__(reviewed.survey)
        self._out = out
        self._reviewed = reviewed
        self._only_findings = only_findings
        self._front = ""

    def _put(self, fields: object) -> None:
        put(self._out, compact(fields).encode("ascii") + b"\n")

    def session(self, session: Session, state: str) -> None:
        """Writes a session, with whose its key is, and when its messages were sent."""
        super().session(session, state)
        facts = self._reviewed.notes.of(session)
        finding = facts.finding if facts else UNKNOWN
        fields: Dict[str, object] = {"line": "session", **names_of(session), "state": state}
        fields.update(identity_fields(finding))
        fields["weakness"] = sha1.weakness(facts, state)
        fields["strangers"] = self._reviewed.facts.strangers.get(session, NO_CLAIMS).blocks
        fields.update(zip(("first_timestamp", "last_timestamp"), self._reviewed.detailed().times.of_session(session)))
        self._put(fields)

    def begin_group(self, group: Group) -> None:
        """Makes the front of its objects for listed messages."""
        super().begin_group(group)
        front: Fields = {"line": "ok", **names_of(group.session), "sg": group.sg, "spri": group.spri}
        self._front = compact(front)[:-1]

    def listed(self, group: Group, numbers: Sequence[int], places: Sequence[int]) -> None:
        """Writes what stands before these, and listed messages."""
        super().listed(group, numbers, places)
        if self._only_findings:
            return
        front = self._front
        text = "".join(f'{front},"number":{number},"place":{place}}}\n' for number, place in zip(numbers, places))
        put(self._out, text.encode("ascii"))

    def stretch(self, group: Group, stretch: Stretch) -> None:
        """Writes numbers that follow one another, and are missing, disputed or unannounced."""
        is_hole = stretch.kind == "hole"
        why: Dict[str, object] = {} if is_hole else {"why": stretch.kind, "likely_places": list(stretch.likely),
                                                     "likely_offsets": [it.offset for it in stretch.damaged]}
        self._put({"line": "hole" if is_hole else "gap", **names_of(group.session), "sg": group.sg, "spri": group.spri,
                   "first": stretch.first, "last": stretch.last, "count": stretch.length, **why,
                   "before": self._neighbour(stretch.before), "after": self._neighbour(stretch.behind),
                   "finding": "unannounced" if is_hole else FINDINGS[stretch.kind]})

    def _neighbour(self, neighbour: Optional[Neighbour]) -> Optional[Fields]:
        """A listed message beside numbers that aren't."""
        if neighbour is None:
            return None
        number, place = neighbour
        return {"number": number, "place": place, "timestamp": self._reviewed.detailed().times.of_neighbour(neighbour)}

    def end_group(self, group: Group) -> None:
        """Writes what stands at the end of a group, and which of its messages are out of order."""
        super().end_group(group)
        if self.is_in_order and group.out_of_order:
            self._put({"line": "disorder", **names_of(group.session), "sg": group.sg, "spri": group.spri, "count": group.out_of_order,
                       "number": group.first_out_of_order, "place": group.first_place, "finding": "out of order"})

    def outside(self, session: Session, sg: int, spri: int, first: int, last: int, is_early: bool) -> None:
        """Writes announced numbers that don't belong to the night."""
        word = "early" if is_early else "beyond"
        self._put({"line": word, **names_of(session), "sg": sg, "spri": spri, "first": first, "last": last,
                   "count": last - first + 1, "finding": word})

    def tail_after(self, session: Session, sg: int, spri: int, first: int, last: int, before: Optional[Neighbour]) -> None:
        """Writes numbers that are missing up to a counter."""
        self._put({"line": "tail", **names_of(session), "sg": sg, "spri": spri, "first": first, "last": last,
                   "count": last - first + 1, "before": self._neighbour(before), "finding": "missing"})

    def missing_blocks(self, session: Session, first: int, last: int) -> None:
        """Writes missing signature blocks."""
        self._put({"line": "blocks", **names_of(session), "first": first, "last": last, "finding": "missing"})

    def stray(self, kind: str, place: int, cause: str) -> None:
        """Writes a message that is unlisted, refused or spoilt."""
        found = self._reviewed.inspected.find(place, most_shown(kind))
        why: Dict[str, object] = {"cause": cause} if kind == "spoilt" else {}
        if kind == "unlisted":
            why["unproved"] = place in self._reviewed.unproved
        if kind == "refused":
            claim = self._reviewed.claim_at(place)
            why["claims"] = None if claim is None else claim_fields(*claim)
        self._put({"line": kind, "place": place, **why, "file": shown_name(found.file), "file_place": found.place,
                   "timestamp": found.timestamp, "octets": found.octets, "text": spelled(found.text),
                   "finding": FINDINGS[kind]})

    def damaged(self, stretch: Damaged) -> None:
        """Writes which octets are damaged."""
        self._put({"line": "damaged", "place": stretch.place, "offset": stretch.offset, "length": stretch.length,
                   **self._file_octet(stretch.offset), "finding": "damaged"})

    def torn(self, offset: int) -> None:
        """Writes where the log breaks off."""
        self._put({"line": "torn", "offset": offset, **self._file_octet(offset), "finding": "torn"})

    def _file_octet(self, offset: int) -> Fields:
        """The file of an octet, and which of its octets that is."""
        part = self._reviewed.log.part_of_offset(offset)
        return {"file": shown_name(part.name), "file_offset": offset - part.offset}

    def end(self, count: int) -> None:
        """Writes how many messages there are."""
        self._put({"line": "end", "count": count})

    def verdict(self) -> bytes:
        """Writes the verdict, with all counts, and how far it reaches. Gives what stands in front: what was checked."""
        facts, survey, totals = self._reviewed.facts, self._reviewed.survey, self.totals
        missing: Fields = {} if self.counters is None else {"missing_up_to_counters": totals.tails}
        missing.update({} if self.missing is None else {"missing_blocks": self.missing})
        missing.update({} if self.begin is None else {"early": totals.early, "beyond": totals.beyond})
        self._put({
            "line": "verdict", "status": facts.status, "review_status": facts.review_status, "verdict": sentence(facts),
            "sessions": dict(sorted(self.states.items())), "listed": totals.listed, "missing": totals.lost,
            "disputed": totals.disputed, "unannounced": totals.unannounced, **missing, "unlisted": totals.unlisted, "unproved": facts.unproved,
            "verified": survey.verified, "unverified": totals.refused, "strangers": facts.of_strangers,
            "strangers_ignored": facts.is_ignoring, "unbound_keys": facts.unbound,
            "other_keys": sum(facts.other_keys.values()), "spoilt": totals.spoilt,
            **broken_fields(facts.broken), "damaged": totals.damaged, "damaged_octets": totals.damaged_octets,
            "torn": totals.torn is not None,
            "groups": [self._group(it) for it in survey.reach],
        })
        return compact(dict({"line": "checked"}, **self._reviewed.detailed().checked.fields())).encode("ascii") + b"\n"

    def _group(self, it: Reached) -> Fields:
        counted: Fields = {} if self.counters is None else {"next": it.next_number, "next_gbc": it.next_gbc}
        return {**names_of(it.session), "sg": it.sg, "spri": it.spri, "last": it.last, "gbc": it.gbc, **counted,
                "out_of_order": it.out_of_order, "first_out_of_order": it.first_out_of_order}


def claim_fields(it: Claim, stored: int) -> Dict[str, object]:
    """What an unverified block of a joined session would announce, and how many unlisted messages have its hashes."""
    numbers: Fields = {"first": it.first, "last": it.last} if it.gbc is not None else {"first": None, "last": None}
    return {**names_of(it.session), "sg": it.sg, "spri": it.spri, "gbc": it.gbc, **numbers, "stored": stored}


def broken_fields(broken: Broken) -> Fields:
    """How many messages hold the mark of a block and are none, and where the first of them stands."""
    first = broken.first
    return {
        "unreadable": broken.unreadable,
        "first_unreadable": None if first is None else first.place,
        "first_unreadable_cause": None if first is None else first.cause,
        "first_unreadable_octet": None if first is None else first.octet,
        "ordinary_with_mark": broken.ordinary,
        "first_ordinary_with_mark": broken.first_ordinary,
    }
