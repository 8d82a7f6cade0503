"""What of a report is known before anything of it is shown: its counts, which messages have lines, how far each group goes."""
from __future__ import annotations

from array import array
from collections import Counter
from typing import BinaryIO, Dict, Optional, Sequence, Set, Tuple

from . import sha1
from .block_facts import BlockFacts, Notes
from .blocks import Session
from .damage import Damage, Damaged
from .kept import Counters
from .reach import Reach
from .report import Group, ReportVisitor
from .report_lines import values_of, wrong

# more octets than a last line has
LONGEST = 64


def messages_of(report: BinaryIO) -> int:
    """How many messages a whole report counts in its last line."""
    report.seek(max(0, report.seek(0, 2) - LONGEST))
    word, values = values_of(report.read().rstrip(b"\n").rpartition(b"\n")[2])
    if word != "end":
        raise wrong("it has no end")
    return int(values[0])


class Survey(ReportVisitor):
    """Counts the lines of a report, and keeps which messages are unlisted, unverified or spoilt, and how far each group goes."""

    def __init__(self, notes: Notes, is_whole: bool, counters: Optional[Counters], begin: Optional[Counters],
                 is_in_order: bool, drawn: int) -> None:
        """Nothing is surveyed yet. If a page is to be drawn, it is kept which of so many messages have a line."""
        super().__init__(is_whole, counters, begin, is_in_order)
        self.damage = Damage()
        self.unlisted = array("I")
        self.refused = array("I")
        self.spoilt = array("I")
        # refused blocks that may be a signer's last ones, changed
        self.late = array("I")
        self.joined: Set[Session] = set()
        self.disputed: Set[Session] = set()
        # the fingerprint of each other key than the given ones, and how many untrusted sessions state it
        self.other_keys: Counter[str] = Counter()
        # how many sessions aren't joined, by what the trust file answers about their keys
        self.ended: Counter[str] = Counter()
        self.reach = Reach(counters)
        self._notes = notes
        self._facts: Optional[BlockFacts] = None
        # of each group the first and the last numbers of its holes, and its last number
        self._holes: Dict[Tuple[Session, int, int], Tuple["array[int]", "array[int]", int]] = {}
        self._firsts, self._lasts = array("Q"), array("Q")
        # the groups of the present session in which a number is announced
        self._known: Set[Tuple[int, int]] = set()
        # the first session in which the numbers of a group don't begin with 1
        self.later: Optional[Session] = None
        # how many sessions rest on SHA-1
        self.on_sha1 = 0
        # for each place whether a line has it
        self._named = bytearray(drawn)

    @property
    def verified(self) -> int:
        """How many blocks are verified: no line is about one of them."""
        totals = self.totals
        return totals.messages - totals.listed - totals.unlisted - totals.refused - totals.spoilt

    def count_named(self, first: int, end: int) -> int:
        """How many of the places from a first one up to an end have a line."""
        return self._named.count(1, first, end)

    @property
    def has_blocks(self) -> bool:
        """Whether blocks are there, verified or not."""
        return bool(self.totals.refused + self.totals.spoilt + self.verified)

    def _name(self, places: Sequence[int]) -> None:
        if self._named:
            for place in places:
                self._named[place] = 1

    def session(self, session: Session, state: str) -> None:
        """Looks up what its blocks vouch for."""
        self._facts, self._known = self._notes.of(session), set()
        self.on_sha1 += sha1.weakness(self._facts, state) is not None
        if state == "joined":
            self.joined.add(session)
        if state == "disputed":
            self.disputed.add(session)
        if state == "untrusted" and self._facts is not None and self._facts.finding.other_key:
            self.other_keys[self._facts.finding.other_key] += 1
        if state in ("untrusted", "unaccepted") and self._facts is not None and self._facts.finding.by_line:
            self.ended[self._facts.finding.by_line.answer] += 1
        if state not in ("joined", "absent"):
            self.reach.pass_over(session)

    def begin_group(self, group: Group) -> None:
        """Keeps that a number of the group is announced."""
        self._known.add((group.sg, group.spri))

    def listed(self, group: Group, numbers: Sequence[int], places: Sequence[int]) -> None:
        """Takes places."""
        self._name(places)

    def end_group(self, group: Group) -> None:
        """Keeps how far the group goes."""
        greatest = None if self._facts is None else self._facts.greatest.get((group.sg, group.spri))
        self.reach.add(group.session, group.sg, group.spri, group.last, greatest, group.out_of_order,
                       group.first_out_of_order if group.out_of_order else None, group.first)
        self._holes[group.session, group.sg, group.spri] = self._firsts, self._lasts, group.last
        self._firsts, self._lasts = array("Q"), array("Q")

    def announced(self, session: Session, sg: int, spri: int) -> Tuple["array[int]", "array[int]", int]:
        """Of a group, the first and the last numbers of its holes, and its last number: 0 where none is announced."""
        return self._holes.get((session, sg, spri), (self._firsts, self._lasts, 0))

    def hole(self, group: Group, first: int, last: int) -> None:
        """Keeps the hole, and a session whose front isn't here."""
        self._firsts.append(first)
        self._lasts.append(last)
        if first == 1 and self.later is None:
            self.later = group.session

    def tail(self, session: Session, sg: int, spri: int, first: int, last: int) -> None:
        """Keeps a group of which no other line has anything, because nothing of it is announced."""
        if (sg, spri) not in self._known:
            self.reach.add(session, sg, spri, 0, None)

    def stray(self, kind: str, place: int, cause: str) -> None:
        """Takes a place."""
        self._name((place,))
        {"unlisted": self.unlisted, "refused": self.refused, "spoilt": self.spoilt}[kind].append(place)

    def not_ignored(self, place: int, why: str) -> None:
        """Keeps a block that may be its signer's last one."""
        if why == "late":
            self.late.append(place)

    def damaged(self, stretch: Damaged) -> None:
        """Keeps it."""
        self.damage.add(stretch)
