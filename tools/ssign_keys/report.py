"""Reads the report of `ssign review` from its file, line by line, without keeping it (docs/dev/FORMATS.md, "A report", "A tally",
"A report as JSON"). The values of an object stand in the order of the words of a line, so both forms are read alike.

Nothing is decided about a message here: what is counted are the lines. The program is trusted. What it can't have written isn't
looked for, but a report of lines that aren't known is refused.
"""
from __future__ import annotations

from dataclasses import dataclass, field
from typing import BinaryIO, Callable, Dict, List, Optional, Sequence, Set

from .blocks import Session
from .damage import Damaged
from .kept import Counters
from .progress import Progress
from .report_lines import PLACE, Values, front_of, session_of, stretches, text_of, values_of, wrong

# fewer octets of lines than these are taken line by line
LEAST = 1 << 10


@dataclass
class Group:
    """What a report has of one group of a session."""

    session: Session
    sg: int
    spri: int
    # the first and the last number that a line is about, and the first announced one
    first: int = 0
    last: int = 0
    announced: int = 0
    # whether the last line, if there is one, is about a listed number; how many numbers no line is about; whether it has its tally
    is_listing: bool = True
    left_out: int = 0
    is_tallied: bool = False
    listed: int = 0
    lost: int = 0
    disputed: int = 0
    unannounced: int = 0
    # of the listed messages: how many stand before the one with the number before, and the first such number and its place
    out_of_order: int = 0
    first_out_of_order: int = 0
    first_place: int = 0
    place: int = -1

    def reach(self, first: int, last: int, is_listed: bool) -> None:
        """Takes numbers into account, which follow those of the line before."""
        self.left_out += first - self.last - 1
        self.first = self.first or first
        self.last, self.is_listing = last, is_listed

    def compare(self, numbers: Sequence[int], places: Sequence[int]) -> None:
        """Counts those of these listed messages that stand before the one with the number before."""
        found = [at for at, before in enumerate([self.place, *places[:-1]]) if before > places[at]]
        if found and not self.out_of_order:
            self.first_out_of_order, self.first_place = numbers[found[0]], places[found[0]]
        self.out_of_order += len(found)
        self.place = places[-1]


@dataclass
class Totals:
    """How many lines of each kind a report has, and how many numbers they speak of."""

    listed: int = 0
    lost: int = 0
    disputed: int = 0
    unannounced: int = 0
    # numbers of `tail` lines, which only counters bring about
    tails: int = 0
    # announced numbers before the night and after it, which only first counters bring about
    early: int = 0
    beyond: int = 0
    out_of_order: int = 0
    unlisted: int = 0
    refused: int = 0
    spoilt: int = 0
    # damaged stretches, and their octets, which only --salvage brings about
    damaged: int = 0
    damaged_octets: int = 0
    torn: Optional[int] = None
    messages: int = 0
    # lines that are findings by themselves, and the words of those that the options for nothing listed and for SHA-1 bring about
    findings: int = 0
    asked_findings: Set[str] = field(default_factory=set)
    # refused blocks that aren't strangers' ones which change nothing
    not_ignored: int = 0

    def bear_out(self, status: int) -> bool:
        """Whether the status of the report is that of its lines, if it is to be a finding that nothing is listed, and none that a
        block was refused which changes nothing."""
        is_found = self.findings > self.refused or self.not_ignored > 0 or bool(self.asked_findings)
        return (status != 0) == is_found and (NONE_LISTED in self.asked_findings) == (self.listed == 0)

    def add(self, group: Group) -> None:
        """Adds what was counted of a group."""
        self.listed += group.listed
        self.lost += group.lost
        self.disputed += group.disputed
        self.unannounced += group.unannounced
        self.out_of_order += group.out_of_order


class ReportVisitor:
    """Tells of those lines of a report that it has a method for, one after the other.

    What is counted stands in `totals` and `states`.
    """

    def __init__(self, is_whole: bool = False, counters: Optional[Counters] = None, begin: Optional[Counters] = None,
                 is_in_order: bool = False) -> None:
        """A whole report, of `ssign review --whole`, also has lines about missing signature blocks.

        So has one with counters, of `--counters`, which also reports what is missing up to them, and one of a night that
        begins at counters, of `--from`.
        One of `--in-order` has lines about messages that are out of order; without them these are counted here.
        """
        self.totals = Totals()
        self.states: Dict[str, int] = {}
        self.counters = counters
        self.begin = begin
        self.is_in_order = is_in_order
        # how many signature blocks are missing; None where the report doesn't speak of them
        is_asked = is_whole or counters is not None or begin is not None
        self.missing: Optional[int] = 0 if is_asked else None

    def session(self, session: Session, state: str) -> None:
        """Tells of a session."""

    def begin_group(self, group: Group) -> None:
        """Tells that the lines of a group follow."""

    def listed(self, group: Group, numbers: Sequence[int], places: Sequence[int]) -> None:
        """Tells of messages that are listed under these numbers, at these places. A report in brief has those beside others."""

    def gap(self, group: Group, number: int, why: str) -> None:
        """Tells of a number without its message."""

    def hole(self, group: Group, first: int, last: int) -> None:
        """Tells of numbers that no block announces."""

    def end_group(self, group: Group) -> None:
        """Reports a group of which all lines were read."""

    def outside(self, session: Session, sg: int, spri: int, first: int, last: int, is_early: bool) -> None:
        """Reports announced numbers before the night, or after it. Only first counters bring such a line about."""

    def tail(self, session: Session, sg: int, spri: int, first: int, last: int) -> None:
        """Reports numbers after the last announced one, up to a counter. Only counters bring such a line about."""

    def missing_blocks(self, session: Session, first: int, last: int) -> None:
        """Tells of values of GBC that no verified signature block has. Only a whole report has such a line."""

    def stray(self, kind: str, place: int, cause: str) -> None:
        """Tells of a message that is `unlisted`, `refused` or, for a cause, `spoilt`."""

    def not_ignored(self, place: int, why: str) -> None:
        """Reports that a refused block is a finding, though those of strangers aren't, because it is `unjoined` or `late`."""

    def damaged(self, stretch: Damaged) -> None:
        """Reports damaged octets. Only --salvage brings such a line about."""

    def torn(self, offset: int) -> None:
        """Tells where the log breaks off."""

    def end(self, count: int) -> None:
        """Tells how many messages there are."""


class Reading:
    """Goes over a report, counts, and has visitors tell."""

    def __init__(self, *visitors: ReportVisitor, is_brief: bool = False) -> None:
        """Each of these is handed each line. All count as one, and the first one says which lines are asked for."""
        self._visitors = visitors
        self._is_brief = is_brief
        self._visitor = visitors[0]
        for it in visitors:
            it.totals, it.states = self._visitor.totals, self._visitor.states
        self._totals = self._visitor.totals
        self._session = Session(b"", b"", b"", b"")
        self._group: Optional[Group] = None
        # the session, SG and SPRI of the present group, and the front of its last `ok` line up to the number
        self._names: Values = []
        self._front = b""
        self._has_ended = False

    def read(self, report: BinaryIO, progress: Progress) -> None:
        """Reads it to its end. Raises Fault where that isn't the end of a report."""
        size = report.seek(0, 2)
        report.seek(0)
        for lines in stretches(report):
            progress.show("reading the report", report.tell(), size, "octets")
            self._take_stretch(lines)
        if not self._has_ended:
            raise wrong("it has no end")

    def _take_stretch(self, lines: bytes) -> None:
        """Takes a stretch of whole lines. If they can't be taken at once, each half may be, and a short one is taken line by
        line: so the few lines of another kind don't slow down the many."""
        if self._take_listed(lines):
            return
        half = lines.find(b"\n", len(lines) // 2) + 1
        if LEAST < half < len(lines):
            self._take_stretch(lines[:half])
            self._take_stretch(lines[half:])
            return
        for line in lines.split(b"\n")[:-1]:
            self._take(line)

    def _take_listed(self, lines: bytes) -> bool:
        """Takes a stretch of lines at once, if all are `ok` lines of the present group. This is most of most reports."""
        front, group = self._front, self._group
        if group is None or not front or not lines.startswith(front) or lines.count(b"\n" + front) != lines.count(b"\n") - 1:
            return False
        rest = lines.replace(front, b"")
        if front.startswith(b"{"):
            rest = rest.replace(PLACE, b" ").replace(b"}", b"")
        values = list(map(int, rest.split()))
        numbers = values[0::2]
        # where a night begins, numbers may be left out
        if numbers != list(range(numbers[0], numbers[0] + len(numbers))):
            return False
        self._list(group, numbers, values[1::2])
        return True

    def _night(self, group: Group) -> Optional[int]:
        """The number with which a night of this group begins."""
        begin = self._visitor.begin
        return begin.next_number(group.session, group.sg, group.spri) if begin is not None else None

    def _reach(self, group: Group, first: int, last: int, is_listed: bool = False) -> None:
        """Takes numbers into account. A report that lost a line isn't read: a kept one may be damaged. It has a line about each
        number from 1 on, or from where the night begins, and about those before the night that something in it announces. One in
        brief leaves out listed numbers in front of a listed one."""
        is_left_out = self._is_brief and is_listed and group.is_listing or first <= (self._night(group) or 1)
        if first != group.last + 1 and not (is_left_out and group.last < first):
            raise wrong(f"number {first} of the group SG {group.sg}, SPRI {group.spri} follows number {group.last}")
        group.reach(first, last, is_listed)

    def _list(self, group: Group, numbers: List[int], places: List[int]) -> None:
        self._reach(group, numbers[0], numbers[-1], True)
        group.announced = group.announced or numbers[0]
        group.listed += len(numbers)
        if not self._visitor.is_in_order:
            group.compare(numbers, places)
        for it in self._visitors:
            it.listed(group, numbers, places)

    def _take(self, line: bytes) -> None:
        name, fields = values_of(line)
        self._totals.findings += name not in NO_FINDINGS
        if name in OF_GROUPS:
            OF_GROUPS[name](self, self._group_of(fields[:6]), fields[6:])
            if name == "ok":
                self._front = front_of(line)
            return
        self._close_group()
        if name in OTHERS:
            OTHERS[name](self, fields)
        elif name in STRAYS:
            self._take_stray(name, int(fields[0]), str(fields[1]) if fields[1:] else "")
        elif name in ASKED_FINDINGS:
            self._totals.asked_findings.add(name)
        else:
            raise wrong(f"it has a line of another kind, {text_of(line)}")

    # ---- lines of groups

    def _group_of(self, names: Values) -> Group:
        """The group of a line, which ends the one before."""
        if self._group is None or names != self._names:
            self._close_group()
            self._names, self._front = names, b""
            self._group = Group(session_of(names), int(names[4]), int(names[5]))
            for it in self._visitors:
                it.begin_group(self._group)
        return self._group

    def _close_group(self) -> None:
        group, self._group = self._group, None
        if group is not None:
            if self._is_brief and not group.is_tallied:
                raise wrong(f"the group SG {group.sg}, SPRI {group.spri} has no tally")
            self._totals.add(group)
            for it in self._visitors:
                it.end_group(group)

    def _take_ok(self, group: Group, fields: Values) -> None:
        self._list(group, [int(fields[0])], [int(fields[1])])

    def _take_gap(self, group: Group, fields: Values) -> None:
        number, why = int(fields[0]), str(fields[1])
        self._reach(group, number, number)
        group.announced = group.announced or number
        group.lost += why == "lost"
        group.disputed += why == "disputed"
        for it in self._visitors:
            it.gap(group, number, why)

    def _take_hole(self, group: Group, fields: Values) -> None:
        first, last = map(int, fields)
        self._reach(group, first, last)
        group.unannounced += last - first + 1
        for it in self._visitors:
            it.hole(group, first, last)

    def _take_disorder(self, group: Group, fields: Values) -> None:
        group.out_of_order, group.first_out_of_order, group.first_place = map(int, fields)

    def _take_tally(self, group: Group, fields: Values) -> None:
        """Takes the counts of a report in brief, which its lines have to bear out."""
        listed, *others, first, last = map(int, fields)
        least = group.listed + (group.left_out if self._night(group) is None else 0)
        if [group.lost, group.disputed, group.unannounced] != others or last != group.last \
                or not least <= listed <= group.listed + group.left_out:
            raise wrong(f"the lines of the group SG {group.sg}, SPRI {group.spri} aren't those of its tally")
        # a hole may stand in front of what is announced
        group.first, group.last = min(group.first or first, first), last
        group.listed, group.announced, group.is_tallied = listed, first, True

    # ---- other lines

    def _take_session(self, fields: Values) -> None:
        self._session, state = session_of(fields), str(fields[4])
        self._totals.findings += state != "joined"
        self._visitor.states[state] = self._visitor.states.get(state, 0) + 1
        for it in self._visitors:
            it.session(self._session, state)

    def _take_early(self, fields: Values) -> None:
        self._totals.early += self._take_outside(fields, True)

    def _take_beyond(self, fields: Values) -> None:
        self._totals.beyond += self._take_outside(fields, False)

    def _take_outside(self, fields: Values, is_early: bool) -> int:
        sg, spri, first, last = map(int, fields[4:])
        for it in self._visitors:
            it.outside(self._session, sg, spri, first, last, is_early)
        return last - first + 1

    def _take_tail(self, fields: Values) -> None:
        sg, spri, first, last = map(int, fields[4:])
        self._totals.tails += last - first + 1
        for it in self._visitors:
            it.tail(self._session, sg, spri, first, last)

    def _take_blocks(self, fields: Values) -> None:
        first, last = map(int, fields[4:])
        for it in self._visitors:
            it.missing = (it.missing or 0) + last - first + 1
            it.missing_blocks(self._session, first, last)

    def _take_stray(self, kind: str, place: int, cause: str) -> None:
        setattr(self._totals, kind, getattr(self._totals, kind) + 1)
        for it in self._visitors:
            it.stray(kind, place, cause)

    def _take_not_ignored(self, fields: Values) -> None:
        self._totals.not_ignored += 1
        for it in self._visitors:
            it.not_ignored(int(fields[0]), str(fields[1]))

    def _take_damaged(self, fields: Values) -> None:
        stretch = Damaged(*map(int, fields))
        self._totals.damaged += 1
        self._totals.damaged_octets += stretch.length
        for it in self._visitors:
            it.damaged(stretch)

    def _take_torn(self, fields: Values) -> None:
        self._totals.torn = int(fields[0])
        for it in self._visitors:
            it.torn(int(fields[0]))

    def _take_end(self, fields: Values) -> None:
        self._totals.messages, self._has_ended = int(fields[0]), True
        for it in self._visitors:
            it.end(int(fields[0]))


# the words of lines: of those that are no finding, or of which only some are; of those about numbers of a group; of messages by
# their places; of those that options for nothing listed and for SHA-1 bring about; and the others
NONE_LISTED = "none-listed"
ASKED_FINDINGS = ("sha1", NONE_LISTED)
NOT_IGNORED = "not-ignored"
NO_FINDINGS = ("ok", "tally", "session", "end", NOT_IGNORED, *ASKED_FINDINGS)
OF_GROUPS: Dict[str, Callable[[Reading, Group, Values], None]] = {
    "ok": Reading._take_ok, "gap": Reading._take_gap, "hole": Reading._take_hole, "disorder": Reading._take_disorder,
    "tally": Reading._take_tally,
}
STRAYS = ("unlisted", "refused", "spoilt")
OTHERS: Dict[str, Callable[[Reading, Values], None]] = {
    "session": Reading._take_session, "early": Reading._take_early, "beyond": Reading._take_beyond, "tail": Reading._take_tail,
    "blocks": Reading._take_blocks, NOT_IGNORED: Reading._take_not_ignored, "damaged": Reading._take_damaged, "torn": Reading._take_torn, "end": Reading._take_end,
}
