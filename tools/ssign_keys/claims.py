"""Unverified blocks that claim a joined session: what each would announce, and how many stored messages have its hashes.

What is in a block, `ssign inspect` reports. Which stored messages have its hashes, ssign reports too: it reviews the log once
more, as if these blocks were validly signed. Nothing else of that report is used.
"""
from __future__ import annotations

import bisect
from array import array
from typing import BinaryIO, Dict, Iterator, List, NamedTuple, Optional, Sequence, Set, Tuple

from .answer import Answered
from .blocks import Session, session_of
from .inspected import Object
from .report import Group, ReportVisitor
from .survey import Survey
from .workplace import Workplace, finish, put

# a session, SG and SPRI
GroupKey = Tuple[Session, int, int]


class Claim(NamedTuple):
    """An unverified block of a joined session."""

    session: Session
    sg: int
    spri: int
    gbc: Optional[int]
    """None for a certificate block, which announces nothing."""
    first: int
    """The first number that it would announce."""
    last: int

    @property
    def group(self) -> GroupKey:
        """The group of these numbers."""
        return self.session, self.sg, self.spri


class Unproved:
    """Keeps, in a passing file, the `yes` line of each signature block that isn't validly signed."""

    def __init__(self, workplace: Workplace, places: Optional[Sequence[int]] = None) -> None:
        """Nothing is kept yet. If ssign was handed only some messages of the log, these are their places."""
        self._lines = workplace.new_file("unproved")
        self._places = places
        # each payload once, however many blocks are asked about under it, and each group
        self._payloads: List[bytes] = []
        self._groups: Dict[GroupKey, int] = {}

    def take(self, it: Answered) -> None:
        """Keeps the line, if it is one of such a block."""
        if it.about is None or it.session is None or it.unproved is None:
            return
        payload, rest = it.unproved
        if not self._payloads or self._payloads[-1] is not payload:
            self._payloads.append(payload)
        group = self._groups.setdefault((it.session, *it.about.group), len(self._groups))
        place = it.about.place if self._places is None else self._places[it.about.place]
        put(self._lines, b"%d %d %d %s\n" % (place, group, len(self._payloads) - 1, rest))

    def put_lines(self, survey: Survey, out: BinaryIO, most: int) -> Set[GroupKey]:
        """Adds the answer `yes` about each of these blocks that claims a joined session to an answers file. Gives the groups of
        which they would announce numbers; none if the answers are more than so many octets."""
        finish(self._lines)
        self._lines.seek(0)
        groups, found = list(self._groups), set()
        for kept in self._lines:
            place, group, number, rest = kept.split(b" ", 3)
            key = groups[int(group)]
            if key[0] in survey.joined and is_among(survey.refused, int(place)):
                payload = self._payloads[int(number)]
                most -= len(payload) + len(rest)
                if most < 0:
                    return set()
                put(out, b"yes %s %s" % (payload, rest))
                found.add(key)
        finish(out)
        return found


class Claims:
    """Blocks by their places. A log of a stranger may have many, so each takes little room."""

    def __init__(self) -> None:
        """None yet."""
        self._rows: Dict[int, int] = {}
        self._sessions: List[Session] = []
        self._numbers: Dict[Session, int] = {}
        self._owners, self._groups = array("I"), bytearray()
        self._gbcs, self._firsts, self._lasts, self._stored = array("q"), array("Q"), array("Q"), array("I")

    def __len__(self) -> int:
        """How many there are."""
        return len(self._owners)

    def __iter__(self) -> Iterator[Tuple[int, Claim, int]]:
        """The place of each of them, the block, and how many stored messages have its hashes."""
        return ((place, self._claim(row), self._stored[row]) for place, row in self._rows.items())

    def take(self, it: Object) -> None:
        """Takes the object of a block."""
        first = it.get("first", 0)
        self._add(it["place"], Claim(session_of(it), it["sg"], it["spri"], it.get("gbc"), first, first + it.get("count", 1) - 1))

    def _add(self, place: int, it: Claim) -> None:
        self._rows[place] = len(self)
        self._owners.append(self._numbers.setdefault(it.session, len(self._numbers)))
        if len(self._sessions) < len(self._numbers):
            self._sessions.append(it.session)
        self._groups += bytes((it.sg, it.spri))
        self._gbcs.append(-1 if it.gbc is None else it.gbc)
        self._firsts.append(it.first)
        self._lasts.append(it.last)
        self._stored.append(0)

    def at(self, place: int) -> Optional[Tuple[Claim, int]]:
        """The block at a place, with how many stored messages have its hashes."""
        row = self._rows.get(place)
        return None if row is None else (self._claim(row), self._stored[row])

    def _claim(self, row: int) -> Claim:
        gbc = self._gbcs[row]
        return Claim(self._sessions[self._owners[row]], self._groups[2 * row], self._groups[2 * row + 1], None if gbc < 0 else gbc,
                     self._firsts[row], self._lasts[row])

    def compare(self, stored: "Stored") -> None:
        """Learns how many stored messages have the hashes of each of them."""
        for row in range(len(self)):
            it = self._claim(row)
            if it.gbc is not None:
                self._stored[row] = stored.count(it)


class Stored(ReportVisitor):
    """Reads a report in which these blocks are verified: which messages it lists that are unlisted without them."""

    def __init__(self, survey: Survey, groups: Set[GroupKey]) -> None:
        """The survey is of the report without them. Only these groups matter."""
        super().__init__(survey.missing is not None, survey.counters, survey.begin)
        self._unlisted = survey.unlisted
        self._groups = groups
        self._numbers: Dict[GroupKey, "array[int]"] = {}
        self.places: Set[int] = set()

    def listed(self, group: Group, numbers: Sequence[int], places: Sequence[int]) -> None:
        """Keeps the numbers of messages that are unlisted otherwise. The numbers of a group rise."""
        key = group.session, group.sg, group.spri
        if key in self._groups:
            found = [(number, place) for number, place in zip(numbers, places) if is_among(self._unlisted, place)]
            self._numbers.setdefault(key, array("Q")).extend(number for number, _ in found)
            self.places.update(place for _, place in found)

    def count(self, it: Claim) -> int:
        """How many of a block's numbers are kept."""
        numbers = self._numbers.get(it.group, array("Q"))
        return bisect.bisect_right(numbers, it.last) - bisect.bisect_left(numbers, it.first)


def is_among(rising: Sequence[int], it: int) -> bool:
    """Whether rising numbers have this one."""
    at = bisect.bisect_left(rising, it)
    return at < len(rising) and rising[at] == it
