"""Likely pairs: a missing number, and an unlisted message or damaged octets where its message is to be expected.

A hash doesn't show its message, so nobody can say from a log what a missing message was. But where messages are unlisted
between two listed numbers, and numbers are missing between the same two, the ones are likely what the others became. The same
is true of damaged octets.
"""
from __future__ import annotations

import bisect
from typing import List, NamedTuple, Optional, Sequence, Tuple

from .damage import Damage, Damaged
from .summaries import FEW

# a number, and the place of its message
Neighbour = Tuple[int, int]


class Stretch(NamedTuple):
    """Numbers of one kind that follow one another in a group, and aren't listed."""

    kind: str
    """`lost` or `disputed`, as in a report, or `hole`."""
    first: int
    last: int
    before: Optional[Neighbour]
    """The nearest listed number in front of them; None where there is none in the group."""
    behind: Optional[Neighbour]
    """The nearest listed number after them; None where there is none in the group."""
    likely: Sequence[int]
    """The places of the unlisted messages between the places of the two neighbours: as many, or a few; or none."""
    damaged: Sequence[Damaged] = ()
    """The damaged octets between the same two places: a few stretches, or none."""

    @property
    def length(self) -> int:
        """How many numbers these are."""
        return self.last - self.first + 1

    @property
    def is_matched(self) -> bool:
        """Whether each number has an unlisted message of its own. Damaged octets may have been any number of messages."""
        return len(self.likely) == self.length and not self.damaged

    @property
    def is_paired(self) -> bool:
        """Whether anything shows what these numbers likely became."""
        return bool(self.likely or self.damaged)

    def likely_of(self, number: int) -> Sequence[int]:
        """The places of what a number's message likely became: one of these."""
        return self.likely[number - self.first:number - self.first + 1] if self.is_matched else self.likely


class Stretches:
    """Finds the stretches of each group, and what is unlisted between their neighbours."""

    def __init__(self, unlisted: Sequence[int], damage: Damage) -> None:
        """The places of all unlisted messages, which rise, and what is damaged."""
        self._unlisted = unlisted
        self._damage = damage
        self.begin_group()

    def begin_group(self) -> None:
        """Forgets the group before."""
        self.before: Optional[Neighbour] = None
        # kinds with their first and last numbers, since the last listed one
        self._waiting: List[Tuple[str, int, int]] = []

    def take(self, kind: str, first: int, last: int) -> None:
        """Takes numbers that aren't listed, and follow those that were taken last."""
        if self._waiting and self._waiting[-1][0] == kind:
            first = self._waiting.pop()[1]
        self._waiting.append((kind, first, last))

    def listed(self, first: Neighbour, last: Neighbour) -> List[Stretch]:
        """Takes numbers that are listed, from the first to the last, and gives the stretches before them."""
        stretches = self._end(first) if self._waiting else []
        self.before = last
        return stretches

    def end_group(self) -> List[Stretch]:
        """The stretches at the end of the group."""
        return self._end(None)

    def _end(self, behind: Optional[Neighbour]) -> List[Stretch]:
        waiting, self._waiting = self._waiting, []
        # beside a disputed or an unannounced number, what is unlisted between the neighbours may be its message too
        is_lost_alone = [kind for kind, _, _ in waiting] == ["lost"]
        likely = self._between(behind, waiting[0][2] - waiting[0][1] + 1) if is_lost_alone else ()
        damaged = self._damaged_between(behind) if is_lost_alone else ()
        return [Stretch(*it, self.before, behind, likely, damaged) for it in waiting]

    def _between(self, behind: Optional[Neighbour], count: int) -> Sequence[int]:
        low = 0 if self.before is None else bisect.bisect_left(self._unlisted, self.before[1])
        high = len(self._unlisted) if behind is None else bisect.bisect_left(self._unlisted, behind[1])
        return self._unlisted[low:high] if high - low == count or high - low <= FEW else ()

    def _damaged_between(self, behind: Optional[Neighbour]) -> Sequence[Damaged]:
        # what stands before the message at a place has the same place
        places = self._damage.places
        low = 0 if self.before is None else bisect.bisect_right(places, self.before[1])
        high = len(places) if behind is None else bisect.bisect_right(places, behind[1])
        return [self._damage[it] for it in range(low, high)] if high - low <= FEW else ()
