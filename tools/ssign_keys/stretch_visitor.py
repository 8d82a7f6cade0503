"""What every form of a report has in common: it shows numbers that aren't listed in stretches, each with its neighbours."""
from __future__ import annotations

from abc import abstractmethod
from typing import Dict, Optional, Sequence, Tuple

from .survey import Survey
from .blocks import Session
from .pairs import Neighbour, Stretch, Stretches
from .report import Group, ReportVisitor


class StretchVisitor(ReportVisitor):
    """Tells of stretches, once the listed number after them is known. Their order is that of the report."""

    def __init__(self, survey: Survey) -> None:
        """The same report was surveyed already."""
        super().__init__(survey.missing is not None, survey.counters, survey.begin, survey.is_in_order)
        self._stretches = Stretches(survey.unlisted, survey.damage)
        # the last listed number of each group of the present session
        self._ends: Dict[Tuple[int, int], Optional[Neighbour]] = {}

    @abstractmethod
    def stretch(self, group: Group, stretch: Stretch) -> None:
        """Tells of numbers that aren't listed."""

    def tail_after(self, session: Session, sg: int, spri: int, first: int, last: int, before: Optional[Neighbour]) -> None:
        """Tells of numbers that are missing up to a counter, after the last listed number of their group."""

    def session(self, session: Session, state: str) -> None:
        """Forgets the groups of the session before."""
        self._ends = {}

    def begin_group(self, group: Group) -> None:
        """Forgets the group before."""
        self._stretches.begin_group()

    def listed(self, group: Group, numbers: Sequence[int], places: Sequence[int]) -> None:
        """Tells of what stands before these."""
        for it in self._stretches.listed((numbers[0], places[0]), (numbers[-1], places[-1])):
            self.stretch(group, it)

    def gap(self, group: Group, number: int, why: str) -> None:
        """Keeps a number until what follows it is known."""
        self._stretches.take(why, number, number)

    def hole(self, group: Group, first: int, last: int) -> None:
        """Keeps unannounced numbers until what follows them is known."""
        self._stretches.take("hole", first, last)

    def end_group(self, group: Group) -> None:
        """Tells of what stands at the end of a group."""
        for it in self._stretches.end_group():
            self.stretch(group, it)
        self._ends[group.sg, group.spri] = self._stretches.before

    def tail(self, session: Session, sg: int, spri: int, first: int, last: int) -> None:
        """Looks up the last listed number of the group."""
        self.tail_after(session, sg, spri, first, last, self._ends.get((sg, spri)))
