"""Which messages of a log are shown with their texts, as its report names them: known before the log is looked at for them."""
from __future__ import annotations

from array import array
from dataclasses import dataclass, field
from typing import TYPE_CHECKING, AbstractSet, List, NamedTuple, Sequence

from .inspected import merged
from .longest import MOST_ROWS, Weighed
from .pairs import Stretch
from .report import Group, ReportVisitor
from .stretch_visitor import StretchVisitor
from .summaries import FEW
from .survey import Survey

if TYPE_CHECKING:
    from .verifier import Verifier


class Pair(NamedTuple):
    """Missing numbers of a group, with their neighbours, and the places of what they likely became."""

    group: Group
    first: int
    last: int
    stretch: Stretch
    places: Sequence[int]


@dataclass
class Shown:
    """The messages of which texts are shown."""

    places: "array[int]"
    """From the first."""
    pairs: List[Pair] = field(default_factory=list)
    """The first likely pairs."""
    pair_count: int = 0
    """How many likely pairs there are."""


class Pairs(StretchVisitor):
    """Keeps the first likely pairs of a report."""

    def __init__(self, survey: Survey) -> None:
        """None yet."""
        super().__init__(survey)
        self.first: List[Pair] = []
        self.count = 0

    def stretch(self, group: Group, stretch: Stretch) -> None:
        """Takes numbers that aren't listed."""
        if not stretch.is_paired:
            return
        self.count += len(stretch.likely) if stretch.is_matched else 1
        if not stretch.is_matched and len(self.first) < FEW:
            self.first.append(Pair(group, stretch.first, stretch.last, stretch, stretch.likely))
        elif stretch.is_matched:
            self.first += [Pair(group, it, it, stretch, stretch.likely_of(it))
                           for it in range(stretch.first, min(stretch.last + 1, stretch.first + FEW - len(self.first)))]


def choose(verifier: Verifier, survey: Survey, unproved: AbstractSet[int]) -> Shown:
    """The messages that are shown in the forms that the options of `verify` ask for. Some unlisted ones are unproved."""
    arguments, strays = verifier.arguments, (survey.unlisted, survey.refused, survey.spoilt)
    if arguments.json:
        return Shown(merged(*strays))
    pairs, weighed = Pairs(survey), Weighed(survey, MOST_ROWS, unproved)
    visitors: List[ReportVisitor] = []
    if not arguments.raw and survey.totals.lost and (survey.unlisted or survey.damage):
        visitors.append(pairs)
    if arguments.html is not None and any(strays):
        visitors.append(weighed)
    if visitors:
        verifier.read(*visitors)
    of_text = [] if arguments.raw else [it[:FEW] for it in strays]
    of_pairs = sorted(place for it in pairs.first for place in it.places)
    of_page = sorted(place for its in weighed.rows().values() for _, places in its for place in places)
    return Shown(merged(*of_text, of_pairs, of_page), pairs.first, pairs.count)
