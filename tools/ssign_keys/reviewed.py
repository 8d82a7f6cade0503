"""What there is to show of a review: the log, what was surveyed of its report, and what the verdict rests on."""
from __future__ import annotations

from typing import TYPE_CHECKING, AbstractSet, NamedTuple, Optional, Tuple

from .survey import Survey
from .kept import Counters
from .logs import Log
from .inspected import Inspected
from .shown import Shown
from .verdict import Facts
from .block_facts import Notes

if TYPE_CHECKING:
    from .checked import Checked
    from .claims import Claim, Claims
    from .times import Times


class Details(NamedTuple):
    """What was checked, and the times that messages state."""

    checked: Checked
    times: Times


class Reviewed(NamedTuple):
    """All that a form of the report is made of, but for the lines."""

    log: Log
    inspected: Inspected
    """The messages that are shown."""
    shown: Shown
    """Which these are."""
    notes: Notes
    survey: Survey
    facts: Facts
    is_whole: bool
    counters: Optional[Counters]
    begin: Optional[Counters] = None
    """The counters with which the night begins, if it is one night of a session that goes on."""
    details: Optional[Details] = None
    """What was checked, and the times; None where no form shows it."""

    claims: Optional[Claims] = None
    """The unverified blocks that claim joined sessions."""
    unproved: AbstractSet[int] = frozenset()
    """The places of the unlisted messages that have hashes of such blocks."""

    def claim_at(self, place: int) -> Optional[Tuple[Claim, int]]:
        """Such a block at a place, with how many of these messages have its hashes."""
        return None if self.claims is None else self.claims.at(place)

    def detailed(self) -> Details:
        """What was checked, and the times, for a form that always shows it."""
        assert self.details is not None
        return self.details
