"""How far a log goes in each group, and how far the counters do that somebody kept."""
from __future__ import annotations

import enum
from dataclasses import dataclass
from typing import Iterator, List, Optional

from .blocks import Session
from .kept import Counters


class Coverage(enum.Enum):
    """How much of what a log announces the counters cover."""

    PART = enum.auto()
    """The log goes on after a counter, or has a group, or a session that isn't joined, without one."""
    ALL = enum.auto()


@dataclass
class Reached:
    """How far a group is known. Each number is None where nothing says it."""

    session: Session
    sg: int
    spri: int
    last: int
    """The last number that is announced, or 0 where none is."""
    gbc: Optional[int]
    """The greatest GBC of its verified signature blocks."""
    next_number: Optional[int]
    """The number of its next message, by the counters."""
    next_gbc: Optional[int]
    """The GBC of the next signature block of its session, by the counters."""
    out_of_order: int = 0
    first_out_of_order: Optional[int] = None
    first: int = 1
    """The first number that a line is about."""

    @property
    def is_covered(self) -> bool:
        """Whether the counters go as far as the log."""
        if self.next_number is None or self.next_number <= self.last:
            return False
        return self.gbc is None or (self.next_gbc is not None and self.next_gbc > self.gbc)


class Reach:
    """The groups of a report, in its order: also those of which the log has nothing, and the counters something."""

    def __init__(self, counters: Optional[Counters]) -> None:
        """No group yet."""
        self._counters = counters
        self._groups: List[Reached] = []
        self._has_unknown = False

    def __iter__(self) -> Iterator[Reached]:
        """The groups."""
        return iter(self._groups)

    def __len__(self) -> int:
        """How many groups there are."""
        return len(self._groups)

    def add(self, session: Session, sg: int, spri: int, last: int, gbc: Optional[int], out_of_order: int = 0,
            first_out_of_order: Optional[int] = None, first: int = 1) -> None:
        """Adds a group of the present session, where its SG and SPRI belong."""
        counters = self._counters or Counters()
        place = len(self._groups)
        while place and self._stands_behind(self._groups[place - 1], session, sg, spri):
            place -= 1
        self._groups.insert(place, Reached(session, sg, spri, last, gbc, counters.next_number(session, sg, spri),
                                           counters.next_gbc(session), out_of_order, first_out_of_order, first))

    def pass_over(self, session: Session) -> None:
        """Takes a session of the log that isn't joined, so it has no group of its own: only counters can say how far it
        went."""
        if self._counters is not None and not self._counters.names(session):
            self._has_unknown = True

    @staticmethod
    def _stands_behind(group: Reached, session: Session, sg: int, spri: int) -> bool:
        return group.session == session and (group.sg, group.spri) > (sg, spri)

    def coverage(self) -> Optional[Coverage]:
        """How much the counters cover, or None where no counters were given."""
        if self._counters is None:
            return None
        is_whole = not self._has_unknown and all(it.is_covered for it in self._groups)
        return Coverage.ALL if is_whole else Coverage.PART
