"""The times that messages state: of each session the first and the last, and those of the neighbours of what is missing.

They are the senders' own clocks. A report has places alone: the TIMESTAMP of the message at a place, `ssign inspect` reports.
"""
from __future__ import annotations

import functools
import itertools
from array import array
from datetime import datetime, timedelta
from typing import Dict, List, Optional, Sequence, Set, Tuple

from .blocks import Session
from .pairs import Neighbour, Stretch
from .report import Group
from .stretch_visitor import StretchVisitor
from .survey import Survey

NIL = b"-"
# what stands before a TIMESTAMP in an object of an inspection
KEY = b'"timestamp":"'
# how many octets of a TIMESTAMP state its minute, and how many its offset from UTC, where that isn't `Z`
MINUTE, OFFSET = 16, 6


@functools.lru_cache(maxsize=1024)
def in_utc(minute: bytes, offset: bytes) -> bytes:
    """The minute of UTC that is stated with this offset from it."""
    text = offset.decode("ascii")
    try:
        whole = datetime.strptime(minute.decode("ascii"), "%Y-%m-%dT%H:%M")
        ahead = timedelta(hours=int(text[1:3]), minutes=int(text[4:]))
        whole += -ahead if text[0] == "+" else ahead
    except (ValueError, OverflowError):
        # the first and the last year have no time before and after them
        return minute
    return whole.isoformat(timespec="minutes").encode("ascii")


def sort_key(stamp: bytes) -> bytes:
    """What rises with the time that a TIMESTAMP states, whatever its offset from UTC and the digits of its fraction."""
    return stamp[:-1] if stamp.endswith(b"Z") else in_utc(stamp[:MINUTE], stamp[-OFFSET:]) + stamp[MINUTE:-OFFSET]


class Bounds:
    """The earliest and the latest of many TIMESTAMPs. `-` states no time, and is left out."""

    def __init__(self) -> None:
        """None yet."""
        self._first = self._last = b""
        self._least = self._greatest = b""
        self._seen = NIL

    def take(self, stamp: bytes) -> None:
        """Takes a TIMESTAMP."""
        if stamp in (self._seen, NIL):
            return
        self._seen = stamp
        key = sort_key(stamp)
        if not self._first or key < self._least:
            self._first, self._least = stamp, key
        if not self._last or key > self._greatest:
            self._last, self._greatest = stamp, key

    def take_all(self, stamps: Sequence[bytes]) -> None:
        """Takes TIMESTAMPs. Of those with one form, the ones between the least and the greatest text change nothing."""
        if len(set(map(len, stamps))) == 1 and {it[-1:] for it in stamps} == {b"Z"}:
            stamps = min(stamps), max(stamps)
        for it in stamps:
            self.take(it)

    @property
    def first(self) -> Optional[str]:
        """The earliest, or None where there is none."""
        return self._first.decode("ascii") or None

    @property
    def last(self) -> Optional[str]:
        """The latest, or None where there is none."""
        return self._last.decode("ascii") or None


class Owners(StretchVisitor):
    """Keeps which session has the message at each place, and the places next to what is missing."""

    def __init__(self, survey: Survey, messages: int) -> None:
        """The survey is made at the same time. The log has so many messages."""
        super().__init__(survey)
        # the number of a session, from 1; 0 where none lists the message
        self.owners = array("I", bytes(4 * messages))
        self.sessions: List[Session] = []
        self.wanted: Set[int] = set()

    def session(self, session: Session, state: str) -> None:
        """Numbers it."""
        super().session(session, state)
        self.sessions.append(session)

    def listed(self, group: Group, numbers: Sequence[int], places: Sequence[int]) -> None:
        """Keeps whose they are."""
        super().listed(group, numbers, places)
        owner, owners = len(self.sessions), self.owners
        for place in places:
            owners[place] = owner

    def stretch(self, group: Group, stretch: Stretch) -> None:
        """Wants the times of its neighbours."""
        self._want(stretch.before)
        self._want(stretch.behind)

    def tail_after(self, session: Session, sg: int, spri: int, first: int, last: int, before: Optional[Neighbour]) -> None:
        """Wants the time of the last listed one."""
        self._want(before)

    def _want(self, neighbour: Optional[Neighbour]) -> None:
        if neighbour is not None:
            self.wanted.add(neighbour[1])


class Times:
    """The TIMESTAMPs of a log, as far as a verdict shows them."""

    def __init__(self, owners: Owners) -> None:
        """None is taken yet."""
        self._owners = owners.owners
        self._numbers = dict(zip(owners.sessions, itertools.count(1)))
        self._bounds = [Bounds() for _ in range(len(owners.sessions) + 1)]
        self._at: Dict[int, Optional[str]] = dict.fromkeys(owners.wanted)

    def wanted(self) -> List[int]:
        """The places of the messages whose TIMESTAMPs are shown, from the first."""
        return sorted(self._at)

    def wants(self, place: int) -> bool:
        """Whether the TIMESTAMP of the message at a place is shown."""
        return place in self._at

    def take(self, place: int, stamp: Optional[str]) -> None:
        """Takes the TIMESTAMP of such a message, or None where that isn't one of RFC 5424."""
        self._at[place] = stamp

    def take_lines(self, place: int, lines: Sequence[bytes]) -> None:
        """Takes the objects of the messages from a place on. Most are of listed messages, so none is read in whole."""
        stamps: Dict[int, List[bytes]] = {}
        for owner, line in zip(self._owners[place:place + len(lines)], lines):
            if owner:
                _, _, rest = line.partition(KEY)
                if rest:
                    stamps.setdefault(owner, []).append(rest[:rest.index(b'"')])
        for owner, found in stamps.items():
            self._bounds[owner].take_all(found)

    def of_session(self, session: Session) -> Tuple[Optional[str], Optional[str]]:
        """The earliest and the latest TIMESTAMP of its listed messages."""
        bounds = self._bounds[self._numbers.get(session, 0)]
        return bounds.first, bounds.last

    def of_neighbour(self, neighbour: Neighbour) -> Optional[str]:
        """The TIMESTAMP of a listed message beside missing ones; None where it isn't one of RFC 5424."""
        return self._at.get(neighbour[1])
