"""The damaged stretches of a log of frames: octets that are no message. Where they are, ssign says.

All other octets are whole frames, one right after the other, and perhaps the front of one at the end. So whoever cuts a log
passes over what is damaged, and needn't know by which rule ssign reads on.
"""
from __future__ import annotations

import heapq
from array import array
from typing import Iterable, Iterator, NamedTuple, Sequence, Tuple


class Damaged(NamedTuple):
    """A damaged stretch."""

    place: int
    """How many messages stand before it."""
    offset: int
    length: int
    """How many octets it has."""


class Damage:
    """All damaged stretches of a log, from its front on. A hostile log may have millions, so each takes little room."""

    def __init__(self, stretches: Iterable[Sequence[int]] = ()) -> None:
        """Raises ValueError if they can't be those of a log."""
        self.places, self._offsets, self._lengths = array("Q"), array("Q"), array("Q")
        for place, offset, length in stretches:
            self.add(Damaged(place, offset, length))

    def __len__(self) -> int:
        """How many there are."""
        return len(self.places)

    def __getitem__(self, index: int) -> Damaged:
        """One of them."""
        return Damaged(self.places[index], self._offsets[index], self._lengths[index])

    def __iter__(self) -> Iterator[Damaged]:
        """Each of them."""
        return map(Damaged, self.places, self._offsets, self._lengths)

    def __eq__(self, other: object) -> bool:
        """Whether these are the same stretches."""
        return isinstance(other, Damage) and (self.places, self._offsets, self._lengths) == (
            other.places, other._offsets, other._lengths)

    def add(self, it: Damaged) -> None:
        """Takes another one. Raises ValueError if it can't follow the one before: a message at least stands between them."""
        if self.places:
            is_next = it.place > self.places[-1] and it.offset > self._offsets[-1] + self._lengths[-1]
        else:
            is_next = (it.place == 0) == (it.offset == 0)
        if not is_next or it.length < 1 or min(it) < 0 or max(it) >= 1 << 64:
            raise ValueError(f"damage of {it.length} octets from octet {it.offset} on, at place {it.place}")
        self.places.append(it.place)
        self._offsets.append(it.offset)
        self._lengths.append(it.length)

    @property
    def octets(self) -> int:
        """How many octets all of them have."""
        return sum(self._lengths)

    def longest(self, most: int) -> Sequence[Damaged]:
        """All of them; or if they are more than so many, the longest ones, from the longest on."""
        return list(self) if len(self) <= most else heapq.nlargest(most, self, key=lambda it: it.length)

    def gaps(self) -> Iterator[Tuple[int, int]]:
        """The offset and the length of each."""
        return zip(self._offsets, self._lengths)
