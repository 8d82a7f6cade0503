"""Joins the fragments of certificate blocks to payloads (RFC 5848, section 5.3.2). What is in a block, ssign reports."""
from __future__ import annotations

from bisect import bisect_right
from typing import Dict, Iterable, Iterator, List, NamedTuple, Tuple


class Fragment(NamedTuple):
    """A part of a payload."""

    total: int
    """How many octets the payload has."""
    begin: int
    """Where in it the part begins, from 1 on."""
    text: bytes

    def agrees(self, payload: bytes) -> bool:
        """Whether a payload has this length, and these octets there."""
        return self.total == len(payload) and self.begin > 0 and payload.startswith(self.text, self.begin - 1)


def covers(extents: Iterable[Tuple[int, int]], total: int) -> bool:
    """Whether stretches, each with its index from 1 on and its length, have each index up to a total."""
    end = 1
    for index, length in sorted(extents):
        if index > end:
            return False
        end = max(end, index + length)
    return end > total


class Joiner:
    """Joins fragments of one session to the texts that they spell. Not all are tried where there are many."""

    def __init__(self, most: int) -> None:
        """So many steps are taken at most: one for each fragment that is tried, and more where the text before it is long."""
        self._most = self._left = most

    @property
    def is_cut(self) -> bool:
        """Whether there may be more texts."""
        return self._left <= 0

    @property
    def steps(self) -> int:
        """How many steps were taken."""
        return self._most - self._left

    def texts(self, pieces: Iterable[Fragment]) -> Iterator[bytes]:
        """Each text once that some of these fragments spell."""
        by_total: Dict[int, Dict[int, List[bytes]]] = {}
        for total, index, text in pieces:
            by_total.setdefault(total, {}).setdefault(index, []).append(text)
        for total, by_index in sorted(by_total.items()):
            yield from self._of_total(total, sorted(by_index.items()))

    def _of_total(self, total: int, by_index: List[Tuple[int, List[bytes]]]) -> Iterator[bytes]:
        """The texts of so many octets."""
        indexes = [index for index, _ in by_index]
        longest = max(len(text) for _, texts in by_index for text in texts)
        waiting, seen = [b""], {hash(b"")}
        while waiting and self._left > 0:
            front = waiting.pop()
            if len(front) == total:
                yield front
                continue
            end, cost = len(front) + 1, 1 + len(front) // 1024
            # what begins before these ends within the front
            for index, texts in by_index[bisect_right(indexes, end - longest):bisect_right(indexes, end)]:
                for text in texts:
                    self._left -= cost
                    longer = front[:index - 1] + text
                    if len(front) < len(longer) <= total and longer.startswith(front) and hash(longer) not in seen:
                        seen.add(hash(longer))
                        waiting.append(longer)
