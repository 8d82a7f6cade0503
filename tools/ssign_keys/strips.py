"""Strips: what many numbers or places are, in at most 240 bins, in each of which the height of a kind is its share."""
from __future__ import annotations

from array import array
from typing import Dict, Iterable, List, Optional, Sequence, Tuple

from .blocks import Session
from .longest import Longest, Run
from .markup import Markup, drawn, element, plain

BINS = 240
# how wide and high a strip is in its own units: what is found stands on the numbers that are as they were signed
WIDTH, HEIGHT, BASE = 720, 48, 8
# the least height of a kind in a bin, and how far apart the words below a strip stand
LEAST, APART = 5, 150
# how many runs have words, and of what part of the strip each of them is at least
MOST_MARKS, WIDE = 4, 500
# the kinds that are drawn, the lowest first
DRAWN = ("verified", "listed", "missing", "changed or replaced", "missing up to the counters", "disputed", "unannounced",
         "unlisted", "unproved", "unverified", "spoilt", "damaged")
# those that are as they were signed, and what is said of them besides
FINE = {"verified": ": a block with a valid signature by the trusted key", "listed": ": stored exactly as it was signed"}


class Strip:
    """Numbers of a group from a first to a last, each of one kind; or places of the log, without a group."""

    def __init__(self, group: Tuple[Optional[Session], int, int], first: int, last: int) -> None:
        """Nothing is known of them."""
        self.group = group
        self.first = first
        self.last = max(first, last)
        self._span = self.last - first + 1
        self.size = min(BINS, self._span)
        # how many numbers of each kind each bin has
        self._bins: Dict[str, "array[int]"] = {}
        self.counts: Dict[str, int] = {}

    def bin_of(self, number: int) -> int:
        """The bin of a number."""
        return (number - self.first) * self.size // self._span

    def range_of(self, index: int) -> range:
        """The numbers of a bin."""
        low = -(-index * self._span // self.size)
        return range(self.first + low, self.first - (-(index + 1) * self._span // self.size))

    def take(self, first: int, last: int, kind: str) -> None:
        """Takes numbers of a kind."""
        self.counts[kind] = self.counts.get(kind, 0) + last - first + 1
        if kind not in self._bins:
            self._bins[kind] = array("Q", bytes(8 * self.size))
        bins, first, last = self._bins[kind], max(first, self.first), min(last, self.last)
        for at in range(self.bin_of(first), self.bin_of(last) + 1) if first <= last else ():
            numbers = self.range_of(at)
            bins[at] += min(last + 1, numbers.stop) - max(first, numbers.start)

    def count_in(self, index: int, kinds: Iterable[str]) -> int:
        """How many numbers of these kinds a bin has."""
        return sum(self._bins[it][index] for it in kinds if it in self._bins)

    @property
    def kinds(self) -> Iterable[str]:
        """The kinds that are drawn."""
        return self._bins.keys()

    @property
    def found(self) -> int:
        """How many numbers aren't as they were signed."""
        return sum(count for kind, count in self.counts.items() if kind not in FINE)

    def text(self) -> str:
        """The counts in words."""
        return ", ".join(f"{self.counts[it]:,} {it}" for it in DRAWN if it in self.counts) or "nothing"

    def picture(self, title: str, unit: str, runs: Dict[str, Longest[Run]]) -> Markup:
        """The strip with its counts and its ends, and with words at the longest of these runs that can be seen."""
        said = f"{title}: {self.text()}"
        each = -(-self._span // self.size)
        bins = "" if self.size == self._span else f" Each of {self.size} bars stands for about {each:,} {unit}s."
        own = sorted(((it.stretch.length, it.stretch.first, kind) for kind in DRAWN if kind in runs for it in runs[kind].longest()
                      if it[:3] == self.group and it.stretch.length * WIDE >= self._span), reverse=True)
        words, height = self._words([(first, f"{count:,} {kind}") for count, first, kind in own[:MOST_MARKS]])
        ends = [f"{unit} {self.first:,}", f"{unit} {self.last:,}"] if self._span > 1 else [f"{unit} {self.first:,}"]
        return plain("figure", plain("figcaption", f"{said}.{bins}"),
                     element("svg", {"class": "strip", "viewBox": f"0 0 {WIDTH} {height}", "role": "img", "aria-label": said},
                             *self._paths(), *words),
                     element("div", {"class": "ends", "aria-hidden": "true"}, *(plain("span", it) for it in ends)))

    def _paths(self) -> List[Markup]:
        """The outlines of each kind, with neighbours of one height as one rectangle."""
        floor = [float(HEIGHT - BASE)] * self.size
        paths = []
        for kind in (it for it in DRAWN if it in self._bins):
            pieces: List[Tuple[int, int, float, float]] = []
            for at, count in enumerate(self._bins[kind]):
                if not count:
                    continue
                numbers = self.range_of(at)
                high = 0.0 if kind in FINE else max(LEAST, (HEIGHT - BASE) * count / len(numbers))
                top, low = (float(HEIGHT - BASE), float(HEIGHT)) if kind in FINE else (max(0.0, floor[at] - high), floor[at])
                floor[at] = min(floor[at], top)
                if pieces and pieces[-1][1:] == (at, top, low):
                    pieces[-1] = pieces[-1][0], at + 1, top, low
                else:
                    pieces.append((at, at + 1, top, low))
            scale = WIDTH / self.size
            path = "".join(f"M{left * scale:.6g} {top:.4g}H{right * scale:.6g}V{low:.4g}H{left * scale:.6g}z"
                           for left, right, top, low in pieces)
            paths.append(drawn("path", {"class": kind.replace(" ", "-"), "d": path}))
        return paths

    def _words(self, marks: Sequence[Tuple[int, str]]) -> Tuple[List[Markup], int]:
        """The words below, in as many lines as they need, and how high the strip is with them."""
        # how far to the right each line goes
        lines: List[float] = []
        words = []
        for number, text in sorted(marks):
            x = (number - self.first) * WIDTH / self._span
            is_last = x > WIDTH - APART
            line = next((at for at, it in enumerate(lines) if it <= (x - APART if is_last else x)), len(lines))
            lines[line:line + 1] = [x if is_last else x + APART]
            place = {"x": f"{x:.6g}", "y": str(HEIGHT + 11 + 12 * line)}
            words.append(element("text", {**place, "text-anchor": "end"}, f"{text} ▲") if is_last else
                         element("text", place, f"▲ {text}"))
        return words, HEIGHT + (4 + 12 * len(lines) if lines else 0)
