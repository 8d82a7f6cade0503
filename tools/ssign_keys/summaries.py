"""Long lists in short: the first few entries are shown, and of the others how many there are, and where."""
from __future__ import annotations

from typing import List, Optional, Tuple

# how many entries of a list are shown, and how many runs of the places of the others
FEW = 10


class Runs:
    """Rising numbers, joined to runs. Only the first few runs are kept."""

    def __init__(self) -> None:
        """No number yet."""
        self.count = 0
        self._runs: List[Tuple[int, int]] = []
        self._further = 0
        self._last: Optional[int] = None

    def add(self, number: int) -> None:
        """Takes a number that is greater than each before it."""
        self.count += 1
        follows = self._last is not None and number == self._last + 1
        self._last = number
        if self._further:
            self._further += 0 if follows else 1
        elif follows:
            self._runs[-1] = self._runs[-1][0], number
        elif len(self._runs) < FEW:
            self._runs.append((number, number))
        else:
            self._further = 1

    def __str__(self) -> str:
        """`3 to 7, 9, 11 to 20 and 2 more runs up to 95`."""
        said = [str(first) if first == last else f"{first} to {last}" for first, last in self._runs]
        if self._further:
            said.append(f"{self._further:,} more run{'' if self._further == 1 else 's'} up to {self._last}")
        return " and ".join(([", ".join(said[:-1])] if said[1:] else []) + said[-1:])


class Few:
    """Counts the entries of a list, of which a few are shown."""

    def __init__(self) -> None:
        """No entry yet."""
        self.entries = 0
        self.left = 0
        self.left_numbers = 0

    def takes(self, numbers: int = 1) -> bool:
        """Whether another entry, which is about so many numbers, is shown."""
        self.entries += 1
        if self.entries <= FEW:
            return True
        self.left += 1
        self.left_numbers += numbers
        return False
