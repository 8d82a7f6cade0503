#!/usr/bin/env python3
"""What `manifest check` does with long manifests: it takes steps by their length, and finds what a plain comparison of all pairs finds.

    manifest_cases.py     prints `passed WHAT`, or `failed WHAT: WHY`, a line for each
"""
from __future__ import annotations

import os
import random
import sys
from typing import List, Optional, Tuple

sys.path.insert(0, os.path.join(os.path.dirname(os.path.abspath(__file__)), "..", "tools"))

from ssign_keys.blocks import Session  # noqa: E402
from ssign_keys.manifest_findings import of_logs, of_manifest  # noqa: E402
from ssign_keys.manifest_form import FIRST_SUM, Copied, Entry, Extent, Manifest  # noqa: E402

SESSION = Session(b"gate", b"signer", b"-", b"1")
STAMP = "2026-01-01T04:00:00Z"


def tell(what: str, fault: str) -> None:
    """One check."""
    print(f"failed {what}: {fault}" if fault else f"passed {what}")


def night(number: int, first: int, last: int, gbc: int, session: Session = SESSION) -> Entry:
    """The entry of a night."""
    groups = (Extent(0, 0, first, last),) if first <= last else ()
    return Entry(number, FIRST_SUM, STAMP, f"night-{number}", 100, f"{number:064x}", session, gbc, groups, None)


def nights(count: int) -> Manifest:
    """A session that goes on for so many nights, each of which was copied."""
    lines: List[object] = []
    for number in range(1, count + 1):
        it = night(number, 2 * number - 1, 2 * number, number)
        lines += [it, Copied(number, FIRST_SUM, STAMP, it.name, it.sha256, "x")]
    return Manifest("manifest", lines)  # type: ignore[arg-type]


def steps(count: int) -> int:
    """How many calls a check of so many nights makes, none of which is here any more."""
    manifest, calls = nights(count), 0

    def seen(frame: object, event: str, argument: object) -> None:
        nonlocal calls
        calls += event in ("call", "c_call")

    sys.setprofile(seen)
    found = [*of_manifest(manifest, None), *of_logs(manifest, [])]
    sys.setprofile(None)
    assert not found, found
    return calls


def linear() -> None:
    """Twice the entries take about twice the calls."""
    counts = [steps(it) for it in (250, 500, 1000)]
    fault = "" if counts[1] < 2.3 * counts[0] and counts[2] < 2.3 * counts[1] else f"{counts}"
    tell(f"250, 500 and 1,000 nights: {counts} calls", fault)


def against(entries: List[Entry]) -> List[Tuple[int, int]]:
    """Each entry that doesn't go on after one before it, with the first such one, by a comparison with each."""
    found, good = [], []
    for at, it in enumerate(entries, 1):
        first: Optional[int] = next((number for number, other in good if not it.goes_on(other)), None)
        if first is None:
            good.append((at, it))
        else:
            found.append((at, first))
    return found


def pairs() -> None:
    """The nights that don't go on are those of a comparison of all pairs."""
    dice, wrong, count = random.Random(12), [], 0
    for _ in range(300):
        entries, end = [], 0
        for number in range(1, dice.randrange(2, 20)):
            first = max(1, end + 1 + dice.choice((0, 0, 0, 0, -1, -3, 2)))
            last = first + dice.randrange(-1, 4)
            end = max(end, last)
            entries.append(night(number, first, last, number + dice.choice((0, 0, 0, -1, -2, 3))))
        found = [(int(it.where.split()[1]), int(it.what.split(" the line ")[1].split()[0]))
                 for it in of_manifest(Manifest("manifest", list(entries)), None) if it.kind == "twice"]
        count += len(found)
        if found != against(entries):
            wrong.append(f"{found}, and not {against(entries)}")
    tell(f"{count} nights that don't go on", wrong[0] if wrong else "" if count > 300 else "there are too few")


if __name__ == "__main__":
    linear()
    pairs()
