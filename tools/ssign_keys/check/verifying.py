"""Has each file be verified that needs it, before anything is said of how files hang together."""
from __future__ import annotations

import os
import time
from typing import Dict, List, Optional, Set

from ..faults import Fault
from ..words import shown_name
from .files import Reader
from .keys import Judges
from .memory import Memory
from .originator import Originator
from .stamps import Checker
from .verdicts import Pool, Work

# what was found stands on the disk after so many seconds: a first check of years may be stopped
PAUSE = 5.0


def refuse_unknown(folders: Dict[str, str], memory: Memory) -> None:
    """Refuses a folder that isn't there, and of which no check knows."""
    known = set(memory.recorded())
    for name, path in folders.items():
        if name not in known and not os.path.isdir(path):
            raise Fault(f"there is no folder {shown_name(path)}: name that of an originator, or one that holds such folders")


def verify(originators: List[Originator], reader: Reader, judges: Judges, pool: Pool, checker: Optional[Checker]) -> int:
    """Has each file be verified that isn't known. A verdict soon stands on the disk, because all of them may take hours.

    Gives how many got a verdict.
    """
    by_name = {it.name: it for it in originators}
    works: List[Work] = []
    for it in originators:
        works += it.read(reader, judges, checker)
    unsaved: Set[str] = set()
    verified, last = 0, time.monotonic()
    for work, judged in pool.judge(works):
        verified += by_name[work.originator].take(work, judged, judges) is not None
        unsaved.add(work.originator)
        if time.monotonic() - last >= PAUSE:
            for name in unsaved:
                by_name[name].record.save()
            unsaved.clear()
            last = time.monotonic()
    return verified
