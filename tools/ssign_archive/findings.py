"""What is found of the files of a folder, and where, in words."""
from __future__ import annotations

import bisect
from typing import List, Sequence

from ssign_keys.words import counted, shown_name

from .sources import Read


class Places:
    """Finds the file of a place of a part."""

    def __init__(self, part: str, files: Sequence[Read]) -> None:
        self._names = [file_name(part, it.stored.name) for it in files]
        self._starts = [it.place for it in files]

    def at(self, place: int) -> str:
        """The file of a place of the part, and the place in it."""
        index = bisect.bisect_right(self._starts, place) - 1
        return f"{self._names[index]}:{place - self._starts[index]}"


def file_name(part: str, name: str) -> str:
    """A file of a part, with the folder."""
    return shown_name(name) if part == "." else f"{shown_name(part)}/{shown_name(name)}"


def file_findings(part: str, files: Sequence[Read]) -> List[str]:
    """A line for each file that is damaged, breaks off, or can't be read on."""
    found = []
    for it in files:
        name = file_name(part, it.stored.name)
        found += [f"at {name} octet {offset}: damaged, {counted(length, 'octet')} from there on {'is' if length == 1 else 'are'} no message"
                  for _, offset, length in it.damaged]
        if it.octet is None:
            continue
        what = "torn, the file breaks off in the message that begins there" if it.why == "torn" else \
            f"unread, what follows in this file isn't read: {it.why}"
        found.append(f"at {name} octet {it.octet}: {what}")
    return found
