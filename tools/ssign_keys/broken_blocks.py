"""Messages that hold the mark of a block, `[ssign`, and are no blocks: what is wrong with each, ssign says.

An ordinary message of RFC 5424 may hold these octets in its text. So it is no broken block, and is grouped by itself.
What a number lists was sent so, and isn't grouped at all.
"""
from __future__ import annotations

import base64
import json
from dataclasses import dataclass
from typing import NamedTuple, Optional, Sequence

from .inspected import Object
from .words import grouped

LINE_ENDS = b"\r\n"
# stands in the objects of messages that hold the mark
MARKED = b'"marked":1'
# the part that fails where something stands after the elements, and so many octets that may be the end of a line
SYNTAX, LAST = "M8", 4


class Unreadable(NamedTuple):
    """A message that ssign can't read as one of RFC 5424."""

    place: int
    cause: str
    """The first part of it that fails, M1 to M12."""
    octet: int
    """Where in the message it does, from 0."""
    octets: int
    """How many octets the message has."""


@dataclass
class Broken:
    """Messages that hold the mark, are no blocks, and aren't listed."""

    unreadable: int = 0
    first: Optional[Unreadable] = None
    # how many of the unreadable ones fail at their end alone, where CR and LF stand
    ended: int = 0
    ordinary: int = 0
    first_ordinary: Optional[int] = None

    def take(self, it: Object) -> None:
        """Takes the object of one of them."""
        if it["line"] == "plain":
            self.ordinary += 1
            self.first_ordinary = it["place"] if self.first_ordinary is None else self.first_ordinary
            return
        self.unreadable += 1
        self.first = self.first or Unreadable(it["place"], it["part"], it["offset"], it["octets"])
        self.ended += it["part"] == SYNTAX and it["octets"] - it["offset"] <= LAST and is_line_end(it)

    def sentences(self) -> str:
        """What a verdict reports of them, each sentence with a space in front."""
        return self._unreadable_words() + self._ordinary_words()

    def _unreadable_words(self) -> str:
        first = self.first
        if first is None:
            return ""
        where = "its last octet" if first.octet == first.octets - 1 else f"its octet {first.octet}"
        if first.octet >= first.octets:
            where = "its end"
        said = grouped(self.unreadable, "message holds \"[ssign\" but can't be read as a block: it stands at",
                       "messages hold \"[ssign\" but can't be read as blocks: the first at")
        said = f" {said} place {first.place}, {first.cause} at {where}"
        if self.ended == self.unreadable:
            return f"{said}; usually a CR or LF was added when the log was stored."
        return f"{said}; {self.ended:,} of them end with a CR or LF that can't stand there." if self.ended else f"{said}."

    def _ordinary_words(self) -> str:
        if not self.ordinary:
            return ""
        said = grouped(self.ordinary, "unlisted message holds \"[ssign\" elsewhere than a block does: it stands at",
                       "unlisted messages hold \"[ssign\" elsewhere than a block does: the first at")
        return f" {said} place {self.first_ordinary}."


class Marks:
    """Finds them among the unlisted messages."""

    def __init__(self, unlisted: Sequence[int], broken: Broken) -> None:
        """The places rise. What is found is added to the broken ones."""
        self._unlisted = unlisted
        self._broken = broken
        self._at = 0

    def take_lines(self, place: int, lines: Sequence[bytes]) -> None:
        """Takes the objects of the messages from a place on."""
        while self._at < len(self._unlisted) and self._unlisted[self._at] < place + len(lines):
            line = lines[self._unlisted[self._at] - place]
            if MARKED in line:
                self._broken.take(json.loads(line))
            self._at += 1


def is_line_end(it: Object) -> bool:
    """Whether CR and LF alone stand where the message fails. A message of which an object has only the front isn't looked at."""
    text = base64.b64decode(it["text"])
    left = text[it["offset"]:]
    return len(text) == it["octets"] and left != b"" and not left.strip(LINE_ENDS)
