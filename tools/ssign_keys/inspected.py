"""The messages of a log as `ssign inspect --json --facts` reports them (docs/dev/FORMATS.md, "Facts about messages").

The program reads messages. Its objects stand in a passing file, one for each message, and only those that are wanted are read.
"""
from __future__ import annotations

import base64
import bisect
import heapq
import itertools
import json
from array import array
from typing import Any, BinaryIO, Callable, Dict, Iterable, List, NamedTuple, Optional, Protocol, Sequence, Tuple

from .logs import Log
from .report_lines import stretches, wrong
from .words import ROOM, shown_front

# how many characters of a message are shown: of a block its front, and of an unlisted message so many that a change at its
# end is seen. Each receiver should take messages of 2048 octets (RFC 5424, section 6.1)
SHOWN, SHOWN_UNLISTED = 60, 2048
# so many octets of a text an object has at most
MOST_TEXT = 16384
# what stands before the length of a message in its object
OCTETS = b'"octets":'

Object = Dict[str, Any]
Take = Callable[[int, bytes], None]


def most_shown(kind: str) -> int:
    """How many characters are shown of a message that is unlisted, refused or spoilt."""
    return SHOWN_UNLISTED if kind == "unlisted" else SHOWN


def merged(*places: Iterable[int]) -> "array[int]":
    """The places of several rising lists, each once."""
    return array("I", (place for place, _ in itertools.groupby(heapq.merge(*places))))


class Found(NamedTuple):
    """A stored message: its file, its place there, its length, the front of its text, and its TIMESTAMP."""

    file: str
    place: int
    octets: int
    text: bytes
    timestamp: Optional[str]
    """As the message states it; None where it isn't one of RFC 5424."""
    is_original: bool = False
    """Whether length and text are those of the original in a wrap. The TIMESTAMP is that of the wrap."""

    def shown(self, most: int, room: int = ROOM) -> Tuple[str, bool]:
        """So many first characters, as a person reads them in this room, and whether the message goes on after them.

        They have to be looked up with `octets_for` as many.
        """
        text, octets = shown_front(self.text, most, room)
        return text, octets < self.octets


class Taker(Protocol):
    """Whoever is handed each object, and reads few of them in whole."""

    def take_lines(self, place: int, lines: Sequence[bytes]) -> None:
        """Takes the objects of the messages from a place on."""


class Inspected:
    """The objects of the messages at some places."""

    def __init__(self, log: Log, objects: BinaryIO, places: "array[int]") -> None:
        """These places rise. Nothing is read yet."""
        self._log = log
        self._objects = objects
        self._places = places
        # where the objects of these places begin in the file
        self._offsets = array("Q")

    def read(self, messages: int, take: Take, takers: Sequence[Taker]) -> None:
        """Goes over the objects of so many messages. Hands on those of the places, and all lines to these takers."""
        place = offset = 0
        for chunk in stretches(self._objects):
            end = min(place + chunk.count(b"\n"), messages)
            at = len(self._offsets)
            if takers or at < len(self._places) and self._places[at] < end:
                lines = chunk.split(b"\n")[:end - place]
                self._take_wanted(place, offset, lines, take)
                for it in takers:
                    it.take_lines(place, lines)
            place, offset = end, offset + len(chunk)
        if place < messages or len(self._offsets) < len(self._places):
            raise wrong("ssign inspect doesn't report each message")

    def _take_wanted(self, place: int, offset: int, lines: Sequence[bytes], take: Take) -> None:
        """Hands on the objects that are wanted among these, which begin with that of a place, and keeps where they stand."""
        before = 0
        while len(self._offsets) < len(self._places) and self._places[len(self._offsets)] < place + len(lines):
            wanted = self._places[len(self._offsets)]
            at = wanted - place
            offset += sum(map(len, lines[before:at])) + at - before
            before = at
            self._offsets.append(offset)
            take(wanted, lines[at])

    def find(self, place: int, most: int) -> Found:
        """The message at one of the places, with so many octets of its text."""
        it = self._at(place)
        return self._found(place, it, it["octets"], base64.b64decode(it["text"])[:most])

    def find_original(self, place: int, most: int) -> Found:
        """The same, but of a wrap the original in it."""
        it = self._at(place)
        if "original" not in it:
            return self._found(place, it, it["octets"], base64.b64decode(it["text"])[:most])
        text = base64.b64decode(it["original"])
        return self._found(place, it, original_octets(it, text), text[:most])._replace(is_original=True)

    def _at(self, place: int) -> Object:
        """The object of the message at one of the places."""
        self._objects.seek(self._offsets[bisect.bisect_left(self._places, place)])
        return object_at(place, self._objects.readline())

    def _found(self, place: int, it: Object, octets: int, text: bytes) -> Found:
        part = self._log.part_of_place(place)
        return Found(part.name, place - part.place, octets, text, it.get("timestamp"))


def object_at(place: int, line: bytes) -> Object:
    """The object of the message at a place."""
    it: Object = json.loads(line)
    if it["place"] != place:
        raise wrong("ssign inspect doesn't report each message")
    return it


def original_octets(it: Object, original: bytes) -> int:
    """How many octets the original in a wrap has, of which an object has the first ones."""
    if len(original) < MOST_TEXT:
        return len(original)
    # both texts are cut: the original begins after a bar, where what is left of the message is its front
    text = base64.b64decode(it["text"])
    begin = next(at for at in range(1, len(text) + 1) if text[at - 1:at] == b"|" and original.startswith(text[at:]))
    return int(it["octets"]) - begin


class Lengths:
    """Learns how many messages begin before each of several logs, by their lengths. A frame may begin in one log and end in the
    next."""

    def __init__(self, log: Log) -> None:
        """No message yet."""
        self._starts = [it.offset for it in log.parts]
        self._are_lines = log.are_lines
        self._gaps = iter(log.damage or ())
        self._gap = next(self._gaps, None)
        self._place = self._at = 0
        self._places: List[int] = []

    def take_lines(self, place: int, lines: Sequence[bytes]) -> None:
        """Takes the objects of the next messages."""
        for line in lines:
            self._begin()
            rest = line[line.index(OCTETS) + len(OCTETS):]
            octets = int(rest.partition(b",")[0].rstrip(b"}"))
            self._at += octets + (1 if self._are_lines else len(b"%d " % octets))
            self._place += 1

    def _begin(self) -> None:
        """A message begins, perhaps after damaged octets."""
        if self._gap is not None and self._gap.place == self._place:
            self._at += self._gap.length
            self._gap = next(self._gaps, None)
        while len(self._places) < len(self._starts) and self._starts[len(self._places)] <= self._at:
            self._places.append(self._place)

    def places(self) -> List[int]:
        """How many messages begin before each log, once all were taken."""
        return self._places + [self._place] * (len(self._starts) - len(self._places))
