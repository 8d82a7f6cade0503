"""The parts that a split writes: each a folder with one log, and beside it the places that its messages had before."""
from __future__ import annotations

import hashlib
import os
import urllib.parse
from typing import Dict, List

from ssign_keys.faults import Fault
from ssign_keys.files import reason
from ssign_keys.words import shown_name

from .folder import PLACES

# what is held before it is written, of one part and of all together
HELD = 1 << 20
HELD_TOGETHER = 1 << 26
# a longer name of a part is cut, and ends with a hash of all of it
LONGEST_NAME = 120


def name_of(kind: str, *words: bytes) -> str:
    """The name of the folder of a part: its kind, and the words of a session, each without what a path can't hold."""
    spelled = [urllib.parse.quote(it, safe="") for it in words]
    name = ",".join([kind, *spelled])
    if len(name) > LONGEST_NAME:
        name = f"{name[:LONGEST_NAME - 17]}~{hashlib.sha256(name.encode()).hexdigest()[:16]}"
    # such a name beside a folder says something of that folder
    return f"{name[:-len(PLACES)]}%2E{PLACES[1:]}" if name.endswith(PLACES) else name


class Parts:
    """The parts of a split, by their numbers. Files are open only while they are written to: there may be many parts."""

    def __init__(self, folder: str) -> None:
        self._folder = folder
        self._numbers: Dict[str, int] = {}
        self.names: List[str] = []
        self.messages: List[int] = []
        self.blocks: List[int] = []
        self._logs: Dict[int, bytearray] = {}
        self._places: Dict[int, bytearray] = {}
        self._held = 0

    def number(self, name: str) -> int:
        """The number of a part, which is new where nobody asked for it before."""
        number = self._numbers.setdefault(name, len(self.names))
        if number == len(self.names):
            self.names.append(name)
            self.messages.append(0)
            self.blocks.append(0)
        return number

    def put(self, number: int, stored: bytes, place: int, is_block: bool) -> None:
        """Puts a message, with its length or LF, after those of a part."""
        self.messages[number] += 1
        self.blocks[number] += is_block
        log = self._logs.setdefault(number, bytearray())
        log += stored
        line = b"%d\n" % place
        self._places.setdefault(number, bytearray()).extend(line)
        self._held += len(stored) + len(line)
        if len(log) >= HELD:
            self._write(number)
        if self._held >= HELD_TOGETHER:
            self.write()

    def write(self) -> None:
        """Writes all that is held."""
        for number in list(self._logs):
            self._write(number)

    def _write(self, number: int) -> None:
        log, places = self._logs.pop(number), self._places.pop(number)
        self._held -= len(log) + len(places)
        folder = os.path.join(self._folder, self.names[number])
        try:
            os.makedirs(folder, exist_ok=True)
            for path, octets in ((os.path.join(folder, "log"), log), (f"{folder}{PLACES}", places)):
                with open(path, "ab") as file:
                    file.write(octets)
        except OSError as fault:
            raise Fault(f"{shown_name(folder)} can't be written: {reason(fault)}") from fault
