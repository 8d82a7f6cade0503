"""Files of JSON lines that are chained: each line has its number, and the SHA-256 of the line before.

A line is added at the end and stands on the disk before anything rests on it. A kill tears the last line at most, which the
next run drops. Whoever changes a line breaks the chain there, or changes the end, which other files know.
"""
from __future__ import annotations

import hashlib
import json
import os
from typing import Any, Dict, List, Optional, Sequence, Tuple

from ..faults import Fault
from ..files import open_regular, reason
from ..json_text import compact
from ..store import replace
from ..words import shown_name

Row = Dict[str, Any]
ZERO = "0" * 64
MODE = 0o600
# the fields of each kind of line, with the types that they may have
NONE: type = type(None)
FORMS: Dict[str, Dict[str, Tuple[type, ...]]] = {
    "begin": {"time": (int,), "known": (bool,)},
    "file": {"sha256": (str,), "name": (str,), "status": (int,), "said": (str,), "session": (list, NONE), "key": (str, NONE),
             "link": (str, NONE), "of": (list,), "seen": (int,), "stamped": (int, NONE)},
    "read": {"name": (str,), "stat": (list,), "sha256": (str,)},
    "log": {"name": (str,), "stat": (list,), "size": (int,), "sums": (dict,), "sha256": (str,), "since": (int,)},
    "stamp": {"name": (str,), "stat": (list,), "sha256": (str,), "latest": (int,), "when": (str,), "service": (str,),
              "of": (str,)},
    "held": {"files": (list,)},
    "accept": {"name": (str,), "fact": (str,), "why": (str,), "time": (int,)},
    "lapse": {"name": (str,)},
    "run": {"time": (int,), "open": (list,)},
    "check": {"time": (int,), "status": (int,), "heads": (dict,), "open": (list,), "has_status": (bool,)},
    "part": {"part": (str,), "time": (int,), "of": (list,)},
    "end": {},
}


def is_row(row: object) -> bool:
    """Whether something is a line of the memory. Others may have written to it."""
    form = FORMS.get(str(row.get("kind"))) if isinstance(row, dict) else None
    return form is not None and isinstance(row, dict) and all(isinstance(row.get(name), types) for name, types in form.items())


class Lines:
    """Such a file, as far as it goes."""

    def __init__(self, path: str, is_there: bool = True) -> None:
        """Reads it, if it is there. Raises Fault where it can't be read."""
        self.path = path
        self.rows: List[Row] = []
        self.fault: Optional[str] = None
        """Where its chain breaks first, in words."""
        self.fact = ""
        """The SHA-256 of the line at which it breaks."""
        self._sums: List[str] = []
        octets = self._octets() if is_there else b""
        whole, _, torn = octets.rpartition(b"\n")
        self._size = len(octets) - len(torn)
        for line in whole.split(b"\n") if self._size else []:
            self._take(line)

    def _octets(self) -> bytes:
        try:
            with open(open_regular(self.path), "rb") as file:
                return file.read()
        except OSError as fault:
            raise Fault(f"the memory {shown_name(self.path)} can't be read: {reason(fault)}") from fault

    def _take(self, line: bytes) -> None:
        """Takes a line. One that is none counts, so that each later one keeps its number."""
        try:
            row = json.loads(line)
        except (ValueError, RecursionError):
            row = None
        number, before = len(self._sums) + 1, self._sums[-1] if self._sums else ZERO
        self._sums.append(hashlib.sha256(line + b"\n").hexdigest())
        if not is_row(row):
            self._break(f"line {number} is no line of it")
            return
        if (row.get("n"), row.get("previous")) != (number, before):
            self._break(f"line {number} doesn't follow the line before it")
        self.rows.append(row)

    def _break(self, fault: str) -> None:
        if self.fault is None:
            self.fault, self.fact = fault, self._sums[-1]

    @property
    def mark(self) -> str:
        """How far it goes: the number of its last line, and the SHA-256 of that."""
        return f"{len(self._sums)}:{self._sums[-1] if self._sums else ZERO}"

    def goes_on(self, mark: str) -> bool:
        """Whether the line of a mark is in it, at its place."""
        count, _, wanted = mark.partition(":")
        if not (count.isascii() and count.isdigit() and len(count) < 12 and int(count) <= len(self._sums)):
            return False
        return (self._sums[int(count) - 1] if int(count) else ZERO) == wanted

    def append(self, rows: Sequence[Row]) -> None:
        """Adds lines, which stand on the disk afterwards."""
        text = []
        for row in rows:
            fields = {"n": len(self._sums) + 1, "previous": self._sums[-1] if self._sums else ZERO, **row}
            line = compact(fields).encode("ascii") + b"\n"
            self._sums.append(hashlib.sha256(line).hexdigest())
            self.rows.append(fields)
            text.append(line)
        if text:
            self._write(b"".join(text))

    def _write(self, octets: bytes) -> None:
        """Writes after the last whole line."""
        try:
            with open(open_regular(self.path, os.O_RDWR | os.O_NOFOLLOW), "r+b") as file:
                file.truncate(self._size)
                file.seek(self._size)
                file.write(octets)
                file.flush()
                os.fsync(file.fileno())
        except OSError as fault:
            raise Fault(f"the memory {shown_name(self.path)} can't be written: {reason(fault)}") from fault
        self._size += len(octets)


def begin(path: str, row: Row) -> Lines:
    """Makes such a file with its first line."""
    replace(path, compact({"n": 1, "previous": ZERO, **row}).encode("ascii") + b"\n", MODE)
    return Lines(path)
