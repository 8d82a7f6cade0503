"""What the memory has of one originator, or of the runs: its lines, made into what a check asks for."""
from __future__ import annotations

import contextlib
import hashlib
from typing import Dict, List, NamedTuple, Optional, Set, Tuple

from ..chain.link import Link
from ..chain.link import read as read_link
from ..json_text import compact
from ..words import shown_name
from .lines import Lines, Row

Stat = Tuple[int, ...]


class File(NamedTuple):
    """A signed file as it was verified: `verify` had this verdict on these octets."""

    sha256: str
    name: str
    """Its name without what a compression adds, when it was seen first."""
    status: int
    """That of `verify`; 2 where it refused the file."""
    said: str
    session: Optional[Tuple[str, str, str, int]]
    """HOSTNAME, APP-NAME, PROCID and RSID, if it has one session and that is verified."""
    key: Optional[str]
    """The fingerprint of the key that signed it."""
    link: Optional[Link]
    """What its chain message says, if that is verified."""
    of: Tuple[str, str, str]
    """What the verdict was made with: the digests of what is trusted, of the rules, and of the programs."""
    seen: int
    """When its octets were seen first."""
    stamped: Optional[int]
    """The time of the time stamp by which it was judged; None where that was `seen`."""

    @property
    def judged(self) -> int:
        """The time by which its key was judged."""
        return self.seen if self.stamped is None else self.stamped

    @property
    def is_right(self) -> bool:
        """Whether it is clean, and a link of a chain."""
        return self.status == 0 and self.link is not None

    @property
    def rsid(self) -> int:
        """The number of its session; 0 where it has none."""
        return self.session[3] if self.session else 0


def file_of(row: Row) -> File:
    """The file of a line."""
    session, of = row["session"], row["of"]
    names = (str(session[0]), str(session[1]), str(session[2]), int(session[3])) if session else None
    return File(row["sha256"], row["name"], row["status"], row["said"], names, row["key"],
                read_link(row["link"]) if row["link"] else None, (str(of[0]), str(of[1]), str(of[2])), row["seen"],
                row.get("stamped"))


class Held:
    """The accepted findings that hold, by their names."""

    def __init__(self) -> None:
        """None yet."""
        self.rows: Dict[str, Row] = {}
        self.ever: Set[str] = set()
        """Each name that was accepted once."""

    def take(self, row: Row) -> None:
        """Takes a line `accept` or `lapse`."""
        if row["kind"] == "accept":
            self.rows[row["name"]] = row
            self.ever.add(row["name"])
        else:
            self.rows.pop(row["name"], None)


class Record:
    """What the memory has of an originator. What is put goes to its file with `save`."""

    def __init__(self, lines: Lines) -> None:
        """Goes over the lines."""
        self.lines = lines
        self.files: Dict[str, File] = {}
        self.numbers: Dict[str, int] = {}
        """The number of each SHA-256, in the order in which they were seen."""
        self.reads: Dict[str, Tuple[Stat, str]] = {}
        self.logs: Dict[str, Row] = {}
        self.stamps: Dict[str, Row] = {}
        """Each time stamp that held, by its name."""
        self.earliest: Dict[str, Row] = {}
        """The earliest time stamp that was seen of each file, by the SHA-256 of that."""
        self.held: Set[str] = set()
        """The SHA-256 of each file that has to be there from now on."""
        self.accepted = Held()
        self.open: Dict[str, str] = {}
        """The findings of the last run that weren't accepted, each with its fact."""
        self._is_known = False
        self._put: List[Row] = []
        for row in lines.rows:
            # what was edited shows in the chain
            with contextlib.suppress(ValueError, TypeError, IndexError, KeyError):
                self._take(row)

    def _take(self, row: Row) -> None:
        kind = row["kind"]
        if kind == "file":
            self._take_file(row)
        elif kind == "read":
            self.reads[row["name"]] = tuple(row["stat"]), row["sha256"]
        elif kind == "log":
            self.logs[row["name"]] = row
        elif kind == "stamp":
            self.stamps[row["name"]] = row
            if row["sha256"] not in self.earliest or row["latest"] <= self.earliest[row["sha256"]]["latest"]:
                self.earliest[row["sha256"]] = row
        elif kind == "held":
            self.held.update(map(str, row["files"]))
        elif kind in ("accept", "lapse"):
            self.accepted.take(row)
        elif kind == "run":
            self.open = {str(name): str(fact) for name, fact in row["open"]}
        elif kind == "begin":
            self._is_known = row["known"]

    def _take_file(self, row: Row) -> None:
        it = file_of(row)
        self.files[it.sha256] = it
        self.numbers.setdefault(it.sha256, len(self.numbers))

    def is_known_as(self, originator: str) -> bool:
        """Whether somebody named it: it was there when the memory began, or was accepted."""
        return self._is_known or f"{shown_name(originator)} new" in self.accepted.ever

    def note_open(self, opened: Dict[str, str], now: int) -> None:
        """Has the findings be known that aren't accepted."""
        if opened != self.open:
            self.put({"kind": "run", "time": now, "open": [list(it) for it in sorted(opened.items())]})

    def put(self, row: Row) -> None:
        """Takes a line, which is in the file after the next `save`."""
        self._put.append(row)
        self._take(row)

    def forget_put(self) -> None:
        """Has what was put not be written by the next `save`, because another file has it."""
        self._put = []

    def save(self) -> None:
        """Has all that was put stand on the disk."""
        put, self._put = self._put, []
        self.lines.append(put)


def digest(value: object) -> str:
    """The SHA-256 of a value."""
    return hashlib.sha256(compact(value).encode("ascii")).hexdigest()
