"""Counters that somebody kept: the file that `ssign review --counters` reads (docs/dev/FORMATS.md, "A counters file").

What is missing up to them, ssign reports. They are read here too, since a report doesn't say how far they go.
"""
from __future__ import annotations

import os
import stat
from typing import BinaryIO, Dict, Optional, Set, Tuple

from .blocks import Session
from .faults import Fault
from .files import open_given, reason
from .words import shown_name
from .workplace import Workplace, finish, put

# ssign refuses a longer file
LONGEST = (1 << 32) - 1
PIECE = 1 << 20


class Counters:
    """How far sessions and their groups went, as the next GBC and the next numbers. The greatest counter counts."""

    def __init__(self) -> None:
        """No counter yet."""
        self._blocks: Dict[Session, int] = {}
        self._groups: Dict[Tuple[Session, int, int], int] = {}
        self._sessions: Set[Session] = set()

    def add(self, line: bytes) -> None:
        """Takes a line of a file that ssign didn't refuse. The end of a part says nothing more."""
        if line.startswith(b"end "):
            return
        fields = line.rstrip(b"\n").split(b" ")
        session, numbers = Session(*fields[1:5]), [int(it) for it in fields[5:]]
        self._sessions.add(session)
        if len(numbers) == 1:
            self._blocks[session] = max(numbers[0], self._blocks.get(session, 0))
        else:
            group = session, numbers[0], numbers[1]
            self._groups[group] = max(numbers[2], self._groups.get(group, 0))

    def are_none(self) -> bool:
        """Whether there is no counter."""
        return not self._sessions

    def names(self, session: Session) -> bool:
        """Whether a counter is one of this session."""
        return session in self._sessions

    def next_gbc(self, session: Session) -> Optional[int]:
        """The GBC of the next signature block of a session, or None where no counter says it."""
        return self._blocks.get(session)

    def next_number(self, session: Session, sg: int, spri: int) -> Optional[int]:
        """The number of the next message of a group, or None where no counter says it."""
        return self._groups.get((session, sg, spri))


def is_standard_pipe(path: str) -> bool:
    """Whether a path names standard input, where that is a pipe: what one reader takes, no other gets."""
    try:
        given = os.fstat(0)
        return stat.S_ISFIFO(given.st_mode) and os.path.samestat(os.stat(path), given)
    except (OSError, ValueError):
        return False


def copy_begin(path: str, workplace: Workplace) -> str:
    """Copies the counters with which a night begins, and gives the path of the copy. With none the first night begins."""
    with workplace.new_file("begin") as copy:
        copy_file(path, copy)
    return workplace.path("begin")


def copy_counters(path: str, workplace: Workplace) -> str:
    """Copies a counters file to a passing one, and gives its path. It is read more than once, and may be a pipe."""
    with workplace.new_file("counters") as copy:
        copy_file(path, copy)
        if not os.fstat(copy.fileno()).st_size:
            raise nothing_shown(path)
    return workplace.path("counters")


def nothing_shown(path: str) -> Fault:
    """What is said of a counters file without a counter, because whoever gives it believes that it shows something."""
    return Fault(f"the counters file {shown_name(path)} is empty, so it shows nothing: `ssign counters` writes a line "
                 "for each joined session, so make it again from a log that is whole")


def copy_file(path: str, copy: BinaryIO) -> None:
    """Copies a counters file into an open one."""
    try:
        with open(open_given(path), "rb") as source:
            copy_octets(source, copy)
    except (OSError, ValueError) as fault:
        raise Fault(f"the counters file {shown_name(path)} can't be read: {reason(fault)}") from fault
    finish(copy)


def copy_octets(source: BinaryIO, copy: BinaryIO) -> None:
    """Copies what ssign would read, and an octet more, so that ssign refuses a file that is too long."""
    if os.fstat(source.fileno()).st_size > LONGEST:
        # ssign doesn't read a file that is known to be too long
        copy.truncate(LONGEST + 1)
        return
    left = LONGEST + 1
    while left:
        piece = source.read(min(PIECE, left))
        if not piece:
            break
        put(copy, piece)
        left -= len(piece)


def read_counters(path: str) -> Counters:
    """The counters of a file that ssign didn't refuse."""
    counters = Counters()
    with open(path, "rb") as file:
        for line in file:
            counters.add(line)
    return counters
