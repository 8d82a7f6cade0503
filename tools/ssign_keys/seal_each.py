"""Signs line by line what a signer on another machine wants (`ssign-keys seal --each`), and remembers how far each session went.

A signer that goes on for years wants millions of blocks, so the state has no list of all: it has the last ones. A block is
signed if its numbers and its GBC are greater than all before, or if it is one of the last ones, octet for octet. Of certificate
blocks it has only the time in the payload: all else of the payload is the key, which is the same in each.
"""
from __future__ import annotations

import contextlib
import os
import re
import time
from itertools import islice
from typing import Iterator, Tuple, Union

from .blocks import Session
from .faults import Fault
from .files import open_regular, reason
from .sealed import Record, Sealed, Sessions
from .sealed_payloads import LONGEST_STAMP, UNKNOWN
from .state import Busy, State

# so many signature blocks of a session are remembered, and the last one of each group
REMEMBERED = 256
# no line `want` of a block that can be signed is longer, in octets: a certificate block has at most 9999 octets of a payload
LONGEST = 1 << 15
# So many signers with names of their own go into one state. Each can have 1,280 blocks there, all of which are read for an answer.
MOST_NAMES = 1 << 4
# A question goes no further than this: so many blocks past the last one, so many numbers past the last one of the group, and so
# many seconds past the clock, of which RSIDs are made. Who asks for the greatest values would else end all that comes after.
MOST_BLOCKS, MOST_NUMBERS, MOST_SECONDS = 10000, 1000000, 86400
# how long another answer is waited for, in seconds
PATIENCE = 5.0
END = len("end \n") + 64
STAMP = re.compile(rb"stamp ([0-9TZ:.+?-]{1,%d})\n" % LONGEST_STAMP)
Block = Union[Record, bytes]
"""A signature block, or the TIMESTAMP of a payload as a certificate block has it, with `?` for each octet that it hasn't."""


class LastSessions(Sessions):
    """The last blocks of each session."""

    def __init__(self) -> None:
        """Nothing yet."""
        super().__init__(is_ordered=True)

    def take(self, session: Session, record: Record) -> None:
        """Takes a block. Raises Fault where one with a later number was signed, and it is none of those that are remembered."""
        sealed = self._room(session)
        if record.name not in sealed.records:
            refuse_earlier(session, record, sealed)
            sealed.last[record.group] = record
        super().take(session, record)
        forget(sealed)

    def take_stamp(self, session: Session, stamp: bytes) -> None:
        """Takes the TIMESTAMP of a payload, as a certificate block has it. Raises Fault where an earlier one had another."""
        sealed = self._room(session)
        before = sealed.stamp or stamp
        known = [{*octets}.difference(UNKNOWN) for octets in zip(before, stamp)]
        if len(before) != len(stamp) or any(len(it) > 1 for it in known):
            raise Fault(f"the payload has another TIMESTAMP than in a block that was signed already for the session '{session}'")
        sealed.stamp = bytes(it.pop() if it else UNKNOWN[0] for it in known)

    def ask(self, session: Session, block: Block, is_bound: bool) -> None:
        """Takes a block that is wanted now. Raises Fault where it goes too far; any RSID may be wanted where `is_bound` to it."""
        known = self._sessions.get(session)
        if known is None and not is_bound:
            refuse_later(session, int(time.time()))
        if isinstance(block, bytes):
            self.take_stamp(session, block)
        else:
            refuse_far(session, block, known or Sealed())
            self.take(session, block)

    def _room(self, session: Session) -> Sealed:
        """What was sealed of a session. Raises Fault where there is no room for its names."""
        if session[:3] not in self._last and len(self._last) >= MOST_NAMES:
            raise Fault(f"blocks of {MOST_NAMES} signers were signed already, and '{session}' is another one: begin another state for "
                        "it with --new-state, and give --host, --app and --procid")
        return self._of(session)


def refuse_later(session: Session, now: int) -> None:
    """Refuses a session whose RSID no clock gives yet."""
    if int(session.rsid) > now + MOST_SECONDS:
        raise Fault(f"the RSID {int(session.rsid)} is more than a day after the clock of this machine, which is at {now}: set the "
                    "clock that is wrong, or name the RSID by --rsid")


def refuse_far(session: Session, record: Record, sealed: Sealed) -> None:
    """Refuses a block whose GBC or numbers lie far after those of all blocks before."""
    gbc, last = ends(record.group, sealed)
    if record.number > gbc + MOST_BLOCKS or record.last > last + MOST_NUMBERS:
        raise Fault(f"the block with GBC {record.number} and the numbers {record.first} to {record.last} lies more than {MOST_BLOCKS} "
                    f"blocks or {MOST_NUMBERS} numbers after those that were signed for the session '{session}': begin another session")


def ends(group: Tuple[int, ...], sealed: Sealed) -> Tuple[int, int]:
    """The greatest GBC of all blocks, and the greatest number of a group; -1 and 0 where there is none."""
    # each block was after all before
    gbc = next((it.number for it in reversed(sealed.records.values())), -1)
    return gbc, sealed.last[group].last if group in sealed.last else 0


def refuse_earlier(session: Session, record: Record, sealed: Sealed) -> None:
    """Refuses a block whose GBC or numbers aren't after those of all blocks before."""
    gbc, last = ends(record.group, sealed)
    if record.number <= gbc or record.first <= last:
        raise Fault(f"the block with GBC {record.number} and the numbers {record.first} to {record.last} isn't after the blocks "
                    f"that were signed for the session '{session}', which go to GBC {gbc} and the number {last}")


def forget(sealed: Sealed) -> None:
    """Forgets the oldest blocks, but for the last one of each group."""
    if len(sealed.records) <= 2 * REMEMBERED + len(sealed.last):
        return
    kept = {it.name for it in sealed.last.values()}.union(islice(reversed(sealed.records), REMEMBERED))
    sealed.records = {name: it for name, it in sealed.records.items() if name in kept}


class LastState(State):
    """A state file of `seal --each`, which is locked for one answer at a time. It isn't used with `with`."""

    heading = b"ssign-keys sealed last 2 %s\n"
    mode = " --each"

    def __init__(self, path: str, key: str, is_new: bool) -> None:
        """As that of `seal`."""
        super().__init__(path, key, is_new)
        self.sessions: LastSessions = LastSessions()

    def begin(self) -> None:
        """Begins the file, or reads it."""
        with self._held():
            pass

    def ask(self, session: Session, block: Block, is_bound: bool) -> None:
        """Has a block that is wanted stand in the file, on the disk. Raises Fault where it goes too far, or contradicts another."""
        with self._held():
            self.sessions.ask(session, block, is_bound)
            self.write()

    def _take_line(self, session: Session, line: bytes) -> bool:
        """Takes a line of a session, or says that it is none."""
        found = STAMP.fullmatch(line)
        if found is not None:
            self.sessions.take_stamp(session, found[1])
            return True
        return line.startswith(b"signature ") and super()._take_line(session, line)

    @contextlib.contextmanager
    def _held(self) -> Iterator[None]:
        """Locks the file, and reads what another run put there meanwhile."""
        self._open()
        try:
            if self._is_new:
                self.write()
                self._is_new = False
            elif self._end() != b"end %s\n" % self._sum.encode():
                self.sessions = LastSessions()
                self._read()
            yield
        finally:
            os.close(self._lock)

    def _end(self) -> bytes:
        """The last line, whose hash says what the file holds."""
        try:
            with open(open_regular(self._path), "rb") as file:
                file.seek(max(0, file.seek(0, os.SEEK_END) - END))
                return file.read()
        except OSError as fault:
            raise Fault(f"the state file {self._name} can't be read: {reason(fault)}") from fault

    def _open_lock(self) -> int:
        """A lock. Whoever has it gives it free after one answer."""
        until = time.monotonic() + PATIENCE
        while True:
            try:
                return super()._open_lock()
            except Busy:
                if time.monotonic() > until:
                    raise
            time.sleep(0.01)
