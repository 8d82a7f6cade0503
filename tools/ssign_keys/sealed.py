"""What was sealed: for each session the blocks that were signed, so that none is signed twice with other octets."""
from __future__ import annotations

import hashlib
from dataclasses import dataclass, field
from typing import Dict, Iterator, NamedTuple, Tuple

from .blocks import Session, Signature, Written
from .faults import Fault

Names = Tuple[bytes, bytes, bytes]


class Record(NamedTuple):
    """A block that was signed."""

    group: Tuple[int, ...]
    """SG and SPRI of a signature block; nothing of a certificate block."""
    first: int
    """The first number that is announced; of a certificate block INDEX, the first octet of the payload that stands in it."""
    last: int
    number: int
    """GBC; of a certificate block TPBL, how many octets the payload has."""
    digest: bytes
    """The SHA-256 of the octets that were signed."""
    line: int
    """The line that wants it; 0 where it was signed in an earlier run."""

    @property
    def is_signature(self) -> bool:
        """Whether it is a signature block."""
        return bool(self.group)

    @property
    def name(self) -> str:
        """What tells it from the other blocks of its session."""
        return f"GBC {self.number}" if self.is_signature else f"INDEX {self.first}"


def record_of(block: Written, octets: bytes, line: int) -> Record:
    """What is kept of a block."""
    digest = hashlib.sha256(octets).digest()
    if isinstance(block, Signature):
        return Record(block.group, block.first, block.first + block.hashes - 1, block.gbc, digest, line)
    return Record((), block.start, block.start + len(block.fragment) - 1, block.total, digest, line)


@dataclass
class Sealed:
    """The blocks of one session, in the order in which they were signed, by their names."""

    records: Dict[str, Record] = field(default_factory=dict)
    total: int = 0
    """How many octets the payload has; 0 where no certificate block was signed. With --each nothing has to know it."""
    stamp: bytes = b""
    """With --each the TIMESTAMP of the payload, as far as it was signed; empty where no certificate block was."""
    last: Dict[Tuple[int, ...], Record] = field(default_factory=dict)
    """With --each the last signature block of each group."""


class Sessions:
    """What was sealed, of all sessions."""

    def __init__(self, is_ordered: bool) -> None:
        """Nothing yet. Where `is_ordered`, a session with a greater RSID puts an end to the one before with these names."""
        self._is_ordered = is_ordered
        self._sessions: Dict[Session, Sealed] = {}
        self._last: Dict[Names, int] = {}

    def take(self, session: Session, record: Record) -> None:
        """Takes a block that is to be signed, or was. Raises Fault where it contradicts one that was taken before."""
        sealed = self._of(session)
        known = sealed.records.get(record.name)
        if known is not None:
            if known != record._replace(line=known.line):
                raise Fault(f"another block with {record.name} was signed already for the session '{session}'")
            return
        if not record.is_signature:
            if sealed.total not in (0, record.number):
                raise Fault(f"TPBL is {record.number}, and was {sealed.total} before in the session '{session}'")
            sealed.total = record.number
        sealed.records[record.name] = record

    def _of(self, session: Session) -> Sealed:
        """What was sealed of a session."""
        if self._is_ordered:
            host, app, procid, rsid = session
            names, number = (host, app, procid), int(rsid)
            last = self._last.setdefault(names, number)
            if number < last:
                raise Fault(f"the session '{session}' is older than that with RSID {last}, for which a block was signed "
                            "already")
            if number > last:
                del self._sessions[Session(host, app, procid, b"%d" % last)]
                self._last[names] = number
        return self._sessions.setdefault(session, Sealed())

    def check_spans(self) -> None:
        """Refuses two blocks that announce one number, or that have one octet of a payload.

        They could vouch for two messages under one number, and whoever has both could show either.
        """
        for session, sealed in self._sessions.items():
            records = sorted(sealed.records.values())
            for before, record in zip(records, records[1:]):
                if before.group == record.group and record.first <= before.last:
                    line = max(before.line, record.line)
                    raise Fault(f"{f'line {line}: ' if line else ''}{overlap(record)} in the session '{session}'")

    def __iter__(self) -> Iterator[Tuple[Session, Sealed]]:
        """Each session, with what was sealed of it."""
        return iter(self._sessions.items())


def overlap(record: Record) -> str:
    """What two blocks have in common."""
    if record.is_signature:
        return f"two blocks announce the number {record.first} of SG {record.group[0]}, SPRI {record.group[1]}"
    return f"two blocks have the octet {record.first} of the payload"
