"""The payloads of the certificate blocks that a run signs, none of which may state another key."""
from __future__ import annotations

import re
from typing import Dict, Optional

from .blocks import Certificate, Session, Written
from .faults import Fault
from .keys import PublicKey
from .payloads import read_payload, state_key
from .stated import refuse_other_key

# RFC 5424, section 6.2.3: what a TIMESTAMP is made of, and how many octets the longest one has
OF_STAMP = re.compile(rb"[0-9TZ:.+-]*")
LONGEST_STAMP = 32
# what stands for an octet of it that isn't known
UNKNOWN = b"?"


class Payloads:
    """The payloads of the certificate blocks that a run signs."""

    def __init__(self) -> None:
        """None yet."""
        self._fragments: Dict[Session, Dict[int, Certificate]] = {}

    def take(self, block: Written) -> None:
        """Takes a block."""
        if isinstance(block, Certificate):
            self._fragments.setdefault(block.session, {})[block.start] = block

    def refuse_other_key(self, key: PublicKey) -> None:
        """Refuses a payload that is whole, and states another key or is none. Of a part of one nothing can be said."""
        for session in self._fragments:
            self.check(session, key)

    def check(self, session: Session, key: PublicKey) -> None:
        """Refuses the payload of one session, where it is whole."""
        octets = joined(self._fragments[session])
        if octets is None:
            return
        where = f"the payload of the session '{session}'"
        refuse_other_key(octets, key, where)
        if read_payload(octets) is None:
            raise Fault(f"{where} is none of RFC 5848, section 5.2.1")


class OwnPayload:
    """The payload of the type K that states a key. `seal --each` signs each fragment before it has seen the others, so it signs
    fragments of this payload alone."""

    def __init__(self, key: PublicKey) -> None:
        """The key. What stands before its type is any time."""
        self._behind = state_key(key, "")

    def stamp(self, block: Certificate) -> bytes:
        """The time in front, as far as the block has it. Raises Fault where it has other octets than this payload.

        The time is as long as TPBL leaves room for.
        """
        length = block.total - len(self._behind)
        found = block.fragment[:max(0, length - block.start + 1)]
        if not 0 < length <= LONGEST_STAMP or OF_STAMP.fullmatch(found) is None or \
                not self._behind.startswith(block.fragment[len(found):], max(0, block.start - 1 - length)):
            raise Fault("the block has octets of another payload: with --each none is signed but one of the type K that states the "
                        "private key's own public key")
        return (UNKNOWN * (block.start - 1) + found).ljust(length, UNKNOWN)[:length]


def joined(fragments: Dict[int, Certificate]) -> Optional[bytes]:
    """The payload of which these are all fragments, or None where some aren't here."""
    octets = bytearray()
    total = 0
    for start, it in sorted(fragments.items()):
        if start > len(octets) + 1:
            return None
        octets[start - 1:] = it.fragment
        total = it.total
    return bytes(octets) if len(octets) == total else None
