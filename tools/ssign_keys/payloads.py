"""Payloads, which say what the key of a session is (RFC 5848, section 5.2.1)."""
from __future__ import annotations

import base64
import re
from datetime import datetime, timezone
from typing import NamedTuple, Optional

from .encoding import decode, read_numbers, spell_numbers
from .keys import Numbers, PublicKey
from .openpgp import read_payload_key
from .payload_types import KEY, OPENPGP, TYPES, WITH_BLOB, WITHOUT_BLOB, Type
from .sizes import LONGEST_PAYLOAD

# RFC 5424, section 6.2.3, then the type, then the key blob, which the type N lacks.
STAMP = rb"-|[0-9]{4}-[0-9]{2}-[0-9]{2}T[0-9]{2}:[0-9]{2}:[0-9]{2}(?:\.[0-9]{1,6})?(?:Z|[+-][0-9]{2}:[0-9]{2})"
PAYLOAD = re.compile(rb"(%s) (?:([%s]) ([A-Za-z0-9+/]+=*)|([%s]) ?)" % (STAMP, WITH_BLOB.encode(), WITHOUT_BLOB.encode()))
# what all of these are made of
OCTETS = re.compile(rb"[A-Za-z0-9+/= :.-]*")


class Payload(NamedTuple):
    """A payload of a type that RFC 5848 names."""

    stamp: str
    """A TIMESTAMP, or `-`."""
    type: Type
    blob: bytes
    """The octets of the key blob; none where the type has none."""


def read_payload(octets: bytes, longest: int = LONGEST_PAYLOAD) -> Optional[Payload]:
    """The payload that has these octets, or None where they are none, or too many."""
    if len(octets) > longest:
        return None
    parts = PAYLOAD.fullmatch(octets)
    if not parts:
        return None
    if parts[4]:
        return Payload(parts[1].decode(), TYPES[parts[4].decode()], b"")
    blob = decode(parts[3])
    return None if blob is None else Payload(parts[1].decode(), TYPES[parts[2].decode()], blob)


def stated_numbers(blob: bytes) -> Optional[Numbers]:
    """The numbers that the key blob of a payload of the type K states, or None where they aren't those of DSA."""
    numbers = read_numbers(blob)
    return Numbers(*numbers) if numbers is not None and len(numbers) == 4 else None


def bare_numbers(payload: Payload) -> Optional[Numbers]:
    """The numbers of the key in a payload without a certificate, or None where it has none that can be read."""
    if payload.type == KEY:
        return stated_numbers(payload.blob)
    return read_payload_key(payload.blob) if payload.type == OPENPGP else None


def moment_of(stamp: str) -> Optional[datetime]:
    """The time of a TIMESTAMP in whole seconds, or None where it is `-`. Raises ValueError where there is no such time."""
    if stamp == "-":
        return None
    whole = re.sub(r"\.[0-9]+", "", stamp).replace("Z", "+00:00")
    return datetime.strptime(whole, "%Y-%m-%dT%H:%M:%S%z")


def state_key(key: PublicKey, stamp: str) -> bytes:
    """The payload of the type K that states a key, with a TIMESTAMP or `-` as its time. It ends without LF."""
    return f"{stamp} {KEY.letter} ".encode() + base64.b64encode(spell_numbers(key.numbers))


def present_stamp() -> str:
    """The present time as a TIMESTAMP, in whole seconds of UTC."""
    return datetime.now(timezone.utc).strftime("%Y-%m-%dT%H:%M:%SZ")
