"""Whose key a payload states that is to be signed: a review would find no signature of another key valid."""
from __future__ import annotations

from typing import Optional

from .faults import Fault
from .keys import Numbers, PublicKey
from .payload_types import CERTIFICATE
from .payloads import Payload, bare_numbers, read_payload
from .sizes import LONGEST_PAYLOAD


def refuse_other_key(octets: bytes, key: PublicKey, where: str) -> None:
    """Refuses a payload that states another key than this one, or none that is known here. `where` is where it stands.

    A payload of the types N and U states no key. What is no payload is for ssign to refuse.
    """
    if len(octets) > LONGEST_PAYLOAD:
        raise Fault(f"{where} has {len(octets)} octets, and none of more than {LONGEST_PAYLOAD} is trusted")
    payload = read_payload(octets)
    if payload is None or not payload.type.states_key:
        return
    numbers = numbers_in(payload)
    what = f"{where} has the type {payload.type.letter}"
    if numbers is None:
        raise Fault(f"{what}, and holds no DSA key that can be read as {payload.type.holds}")
    if numbers != key.numbers:
        raise Fault(f"{what}, and states another key than that of the private key")


def numbers_in(payload: Payload) -> Optional[Numbers]:
    """The numbers of the key that a payload states, or None where it has none that can be read."""
    if payload.type != CERTIFICATE:
        return bare_numbers(payload)
    # the module of certificates takes half of the time of a start
    from . import certificates
    found = certificates.read_certificate(payload.blob)
    return found.numbers if found and found.der == payload.blob else None
