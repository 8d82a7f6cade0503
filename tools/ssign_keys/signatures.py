"""How a signature of DSA is spelled: the one rule for SIGN, for whoever makes, takes or checks it, and for a library's DER."""
from __future__ import annotations

from typing import Sequence, Tuple

from cryptography.hazmat.primitives.asymmetric.utils import encode_dss_signature

from . import der
from .der import Bad
from .domain import Q_BITS
from .encoding import read_numbers, spell_numbers

# no value of SIGN is longer: two numbers of the longest q, each with its count in two octets; and the same in base64
LONGEST = 2 * (2 + max(Q_BITS) // 8)
LONGEST_TEXT = 4 * -(-LONGEST // 3)


def read_sign(octets: bytes, q: int) -> Tuple[int, int]:
    """The numbers r and s that the value of SIGN spells (RFC 5848, section 4.2.8). Raises Bad where it spells none of this q.

    Each count of bits is the one that its number needs (RFC 4880, section 3.2). In the blocks that RFC 5848 shows (sections
    4.2.9 and 5.3.2.9) both are that of q, so this is taken too, and nothing else.
    """
    numbers = read_numbers(octets) if len(octets) <= LONGEST else None
    if numbers is None or len(numbers) != 2 or octets not in (spell_numbers(numbers), spell_numbers(numbers, q.bit_length())):
        raise Bad("isn't spelled as two numbers, each with the count of bits that it needs")
    return between(numbers, q)


def spell_sign(numbers: Tuple[int, int]) -> bytes:
    """The value of SIGN for the numbers r and s."""
    return spell_numbers(numbers)


def read_der(octets: bytes, q: int) -> Tuple[int, int]:
    """The numbers r and s that a library spells (Dss-Sig-Value of RFC 3279, section 2.2.2). Raises Bad where it spells none of
    this q, or spells it in another way than DER."""
    parts = der.parts(der.only(octets, der.SEQUENCE, "it"), der.SEQUENCE, 2, "it")
    return between([der.number(it, "a number of it") for it in parts], q)


def spell_der(numbers: Tuple[int, int]) -> bytes:
    """The numbers r and s as a library takes them."""
    return encode_dss_signature(*numbers)


def between(numbers: Sequence[int], q: int) -> Tuple[int, int]:
    """The two numbers of a signature, each greater than 0 and less than q (FIPS 186-4, section 4.7)."""
    if len(numbers) != 2 or not all(0 < it < q for it in numbers):
        raise Bad("has a number that isn't between 0 and q")
    return numbers[0], numbers[1]
