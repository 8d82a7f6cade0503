"""How octets and numbers are spelled in a log: strict base64, and OpenPGP's numbers."""
from __future__ import annotations

import binascii
from typing import List, Optional, Sequence

# Whole groups of four, so that a long text can be looked at piece by piece.
PIECE = 4 * 16384


def decode(text: bytes) -> Optional[bytes]:
    """The octets that strict base64 spells (RFC 4648, section 4), or None where the text is none or is empty."""
    try:
        octets = binascii.a2b_base64(text)
    except (binascii.Error, ValueError):
        return None
    # What is no letter of base64 and was passed over, padding that is missing or too much, and bits left over that aren't
    # zeros make another text.
    return octets if octets and binascii.b2a_base64(octets, newline=False) == text else None


def is_base64(text: bytes) -> bool:
    """Whether `decode` gives octets, for a text of any length, without holding them."""
    if not text:
        return False
    for place in range(0, len(text), PIECE):
        piece = text[place:place + PIECE]
        if decode(piece) is None or piece.endswith(b"=") and place + PIECE < len(text):
            return False
    return True


def read_numbers(octets: bytes) -> Optional[List[int]]:
    """The numbers that octets spell (RFC 4880, section 3.2), or None where they spell none to their end.

    A count of bits may be greater than the number needs.
    """
    numbers = []
    place = 0
    while place < len(octets):
        behind = place + 2
        bits = int.from_bytes(octets[place:behind], "big")
        place = behind + (bits + 7) // 8
        if place > len(octets):
            return None
        number = int.from_bytes(octets[behind:place], "big")
        if number.bit_length() > bits:
            return None
        numbers.append(number)
    return numbers


def read_exact_numbers(octets: bytes) -> Optional[List[int]]:
    """The numbers that octets spell with the counts of bits that they need, or None where they don't."""
    numbers = read_numbers(octets)
    return numbers if numbers is not None and spell_numbers(numbers) == octets else None


def spell_numbers(numbers: Sequence[int], bits: int = 0) -> bytes:
    """The octets of these numbers (RFC 4880, section 3.2). Where `bits` is given, each count is at least that."""
    counts = [max(number.bit_length(), bits) for number in numbers]
    return b"".join(count.to_bytes(2, "big") + number.to_bytes((count + 7) // 8, "big") for number, count in zip(numbers, counts))
