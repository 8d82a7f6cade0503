"""Octets in DER (ITU-T X.690), strictly: each length is definite and in its shortest form, and nothing is left over."""
from __future__ import annotations

from typing import List, NamedTuple, Tuple

# the tags that are read here
BOOLEAN, INTEGER, BIT_STRING, OCTET_STRING, OID, TIME = 0x01, 0x02, 0x03, 0x04, 0x06, 0x18
SEQUENCE, SET, FIRST, SECOND = 0x30, 0x31, 0xA0, 0xA1
TRUE = b"\xff"
# the low bits of a tag that goes on in further octets
LONG_TAG = 0x1F
LONG = 0x80
MOST_LENGTH = 4


class Bad(ValueError):
    """Octets aren't of the form that is wanted. The text is a part of a sentence."""


class Item(NamedTuple):
    """A value with its tag."""

    tag: int
    body: bytes
    whole: bytes
    """With the tag and the length in front."""


def items(octets: bytes) -> List[Item]:
    """The values that stand one after another in these octets, to their end. Raises Bad where they are none."""
    found: List[Item] = []
    at = 0
    while at < len(octets):
        it, at = item_at(octets, at)
        found.append(it)
    return found


def item_at(octets: bytes, start: int) -> Tuple[Item, int]:
    """The value that begins there, and where it ends."""
    at = start + 2
    if at > len(octets):
        raise Bad("it breaks off")
    tag, size = octets[start], octets[start + 1]
    if tag & LONG_TAG == LONG_TAG:
        raise Bad("it has a tag of several octets")
    if size >= LONG:
        count = size - LONG
        size = int.from_bytes(octets[at:at + count], "big")
        if not 1 <= count <= MOST_LENGTH or size < LONG or size >> 8 * (count - 1) == 0:
            raise Bad("it isn't DER: a length is indefinite, or not in its shortest form")
        at += count
    if at + size > len(octets):
        raise Bad("it breaks off")
    return Item(tag, octets[at:at + size], octets[start:at + size]), at + size


def only(octets: bytes, tag: int, what: str) -> Item:
    """The one value that these octets are. Raises Bad where they are more, or have another tag."""
    found, end = item_at(octets, 0)
    if end != len(octets):
        raise Bad(f"octets follow {what}")
    return want(found, tag, what)


def want(item: Item, tag: int, what: str) -> Item:
    """The same value, where it has this tag."""
    if item.tag != tag:
        raise Bad(f"{what} has the tag {item.tag:#04x} in place of {tag:#04x}")
    return item


def parts(item: Item, tag: int, least: int, what: str) -> List[Item]:
    """The values in a value with this tag, of which there are so many at least."""
    found = items(want(item, tag, what).body)
    if len(found) < least:
        raise Bad(f"{what} has {len(found)} parts in place of {least}")
    return found


def number(item: Item, what: str) -> int:
    """A whole number."""
    body = want(item, INTEGER, what).body
    if not body or len(body) > 1 and (body[0], body[1] >> 7) in ((0, 0), (0xFF, 1)):
        raise Bad(f"{what} is no number in its shortest form")
    return int.from_bytes(body, "big", signed=True)


def truth(item: Item, what: str) -> None:
    """Refuses what isn't TRUE, because FALSE is left out where nothing means the same."""
    if want(item, BOOLEAN, what).body != TRUE:
        raise Bad(f"{what} isn't TRUE, and DER leaves out FALSE")


def oid(item: Item, what: str) -> str:
    """An object identifier as numbers with dots."""
    body = want(item, OID, what).body
    if not body or body[-1] & LONG:
        raise Bad(f"{what} is no object identifier")
    numbers: List[int] = []
    value = 0
    for it in body:
        if value == 0 and it == LONG:
            raise Bad(f"{what} is no object identifier")
        value = value << 7 | it & ~LONG
        if value.bit_length() > 128:
            raise Bad(f"{what} is too long")
        if not it & LONG:
            numbers.append(value)
            value = 0
    first = min(numbers[0] // 40, 2)
    return ".".join(map(str, (first, numbers[0] - 40 * first, *numbers[1:])))
