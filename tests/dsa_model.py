"""Keys and signatures of DSA by arithmetic (FIPS 186-4, sections 4.6 and 4.7), in the spelling of RFC 5848, read from PEM
by a reader of DER of its own: what tests/keys.sh compares ssign-keys with. No library of keys is used."""
from __future__ import annotations

import base64
import hashlib
import secrets
from typing import List, NamedTuple, Tuple, Union

HASHES = {b"0111": hashlib.sha1, b"0121": hashlib.sha256}
DSA = bytes.fromhex("06072a8648ce380401")
Der = Union[int, bytes, List["Der"]]


class Key(NamedTuple):
    """The numbers of a public key."""

    p: int
    q: int
    g: int
    y: int


class Pair(NamedTuple):
    """A key pair."""

    key: Key
    x: int


# ---- OpenPGP's spelling of numbers (RFC 4880, section 3.2)


def spell(number: int, more_bits: int = 0) -> bytes:
    """A number, whose count of bits is greater by so many than it needs."""
    bits = number.bit_length() + more_bits
    return bits.to_bytes(2, "big") + number.to_bytes((bits + 7) // 8, "big")


def numbers(octets: bytes) -> List[int]:
    """The numbers that stand there; each has to say how many bits it has, neither more nor fewer."""
    found = []
    while octets:
        bits = int.from_bytes(octets[:2], "big")
        size = (bits + 7) // 8
        if len(octets) < 2 + size:
            raise ValueError("a number breaks off")
        found.append(int.from_bytes(octets[2:2 + size], "big"))
        if found[-1].bit_length() != bits:
            raise ValueError("a number hasn't the bits that it says")
        octets = octets[2 + size:]
    return found


def blob(key: Key) -> bytes:
    """The octets of a key blob of the type K."""
    return b"".join(spell(number) for number in key)


# ---- DER (X.690), and keys as PEM has them (RFC 3279, section 2.3.2; RFC 5958)


def read_der(octets: bytes) -> Tuple[Der, bytes]:
    """The value of the first item, an integer, a list or octets, and the octets behind it."""
    kind, size, start = octets[0], octets[1], 2
    if size >= 128:
        start += size - 128
        size = int.from_bytes(octets[2:start], "big")
    body, rest = octets[start:start + size], octets[start + size:]
    if kind == 0x02:
        return int.from_bytes(body, "big"), rest
    if kind != 0x30:
        return body, rest
    items: List[Der] = []
    while body:
        item, body = read_der(body)
        items.append(item)
    return items, rest


def item(kind: int, body: bytes) -> bytes:
    """An item of DER."""
    size = len(body)
    spelled = size.to_bytes((size.bit_length() + 7) // 8, "big")
    return bytes([kind]) + (bytes([size]) if size < 128 else bytes([128 + len(spelled)]) + spelled) + body


def integer(number: int) -> bytes:
    """An integer of DER."""
    return item(2, number.to_bytes(number.bit_length() // 8 + 1, "big"))


def part(value: Der, *places: int) -> Der:
    """An item of a list within lists."""
    for place in places:
        assert isinstance(value, list)
        value = value[place]
    return value


def whole(value: Der) -> int:
    """An item that is an integer."""
    assert isinstance(value, int)
    return value


def octets_of(value: Der) -> bytes:
    """An item that is octets."""
    assert isinstance(value, bytes)
    return value


def read_pem(path: str) -> Der:
    """What the first part of a file of PEM holds."""
    with open(path, "rb") as file:
        lines = file.read().split(b"\n")
    end = next(place for place, line in enumerate(lines) if line.startswith(b"-----END"))
    return read_der(base64.b64decode(b"".join(lines[1:end]), validate=True))[0]


def read_key(path: str) -> Key:
    """The public key in a file of PEM."""
    found = read_pem(path)
    p, q, g = (whole(part(found, 0, 1, place)) for place in range(3))
    return Key(p, q, g, whole(read_der(octets_of(part(found, 1))[1:])[0]))


def read_pair(path: str) -> Pair:
    """The key pair in a file of PEM, as PKCS 8 has it."""
    found = read_pem(path)
    p, q, g = (whole(part(found, 1, 1, place)) for place in range(3))
    x = whole(read_der(octets_of(part(found, 2)))[0])
    return Pair(Key(p, q, g, pow(g, x, p)), x)


def pem(key: Key) -> bytes:
    """A file of PEM with a public key."""
    p, q, g, y = key
    spelled = item(0x30, item(0x30, DSA + item(0x30, integer(p) + integer(q) + integer(g))) + item(3, b"\0" + integer(y)))
    text = base64.b64encode(spelled)
    lines = [text[place:place + 64] for place in range(0, len(text), 64)]
    return b"\n".join([b"-----BEGIN PUBLIC KEY-----", *lines, b"-----END PUBLIC KEY-----", b""])


# ---- signatures


def hashed(key: Key, octets: bytes, version: bytes) -> int:
    """The hash of these octets, of which a longer one than q is cut to its leftmost bits."""
    digest = HASHES[version](octets).digest()
    return int.from_bytes(digest, "big") >> max(0, 8 * len(digest) - key.q.bit_length())


def sign(pair: Pair, octets: bytes, version: bytes) -> Tuple[int, int]:
    """The numbers r and s of a signature."""
    p, q, g, _ = pair.key
    while True:
        k = secrets.randbelow(q - 1) + 1
        r = pow(g, k, p) % q
        s = pow(k, -1, q) * (hashed(pair.key, octets, version) + pair.x * r) % q
        if r and s:
            return r, s


def is_signed(key: Key, octets: bytes, version: bytes, signature: bytes) -> bool:
    """Whether a signature is valid."""
    p, q, g, y = key
    r, s = numbers(signature)
    if not (0 < r < q and 0 < s < q):
        return False
    inverse = pow(s, -1, q)
    return pow(g, hashed(key, octets, version) * inverse % q, p) * pow(y, r * inverse % q, p) % p % q == r
