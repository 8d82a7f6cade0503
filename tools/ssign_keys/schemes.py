"""The signature schemes: what VER names (RFC 5848, section 4.2.1). Whatever depends on a VER asks here.

Each is DSA with a hash. The sizes of a key are those of RFC 4880, section 13.6: a hash has to have as many bits as q.
"""
from __future__ import annotations

from typing import NamedTuple


class Scheme(NamedTuple):
    """What a VER means."""

    ver: bytes
    hash_name: str
    hash_bits: int
    p_bits: int
    """Of a new key, as `q_bits` are."""
    q_bits: int

    @property
    def name(self) -> str:
        """VER, as a text."""
        return self.ver.decode("ascii")

    @property
    def hash_octets(self) -> int:
        """How many octets a hash has."""
        return self.hash_bits // 8


SHA1 = Scheme(b"0111", "SHA-1", 160, 1024, 160)
SHA256 = Scheme(b"0121", "SHA-256", 256, 2048, 256)
# those of shorter hashes first; the last one is the usual one
SCHEMES = {it.ver: it for it in (SHA1, SHA256)}
USUAL = SHA256
# each VER in words
VERSIONS = " or ".join(it.name for it in SCHEMES.values())


def scheme_for(q_bits: int) -> Scheme:
    """The scheme for a key: SHA-1 has the 160 bits of the shortest q, and each longer one takes SHA-256."""
    return next((it for it in SCHEMES.values() if q_bits <= it.hash_bits), USUAL)
