#!/usr/bin/env python3
"""Runs ssign-keys with a library of keys whose signatures are wrong.

    bad_library.py HOW NTH WORD..    `ssign-keys WORD..`; the NTH signature is wrong, or none where NTH is 0. By HOW it is
                                     that of other octets (other), has another bit (flipped), its numbers in the other
                                     order (swapped), no s (zero), q added to s (order), r with an octet 0 in front that
                                     DER has no room for (long), or an octet after it (rest)
"""
from __future__ import annotations

import os
import sys
from typing import Any

sys.path.insert(0, os.path.join(os.path.dirname(os.path.abspath(__file__)), "..", "tools"))

from cryptography.hazmat.primitives.asymmetric import dsa  # noqa: E402
from cryptography.hazmat.primitives.asymmetric.utils import decode_dss_signature, encode_dss_signature  # noqa: E402
from dsa_model import integer, item  # noqa: E402
from ssign_keys import cli, keys  # noqa: E402


class BadKey:
    """A private key of the library, one of whose signatures is wrong."""

    def __init__(self, key: Any, how: str, nth: int) -> None:
        self._key, self._how, self._nth, self._count = key, how, nth, 0

    def __getattr__(self, name: str) -> Any:
        return getattr(self._key, name)

    def sign(self, octets: bytes, hashed: Any) -> bytes:
        """A signature, wrong where it is the one that has to be."""
        self._count += 1
        if self._count != self._nth:
            return self._key.sign(octets, hashed)
        r, s = decode_dss_signature(self._key.sign(octets + b"x" if self._how == "other" else octets, hashed))
        q = self._key.parameters().parameter_numbers().q
        if self._how == "long":
            whole = integer(r)
            return item(0x30, item(2, b"\0" + whole[2:]) + integer(s))
        numbers = {"other": (r, s), "flipped": (r, s ^ 1), "swapped": (s, r), "zero": (r, 0), "order": (r, s + q), "rest": (r, s)}
        return encode_dss_signature(*numbers[self._how]) + b"\0" * (self._how == "rest")


def main(how: str, nth: str, *words: str) -> int:
    """Runs the command."""
    load = keys.serialization.load_pem_private_key
    dsa.DSAPrivateKey.register(BadKey)
    keys.serialization.load_pem_private_key = lambda *given: BadKey(load(*given), how, int(nth))
    return cli.main(words)


if __name__ == "__main__":
    sys.exit(main(*sys.argv[1:]))
