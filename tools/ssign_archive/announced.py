"""The hashes that signature blocks announce, and the parts whose blocks do.

This routes messages and decides nothing: that a message is a signature block, `ssign inspect` says.
"""
from __future__ import annotations

import base64
import hashlib
import re
from typing import Dict, List, Set

from ssign_keys.faults import Fault

# RFC 5424, section 6.2
HEADER = re.compile(rb"(?:[^ ]+ ){6}")
# section 6.3: an element with its parameters, in whose values each `"`, `\` and `]` is escaped
ELEMENT = re.compile(rb'\[([^ =\]"]+)((?: [^ =\]"]+="[^"\\\]]*(?:\\.[^"\\\]]*)*")*)\]', re.S)
HASHES = re.compile(rb' HB="([A-Za-z0-9+/= ]*)"')
# how many octets a hash has, by its algorithm (RFC 5848, section 4.2.1)
ALGORITHMS = {20: hashlib.sha1, 32: hashlib.sha256}


def hashes_of(block: bytes) -> List[bytes]:
    """The hashes in HB of a signature block."""
    header = HEADER.match(block)
    at = header.end() if header else len(block)
    while True:
        element = ELEMENT.match(block, at)
        if element is None:
            raise Fault("ssign inspect calls a message a signature block in which no hashes are found")
        if element[1] == b"ssign":
            break
        at = element.end()
    found = HASHES.search(element[2])
    if found is None:
        raise Fault("ssign inspect calls a message a signature block in which no hashes are found")
    return [base64.b64decode(it) for it in found[1].split(b" ")]


class Announced:
    """For each announced hash the parts whose blocks announce it. Most have one, so no set is kept for these."""

    def __init__(self) -> None:
        self._first: Dict[bytes, int] = {}
        self._more: Dict[bytes, Set[int]] = {}
        self._lengths: Set[int] = set()

    def add(self, block: bytes, part: int) -> None:
        """Takes the hashes of a signature block."""
        for it in hashes_of(block):
            self._lengths.add(len(it))
            if self._first.setdefault(it, part) != part:
                self._more.setdefault(it, set()).add(part)

    def of(self, message: bytes) -> Dict[bytes, List[int]]:
        """The announced hashes that a message has, each with the parts that announce it, the first one in front."""
        found = {}
        for length in sorted(self._lengths):
            digest = ALGORITHMS[length](message).digest()
            first = self._first.get(digest)
            if first is not None:
                found[digest] = [first, *sorted(self._more.get(digest, ()))]
        return found
