"""The share of the files that a task verifies: `--part K/N`."""
from __future__ import annotations

import argparse
import hashlib
import os
import re
from typing import NamedTuple

FORM = re.compile(r"([1-9][0-9]{0,5})/([1-9][0-9]{0,5})")


class Part(NamedTuple):
    """One of so many shares."""

    number: int
    """From 1."""
    of: int

    def has(self, originator: str, name: str) -> bool:
        """Whether a file is of this share: by its name, so that no other task has to read it, and new files change nothing."""
        sha256 = hashlib.sha256(os.fsencode(f"{originator}/{name}")).digest()
        return int.from_bytes(sha256[:8], "big") % self.of == self.number - 1


def part(text: str) -> Part:
    """Reads a share."""
    found = FORM.fullmatch(text) if text.isascii() else None
    if found is None or int(found[1]) > int(found[2]):
        raise argparse.ArgumentTypeError(f"{text!r} is no share such as 3/20, the third of twenty")
    return Part(int(found[1]), int(found[2]))
