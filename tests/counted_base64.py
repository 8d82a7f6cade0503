#!/usr/bin/env python3
"""Runs ssign-keys in this process, and counts the octets of base64 that it read or wrote. For tests/linear.sh.

    counted_base64.py COUNT TOOLS WORD..       writes the count to the file COUNT; the rest is as of TOOLS/ssign-keys
"""
from __future__ import annotations

import base64
import binascii
import sys
from typing import Any, Callable


def main(path: str, tools: str, *words: str) -> int:
    """Counts, and gives the status of the command."""
    total = 0

    def counting(function: Callable[..., bytes]) -> Callable[..., bytes]:
        def counted(octets: Any, *rest: Any, **named: Any) -> bytes:
            nonlocal total
            total += len(octets)
            return function(octets, *rest, **named)
        return counted

    for module in (base64, binascii):
        for name in ("b64decode", "b64encode", "a2b_base64", "b2a_base64"):
            if hasattr(module, name):
                setattr(module, name, counting(getattr(module, name)))
    sys.path.insert(0, tools)
    from ssign_keys import cli
    status = cli.main(words)
    with open(path, "w", encoding="ascii") as file:
        file.write(f"{total}\n")
    return status


sys.exit(main(*sys.argv[1:]))
