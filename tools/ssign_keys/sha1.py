"""Sessions whose numbers rest on SHA-1: what is said of them, and when they leave the status as it is.

Two texts with one SHA-1 can be made. Whoever made both, and had one of them signed, can put the other one in its place,
and no review sees it.
"""
from __future__ import annotations

import argparse
from typing import Optional

from .block_facts import BlockFacts
from .schemes import SHA1
from .words import grouped
from .workplace import notify

WEAKNESS = "SHA-1, for which two texts with one hash can be made"


def add_arguments(parser: argparse.ArgumentParser) -> None:
    """Says which words the command takes."""
    parser.add_argument("--allow-sha1", action="store_true", help="let the status be 0 though a session rests on SHA-1 "
                        f"(VER {SHA1.name}), for which two texts with one hash can be made")


def weakness(facts: Optional[BlockFacts], state: str) -> Optional[str]:
    """What is said of a session in this state, or None where its numbers don't rest on SHA-1."""
    return f"rests on {WEAKNESS}" if facts and state == "joined" and SHA1.name in facts.versions else None


def finding(count: int) -> str:
    """What a verdict says of so many sessions."""
    return f"{grouped(count, 'session rests', 'sessions rest')} on {WEAKNESS}" if count else ""


def say_finding(count: int) -> None:
    """Says beside a raw report, which doesn't name VER, why the status isn't 0."""
    notify(f"ssign-keys: {finding(count)}, so the status is 1: --allow-sha1 accepts that")
