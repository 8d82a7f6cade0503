"""Blocks that claim a session, and aren't validly signed: strangers can write any number of them.

A block of the originator that was changed looks the same. Where it left a gap in the numbers or GBCs of its session, that is reported.
One that was after all that is verified leaves none: so a block that claims to be that is never ignored, whichever RSID it has.
Somebody may also have changed what it claims, GBC and all: then only counters show that it is gone, as where it was taken out. A
certificate block that the same key signed for an older session looks the same too: it has no fragment of this session's payload.
"""
from __future__ import annotations

import argparse
import bisect
from dataclasses import dataclass
from typing import Dict

from .blocks import Session
from .claims import Claim, Claims, is_among
from .survey import Survey
from .words import grouped


@dataclass
class Claimed:
    """The unverified blocks that claim a session."""

    blocks: int = 0
    late: int = 0
    """How many of them may announce a number or have a GBC after all that is verified of a session with these names."""
    alone: int = 0
    """How many of the others would announce a number that no verified block announces."""
    stored: int = 0
    """How many stored messages that nothing verified announces have hashes of them, counted for each block."""


NO_CLAIMS = Claimed()


def add_arguments(parser: argparse.ArgumentParser) -> None:
    """Says which words the command takes."""
    parser.add_argument("--ignore-strangers", action="store_true", help="let the status be 0 though blocks claim a joined session "
                        "and aren't validly signed, if nothing else is found and none of them claims to come after the last "
                        "verified one; also does what --whole does")


def words_of(claimed: Claimed) -> str:
    """What is said of so many of them, below their session."""
    one, others = claimed.blocks == 1, []
    if claimed.late:
        what = "the signer's last one, changed" if claimed.late == 1 else "the signer's last ones, changed"
        others.append(f"may be {what}" if one else f"{claimed.late:,} of them may be {what}")
    if claimed.alone:
        which = "its" if one else f"of {claimed.alone:,} of them the"
        others.append(f"no verified block announces {which} numbers" if one or claimed.alone == claimed.blocks else
                      f"no verified block announces the numbers of {claimed.alone:,} of them")
    if claimed.stored:
        others.append(f"unproved: {grouped(claimed.stored, 'stored message has', 'stored messages have')} {'its' if one else 'their'} hashes")
    said = f"{grouped(claimed.blocks, 'block claims', 'blocks claim')} this session and {'is' if one else 'are'}n't validly signed; " \
        f"{'it was' if one else 'they were'} left out"
    return f"{said}, and {'; '.join(others)}" if others else f"{said} and {'changes' if one else 'change'} nothing"


def claim_words(it: Claim, stored: int) -> str:
    """What is said of one of them, beside its place: nothing of a certificate block."""
    if it.gbc is None:
        return ""
    numbers = f"number {it.first}" if it.first == it.last else f"numbers {it.first} to {it.last}"
    said = f"would announce {numbers} of SG {it.sg}, SPRI {it.spri}, GBC {it.gbc}"
    return f"{said}; unproved, {grouped(stored, 'stored message has', 'stored messages have')} its hashes" if stored else said


def late_words(count: int) -> str:
    """The words of a verdict about so many that aren't ignored; nothing where there is none."""
    if count < 2:
        return "1 of these may be the signer's last one, changed, so it isn't ignored" if count else ""
    return f"{count:,} of these may be the signer's last ones, changed, so they aren't ignored"


def ignored_words(count: int) -> str:
    """The words of a verdict about so many that were ignored."""
    if count == 1:
        return "1 unverified block was ignored: it claims a joined session, isn't validly signed, and changes nothing"
    return f"{count:,} unverified blocks were ignored: they claim joined sessions, aren't validly signed, and change nothing"


def count_strangers(claims: Claims, survey: Survey) -> Dict[Session, Claimed]:
    """How many of these blocks claim each session that they claim."""
    found: Dict[Session, Claimed] = {}
    for place, it, stored in claims:
        claimed = found.setdefault(it.session, Claimed())
        claimed.blocks += 1
        claimed.stored += stored
        if is_among(survey.late, place):
            claimed.late += 1
        elif it.gbc is not None:
            claimed.alone += not is_announced(it, survey)
    return found


def is_announced(it: Claim, survey: Survey) -> bool:
    """Whether verified blocks announce each number of a block, in its own session."""
    firsts, lasts, last = survey.announced(it.session, it.sg, it.spri)
    at = bisect.bisect_right(firsts, it.last)
    return it.last <= last and not (at and lasts[at - 1] >= it.first)
