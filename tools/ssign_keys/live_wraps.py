"""Wraps of messages that surely are none of RFC 5424, without a run of ssign for each: many senders still write the form of RFC
3164, and rsyslog hands their messages over one at a time.

Before such a wrap gets a number, ssign checks that it is one (`Engine.check_wraps`).
"""
from __future__ import annotations

import re
from typing import Dict, Mapping

# PRI, VERSION and a space, as each message of RFC 5424 begins (section 6). What doesn't begin so holds no block either
FRONT = re.compile(rb"<[0-9]{1,3}>[1-9][0-9]{0,2} ")
PRI = re.compile(rb"<(0|[1-9][0-9]{0,2})>")
GREATEST_PRI = 191
# for a message without a PRI (RFC 3164, section 4.3.3)
USUAL_PRI = 13


def is_surely_none(message: bytes) -> bool:
    """Whether a message surely is none of RFC 5424."""
    return FRONT.match(message) is None


def wrap_of(options: Mapping[str, str], stamp: str, message: bytes) -> bytes:
    """The wrap of a message, by the options of a session (docs/dev/FORMATS.md, "An extract")."""
    found = PRI.match(message)
    pri = int(found[1]) if found is not None else USUAL_PRI
    head = (f"<{pri if pri <= GREATEST_PRI else USUAL_PRI}>1 {stamp} {options['host']} {options['app']} {options['procid']} "
            "wrapped - |")
    return head.encode("ascii") + message


def wraps_of(options: Mapping[str, str], stamp: str, messages: Mapping[int, bytes], longest: int) -> Dict[int, bytes]:
    """The wraps of those messages that surely are none, by their places, but for wraps that would be too long."""
    made = {place: wrap_of(options, stamp, it) for place, it in messages.items() if is_surely_none(it)}
    return {place: it for place, it in made.items() if len(it) <= longest}
