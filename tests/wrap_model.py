"""Wraps, a second time: docs/dev/decisions/signing.md, number 156, in plain Python, with nothing of the crate in it.

A message that can't be signed is signed in a message of its own. `prepared` gives what is signed for a message, `original`
the message that is in a text.
"""
from review_model import NAMES
from rfc5424 import PRI, NoMessage, read


def pri_of(octets):
    """The PRI with which octets begin, in the spelling of RFC 5424; else 13, as a relay gives it (RFC 3164, section 4.3.3)."""
    found = PRI.match(octets)
    return int(found[1]) if found and int(found[1]) <= 191 else 13


def original(text):
    """What is in a text of the form of a wrap; None for another text."""
    try:
        message = read(text)
    except NoMessage:
        return None
    if message.fields[3] != b"wrapped" or message.elements:
        return None
    # without elements, each of the seven parts of the header and STRUCTURED-DATA is a word
    parts = text.split(b" ", 7)
    return parts[7][1:] if len(parts) == 8 and parts[7][:1] == b"|" else None


def needs_wrap(octets):
    """Whether it is no message, has an element of a block, or has the form of a wrap."""
    try:
        message = read(octets)
    except NoMessage:
        return True
    return any(name in NAMES for name in message.elements) or original(octets) is not None


def prepared(octets, fields, stamp):
    """What is signed for a message, with HOSTNAME, APP-NAME and PROCID of these fields."""
    if not needs_wrap(octets):
        return octets
    return b"<%d>1 %s %s wrapped - |%s" % (pri_of(octets), stamp, b" ".join(fields[:3]), octets)
