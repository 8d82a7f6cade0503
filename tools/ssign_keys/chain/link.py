"""The chain message of a signed file: number 1 of its session, signed as any other, with the file before and the log in it.

Its text is JSON on one line: ASCII, names in order, no blanks. docs/dev/FORMATS.md has the fields.
"""
from __future__ import annotations

import json
import re
from typing import Callable, Dict, NamedTuple, Optional, TypeVar

MSGID = "chain"
FORMAT = 1
SHA256 = re.compile(r"[0-9a-f]{64}")
Part = TypeVar("Part")


class Before(NamedTuple):
    """The signed file before."""

    name: str
    """Its name in its folder, without what a compression adds."""
    rsid: int
    sha256: str
    """Of its octets, expanded."""


class Log(NamedTuple):
    """The log that was signed, or the part of it that no signed file held before."""

    name: str
    start: int
    """How many octets of the log earlier files hold."""
    end: int
    """How many octets of the log this file and earlier ones hold."""
    sha256: str
    """Of the first `end` octets of the log, expanded."""
    empty: int
    """How many empty lines were left out."""
    changed: int
    """When the log was changed last, in whole seconds since 1970."""


class Aside(NamedTuple):
    """The file of the messages that can't be signed."""

    name: str
    messages: int
    sha256: str


class Link(NamedTuple):
    """What a chain message says."""

    rsid: int
    before: Optional[Before]
    """None in the first file of a chain."""
    log: Optional[Log]
    """None in a beat: no log was there to sign."""
    aside: Optional[Aside]


def spell(link: Link) -> str:
    """The text of the message (MSG)."""
    fields: Dict[str, object] = {"format": FORMAT, "rsid": link.rsid}
    for name in ("before", "log", "aside"):
        part = getattr(link, name)
        fields[name] = None if part is None else part._asdict()
    return json.dumps(fields, sort_keys=True, separators=(",", ":"))


def read(text: str) -> Optional[Link]:
    """What such a text says. None where it isn't the text of a link, to the octet."""
    try:
        fields = json.loads(text)
        link = Link(fields["rsid"], part(Before, fields["before"]), part(Log, fields["log"]), part(Aside, fields["aside"]))
    except (ValueError, TypeError, KeyError, RecursionError):
        return None
    return link if is_link(link) and spell(link) == text else None


class Stated(NamedTuple):
    """A message that spells a link."""

    names: bytes
    """HOSTNAME, APP-NAME and PROCID, with a space between two."""
    text: str
    link: Link


def stated_in(message: bytes) -> Optional[Stated]:
    """What a message says, where it is a chain message; else None."""
    fields = message.split(b" ", 7)
    if len(fields) < 8 or fields[5:7] != [MSGID.encode("ascii"), b"-"]:
        return None
    text = fields[7].decode("ascii", "replace")
    link = read(text)
    return None if link is None else Stated(b" ".join(fields[2:5]), text, link)


def part(kind: Callable[..., Part], fields: Optional[Dict[str, object]]) -> Optional[Part]:
    """A part of a link, or None where it has none. Raises TypeError where its names are others."""
    return None if fields is None else kind(**fields)


def is_link(link: Link) -> bool:
    """Whether each field has a value that it may have."""
    before, log, aside = link.before, link.log, link.aside
    return is_count(link.rsid) and (before is None or is_count(before.rsid) and is_named(before)) \
        and (log is None or is_named(log) and all(map(is_count, (log.start, log.end, log.empty, log.changed)))
             and log.start <= log.end) \
        and (aside is None or is_named(aside) and is_count(aside.messages))


def is_named(named: object) -> bool:
    """Whether something has a name of a file in its folder, and a SHA-256."""
    name, sha256 = getattr(named, "name"), getattr(named, "sha256")
    return isinstance(name, str) and name not in ("", ".", "..") and "/" not in name and "\0" not in name \
        and isinstance(sha256, str) and SHA256.fullmatch(sha256) is not None


def is_count(value: object) -> bool:
    """Whether something is a whole number that a file may have of octets."""
    return type(value) is int and 0 <= value < 1 << 63
