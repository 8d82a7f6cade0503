"""Blocks and their sessions, as `ssign` reports what is in them."""
from __future__ import annotations

import base64
from typing import Any, Dict, NamedTuple, Tuple, Union


class Session(NamedTuple):
    """What tells the sessions of a log from each other, spelled as in a report."""

    host: bytes
    app: bytes
    procid: bytes
    rsid: bytes

    def __str__(self) -> str:
        """The four words of a report."""
        return b" ".join(self).decode("ascii", "backslashreplace")


class Signature(NamedTuple):
    """A signature block."""

    version: bytes
    session: Session
    group: Tuple[int, int]
    """SG and SPRI."""
    gbc: int
    first: int
    """The number of the first message, FMN."""
    hashes: int
    """How many hashes it has, CNT."""


class Certificate(NamedTuple):
    """A certificate block."""

    version: bytes
    session: Session
    total: int
    """How many octets the payload has, TPBL."""
    start: int
    """Where in it the fragment begins, from 1: INDEX."""
    fragment: bytes


Written = Union[Signature, Certificate]


def session_of(fields: Dict[str, Any]) -> Session:
    """The session that an object of JSON names."""
    host, app, procid, rsid = (str(fields[it]).encode("ascii") for it in ("host", "app", "procid", "rsid"))
    return Session(host, app, procid, rsid)


def block_of(fields: Dict[str, Any]) -> Written:
    """The block that an object of `ssign describe` is about, which isn't `none`."""
    version, session = fields["ver"].encode("ascii"), session_of(fields)
    if fields["line"] == "signature":
        return Signature(version, session, (fields["sg"], fields["spri"]), fields["gbc"], fields["first"], fields["count"])
    return Certificate(version, session, fields["total"], fields["index"], base64.b64decode(fields["fragment"]))
