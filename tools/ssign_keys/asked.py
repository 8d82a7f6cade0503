"""Reads single lines of questions, in each form in which `ssign questions` writes them (docs/dev/FORMATS.md, "Questions")."""
from __future__ import annotations

import json
from typing import Any, Dict, List, NamedTuple, Optional, Protocol, Tuple

from .blocks import Session, session_of
from .describer import Describer
from .encoding import is_base64
from .faults import Fault
from .schemes import VERSIONS

# how lines of questions begin; the lines of an answers file have these words without the question mark
TRUST, YES = b"trust?", b"yes?"
# no log has so many sessions
MOST_DIGITS = 10


class PayloadText:
    """The payload of questions. There is one of it, however many questions are about it."""

    def __init__(self, text: Optional[bytes], length: int) -> None:
        """Its base64, or None where it is longer than what is looked at; and how many octets it has."""
        self.text = text
        self.length = length
        self.is_counted = False


class About(NamedTuple):
    """What ssign read in a block."""

    place: int
    version: bytes
    group: Tuple[int, int]
    """SG and SPRI."""
    gbc: Optional[int]
    """The counter of a signature block; None for a certificate block."""


class Asked(NamedTuple):
    """A question."""

    is_block: bool
    """Whether it is a `yes?` line."""
    payload: PayloadText
    rest: bytes
    """Of a `yes?` line OCTETS SIGNATURE; else empty."""
    session: Optional[Session] = None
    """Of a `yes?` line that of its block; of a `trust?` line None where it doesn't state it."""
    version: bytes = b""
    """VER of the block; empty for a `trust?` line."""
    about: Optional[About] = None
    """None where the line doesn't state it."""


class Form(Protocol):
    """How questions are written."""

    def read(self, line: bytes, number: int) -> Optional[Asked]:
        """The question of a line, or None where it asks nothing. Raises Fault where it is no line of this form."""


def decoded_length(text: bytes) -> int:
    """How many octets a text of strict base64 spells."""
    return len(text) // 4 * 3 - text[-2:].count(b"=")


def no_question(number: int) -> str:
    """The sentence for a line that is no question."""
    return f"line {number} is no line `trust? PAYLOAD` or `yes? PAYLOAD OCTETS SIGNATURE` of ssign questions"


def no_object(number: int) -> str:
    """The sentence for a line that is no object of questions."""
    return f"line {number} is no object `payload`, `trust?` or `yes?` of ssign review --ask --json"


def payload_of(text: bytes, most: int, number: int) -> PayloadText:
    """The payload that a text of base64 spells. What is longer than looked at isn't kept."""
    if not is_base64(text):
        raise Fault(no_question(number))
    length = decoded_length(text)
    return PayloadText(text if length <= most else None, length)


def asked_about(payload: PayloadText, rest: bytes, number: int, describer: Describer) -> Asked:
    """The question about a block, with the VER and the session that ssign reads in its octets."""
    octets, _, signature = rest.partition(b" ")
    if not (is_base64(octets) and is_base64(signature)):
        raise Fault(no_question(number))
    fields = describer.describe(octets)
    if fields["line"] == "none":
        raise Fault(f"line {number}: the octets are no block of VER {VERSIONS}")
    return Asked(True, payload, rest, session_of(fields), fields["ver"].encode("ascii"))


class Plain:
    """`trust? PAYLOAD` and `yes? PAYLOAD OCTETS SIGNATURE`: each question has its payload."""

    def __init__(self, most: int, describer: Describer) -> None:
        """Looks at payloads of so many octets at most."""
        self._most = most
        self._describer = describer
        # what stands in the line before, so that a payload that is repeated is read once
        self._text = b""
        self._payload = PayloadText(None, 0)

    def read(self, line: bytes, number: int) -> Optional[Asked]:
        """The question of a line."""
        end = len(line) - line.endswith(b"\n")
        start = line.find(b" ", 0, len(TRUST) + 1) + 1
        word = line[:max(start - 1, 0)]
        if word not in (TRUST, YES):
            raise Fault(no_question(number))
        after = line.find(b" ", start, end)
        if (after >= 0) != (word == YES):
            raise Fault(no_question(number))
        after = end if after < 0 else after
        if not (self._text and after - start == len(self._text) and line.startswith(self._text, start)):
            text = line[start:after]
            self._payload = payload_of(text, self._most, number)
            self._text = text
        if word == TRUST:
            return Asked(False, self._payload, b"")
        return asked_about(self._payload, line[after + 1:end], number, self._describer)


class Once:
    """`payload INDEX PAYLOAD`, then `trust? INDEX` and `yes? INDEX OCTETS SIGNATURE`: each payload stands once."""

    def __init__(self, most: int, describer: Describer) -> None:
        """Looks at payloads of so many octets at most."""
        self._most = most
        self._describer = describer
        self._payloads: List[PayloadText] = []

    def read(self, line: bytes, number: int) -> Optional[Asked]:
        """The question of a line, or None where it states a payload."""
        word, index, rest = split(line, number)
        if word == b"payload":
            if index != len(self._payloads):
                raise Fault(f"line {number}: the payload has the index {index}, and not {len(self._payloads)}")
            self._payloads.append(payload_of(rest, self._most, number))
            return None
        if index >= len(self._payloads):
            raise Fault(f"line {number}: no payload with the index {index} stands before it")
        payload = self._payloads[index]
        return asked_about(payload, rest, number, self._describer) if word == YES else Asked(False, payload, b"")


class Objects:
    """The same as objects of JSON, which also have what ssign read in each block."""

    def __init__(self, most: int) -> None:
        """Looks at payloads of so many octets at most."""
        self._most = most
        self._payloads: List[PayloadText] = []

    def read(self, line: bytes, number: int) -> Optional[Asked]:
        """The question of a line, or None where it states a payload."""
        try:
            fields: Dict[str, Any] = json.loads(line)
            if fields["line"] == "payload":
                self._payloads.append(payload_of(fields["payload"].encode("ascii"), self._most, number))
                return None
            word = fields["line"].encode("ascii")
            if word not in (TRUST, YES):
                raise Fault(no_object(number))
            payload, session = self._payloads[fields["payload_index"]], session_of(fields)
            if word == TRUST:
                return Asked(False, payload, b"", session)
            rest = f"{fields['octets']} {fields['signature']}".encode("ascii")
            about = about_of(fields)
            return Asked(True, payload, rest, session, about.version, about)
        except (ValueError, KeyError, IndexError, TypeError, AttributeError) as fault:
            raise Fault(no_object(number)) from fault


def about_of(fields: Dict[str, Any]) -> About:
    """What ssign read in the block that a question is about."""
    return About(fields["place"], fields["ver"].encode("ascii"), (fields["sg"], fields["spri"]), fields.get("gbc"))


def split(line: bytes, number: int) -> Tuple[bytes, int, bytes]:
    """The word, the index and the rest of a line of questions in which each payload stands once."""
    end = len(line) - line.endswith(b"\n")
    start = line.find(b" ", 0, 8) + 1
    after = line.find(b" ", start, min(start + MOST_DIGITS + 1, end))
    word, has_rest = line[:max(start - 1, 0)], after >= 0
    digits = line[start:after if has_rest else min(end, start + MOST_DIGITS + 1)]
    is_right = digits.isdigit() and len(digits) <= MOST_DIGITS and (digits == b"0" or not digits.startswith(b"0"))
    if word not in (b"payload", TRUST, YES) or has_rest != (word != TRUST) or not is_right:
        raise Fault(f"line {number} is no line `payload INDEX PAYLOAD`, `trust? INDEX` or `yes? INDEX OCTETS SIGNATURE` of "
                    "ssign questions --once, as those above it are")
    return word, int(digits), line[after + 1:end] if has_rest else b""
