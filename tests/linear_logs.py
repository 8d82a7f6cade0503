#!/usr/bin/env python3
"""Logs of a stranger, for tests/linear.sh: each grows with its last word, and what is asked about it must not grow faster.

    linear_logs.py long COUNT          a payload of 1,000 octets for each of COUNT, and COUNT signature blocks under it
    linear_logs.py trusted COUNT       the longest payload that is looked at, of the type U, and COUNT signature blocks
    linear_logs.py sessions COUNT      COUNT sessions, each with a payload of its own in one certificate block
    linear_logs.py kinds COUNT FILE    the same, but the payloads are of the types P and C in turn: keys of OpenPGP, whose
                                       numbers are any, and the certificate FILE, in DER, with other last octets each
"""
from __future__ import annotations

import base64
import sys
from typing import Iterator, List

HEAD = "<110>1 - h s - - "
# a signature in the form of RFC 5848, section 4.2.8, which no key made
SIGN = base64.b64encode(b"\x00\x01\x01\x00\x01\x01").decode()
FRAGMENT = 9999


def certificates(rsid: int, payload: str) -> Iterator[str]:
    """The certificate blocks of a session that state a payload (RFC 5848, section 5.3.2)."""
    for start in range(0, len(payload), FRAGMENT):
        part = payload[start:start + FRAGMENT]
        yield (f'{HEAD}[ssign-cert VER="0121" RSID="{rsid}" SG="0" SPRI="0" TPBL="{len(payload)}" INDEX="{start + 1}" '
               f'FLEN="{len(part)}" FRAG="{part}" SIGN="{SIGN}"]')


def signatures(rsid: int, count: int) -> Iterator[str]:
    """Signature blocks of a session."""
    digest = base64.b64encode(bytes(32)).decode()
    for number in range(count):
        yield (f'{HEAD}[ssign VER="0121" RSID="{rsid}" SG="0" SPRI="0" GBC="{number}" FMN="{number + 1}" CNT="1" '
               f'HB="{digest}" SIGN="{SIGN}"]')


def numbers(number: int) -> bytes:
    """A version 4 packet of a DSA key (RFC 4880, section 5.5.2), whose last number differs."""
    body = b"\x04" + bytes(4) + b"\x11"
    for it in (2 ** 1023 + 1, 2 ** 159 + 1, 2 ** 1022 + 1, 2 ** 1000 + number):
        body += it.bit_length().to_bytes(2, "big") + it.to_bytes((it.bit_length() + 7) // 8, "big")
    return b"\x99" + len(body).to_bytes(2, "big") + body


def blocks(kind: str, count: int, words: List[str]) -> Iterator[str]:
    """The messages of a log."""
    if kind == "long":
        yield from certificates(1, "- U " + "A" * (1000 * count // 4 * 4))
        yield from signatures(1, count)
    elif kind == "trusted":
        yield from certificates(1, "- U " + "A" * 65532)
        yield from signatures(1, count)
    elif kind == "sessions":
        for number in range(count):
            yield from certificates(number, "- U " + base64.b64encode(b"%09d" % number).decode())
    elif kind == "kinds":
        with open(words[0], "rb") as file:
            certificate = file.read()
        for number in range(count):
            # an odd number isn't 0, so no certificate here is that of the file
            changed = certificate[:-2] + (int.from_bytes(certificate[-2:], "big") ^ number).to_bytes(2, "big")
            blob, letter = (changed, "C") if number % 2 else (numbers(number), "P")
            yield from certificates(number, f"- {letter} {base64.b64encode(blob).decode()}")
    else:
        raise SystemExit(f"linear_logs.py: no log {kind}")


def main(kind: str, count: str, *words: str) -> None:
    """Writes a log as frames."""
    for text in blocks(kind, int(count), list(words)):
        sys.stdout.write(f"{len(text)} {text}")


main(*sys.argv[1:])
