#!/usr/bin/env python3
"""Makes signed logs for tests/sha1.sh, by the arithmetic of dsa_model.py, in the present folder.

    sha1_logs.py PRIVATE OTHER     PRIVATE and OTHER are private keys whose q has 160 bits

The messages are the two published texts with one SHA-1, and others. Each log is described where it is made.
"""
from __future__ import annotations

import base64
import hashlib
import sys
from typing import List, Sequence

import dsa_model
from dsa_model import Pair
from review_logs import SAME_SHA1
from review_runs import frame

ONE, TWIN = (it + b"tail" for it in SAME_SHA1)
PLAIN = b"<13>1 - - - - - - plain"


def signed(pair: Pair, element: bytes, version: str) -> bytes:
    """A block with its signature."""
    front = b"<110>1 - h s - - [" + element
    value = base64.b64encode(b"".join(map(dsa_model.spell, dsa_model.sign(pair, front + b"]", version.encode()))))
    return front + b' SIGN="' + value + b'"]'


def certificate(pair: Pair, rsid: int, version: str) -> bytes:
    """The certificate block that states a key."""
    payload = b"- K " + base64.b64encode(dsa_model.blob(pair.key))
    size = len(payload)
    return signed(pair, b'ssign-cert VER="%s" RSID="%d" SG="0" SPRI="0" TPBL="%d" INDEX="1" FLEN="%d" FRAG="%s"' % (
        version.encode(), rsid, size, size, payload), version)


def announcing(pair: Pair, rsid: int, version: str, texts: Sequence[bytes], gbc: int = 0, first: int = 1) -> bytes:
    """A signature block that announces these texts."""
    hashed = hashlib.sha1 if version == "0111" else hashlib.sha256
    hashes = b" ".join(base64.b64encode(hashed(it).digest()) for it in texts)
    return signed(pair, b'ssign VER="%s" RSID="%d" SG="0" SPRI="0" GBC="%d" FMN="%d" CNT="%d" HB="%s"' % (
        version.encode(), rsid, gbc, first, len(texts), hashes), version)


def write(name: str, texts: List[bytes]) -> None:
    """A log of frames."""
    with open(name, "wb") as file:
        file.write(b"".join(map(frame, texts)))


def main(private: str, other: str) -> None:
    """Makes the logs."""
    pair, stranger = dsa_model.read_pair(private), dsa_model.read_pair(other)
    for version in ("0111", "0121"):
        front, block = certificate(pair, 1, version), announcing(pair, 1, version, [ONE, PLAIN])
        write(f"kept-{version}", [front, ONE, PLAIN, block])
        # the attack: the twin stands where the signed text stood
        write(f"swapped-{version}", [front, TWIN, PLAIN, block])
        write(f"lost-{version}", [front, ONE, block])
    third = b"<13>1 - - - - - - third"
    session_1 = [certificate(pair, 1, "0111"), ONE, announcing(pair, 1, "0111", [ONE])]
    session_2 = [certificate(pair, 2, "0121"), PLAIN, announcing(pair, 2, "0121", [PLAIN])]
    session_3 = [certificate(pair, 3, "0111"), third, announcing(pair, 3, "0111", [third])]
    write("mixed", session_1 + session_2)
    write("two", session_1 + session_3)
    write("three", session_2 + session_1 + session_3)
    # one session whose first number rests on SHA-256, and the second on SHA-1
    write("both", [certificate(pair, 1, "0121"), PLAIN, ONE, announcing(pair, 1, "0121", [PLAIN]),
                   announcing(pair, 1, "0111", [ONE], 1, 2)])
    # the same the other way round, and a block over SHA-1 between two others
    write("back", [certificate(pair, 1, "0121"), ONE, PLAIN, announcing(pair, 1, "0111", [ONE]),
                   announcing(pair, 1, "0121", [PLAIN], 1, 2)])
    write("between", [certificate(pair, 1, "0121"), PLAIN, ONE, third, announcing(pair, 1, "0121", [PLAIN]),
                      announcing(pair, 1, "0111", [ONE], 1, 2), announcing(pair, 1, "0121", [third], 2, 3)])
    # SHA-1 in the certificate block alone: no number rests on it
    write("certificate", [certificate(pair, 1, "0111"), PLAIN, announcing(pair, 1, "0121", [PLAIN])])
    # SHA-1 in a block whose signature is that of a stranger, and in a session of a stranger
    write("unverified", [certificate(pair, 1, "0121"), PLAIN, announcing(pair, 1, "0121", [PLAIN]),
                         announcing(stranger, 1, "0111", [ONE], 1, 2)])
    write("stranger", session_2 + [certificate(stranger, 5, "0111"), announcing(stranger, 5, "0111", [PLAIN])])
    # a payload whose certificate blocks a stranger signed: the session isn't joined, so its valid blocks don't count
    payload = b"- K " + base64.b64encode(dsa_model.blob(pair.key))
    element = b'ssign-cert VER="0111" RSID="7" SG="0" SPRI="0" TPBL="%d" INDEX="1" FLEN="%d" FRAG="%s"' % (
        len(payload), len(payload), payload)
    write("unaccepted", session_2 + [signed(stranger, element, "0111"), announcing(pair, 7, "0111", [ONE])])
    # octets that are spelled like a block of VER 0111, in the MSG of a signature block of VER 0121
    front = b'<110>1 - h s - - [ssign VER="0121" RSID="1" SG="0" SPRI="0" GBC="0" FMN="1" CNT="1" HB="%s"' % (
        base64.b64encode(hashlib.sha256(PLAIN).digest()))
    back = b'] ][ssign VER="0111" RSID="1" SG="0" SPRI="0" GBC="0" '
    value = base64.b64encode(b"".join(map(dsa_model.spell, dsa_model.sign(pair, front + back, b"0121"))))
    write("spelled", [certificate(pair, 1, "0121"), PLAIN, front + b' SIGN="' + value + b'"' + back])


if __name__ == "__main__":
    main(*sys.argv[1:])
