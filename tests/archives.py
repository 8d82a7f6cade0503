#!/usr/bin/env python3
"""Makes an archive of signed logs for tests/archive.sh, by `ssign plan` and `ssign sign`.

    archives.py FOLDER

FOLDER gets `archive`, with a folder for each of four originators and a file in it for each of eight nights, plain or
compressed. Of the first originator all nights are one session, of the second each night is one, and of the others a session
ends within a night.
"""
from __future__ import annotations

import gzip
import lzma
import os
import subprocess
import sys
from typing import Iterator, List, Sequence

PROGRAM = os.environ["SSIGN"]
ORIGINATORS, NIGHTS, MESSAGES = 4, 8, 40
KEY = "2026-01-01T00:00:00Z K S0VZ"


def host(number: int) -> str:
    """The name of an originator."""
    return f"gate-{number}"


def message(originator: int, number: int) -> bytes:
    """An ordinary message, another one for each number."""
    text = f"<13>1 2026-01-01T00:00:01Z {host(originator)} application 812 - - message {number} "
    return text.encode() + b"x" * (100 - number % 7)


def frames(messages: Sequence[bytes]) -> bytes:
    """A log of frames."""
    return b"".join(b"%d %s" % (len(it), it) for it in messages)


def unframed(log: bytes) -> Iterator[bytes]:
    """The messages of a log of frames."""
    at = 0
    while at < len(log):
        space = log.index(b" ", at)
        end = space + 1 + int(log[at:space])
        yield log[space + 1:end]
        at = end


def ssign(words: Sequence[str], log: bytes) -> bytes:
    """What the program writes."""
    return subprocess.run([PROGRAM, *words], input=log, stdout=subprocess.PIPE, check=True).stdout


def sign(messages: Sequence[bytes], of_host: str, rsid: int, passing: str, ver: str = "0121", *more: str) -> bytes:
    """A log of frames with its blocks, by a signer whose every signature is three octets 0."""
    options = ["--host", of_host, "--app", "signer", "--rsid", str(rsid), "--payload", KEY, "--ver", ver, *more]
    log = frames(messages)
    with open(passing, "wb") as seals:
        for want in ssign(["plan", *options], log).splitlines():
            seals.write(b"seal %s AAAA\n" % want.split(b" ")[1])
    return ssign(["sign", "--answers", passing, *options], log)


def sessions_of(originator: int, nights: int, messages: int) -> List[int]:
    """How many messages each session of an originator has."""
    whole = nights * messages
    if originator == 1:
        return [whole]
    if originator == 2:
        return [messages] * nights
    first = messages * (originator % nights) + messages // 2 or messages
    return [first, whole - first] if 0 < first < whole else [whole]


def write(path: str, octets: bytes, form: int) -> None:
    """A file, in one of three forms."""
    if form == 1:
        with open(path + ".gz", "wb") as file:
            file.write(gzip.compress(octets, 6, mtime=0))
    elif form == 2:
        with open(path + ".xz", "wb") as file:
            file.write(lzma.compress(octets, preset=1))
    else:
        with open(path, "wb") as file:
            file.write(octets)


def make(folder: str) -> None:
    """The archive."""
    for originator in range(1, ORIGINATORS + 1):
        log, number = b"", 0
        for rsid, count in enumerate(sessions_of(originator, NIGHTS, MESSAGES), 1):
            texts = [message(originator, it) for it in range(number, number + count)]
            log += sign(texts, host(originator), rsid, os.path.join(folder, "seals"))
            number += count
        place = os.path.join(folder, "archive", host(originator))
        os.makedirs(place)
        stored = list(unframed(log))
        for night in range(NIGHTS):
            part = stored[len(stored) * night // NIGHTS:len(stored) * (night + 1) // NIGHTS]
            write(os.path.join(place, f"night-{night + 1}.log"), frames(part), (originator + night) % 3)


if __name__ == "__main__":
    make(sys.argv[1])
