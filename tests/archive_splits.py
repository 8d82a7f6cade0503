#!/usr/bin/env python3
"""Splits a random log, and sees that the reports on the parts add up to the report on the whole, place by place.

    archive_splits.py SEED

Of each seed four logs are made. In the first and second the premises hold for both splits; in the third a session signs
messages of another host; in the fourth two sessions of a host announce the same messages. What `ssign-archive split` has
to say of them is counted from how the log was made.
"""
from __future__ import annotations

import os
import random
import subprocess
import sys
import tempfile
from dataclasses import dataclass, field
from typing import Dict, List, Tuple

from archives import frames, sign, ssign, unframed
from review_runs import as_answers

TOOL = os.path.join(os.path.dirname(os.path.realpath(__file__)), "..", "tools", "archive")


@dataclass
class Made:
    """A log that was made: its messages, its answers, and how many hashes have their message in another part."""

    stored: List[bytes]
    answers: bytes
    misplaced: Dict[str, int] = field(default_factory=lambda: {"host": 0, "session": 0})


def text_of(host: str, number: int) -> bytes:
    return b"<13>1 - %s app - - - message %d of %s" % (host.encode(), number, host.encode())


def signed(dice: random.Random, passing: str, kind: str, made: Made) -> List[List[bytes]]:
    """The messages of each session, with its blocks."""
    logs = []
    for host in ("alpha", "beta.example", "gamma/x"):
        shared = [text_of(host, 5000 + it) for it in range(dice.randint(1, 4))] if kind == "shared" else []
        for rsid in (1, 2):
            texts = [text_of(host, 1000 * rsid + it) for it in range(dice.randint(4, 25))]
            texts += [dice.choice(texts) for _ in range(dice.randint(0, 3))]
            if kind == "foreign":
                strange = [text_of("delta", 1000 * rsid + len(logs) * 100 + it) for it in range(dice.randint(1, 3))]
                made.misplaced["host"] += len(strange)
                texts += strange
            texts += shared
            dice.shuffle(texts)
            ver = dice.choice(("0111", "0121"))
            logs.append(list(unframed(sign(texts, host, rsid, passing, ver, "--count", str(dice.randint(1, 9))))))
        made.misplaced["session"] += len(shared)
    return logs


def merged(dice: random.Random, logs: List[List[bytes]]) -> List[bytes]:
    """The messages of all logs in one, those of each in their order."""
    turns = [number for number, log in enumerate(logs) for _ in log]
    dice.shuffle(turns)
    rest = [iter(it) for it in logs]
    return [next(rest[it]) for it in turns]


def harmed(dice: random.Random, messages: List[bytes]) -> List[bytes]:
    """The messages with some taken out, changed, doubled, and with others put in."""
    out: List[bytes] = []
    for it in messages:
        chance = dice.random()
        if chance < 0.08:
            continue
        out.append(it[:-1] + b"?" if chance < 0.13 else it)
        if chance > 0.93:
            out.append(dice.choice((b"no message", b"<13>1 - beta.example a - - - strange", b"<13>1 - alpha a - - [ssign x=\"1\"]",
                                    dice.choice(messages))))
    return out


def make(dice: random.Random, passing: str, kind: str) -> Made:
    """A log of one of the four kinds."""
    made = Made([], b"")
    messages = merged(dice, signed(dice, passing, kind, made))
    answers = as_answers(ssign(["questions"], frames(messages))).splitlines(keepends=True)
    made.answers = b"".join(it for it in answers if it.startswith(b"trust ") or dice.random() > 0.1)
    made.stored = harmed(dice, messages) if kind == "harmed" else messages
    return made


def review(log: bytes, answers: str) -> List[bytes]:
    said = subprocess.run([os.environ["SSIGN"], "review", "--answers", answers], input=log, stdout=subprocess.PIPE, check=False)
    if said.returncode not in (0, 1):
        sys.exit("ssign review refuses")
    return said.stdout.splitlines()


def moved(line: bytes, places: List[int]) -> bytes:
    """A line of a report on a part, as it is in the report on the whole."""
    words = line.split(b" ")
    at = {b"ok": 8, b"unlisted": 1, b"refused": 1, b"spoilt": 1}.get(words[0])
    if at is not None:
        words[at] = b"%d" % places[int(words[at])]
    return b" ".join(words)


def parts_of(out: str, stored: List[bytes], answers: str) -> List[bytes]:
    """The lines of the reports on all parts, with the places of the whole."""
    lines, seen, count = [], [], 0
    for name in sorted(os.listdir(out)):
        if name.endswith(".places"):
            continue
        with open(os.path.join(out, name, "log"), "rb") as log, open(os.path.join(out, f"{name}.places")) as file:
            octets, places = log.read(), list(map(int, file))
        if places != sorted(places) or list(unframed(octets)) != [stored[it] for it in places]:
            sys.exit(f"the part {name} hasn't the messages of its places, in their order")
        report = review(octets, answers)
        lines += [moved(it, places) for it in report[:-1]]
        count += int(report[-1].split(b" ")[1])
        seen += places
    if sorted(seen) != list(range(len(stored))):
        sys.exit("the parts don't have each message once")
    return sorted(lines) + [b"end %d" % count]


def try_split(folder: str, made: Made, by: str) -> None:
    """Splits, and sees that all is as it has to be."""
    log, out, answers = (os.path.join(folder, it) for it in ("log", f"by-{by}", "answers"))
    said = subprocess.run([TOOL, "split", "--by", by, log, out], stdout=subprocess.PIPE, check=False)
    count = made.misplaced[by]
    words = b"(b) NOT MET: %d announced hash" % count if count else b"(b) met:"
    if said.returncode != (1 if count else 0) or words not in said.stdout or b"(a) met" not in said.stdout:
        sys.exit(f"by {by}: status {said.returncode}, and not the words {words!r}: {said.stdout.decode()}")
    whole = review(frames(made.stored), answers)
    if parts_of(out, made.stored, answers) != sorted(whole[:-1]) + whole[-1:] and count == 0:
        sys.exit(f"by {by}: the reports on the parts don't add up to the report on the whole")


def main() -> None:
    seed = int(sys.argv[1])
    kinds: Tuple[str, ...] = ("whole", "harmed", "foreign", "shared")
    for number, kind in enumerate(kinds):
        dice = random.Random(f"{seed} {kind}")
        with tempfile.TemporaryDirectory() as folder:
            made = make(dice, os.path.join(folder, "seals"), kind)
            for name, octets in (("log", frames(made.stored)), ("answers", made.answers)):
                with open(os.path.join(folder, name), "wb") as file:
                    file.write(octets)
            for by in ("host", "session"):
                try_split(folder, made, by)


if __name__ == "__main__":
    main()
