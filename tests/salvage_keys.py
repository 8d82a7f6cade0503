#!/usr/bin/env python3
"""Damages logs that were really signed, and compares what is reviewed of them with what was signed.

    salvage_keys.py PROGRAM SSIGN-KEYS FOLDER [all]

FOLDER has key pairs `short` and `long`. Of three small logs one octet after the other is changed, put in and taken out, in
turn, or with `all` each of them in each way. Of a large one a disk loses some: NULs stand in their place, two blocks are
swapped, or one is missing. Questions are answered by SSIGN-KEYS, each once. No damaged log is clean, no message is listed
that wasn't signed under its number, and few are lost. The last line is `salvage_keys: N passed, M failed`.
"""
import base64
import collections
import os
import random
import re
import subprocess
import sys
import tempfile

import salvage
from review_model import Log, review
from review_runs import frame, is_clean, joined, read_frames, report_text
from salvage import Program
from salvage_model import Salvaged

# how many messages one damaged octet may hide; how many frames beside a damage may be lost
MOST_HIDDEN, FEW = 3, 3
SECTOR, BLOCK = 512, 4096
LARGE, DISKS = 1500, 12
# of which damaged log the second review makes a report too
MODELLED = 4

passed = failed = 0


def tell(what, fault=""):
    """One check, passed where there is no fault."""
    global passed, failed
    if not fault:
        passed += 1
        return
    failed += 1
    if failed <= salvage.SHOWN:
        print("salvage_keys: %s: FAILED\n    %s" % (what, fault))


class Signed:
    """A signed log, and the text that was signed under each number."""

    def __init__(self, folder, keys, pair, messages, *options):
        self.messages = messages
        key = os.path.join(folder, pair, "private-key.pem")
        words = [keys, "sign", "--key", key, "--host", "gate", "--app", "signer", "--rsid", "1", "--frames", *options, "-"]
        self.octets = subprocess.run(words, input=b"".join(map(frame, messages)), capture_output=True, check=True).stdout
        self.stored, torn = read_frames(self.octets)
        assert torn is None
        # of each frame where it begins and ends
        self.frames, at = [], 0
        for it in self.stored:
            self.frames.append((at, at + len(frame(it))))
            at += len(frame(it))
        self.numbers, counts = {}, collections.Counter()
        for text in messages:
            group = (1, int(re.match(rb"<(\d+)>", text)[1])) if "pri" in options else (0, 0)
            counts[group] += 1
            self.numbers[(*group, counts[group])] = text
        # the payload that is known beforehand: its time is that of the signing
        log = Log(self.stored)
        self.payload = log.payload(log.sessions[0])[1]
        with open(os.path.join(folder, pair, "payload"), "rb") as file:
            assert self.payload.split()[1:] == file.read().split()[1:]


def listed(report):
    """The numbers that a report lists, each with its group, and the place of each."""
    fields = [it.split(b" ")[5:] for it in report.splitlines() if it.startswith(b"ok ")]
    return {tuple(map(int, it[:3])): int(it[3]) for it in fields}


class Bench:
    """The program, and whoever answers."""

    def __init__(self, path, keys, folder, passing):
        self.program, self.keys, self.folder = Program(path, passing), keys, folder
        self.pinned = os.path.join(passing, "pinned")

    def answered(self, signed, logs):
        """Asks about damaged logs, each with its words, and keeps the answers: the payloads and signatures that hold."""
        with open(self.pinned, "wb") as file:
            file.write(b"trust %s\n" % base64.b64encode(signed.payload))
        asked = set()
        for octets, words in logs:
            asked.update(self.program.say(["questions", "--salvage", *words], octets)[1].splitlines(True))
        pairs = [os.path.join(self.folder, it, "public-key.pem") for it in ("short", "long")]
        # the payloads come before the signatures
        lines = b"".join(sorted(asked))
        answers = subprocess.run([self.keys, "answer", *pairs], input=lines, capture_output=True, check=True).stdout
        self.program.give(answers)
        fields = [[base64.b64decode(it) for it in line.split()[1:]] for line in answers.splitlines()]
        return {it[0] for it in fields if len(it) == 1}, {tuple(it) for it in fields if len(it) == 3}

    def reviewed(self, words, octets):
        return self.program.say(["review", "--salvage", "--answers", self.program.answers, *words], octets)


# ---- one octet of a small log

def small(folder, keys):
    """Three logs: their messages have heads, and some of the last are hard to find again."""
    plain = [b"<13>1 - gate app - - - message %d" % it for it in range(1, 10)]
    hard = [b"<%d>1 2026-11-29T00:00:00Z h a - - - %s" % it for it in [
        (13, b"ends in digits 99"), (14, b"has NULs \0\0\0"), (13, b"7 < is no frame"), (14, b"1"), (13, b"lines\n<13>1 - \n"),
        (14, b"nests " + frame(b"<13>1 - h a - - - a frame")), (13, b"the last one but one 4"), (14, b"the last 100 ")]]
    return {"one group": Signed(folder, keys, "short", plain, "--count", "3", "--copies", "2"),
            "long keys": Signed(folder, keys, "long", plain[:6], "--count", "3", "--copies", "2"),
            "hard texts": Signed(folder, keys, "short", hard, "--count", "4", "--copies", "2", "--groups", "pri")}


def damages(octets, chance, each):
    """The octets, damaged at each offset in one way after the other, or in each way."""
    for at, octet in enumerate(octets):
        others = [it for it in range(256) if it != octet]
        digits = [it for it in b"0123456789" if it != octet] if octet in b"0123456789" else []
        ways = [("changed", octets[:at] + bytes([chance.choice(others)]) + octets[at + 1:]),
                ("put in", octets[:at] + bytes([chance.choice([*others, *b"0123456789<"])]) + octets[at:]),
                ("taken out", octets[:at] + octets[at + 1:])]
        if digits:
            ways.append(("another digit", octets[:at] + bytes([chance.choice(digits)]) + octets[at + 1:]))
        for way, damaged in ways if each else [ways[-1] if digits and at % 2 else ways[at % 3]]:
            yield "%s at %d" % (way, at), damaged


def check_small(bench, name, signed, each, reached):
    """Damages each octet. Half of the runs know the payload: a damaged certificate block doesn't hide the session then."""
    chance = random.Random(name)
    logs = [("nothing", signed.octets, ())]
    logs += [(way, damaged, () if chance.random() < 0.5 else ("--pinned", bench.pinned))
             for way, damaged in damages(signed.octets, chance, each)]
    trusted, valid = bench.answered(signed, [it[1:] for it in logs])
    for number, (way, octets, words) in enumerate(logs):
        what = "%s, %s%s" % (name, way, ", pinned" if words else "")
        said = bench.reviewed(words, octets)
        model = Salvaged(octets)
        if each or number % MODELLED == 0:
            known = [signed.payload] if words else []
            text = report_text(review(Log(model.messages), trusted, valid, known), model.torn)
            wanted = model.put_into((int(not is_clean(text)), joined(text), b""), ["review"])
            tell("%s: the report" % what, "" if said == wanted else "%r, and not %r" % (said, wanted))
        is_whole = model.messages == signed.stored and not model.stretches
        tell("%s: the status" % what, "" if said[0] == int(not is_whole) else str(said[0]))
        found = listed(said[1])
        wrong = [it for it, place in found.items() if model.messages[place:place + 1] != [signed.numbers.get(it)]]
        tell("%s: each listed message was signed" % what, "" if not wrong else repr(wrong))
        hidden = len(signed.numbers) - len(found)
        is_joined = words or all(it in signed.stored for it in model.messages if b"[ssign-cert" in it)
        tell("%s: few messages are hidden" % what, "" if hidden <= MOST_HIDDEN or not is_joined else "%d are" % hidden)
        reached["%s, %d hidden%s" % (name, hidden, "" if is_joined else ", and a certificate block is changed")] += 1
        reached["%d stretches" % len(model.stretches)] += 1
        reached["torn"] += model.torn is not None
        reached["the log is whole"] += is_whole


# ---- what a disk loses of a large log

def disks(size, chance):
    """What is left of a log, as offsets from and to which it is, or a count of NULs."""
    for nuls in (SECTOR, BLOCK, 16 * BLOCK):
        at = SECTOR * chance.randrange(size // 4 // SECTOR, (3 * size // 4 - nuls) // SECTOR)
        yield "%d NULs at %d" % (nuls, at), [(0, at), nuls, (at + nuls, size)]
    one, two = sorted(BLOCK * it for it in chance.sample(range(size // 4 // BLOCK, 3 * size // 4 // BLOCK), 2))
    yield "the blocks at %d and %d swapped" % (one, two), [
        (0, one), (two, two + BLOCK), (one + BLOCK, two), (one, one + BLOCK), (two + BLOCK, size)]
    yield "the block at %d missing" % one, [(0, one), (one + BLOCK, size)]
    yield "the block at %d twice" % one, [(0, one + BLOCK), (one, size)]
    yield "%d octets of the block at %d overwritten" % (SECTOR, one), [(0, one), (two, two + SECTOR), (one + SECTOR, size)]


def check_disk(bench, signed, name, pieces, reached):
    """What stands a few frames away from any damage is read, and is listed if a block that announces it is too."""
    octets = b"".join(bytes(it) if isinstance(it, int) else signed.octets[it[0]:it[1]] for it in pieces)
    safe = set()
    for start, stop in (it for it in pieces if not isinstance(it, int)):
        inside = [place for place, (begin, end) in enumerate(signed.frames) if start <= begin and end <= stop]
        inside = inside[FEW if start else 0:]
        safe.update(inside if stop == len(signed.octets) else inside[:-FEW])
    announced = set()
    for place in safe:
        found = re.search(rb' FMN="(\d+)" CNT="(\d+)" ', signed.stored[place])
        announced.update(range(int(found[1]), int(found[1]) + int(found[2])) if found else [])
    status, report, err = bench.reviewed((), octets)
    tell("%s: the status" % name, "" if (status, err) == (1, b"") else "%d %r" % (status, err))
    count = int(report.splitlines()[-1].split()[1]) if report else 0
    read = read_frames(bench.program.say(["extract", "--salvage", *salvage.places(count)], octets)[1])[0]
    lost = collections.Counter(signed.stored[it] for it in safe) - collections.Counter(read)
    tell("%s: whole frames are read" % name, "" if not lost else "%d of %d aren't: %r" % (len(lost), len(safe), list(lost)[:2]))
    found = listed(report)
    wrong = [it for it, place in found.items() if read[place:place + 1] != [signed.numbers.get(it)]]
    tell("%s: each listed message was signed" % name, "" if not wrong else repr(wrong))
    left = {signed.stored[it] for it in safe}
    hidden = [it for it, text in signed.numbers.items() if it[2] in announced and text in left and it not in found]
    tell("%s: messages are listed" % name, "" if not hidden else "%d aren't: %r" % (len(hidden), hidden[:5]))
    tell("%s: many messages are looked for" % name, "" if len(announced) > LARGE // 2 else str(len(announced)))
    reached["a disk, %d stretches" % report.count(b"\ndamaged ")] += 1


def check_disks(bench, folder, keys, each, reached):
    messages = [salvage.honest(it, it * 7919 % 60) for it in range(1, LARGE + 1)]
    signed = Signed(folder, keys, "short", messages, "--count", "10", "--copies", "2")
    cases = [it for seed in range(DISKS * (10 if each else 1)) for it in disks(len(signed.octets), random.Random(seed))]
    logs = [b"".join(bytes(it) if isinstance(it, int) else signed.octets[it[0]:it[1]] for it in pieces) for _, pieces in cases]
    bench.answered(signed, [(it, ()) for it in logs])
    for name, pieces in cases:
        check_disk(bench, signed, name, pieces, reached)


def main():
    path, keys, folder, *words = sys.argv[1:]
    reached = collections.Counter()
    with tempfile.TemporaryDirectory() as passing:
        bench = Bench(os.path.abspath(path), keys, folder, passing)
        for name, signed in small(folder, keys).items():
            print("salvage_keys: %s: %d octets" % (name, len(signed.octets)))
            check_small(bench, name, signed, bool(words), reached)
        check_disks(bench, folder, keys, bool(words), reached)
    for kind in sorted(reached):
        print("salvage_keys: %6d %s" % (reached[kind], kind))
    print("salvage_keys: %d passed, %d failed" % (passed, failed))
    return failed > 0 or passed == 0


if __name__ == "__main__":
    sys.exit(main())
