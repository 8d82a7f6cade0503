#!/usr/bin/env python3
"""Compares the originator with that of `origin_model.py`, over 20,000 scripts of calls by a seed.

    originators.py PROGRAM     the program is `tool_originated`

The last line is `originators: N passed, M failed`.
"""
import collections
import re
import subprocess
import sys

from origin_model import Player
from origin_scripts import make

SCRIPTS = 20_000
AT_ONCE = 2_000
# how many differences are made small and shown
SHOWN = 3
REFUSED = {"new": "1", "resume": "1", "behind": "", "begin": "5 6 7 10", "submit": "2 3 4 6 7 8 9 10", "flush": "4 6 7 9 10"}
REACHED = [
    *("%s refused O%s" % (name, number) for name, numbers in REFUSED.items() for number in numbers.split()),
    "new made", "resume made", "behind made", "no originator",
    "begin of one piece", "begin of several pieces", "submit of a message alone", "submit that closes a run",
    "flush of no block", "flush of one block", "flush of several blocks",
    "refused behind a seal: O6", "refused behind a seal: O7", "refused behind a seal: O10", "accepted behind a refusal",
    "block of SHA-1", "block of SHA-256", "block of SG 0", "block of SG 1", "block of SG 2",
    "block of 1 hash", "block of 99 hashes", "block of as many hashes as may be", "block of fewer", "block that goes on behind a flush",
    "block that goes on behind a resume", "block with the last GBC", "block with the last number", "block with a stamp",
    "copies 1", "copies 9", "signature of 1 octet", "signature of 1024 octets"]
BLOCK = re.compile(rb'<\d+>1 (\S+) \S+ \S+ \S+ \S+ \[ssign VER="(\d+)" RSID="\d+" SG="(\d)" SPRI="(\d+)" GBC="(\d+)" FMN="(\d+)" CNT="(\d+)" HB="[^"]+" '
                   rb'SIGN="([^"]+)"\]')
passed = failed = 0


def tell(what, wanted, said):
    """One check."""
    global passed, failed
    if wanted == said:
        passed += 1
        return
    failed += 1
    print("originators: %s: FAILED" % what)
    if failed > SHOWN:
        return
    for line in wanted:
        print("    wanted %s" % line)
    for line in said:
        print("    said   %s" % line)


def run(program, scripts):
    """What the program says of each script."""
    lines = [line for script in scripts for line in [*script, "."]]
    done = subprocess.run([program], input="\n".join(lines).encode() + b"\n", stdout=subprocess.PIPE, timeout=300)
    said = [[]]
    for line in done.stdout.decode().splitlines():
        if line == "end":
            said.append([])
        else:
            said[-1].append(line)
    if done.returncode != 0 or len(said) != len(scripts) + 1:
        print("originators: the program ended with status %d behind %d of %d scripts" % (done.returncode, len(said) - 1, len(scripts)))
    return (said + [["nothing"]] * len(scripts))[:len(scripts)]


def model(script):
    player = Player()
    return [said for line in script for said in player.play(line)]


def smaller(program, script):
    """The script without the lines that aren't needed for the program to say something else than the model."""
    at = 1
    while at < len(script):
        fewer = script[:at] + script[at + 1:]
        if run(program, [fewer])[0] != model(fewer):
            script = fewer
        else:
            at += 1
    return script


# ---- what was reached

def kinds_of(config, behind, name, said):
    """What a call and its answer show; `behind` has what was seen before of the originator."""
    if said[0] == "none":
        return ["no originator"]
    if said[0].startswith("session"):
        behind.clear()
        behind["resumed"] = name != "new"
        return [name + " made"]
    if said[0].startswith("O"):
        behind["refused"] = True
        asked = [line for line in said if line.startswith("asked ") and line != "asked 1"]
        return ["%s refused %s" % (name, said[0])] + ["refused behind a seal: " + said[0] for _ in asked if said[0] in ("O6", "O7", "O10")]
    sent = [bytes.fromhex(line[5:]) for line in said if line.startswith("sent ")]
    count = (len(sent) - (name == "submit")) // config.copies
    kinds = {"begin": ["begin of one piece" if count == 1 else "begin of several pieces"],
             "submit": ["submit that closes a run" if count else "submit of a message alone"],
             "flush": [("flush of no block", "flush of one block", "flush of several blocks")[min(count, 2)]]}[name]
    if behind.pop("refused", False):
        kinds.append("accepted behind a refusal")
    if count:
        kinds.append("copies %d" % config.copies)
    for match in filter(None, map(BLOCK.fullmatch, sent[name == "submit":])):
        kinds += block_kinds(config, behind, *match.groups())
    behind["flushed"] = behind.get("flushed") or name == "flush" and count > 0
    return kinds


def block_kinds(config, behind, stamp, version, sg, spri, gbc, first, many, sign):
    first, many, octets = int(first), int(many), len(sign) // 4 * 3 - sign.count(b"=")
    yield "block of SHA-1" if version == b"0111" else "block of SHA-256"
    yield "block of SG %d" % int(sg)
    yield "block of 1 hash" if many == 1 else "block of %d hashes" % many
    yield "block of as many hashes as may be" if many == config.per_block else "block of fewer"
    if stamp != b"-":
        yield "block with a stamp"
    if behind.get("flushed") and (first - 1) % config.per_block:
        yield "block that goes on behind a flush"
    if behind.get("resumed") and first > 1:
        yield "block that goes on behind a resume"
    if int(gbc) == 9_999_999_999:
        yield "block with the last GBC"
    if first + many - 1 == 9_999_999_999:
        yield "block with the last number"
    yield "signature of %d octet%s" % (octets, "s" * (octets > 1))


def compare(program, scripts, reached):
    for (name, script), said in zip(scripts, run(program, [script for _, script in scripts])):
        player, behind, wanted = Player(), {}, []
        for line in script:
            answer = player.play(line)
            wanted += answer
            if answer:
                reached.update(kinds_of(player.config, behind, line.split(" ")[0], answer))
        if said != wanted and failed < SHOWN:
            script = smaller(program, script)
            for line in script:
                print("    %s" % line)
            wanted, said = model(script), run(program, [script])[0]
        tell(name, wanted, said)


def main():
    program, reached = sys.argv[1], collections.Counter()
    for first in range(0, SCRIPTS, AT_ONCE):
        compare(program, [("seed %d" % seed, make(seed)) for seed in range(first, first + AT_ONCE)], reached)
    for kind in REACHED:
        print("originators: %6d %s" % (reached[kind], kind))
        tell("some script has " + kind, [True], [reached[kind] > 0])
    print("originators: %d passed, %d failed" % (passed, failed))
    return failed > 0 or passed == 0


if __name__ == "__main__":
    sys.exit(main())
