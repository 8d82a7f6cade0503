#!/usr/bin/env python3
"""What `ssign inspect --json --facts` adds to the objects of messages, against a second reading of the messages.

    facts.py PROGRAM

over messages of all kinds by a seed (kinds.py) and over wraps (unwraps.py), as they stand and with `--unwrap`, for places
by a seed. Messages are read a second time by rfc5424.py, and blocks by review_model.py. The other keys have to be those of
a run without the option. `ssign extract --places` writes the messages at the same places. Ends with status 0 if all is as it
has to be; else it says what isn't.
"""
import base64
import json
import os
import random
import subprocess
import sys
import tempfile

from review_model import Block, reading
from review_runs import frame, read_frames
from rfc5424 import NoMessage, read
from unwraps import message as wrap_or_other, original, say

HERE = os.path.dirname(os.path.abspath(__file__))
LONGEST = 16384
KINDS, WRAPS = 4000, 2000
# messages whose texts and originals are longer than an object has, or as long
WRAP = b"<13>1 - h s - wrapped - |"
LONG = [b"x" * it for it in (LONGEST - 1, LONGEST, LONGEST + 1, 3 * LONGEST)]
EDGES = [*LONG, *(WRAP + it for it in LONG), WRAP, b"[ssign", b"<13>1 - - - - - - [SSIGN [ssig", b"<13>1 - - - - - - [ssign"]


def encoded(octets):
    return base64.b64encode(octets).decode()


def facts_of(text, is_named):
    """The keys of a message, in their order."""
    facts = [("octets", len(text))]
    try:
        read(text)
        part = 13
    except NoMessage as fault:
        part = fault.args[0]
    if part > 3:
        facts.append(("timestamp", text.split(b" ")[1].decode()))
    if text.find(b"[ssign") >= 0:
        facts.append(("marked", 1))
    if not is_named:
        return facts
    facts.append(("text", encoded(text[:LONGEST])))
    inner = original(text)
    if inner is not None:
        facts.append(("original", encoded(inner[:LONGEST])))
    block = reading(0, text)
    if isinstance(block, Block):
        facts += [("fragment", encoded(block.fragment))] if block.is_certificate else []
        facts += [("ver", block.version), ("signed", encoded(block.signed)), ("signature", encoded(block.sign))]
    return facts


def pairs_of(out):
    """The pairs of each object, in their order."""
    return [json.loads(it, object_pairs_hook=list) for it in out.splitlines()]


def compare(program, folder, messages, chance):
    """One log, with some of its places."""
    log = b"".join(map(frame, messages))
    path = os.path.join(folder, "places")
    places = [chance.randrange(len(messages) + 20) for _ in range(chance.choice([0, 1, len(messages) // 3, 2 * len(messages)]))]
    with open(path, "w", encoding="ascii") as file:
        file.writelines("%d\n" % it for it in places)
    named = {it for it in places if it < len(messages)}
    told = [facts_of(text, place in named) for place, text in enumerate(messages)]
    for words in ([], ["--unwrap"], ["--findings"]):
        before = say(program, ["inspect", "--json", *words], log)
        wanted = pairs_of(before[1])
        for pairs in wanted:
            if pairs[0] != ["line", "end"] and pairs[0] != ("line", "end"):
                pairs += told[dict(pairs)["place"]]
        said = say(program, ["inspect", "--json", "--facts", path, *words], log)
        said = (said[0], pairs_of(said[1]), said[2])
        if said != (before[0], wanted, before[2]):
            differing = [it for it in zip(said[1], wanted) if it[0] != it[1]][:1]
            sys.exit("facts.py: %s: said and wanted: %r" % (words, differing or [said, wanted]))
    wanted = (0, b"".join(frame(messages[it]) for it in sorted(named)), b"")
    if len(named) < len(set(places)):
        wanted = (2, b"", b"ssign: E1 %d\n" % min(it for it in places if it >= len(messages)))
    said = say(program, ["extract", "--places", path], log)
    if said != wanted:
        sys.exit("facts.py: extract --places: said %r, and not %r" % (said, wanted))


def main(program):
    chance = random.Random(346)
    made = subprocess.run([sys.executable, "-B", os.path.join(HERE, "kinds.py"), "make", "346", str(KINDS)], capture_output=True,
                          check=True).stdout
    messages = [*read_frames(made)[0], *(wrap_or_other(chance) for _ in range(WRAPS))]
    chance.shuffle(messages)
    with tempfile.TemporaryDirectory() as folder:
        compare(program, folder, EDGES, chance)
        compare(program, folder, EDGES[::-1] * 2, chance)
        for start in range(0, len(messages), 500):
            compare(program, folder, messages[start:start + 500], chance)


if __name__ == "__main__":
    main(*sys.argv[1:])
