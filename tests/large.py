#!/usr/bin/env python3
"""Runs each command over logs of many messages, of many blocks, and of long messages: none may be out of memory.

    large.py PROGRAM [--show] [--messages N] [--blocks N]

There is memory for all of it, so a run that refuses says something wrong, wherever it draws its limit. The logs are planned,
sealed, signed, asked about and reviewed. What each run has to write is worked out from its log, and is compared octet for
octet:

  many messages   1,000,000 of 20 to 25 octets, with 99 in a block
  many blocks     100,000 messages, each with a block
  long messages   of 60,000 octets and more, up to the longest that `--max-len` allows, as frames and as lines, and in wraps
  long blocks     of the same lengths, with a long text after the block

The last line is `large: N passed, M failed`.
"""
import argparse
import base64
import os
import subprocess
import sys
import tempfile

from review_runs import as_answers

PATIENCE = 300
HEAD = b"<13>1 - - - - - - "
# the longest message without an option, and with one
USUAL, LONGEST = 65_536, 1_048_576
GIVEN = ["--rsid", "7", "--payload=- N"]
PAYLOAD = base64.b64encode(b"- N")
SESSION = b"- - - 7"

passed = failed = 0


def tell(what, fault=""):
    """One check, passed where there is no fault."""
    global passed, failed
    if not fault:
        passed += 1
        return
    failed += 1
    print("large: %s: FAILED\n    %s" % (what, fault))


def framed(messages):
    return b"".join(b"%d %s" % (len(text), text) for text in messages)


def lined(messages):
    return b"".join(text + b"\n" for text in messages)


def read(octets):
    """The messages of frames."""
    at, messages = 0, []
    while at < len(octets):
        space = octets.index(b" ", at)
        end = space + 1 + int(octets[at:space])
        messages.append(octets[space + 1:end])
        at = end
    return messages


def is_block(text):
    return b"[ssign" in text[:64]


class Bench:
    """A program, a folder for its inputs, and what is written about each run."""

    def __init__(self, program, folder, show):
        self.program, self.folder, self.show = program, folder, show

    def path(self, name, octets):
        path = os.path.join(self.folder, name)
        with open(path, "wb") as file:
            file.write(octets)
        return path

    def run(self, what, words, log):
        """Status and standard output of a run over a file."""
        begun = os.times().children_user
        with open(log, "rb") as file:
            done = subprocess.run([self.program, *words], stdin=file, capture_output=True, timeout=PATIENCE, check=False)
        if self.show:
            print("%-60s %5.2f s" % (what, os.times().children_user - begun))
        if done.stderr:
            tell("%s: it refuses nothing" % what, "it ended with %d %r" % (done.returncode, done.stderr[:100]))
        return done.returncode, done.stdout

    def check(self, what, words, log, status, wanted):
        """One run, which has to end so, and write that."""
        said = self.run(what, words, log)
        at = next((at for at, (one, other) in enumerate(zip(said[1], wanted)) if one != other), min(len(said[1]), len(wanted))) \
            if said[1] != wanted else 0
        tell(what, "" if said == (status, wanted) else "it ended with %d and %d octets, and not %d and %d: %r, and not %r" % (
            said[0], len(said[1]), status, len(wanted), said[1][at:at + 60], wanted[at:at + 60]))


def unsigned(bench, name, messages, options, spell):
    """Runs over a log of messages that nobody signed."""
    log, count = bench.path("log", spell(messages)), len(messages)
    numbers = list(map(b"%d".__mod__, range(count)))
    end = b"end %d\n" % count
    bench.check(name + ": review", ["review", *options], log, 1, b"".join(b"unlisted %s\n" % it for it in numbers) + end)
    bench.check(name + ": inspect", ["inspect", *options], log, 0, b"".join(b"plain %s\n" % it for it in numbers) + end)
    bench.check(name + ": questions", ["questions", *options], log, 0, b"")
    bench.check(name + ": counters", ["counters", *options], log, 0, b"end 0\n")
    bench.check(name + ": carry", ["carry", *options], log, 0, framed(messages))
    bench.check(name + ": extract --unlisted", ["extract", "--unlisted", *options], log, 1, framed(messages))
    read_on(bench, name, messages, options)


def read_on(bench, name, messages, options):
    """Runs over a log of such messages with a damaged octet before every two. None ends in a digit, which could make another
    length with the digits after it."""
    messages = [it[:-1] + b"." for it in messages]
    parts, stretches, at = [], [], 0
    for place in range(0, len(messages), 2):
        parts.append(b"X" + framed(messages[place:place + 2]))
        stretches.append(b"damaged %d %d 1\n" % (place, at))
        at += len(parts[-1])
    log, ended = bench.path("log", b"".join(parts)), b"".join(stretches) + b"end %d\n" % len(messages)
    for command, line, out in (("review", b"unlisted %d\n", ended), ("inspect", b"plain %d\n", ended), ("questions", b"", b""),
                               ("counters", b"", b"end 0\n"), ("carry", b"", framed(messages))):
        lines = b"".join(map(line.__mod__, range(len(messages)))) if line else b""
        bench.check("%s: %s --salvage" % (name, command), [command, "--salvage", *options], log, 1, lines + out)


def signed(bench, name, messages, count, options=(), spell=framed, full=True):
    """Has a log signed, and runs over the signed one. Gives its messages."""
    log, blocks = bench.path("log", spell(messages)), 1 - -len(messages) // count
    told = [*GIVEN, "--count", str(count), *options]
    status, plan = bench.run(name + ": plan", ["plan", *told], log)
    wants = [line[5:] for line in plan.splitlines()]
    tell(name + ": plan", "" if (status, len(wants)) == (0, blocks) else "%d, and %d blocks of %d" % (status, len(wants), blocks))
    ahead = b"count %s %d\ncount %s 0 0 %d\nend 2\n" % (SESSION, blocks - 1, SESSION, len(messages) + 1)
    if full:
        bench.check(name + ": plan --ahead", ["plan", "--ahead", *told], log, 0, ahead)
    seals = bench.path("seals", b"".join(b"seal %s AAAA\n" % it for it in wants))
    status, octets = bench.run(name + ": sign", ["sign", *told, "--answers", seals], log)
    sent = read(octets)
    places = [place for place, text in enumerate(sent) if not is_block(text)]
    wrapped = "--wrap" in options
    tell(name + ": sign", "" if status == 0 and len(sent) == blocks + len(messages) and (
        wrapped or [sent[place] for place in places] == messages) else "%d, and %d messages" % (status, len(sent)))

    log = bench.path("signed", octets)
    options = [it for it in options if it not in ("--lines", "--wrap")]
    questions = b"trust? %s\n" % PAYLOAD + b"".join(b"yes? %s %s AAAA\n" % (PAYLOAD, it) for it in wants)
    bench.check(name + ": questions", ["questions", *options], log, 0, questions)
    told = [*options, "--answers", bench.path("answers", as_answers(questions))]
    joined, end = b"session %s joined\n" % SESSION, b"end %d\n" % len(sent)
    oks = [b"ok %s 0 0 %d %d\n" % (SESSION, number, place) for number, place in enumerate(places, 1)]
    bench.check(name + ": review", ["review", *told], log, 0, joined + b"".join(oks) + end)
    bench.check(name + ": extract", ["extract", *told], log, 0, framed(sent[place] for place in places))
    if full:
        bench.check(name + ": review --whole", ["review", "--whole", *told], log, 0, joined + b"".join(oks) + end)
        bench.check(name + ": counters", ["counters", *told], log, 0, ahead)
        bench.check(name + ": carry", ["carry", *told], log, 0, framed(sent[:1]))
    return sent


def long_texts(most):
    """Messages of this many octets and fewer: with nothing but a text, with elements, and of octets that are no UTF-8."""
    def filled(front, octet=b"x", octets=most):
        return front + octet * (octets - len(front))
    return [filled(HEAD), filled(HEAD, octets=most - 1), filled(b"<13>1 - - - - - [a b=\"" + b"y" * (most // 2) + b"\"] "),
            filled(HEAD, b"\xff"), filled(HEAD, octets=60_000), filled(HEAD, octets=most // 2), filled(HEAD + b"[ssign ")]


def long_blocks(bench, most):
    """A log of blocks with a long text after them, all of one session."""
    options = ["--max-len", str(most)] if most > USUAL else []
    told = [HEAD + b"%d" % i for i in range(3)]
    short = signed(bench, "a short log", told, 1, full=False)
    blocks = [text for text in short if is_block(text)]
    filled = [text + b" " + b"z" * (most - len(text) - 1) for text in blocks]
    log = bench.path("log", framed([*told, *filled]))
    _, questions = bench.run("blocks of %d octets: questions" % most, ["questions", *options], log)
    answers = bench.path("answers", as_answers(questions))
    report = b"session %s joined\n" % SESSION + b"".join(b"ok %s 0 0 %d %d\n" % (SESSION, i + 1, i) for i in range(3)) + b"end 7\n"
    name = "blocks of %d octets: " % most
    bench.check(name + "review", ["review", *options, "--answers", answers], log, 0, report)
    bench.check(name + "extract", ["extract", *options, "--answers", answers], log, 0, framed(told))
    bench.check(name + "carry", ["carry", *options, "--answers", answers], log, 0, framed(filled[:1]))
    bench.check(name + "counters", ["counters", *options, "--answers", answers], log, 0,
                b"count %s 3\ncount %s 0 0 4\nend 2\n" % (SESSION, SESSION))


def main():
    parser = argparse.ArgumentParser(description=__doc__, formatter_class=argparse.RawDescriptionHelpFormatter)
    parser.add_argument("program")
    parser.add_argument("--show", action="store_true")
    parser.add_argument("--messages", type=int, default=1_000_000)
    parser.add_argument("--blocks", type=int, default=100_000)
    given = parser.parse_args()
    with tempfile.TemporaryDirectory() as folder:
        bench = Bench(given.program, folder, given.show)
        many = [HEAD + b"%d" % i for i in range(given.messages)]
        unsigned(bench, "many messages", many, [], framed)
        signed(bench, "many signed messages", many, 99, full=False)
        signed(bench, "many blocks", many[:given.blocks], 1)
        for most, options in ((USUAL, []), (LONGEST, ["--max-len", str(LONGEST)])):
            texts = long_texts(most)
            unsigned(bench, "messages of %d octets" % most, texts, options, framed)
            signed(bench, "signed messages of %d octets" % most, texts[:6], 2, options)
            signed(bench, "lines of %d octets" % most, texts[:6], 2, [*options, "--lines"], lined)
            long_blocks(bench, most)
        odd = [b"<13>2 " + b"w" * octets for octets in (100, 59_990, 60_000, LONGEST // 2)]
        signed(bench, "wraps of long messages", odd, 1, ["--max-len", str(LONGEST), "--wrap"])
    print("large: %d passed, %d failed" % (passed, failed))
    return failed > 0 or passed == 0


if __name__ == "__main__":
    sys.exit(main())
