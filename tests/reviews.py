#!/usr/bin/env python3
"""Compares the reviewer with the review of `review_model.py`.

    reviews.py model               the model alone, over the logs that were worked out by hand
    reviews.py compare PROGRAM     and the program `tool_reviewed`, over these and over 10,000 logs by a seed

The last line is `reviews: N passed, M failed`.
"""
import collections
import subprocess
import sys

from review_examples import EXAMPLES, LENGTHS, QUESTIONS, READINGS
from review_logs import make
from review_model import Block, Log, questions, reading, review
from review_runs import answers_to, question_text, report_text

# the line before what the program says of a log
HEAD = "log"
LOGS = 10_000
AT_ONCE = 2_500
# how many differences are made small and shown
SHOWN = 3
REACHED = ["listed", "gap lost", "gap disputed", "hole", "unlisted", "refused", *("spoilt S%d" % cause for cause in range(1, 10)),
           *("session " + state for state in ("joined", "disputed", "incomplete", "malformed", "untrusted", "unaccepted")),
           "question trust", "question yes"]
passed = failed = 0


def tell(what, wanted, said):
    """One check."""
    global passed, failed
    if wanted == said:
        passed += 1
        return
    failed += 1
    print("reviews: %s: FAILED" % what)
    if failed > SHOWN:
        return
    for line in wanted:
        print("    wanted %s" % line)
    for line in said:
        print("    said   %s" % line)


# ---- the logs that were worked out by hand

def examples():
    """The logs with their answers. The model is tried on them."""
    cases = []
    for text, length in LENGTHS:
        tell("the length of %r" % text, [length], [len(text)])
    for text, wanted in READINGS:
        said = reading(0, text)
        tell("the reading of %r" % text, [wanted], [0 if isinstance(said, Block) else said])
    for name, messages, answers, wanted in EXAMPLES:
        log = Log(messages)
        trusted, valid = answers_to(log, answers)
        tell("the model of " + name, wanted, report_text(review(log, trusted, valid)))
        cases.append((name, messages, trusted, valid))
    for name, messages, wanted in QUESTIONS:
        tell("the model of " + name, wanted, question_text(questions(Log(messages))))
        cases.append((name, messages, set(), set()))
    return cases


# ---- the program

def frame(kind, octets=b""):
    return b"%d %s%s" % (len(octets) + 1, kind, octets)


def told(case):
    """A case as the program reads it."""
    _, messages, trusted, valid = case
    frames = [frame(b"t", it) for it in sorted(trusted)]
    for triple in sorted(valid):
        frames += map(frame, (b"p", b"o", b"s"), triple)
    return b"".join(frames + [frame(b"m", it) for it in messages] + [frame(b".")])


def run(program, cases):
    """What the program says of each case, line by line."""
    done = subprocess.run([program], input=b"".join(map(told, cases)), stdout=subprocess.PIPE, timeout=100)
    said = []
    for line in done.stdout.decode().splitlines():
        if line == HEAD:
            said.append([])
        else:
            said[-1].append(line)
    if done.returncode != 0 or len(said) != len(cases):
        print("reviews: the program ended with status %d behind %d of %d logs" % (done.returncode, len(said), len(cases)))
    return said + [["nothing"]] * (len(cases) - len(said))


def model(case):
    _, messages, trusted, valid = case
    log = Log(messages)
    return review(log, trusted, valid) + questions(log)


def smaller(program, case):
    """The case without what isn't needed for the program to say something else than the model."""
    name, messages, trusted, valid = case
    parts = [("m", it) for it in messages] + [("t", it) for it in sorted(trusted)] + [("v", it) for it in sorted(valid)]

    def of(parts):
        return (name, [it for kind, it in parts if kind == "m"], {it for kind, it in parts if kind == "t"}, {it for kind, it in parts if kind == "v"})

    at = 0
    while at < len(parts):
        fewer = of(parts[:at] + parts[at + 1:])
        if run(program, [fewer])[0] != model(fewer):
            del parts[at]
        else:
            at += 1
    return of(parts)


def show(case):
    _, messages, trusted, valid = case
    for place, text in enumerate(messages):
        print("    message %d %r" % (place, text))
    for payload in sorted(trusted):
        print("    trusted %r" % payload)
    for triple in sorted(valid):
        print("    valid %r %r %r" % triple)


def compare(program, cases, reached):
    for case, said in zip(cases, run(program, cases)):
        wanted = model(case)
        for line in wanted:
            reached[kind_of(line)] += 1
        if said == wanted or failed >= SHOWN:
            tell("the review of " + case[0], wanted, said)
        else:
            less = smaller(program, case)
            show(less)
            tell("the review of " + case[0], model(less), run(program, [less])[0])


def kind_of(line):
    word, *fields = line.split(" ")
    return {"session": "session " + fields[-1], "gap": "gap " + fields[-1], "spoilt": "spoilt " + fields[-1], "trust": "question trust",
            "yes": "question yes"}.get(word, word)


def main():
    cases = examples()
    if sys.argv[1:2] == ["compare"]:
        program, reached = sys.argv[2], collections.Counter()
        compare(program, cases, collections.Counter())
        for first in range(0, LOGS, AT_ONCE):
            compare(program, [("seed %d" % seed, *make(seed)) for seed in range(first, first + AT_ONCE)], reached)
        for kind in REACHED:
            print("reviews: %6d %s" % (reached[kind], kind))
            tell("some log has " + kind, [True], [reached[kind] > 0])
    print("reviews: %d passed, %d failed" % (passed, failed))
    return failed > 0 or passed == 0


if __name__ == "__main__":
    sys.exit(main())
