#!/usr/bin/env python3
"""What `ssign review --tally` reports on a log, by the definition in docs/dev/FORMATS.md.

    tally.py PROGRAM

The lines of a tally are counted again from those of the report without it, which the program writes too; the reports have
tests of their own. The logs are those of whole.py, by hand and by a seed, as frames and as lines, whole and torn. Each is
read as text and as JSON, with `--whole` and without, and the status is always the same. The last line is
`tally: N passed, M failed`.
"""
import collections
import itertools
import random
import sys
import tempfile

from counted_logs import make
from report_objects import fault_of
from review_examples import ALL, C, M1, M2, NO_TRUST, S, S7, S8
from review_model import Log
from review_runs import answers_text, answers_to, frame, line
from whole import EXAMPLES, Program, one

SEEDS = 2_000
# how many differences are shown
SHOWN = 5
SINGLES = ("unlisted", "refused", "spoilt")
FORMS = [[], ["--json"], ["--findings"], ["--findings", "--json"]]

passed = failed = 0


def tell(what, fault=""):
    """One check, passed where there is no fault."""
    global passed, failed
    if not fault:
        passed += 1
        return
    failed += 1
    if failed <= SHOWN:
        print(f"tally: {what}: FAILED\n    {fault}")


# ---- the definition

def tally_of(group, entries):
    """The line of a group with these lines, of which each is a list of words."""
    announced = [int(it[7]) for it in entries if it[0] != "hole"]
    holes = sum(len(range(int(it[7]), int(it[8]) + 1)) for it in entries if it[0] == "hole")
    whys = [it[8] for it in entries if it[0] == "gap"]
    counts = [len(announced) - len(whys), whys.count("lost"), whys.count("disputed"), holes, min(announced), max(announced)]
    return " ".join(["tally", *group, *map(str, counts)])


def tally_text(report):
    """The lines of a tally, from those of a report."""
    words = [it.split(" ") for it in report]
    text = []
    for group, entries in itertools.groupby(words, lambda it: it[1:7] if it[0] in ("ok", "gap", "hole") else None):
        entries = list(entries)
        if group is not None:
            text.append(tally_of(group, entries))
        else:
            text += [" ".join(it) for it in entries if it[0] in ("session", "blocks")]
    text += [f"{word}-count {sum(it[0] == word for it in words)}" for word in SINGLES]
    return text + [" ".join(it) for it in words if it[0] in ("torn", "end")]


# ---- the program

def check(program, what, octets, options, forms):
    """The checks of one log, and its tally."""
    status, report, complaint = program.run(["review", *options], octets)
    if status not in (0, 1) or complaint:
        tell(f"{what}: a plain report", f"status {status}: {complaint[:300]!r}")
        return []
    wanted = tally_text(report.decode().splitlines())
    text = "".join(f"{it}\n" for it in wanted).encode()
    for words in forms:
        said = program.run(["review", "--tally", *words, *options], octets)
        if said[0] != status or said[2]:
            fault = f"status {said[0]}, and not {status}: {said[2][:300]!r}"
        elif "--json" in words:
            fault = fault_of(text, said[1])
        else:
            fault = "" if said[1] == text else f"{said[1][:1000]!r}\n    and not {text[:1000]!r}"
        tell(f"{what}: {' '.join(['--tally', *words])}", fault)
    for it in wanted:
        if it.startswith("tally "):
            counts = list(map(int, it.split(" ")[7:]))
            tell(f"{what}: the counts of a group", "" if sum(counts[:4]) == counts[5] >= counts[4] > 0 else it)
    return wanted


J = "session h s - 1 joined"
# name, messages, answers, the lines of the tally, its status
BY_HAND = [
    ("an empty log", [], ALL, ["unlisted-count 0", "refused-count 0", "spoilt-count 0", "end 0"], 0),
    ("two listed messages", [M1, M2, C, S], ALL,
     [J, "tally h s - 1 0 0 2 0 0 0 1 2", "unlisted-count 0", "refused-count 0", "spoilt-count 0", "end 4"], 0),
    ("one is lost", [M2, C, S], ALL,
     [J, "tally h s - 1 0 0 1 1 0 0 1 2", "unlisted-count 0", "refused-count 0", "spoilt-count 0", "end 3"], 1),
    ("two hashes for one number", [M1, M2, C, S7, S8], ALL,
     [J, "tally h s - 1 0 0 0 0 1 0 1 1", "unlisted-count 2", "refused-count 0", "spoilt-count 0", "end 5"], 1),
    ("a hole of nearly all numbers", [M1, C, one(0, 9999999999)], ALL,
     [J, "tally h s - 1 0 0 1 0 0 9999999998 9999999999 9999999999", "unlisted-count 0", "refused-count 0", "spoilt-count 0",
      "end 3"], 1),
    ("two holes and two groups", [M1, C, one(0, 2), one(1, 7), one(2, 3, sg=1)], ALL,
     [J, "tally h s - 1 0 0 1 1 0 5 2 7", "tally h s - 1 1 0 0 1 0 2 3 3", "unlisted-count 0", "refused-count 0",
      "spoilt-count 0", "end 5"], 1),
    ("no trust, and a spoilt block", [M1, C, S7, one(1, count=b"2")], NO_TRUST,
     ["session h s - 1 untrusted", "unlisted-count 1", "refused-count 2", "spoilt-count 1", "end 4"], 1),
]


def by_hand(program):
    for name, messages, answers, wanted, status in BY_HAND:
        options = program.put_answers(answers_text(*answers_to(Log(messages), answers)))
        said = program.run(["review", "--tally", *options], b"".join(map(frame, messages)))
        text = "".join(f"{it}\n" for it in wanted).encode()
        tell(f"by hand: {name}", "" if said == (status, text, b"") else f"{said}\n    and not {status} {text!r}")
    objects = rb"""{"line":"session","host":"h","app":"s","procid":"-","rsid":1,"state":"joined"}
{"line":"tally","host":"h","app":"s","procid":"-","rsid":1,"sg":0,"spri":0,"ok":1,"lost":1,"disputed":0,"holes":5,"first":2,"last":7}
{"line":"tally","host":"h","app":"s","procid":"-","rsid":1,"sg":1,"spri":0,"ok":0,"lost":1,"disputed":0,"holes":2,"first":3,"last":3}
{"line":"unlisted-count","count":0}
{"line":"refused-count","count":0}
{"line":"spoilt-count","count":0}
{"line":"end","count":5}
"""
    _, messages, answers, _, status = BY_HAND[5]
    options = program.put_answers(answers_text(*answers_to(Log(messages), answers)))
    for words in itertools.permutations(["--tally", "--json"]):
        said = program.run(["review", *words, *options], b"".join(map(frame, messages)))
        tell(f"objects by hand: {' '.join(words)}", "" if said == (status, objects, b"") else f"{said}")
    for name, messages, answers, _, _ in EXAMPLES:
        options = program.put_answers(answers_text(*answers_to(Log(messages), answers)))
        for unit, form in ((frame, []), (line, ["--lines"])):
            for more in ([], ["--whole"]):
                check(program, name, b"".join(map(unit, messages)), [*options, *form, *more], FORMS)
        check(program, f"{name}, torn", b"".join(map(frame, messages)) + b"9 <", options, FORMS)


def mistakes(program):
    log = frame(M1)
    for words in FORMS:
        said = program.run(["review", "--tally", *words], b"x" + log)
        tell(f"a refusal: --tally {' '.join(words)}", "" if said == (2, b"", b"ssign: F1 0\n") else f"{said}")
    wrong = [["review", word] for word in ("--tally=x", "--tally=", "--tall", "--tallys", "-t")]
    wrong += [["review", "--tally", "--tally"]]
    wrong += program.others("review", "--tally")
    for words in wrong:
        status, out, err = program.run(words, log)
        tell(" ".join(words), "" if status == 2 and err and not out else f"status {status} {out!r} {err!r}")


# ---- logs by a seed

KINDS = ["a first number behind 1", "ok", "lost", "disputed", "holes", "two groups", "a great hole", *SINGLES, "torn", "blocks"]


def kinds_of(text):
    """What is in a tally."""
    words = [it.split(" ") for it in text]
    groups = [list(map(int, it[7:])) for it in words if it[0] == "tally"]
    for counts in groups:
        yield from (kind for kind, count in zip(("ok", "lost", "disputed", "holes"), counts) if count)
        if counts[3] > 10 ** 9:
            yield "a great hole"
        if counts[4] > 1:
            yield "a first number behind 1"
    if len(groups) > 1:
        yield "two groups"
    for it in words:
        if it[0] in ("torn", "blocks"):
            yield it[0]
        if it[0].endswith("-count") and it[1] != "0":
            yield it[0].removesuffix("-count")


def by_seed(program):
    reached = collections.Counter()
    for seed in range(SEEDS):
        messages, trusted, valid = make(seed)
        chance = random.Random(-seed)
        of_lines = seed % 2 == 1
        # a frame has an octet, and a line has no LF in it
        octets = b"".join((line if of_lines else frame)(it) for it in messages if it and not (of_lines and b"\n" in it))
        if seed % 5 == 0:
            octets = octets[:chance.randint(0, len(octets))]
        options = [*program.put_answers(answers_text(trusted, valid)), *(["--lines"] if of_lines else [])]
        options += ["--whole"] if seed % 3 == 0 else []
        wanted = check(program, f"seed {seed}", octets, options, [[], FORMS[1 + seed % 3]])
        reached.update(set(kinds_of(wanted)))
    for kind in KINDS:
        print(f"tally: {reached[kind]:6} {kind}")
        tell(f"some log has {kind}", "" if reached[kind] else "none has")


def main():
    with tempfile.TemporaryDirectory() as folder:
        program = Program(sys.argv[1], folder)
        by_hand(program)
        mistakes(program)
        by_seed(program)
    print(f"tally: {passed} passed, {failed} failed")
    return failed > 0 or passed == 0


if __name__ == "__main__":
    sys.exit(main())
