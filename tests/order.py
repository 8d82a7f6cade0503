#!/usr/bin/env python3
"""What `ssign review --in-order` and `--not-empty` add to a report, by the definition in docs/dev/FORMATS.md.

    order.py PROGRAM

The lines are made again from the `ok` lines of the report without the options, which the program writes too and which has
tests of its own. The logs are some by hand and those of counted_logs.py by a seed, as frames and as lines, and in each form,
as a tally too. The last line is `order: N passed, M failed`.
"""
import collections
import itertools
import random
import sys
import tempfile

from counted_logs import make
from report_objects import fault_of
from review_examples import ALL, C, TOLD, h, signature
from review_model import Log
from review_runs import answers_text, answers_to, frame, line
from whole import EXAMPLES, Program

SEEDS = 1_500
# how many differences are shown
SHOWN = 5
ENTRIES = ("ok", "gap", "hole", "tally")
FORMS = [[], ["--json"], ["--findings"], ["--findings", "--json"], ["--tally"], ["--tally", "--json"]]

passed = failed = 0


def tell(what, fault=""):
    """One check, passed where there is no fault."""
    global passed, failed
    if not fault:
        passed += 1
        return
    failed += 1
    if failed <= SHOWN:
        print(f"order: {what}: FAILED\n    {fault}")


# ---- the definition

def disorder_of(entries):
    """The line of the group with these lines of its entries, or nothing."""
    listed = [it for it in entries if it[0] == "ok"]
    moved = [after for before, after in itertools.pairwise(listed) if int(after[8]) < int(before[8])]
    return [" ".join(["disorder", *moved[0][1:7], str(len(moved)), *moved[0][7:9]])] if moved else []


def disorders_of(report):
    """The line of each group that has one, from the lines of its report."""
    found = {}
    for group, entries in itertools.groupby(map(str.split, report), lambda it: tuple(it[1:7]) if it[0] in ENTRIES else None):
        if group is not None:
            found[group] = disorder_of(list(entries))
    return found


def with_findings(lines, disorders, options):
    """These lines of a form of the report, with those that the options add."""
    text = []
    for group, entries in itertools.groupby(lines, lambda it: tuple(it.split()[1:7]) if it.split()[0] in ENTRIES else None):
        text += entries
        if group is not None and "--in-order" in options:
            text += disorders[group]
    if "--not-empty" in options and text[-1] == "end 0":
        text.insert(-1, "empty")
    return text


# ---- the program

def without_ok(report):
    return [it for it in report if not it.startswith("ok ")]


def check(program, what, octets, options, forms):
    """The checks of one log. Gives whether it has a line of each kind."""
    status, out, complaint = program.run(["review", *options], octets)
    if status not in (0, 1) or complaint:
        tell(f"{what}: a plain report", f"status {status}: {complaint[:300]!r}")
        return set()
    report = out.decode().splitlines()
    disorders = disorders_of(report)
    told = {"disorder" for it in disorders.values() if it} | {"empty" for it in report if it == "end 0"}
    for words, more in itertools.product(forms, (["--in-order"], ["--not-empty"], ["--in-order", "--not-empty"])):
        lines = program.run(["review", "--tally", *options], octets)[1].decode().splitlines() if "--tally" in words else report
        wanted = with_findings(lines, disorders, more)
        wanted = without_ok(wanted) if "--findings" in words else wanted
        text = "".join(f"{it}\n" for it in wanted).encode()
        found = any(it.split(" ")[0] in ("disorder", "empty") for it in wanted)
        said = program.run(["review", *more, *words, *options], octets)
        if said[0] != (1 if found else status) or said[2]:
            fault = f"status {said[0]}, and not {1 if found else status}: {said[2][:300]!r}"
        elif "--json" in words:
            fault = fault_of(text, said[1])
        else:
            fault = "" if said[1] == text else f"{said[1][:1000]!r}\n    and not {text[:1000]!r}"
        tell(f"{what}: {' '.join([*more, *words])}", fault)
    return told


ONE, TWO, THREE, FOUR, FIVE = TOLD
ALL_FIVE = signature(*map(h, TOLD))
OTHER = signature(h(TWO), h(FOUR), sg=1, gbc=1)
J = "session h s - 1 joined"
# name, messages, the lines that --in-order adds, status
BY_HAND = [
    ("in order", [ONE, TWO, THREE, FOUR, FIVE, C, ALL_FIVE], [], 0),
    ("blocks first", [C, ALL_FIVE, ONE, TWO, THREE, FOUR, FIVE], [], 0),
    ("two are swapped", [ONE, THREE, TWO, FOUR, FIVE, C, ALL_FIVE], ["disorder h s - 1 0 0 1 3 1"], 1),
    ("two pairs are swapped", [TWO, ONE, THREE, FIVE, FOUR, C, ALL_FIVE], ["disorder h s - 1 0 0 2 2 0"], 1),
    ("all are reversed", [C, FIVE, FOUR, THREE, TWO, ONE, ALL_FIVE], ["disorder h s - 1 0 0 4 2 4"], 1),
    ("the last one comes first", [FIVE, ONE, TWO, THREE, FOUR, C, ALL_FIVE], ["disorder h s - 1 0 0 1 5 0"], 1),
    ("one of the swapped is lost", [THREE, TWO, FIVE, C, ALL_FIVE], ["disorder h s - 1 0 0 1 3 0"], 1),
    ("two groups, each in order", [C, TWO, ONE, FOUR, THREE, signature(h(ONE), h(THREE)), OTHER], [], 0),
]


def by_hand(program):
    for name, messages, wanted, status in BY_HAND:
        options = program.put_answers(answers_text(*answers_to(Log(messages), ALL)))
        octets = b"".join(map(frame, messages))
        said, out, complaint = program.run(["review", "--in-order", *options], octets)
        lines = [it for it in out.decode().splitlines() if it.startswith("disorder")]
        tell(f"by hand: {name}", "" if (lines, said, complaint) == (wanted, status, b"") else f"{said} {out!r} {complaint!r}")
        check(program, name, octets, options, FORMS)
    objects = b'{"line":"disorder","host":"h","app":"s","procid":"-","rsid":1,"sg":0,"spri":0,"count":1,"number":3,"place":1}\n'
    options = program.put_answers(answers_text(*answers_to(Log(BY_HAND[2][1]), ALL)))
    said = program.run(["review", "--in-order", "--json", *options], b"".join(map(frame, BY_HAND[2][1])))
    tell("an object by hand", "" if objects in said[1] and said[0] == 1 else f"{said}")
    for words, wanted in (([], b"empty\nend 0\n"), (["--json"], b'{"line":"empty"}\n{"line":"end","count":0}\n'),
                          (["--findings"], b"empty\nend 0\n"),
                          (["--tally"], b"unlisted-count 0\nrefused-count 0\nspoilt-count 0\nempty\nend 0\n")):
        said = program.run(["review", "--not-empty", *words])
        tell(f"an empty log: {' '.join(words)}", "" if said == (1, wanted, b"") else f"{said}")
    said = program.run(["review", "--not-empty"], b"9 <")
    tell("a torn log without a message", "" if said == (1, b"torn 0\nempty\nend 0\n", b"") else f"{said}")
    for name, messages, answers, _, _ in EXAMPLES:
        options = program.put_answers(answers_text(*answers_to(Log(messages), answers)))
        check(program, name, b"".join(map(frame, messages)), options, FORMS)


def mistakes(program):
    log = frame(ONE)
    for option in ("--in-order", "--not-empty"):
        said = program.run(["review", option], b"x" + log)
        tell(f"a refusal: {option}", "" if said == (2, b"", b"ssign: F1 0\n") else f"{said}")
        wrong = [["review", word] for word in (f"{option}=x", f"{option}=", option[:-1], f"{option}s")]
        for words in [*wrong, ["review", option, option], *program.others("review", option)]:
            status, out, err = program.run(words, log)
            tell(" ".join(words), "" if status == 2 and err and not out else f"status {status} {out!r} {err!r}")


def by_seed(program):
    reached = collections.Counter()
    for seed in range(SEEDS):
        messages, trusted, valid = make(seed)
        if seed % 2 == 0:
            random.Random(seed).shuffle(messages)
        of_lines = seed % 3 == 1
        # a frame has an octet, and a line has no LF in it
        octets = b"".join((line if of_lines else frame)(it) for it in messages if it and not (of_lines and b"\n" in it))
        options = [*program.put_answers(answers_text(trusted, valid)), *(["--lines"] if of_lines else [])]
        options += ["--whole"] if seed % 5 == 0 else []
        reached.update(check(program, f"seed {seed}", octets, options, [FORMS[seed % len(FORMS)]]))
    print(f"order: {reached['disorder']} logs are out of order")
    tell("some logs are out of order", "" if reached["disorder"] > 99 else f"{reached['disorder']} are")


def main():
    with tempfile.TemporaryDirectory() as folder:
        program = Program(sys.argv[1], folder)
        by_hand(program)
        mistakes(program)
        by_seed(program)
    print(f"order: {passed} passed, {failed} failed")
    return failed > 0 or passed == 0


if __name__ == "__main__":
    sys.exit(main())
