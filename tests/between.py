#!/usr/bin/env python3
"""What `ssign review --from FILE` reports about one night of a session that goes on, by the definition in docs/dev/FORMATS.md.

    between.py model             the model alone, over the logs that were worked out by hand and over 12,000 nights by a seed
    between.py compare PROGRAM   and the program, over these

A night begins at the first counters, which `--from` names, and ends before the second ones, which `--counters` names. Of
the lines of holes, tails and missing blocks what lies below the first counters is left out. After the entries of a session
stand its announced numbers below the first counter of their group as `early`, and then those at the second one or above it
as `beyond`. A session without a block in the log is absent, unless a first counter is of it and nothing is missing from
there on. The plain report is that of review_model.py, and what is missing up to the second counters that of kept.py.

The nights by a seed are cut out of chains, whose counters are known at each cut. Some messages and blocks are dropped,
copied, moved, swapped or changed, come from another night, or use a number twice. Each report is looked at number by number
too. The last line is `between: N passed, M failed`.
"""
import base64
import collections
import os
import random
import sys
import tempfile

from kept import Kept, kept_text, one
from review_examples import ALL, B, C, C2, D1, F1, F2, K0, K1, K2, M1, M2, NO_TRUST, S, S7, S8, TA, TB, TC, TD, TE
from review_logs import GROUPS, HOSTS, LAST, PAYLOADS, Maker
from review_model import Log, review, state
from review_runs import answers_text, answers_to, ended, frame, is_clean, joined, line, report_text
from tally import SINGLES, tally_of
from whole import FORMS, Program, fault_of_form, names_of

SEEDS = 12_000
# how many differences are shown
SHOWN = 5
ENTRIES = ("ok", "gap", "hole")
OUTSIDE = ("early", "beyond")
# what is a finding beside a report
BESIDE = (*OUTSIDE, "tail", "blocks")
# the forms of a report, of which each has tallies in another run
TALLIES = [["--tally", *it] for it in FORMS]

passed = failed = 0


def tell(what, fault=""):
    """One check, passed where there is no fault."""
    global passed, failed
    if not fault:
        passed += 1
        return
    failed += 1
    if failed <= SHOWN:
        print(f"between: {what}: FAILED\n    {fault}")


# ---- the definition

class Bounds(Kept):
    """The counters at which a night begins or ends."""

    def number(self, session, group):
        """The number of the group's next message, 1 where no counter says it."""
        return max(1, self.numbers.get((session, group), 0))

    def gbc(self, session):
        """The GBC of the session's next signature block, 0 where no counter says it."""
        return self.blocks.get(session, 0)


def session_of(fields):
    """The session of a line, by its first four fields."""
    return (*(it.encode() for it in fields[:3]), int(fields[3]))


def left_of(it, begin):
    """What is left of a line where the night begins at these counters, in a list that has it or is empty."""
    word, *fields = it.split(" ")
    if word not in ("hole", "tail", "blocks"):
        return [it]
    session = session_of(fields)
    low = begin.gbc(session) if word == "blocks" else begin.number(session, (int(fields[4]), int(fields[5])))
    first, last = map(int, fields[-2:])
    return [] if last < low else [" ".join([word, *fields[:-2], str(max(first, low)), str(last)])]


def runs_of(numbers):
    """The greatest runs of numbers."""
    runs = []
    for number in sorted(numbers):
        if runs and runs[-1][1] == number - 1:
            runs[-1][1] = number
        else:
            runs.append([number, number])
    return runs


def announced_by(log, session, trusted, valid):
    """The numbers that a session announces, by group, and the GBC of its verified signature blocks."""
    numbers, gbcs = collections.defaultdict(set), set()
    for block in state(log, session, trusted, valid)[1]:
        if not block.is_certificate:
            numbers[block.group].update(number for number, _, _ in block.rows)
            gbcs.add(block.gbc)
    return numbers, gbcs


def outside(word, session, numbers, is_outside):
    """The lines of the announced numbers of a session that lie outside of the night."""
    return [f"{word} {names_of(session)} {sg} {spri} {first} {last}" for sg, spri in sorted(numbers)
            for first, last in runs_of(it for it in numbers[sg, spri] if is_outside((sg, spri), it))]


def between_text(log, trusted, valid, first, second=None, torn=None):
    """The lines of the report between counters. There are no second ones where they are None."""
    begin, end = Bounds(first), Bounds(second or [])
    sessions = iter(log.sessions)
    text, absent, waiting = [], [], []

    def is_idle(heading):
        return session_of(heading.split(" ")[1:]) in begin.sessions

    for it in kept_text(log, trusted, valid, second or [], torn):
        word = it.split(" ")[0]
        if word not in ENTRIES:
            text, waiting = text + waiting, []
        if absent and word not in ("tail", "blocks"):
            # of a session that began before the night nothing is missing, so it sent nothing in the night
            text, absent = text + ([] if len(absent) == 1 and is_idle(absent[0]) else absent), []
        if word == "session" and it.endswith(" absent"):
            absent = [it]
        elif absent:
            absent += left_of(it, begin)
        else:
            text += left_of(it, begin)
        if word == "session" and not absent:
            session = next(sessions)
            numbers, _ = announced_by(log, session, trusted, valid)
            waiting = outside("early", session, numbers, lambda group, it, of=session: it < begin.number(of, group))
            if second is not None:
                waiting += outside("beyond", session, numbers, lambda group, it, of=session: it >= end.number(of, group))
    return text


def plain_of(text):
    """The lines of the plain report alone, without its holes."""
    text = [it for it in text if it.split(" ")[0] not in (*BESIDE, "hole")]
    return [it for it in text if not (it.startswith("session ") and it.endswith(" absent"))]


def status_of(text):
    """The status of a report."""
    beside = any(it.split(" ")[0] in BESIDE or it.startswith("session ") and it.endswith(" absent") for it in text)
    return int(not is_clean(text) or beside)


def tally_text(text):
    """The lines of a tally, from those of a report: each group has one in place of its entries."""
    words = [it.split(" ") for it in text]
    lines, group, entries = [], None, []
    for it in [*words, ["end"]]:
        if entries and (it[0] not in ENTRIES or it[1:7] != group):
            lines.append(tally_of(group, entries))
            entries = []
        if it[0] in ENTRIES:
            group, entries = it[1:7], [*entries, it]
        elif it[0] in ("session", *BESIDE):
            lines.append(" ".join(it))
    lines += [f"{word}-count {sum(it[0] == word for it in words)}" for word in SINGLES]
    return lines + [" ".join(it) for it in words if it[0] in ("torn", "end")]


# ---- the same, number by number

def fault_by_number(log, trusted, valid, first, second, text):
    """What is wrong with a report, by what it reports about each number that is small or lies near what it has."""
    begin, end = Bounds(first), Bounds(second or [])
    rows = [it.split(" ") for it in text]
    for session in {*log.sessions, *begin.sessions, *end.sessions}:
        numbers, gbcs = announced_by(log, session, trusted, valid) if session in log.sessions else ({}, set())
        names = names_of(session).split(" ")
        own = [it for it in rows if it[1:5] == names]
        groups = {*numbers, *(group for of, group in [*begin.numbers, *end.numbers] if of == session)}
        for group in groups:
            lines = [it for it in own if it[0] != "blocks" and it[5:7] == list(map(str, group))]
            announced, low, high = numbers.get(group, set()), begin.number(session, group), end.number(session, group)
            for number in near({*announced, low, high}, 1):
                said = sorted(it[0] for it in lines if is_about(it, number))
                # up to its last announced number, or to its second counter, each number of the night is accounted for
                in_reach = low <= number < max(high, *(it + 1 for it in announced), 0) if announced else low <= number < high
                wanted = [["ok"], ["gap"]] if number in announced else [["hole"], ["tail"]] if in_reach else [[]]
                beside = ["early"] * (number in announced and number < low)
                beside += ["beyond"] * (second is not None and number in announced and number >= high)
                if said not in [sorted(it + beside) for it in wanted]:
                    return f"{names} {group}: of number {number} it says {said}"
        low, high = begin.gbc(session), end.gbc(session)
        for gbc in near({*gbcs, low, high}, 0):
            said = [it[0] for it in own if it[0] == "blocks" and int(it[5]) <= gbc <= int(it[6])]
            if (said == ["blocks"]) != (gbc not in gbcs and low <= gbc < max([high, *(it + 1 for it in gbcs)])):
                return f"{names}: of GBC {gbc} it says {said}"
    return ""


def near(marks, least):
    """The numbers from the least one near these."""
    return sorted({mark + it for mark in {*marks, least} for it in (-2, -1, 0, 1, 2) if least <= mark + it <= LAST})


def is_about(it, number):
    """Whether a line of a group is about this number."""
    if it[0] in ("ok", "gap"):
        return int(it[7]) == number
    return int(it[7]) <= number <= int(it[8])


# ---- the logs that were worked out by hand

J = "session h s - 1 joined"
TOP = LAST + 1
# an originator's chain in three nights of one message each, in two groups
CHAIN = [F1, F2, TA, TC, K0, TB, TD, K1, TE, K2]
AT_1 = ["count h s - 1 1", "count h s - 1 1 13 3"]
AT_2 = ["count h s - 1 2", "count h s - 1 1 13 3", "count h s - 1 1 14 3"]
AT_3 = ["count h s - 1 3", "count h s - 1 1 13 4", "count h s - 1 1 14 3"]
NIGHT_1, NIGHT_2, NIGHT_3 = [F1, F2, TA, TC, K0], [F1, F2, TB, TD, K1], [F1, F2, TE, K2]
OK_1 = ["ok h s - 1 1 13 1 2", "ok h s - 1 1 13 2 3"]
OK_2 = ["ok h s - 1 1 14 1 2", "ok h s - 1 1 14 2 3"]
OK_3 = ["ok h s - 1 1 13 3 2"]

# name, messages, answers, first counters, second counters or None, lines of the report, its status
EXAMPLES = [
    ("an empty log", [], ALL, [], None, ["end 0"], 0),
    ("an empty log between no counters", [], ALL, [], [], ["end 0"], 0),
    ("a night that a session didn't send in", [], ALL, AT_1, AT_1, ["end 0"], 0),
    ("the first night", NIGHT_1, ALL, [], AT_1, [J, *OK_1, "end 5"], 0),
    ("the second night, in which a group begins", NIGHT_2, ALL, AT_1, AT_2, [J, *OK_2, "end 5"], 0),
    ("the third night, in which a group sends nothing", NIGHT_3, ALL, AT_2, AT_3, [J, *OK_3, "end 4"], 0),
    ("the second night and the third", [*NIGHT_2, TE, K2], ALL, AT_1, AT_3,
     [J, "ok h s - 1 1 13 3 5", *OK_2, "end 7"], 0),
    ("the third night without its end's counters", NIGHT_3, ALL, AT_2, None, [J, *OK_3, "end 4"], 0),
    ("the third night without counters of its beginning", NIGHT_3, ALL, [], AT_3,
     [J, "hole h s - 1 1 13 1 2", *OK_3, "tail h s - 1 1 14 1 2", "blocks h s - 1 0 1", "end 4"], 1),
    ("no counter at all, where each number is announced after the end", NIGHT_3, ALL, [], [],
     [J, "hole h s - 1 1 13 1 2", *OK_3, "beyond h s - 1 1 13 3 3", "blocks h s - 1 0 1", "end 4"], 1),
    ("the night is gone but for its certificate blocks", [F1, F2], ALL, AT_1, AT_2,
     [J, "tail h s - 1 1 14 1 2", "blocks h s - 1 1 1", "end 2"], 1),
    ("the night is gone", [], ALL, AT_1, AT_2, ["session h s - 1 absent", "tail h s - 1 1 14 1 2", "blocks h s - 1 1 1", "end 0"], 1),
    ("a certificate block alone is gone, of a session that isn't in the first counters", [], ALL, [], ["count h s - 1 0"],
     ["session h s - 1 absent", "end 0"], 1),
    ("and of one that is", [], ALL, ["count h s - 1 0"], ["count h s - 1 0"], ["end 0"], 0),
    ("a first counter of a group alone is one of its session", [], ALL, ["count h s - 1 1 13 3"], ["count h s - 1 1 13 3"], ["end 0"], 0),
    ("a session that the first counters alone name", [], ALL, AT_1, [], ["end 0"], 0),
    ("a session that the second counters alone name", [], ALL, [], AT_1,
     ["session h s - 1 absent", "tail h s - 1 1 13 1 2", "blocks h s - 1 0 0", "end 0"], 1),
    ("another night's block is put into the night", [*NIGHT_3, TB, TD, K1], ALL, AT_2, AT_3,
     [J, *OK_3, "ok h s - 1 1 14 1 4", "ok h s - 1 1 14 2 5", "early h s - 1 1 14 1 2", "end 7"], 1),
    ("a block of the night before, without its messages", [F1, F2, K0, TE, K2], ALL, AT_2, AT_3,
     [J, "gap h s - 1 1 13 1 lost", "gap h s - 1 1 13 2 lost", "ok h s - 1 1 13 3 3", "early h s - 1 1 13 1 2", "end 5"], 1),
    ("a block of the next night", [*NIGHT_2, K2, TE], ALL, AT_1, AT_2,
     [J, "ok h s - 1 1 13 3 6", *OK_2, "beyond h s - 1 1 13 3 3", "end 7"], 1),
    ("and without second counters", [*NIGHT_2, K2, TE], ALL, AT_1, None, [J, "ok h s - 1 1 13 3 6", *OK_2, "end 7"], 0),
    ("a group that the second counters don't name", NIGHT_2, ALL, AT_1, AT_1,
     [J, *OK_2, "beyond h s - 1 1 14 1 2", "end 5"], 1),
    ("a group that the first counters don't name", [F1, F2, TD, D1], ALL, AT_1, AT_2,
     [J, "hole h s - 1 1 14 1 1", "ok h s - 1 1 14 2 2", "end 4"], 1),
    ("a hole that the first counter cuts", [M1, C, one(4, 5)], ALL, ["count h s - 1 2", "count h s - 1 0 0 3"], None,
     [J, "hole h s - 1 0 0 3 4", "ok h s - 1 0 0 5 0", "blocks h s - 1 2 3", "end 3"], 1),
    ("a hole that ends below the first counter", [M1, C, one(4, 5)], ALL, ["count h s - 1 4", "count h s - 1 0 0 5"], None,
     [J, "ok h s - 1 0 0 5 0", "end 3"], 0),
    ("a hole whose last number is the first counter", [M1, C, one(4, 5)], ALL, ["count h s - 1 3", "count h s - 1 0 0 4"], None,
     [J, "hole h s - 1 0 0 4 4", "ok h s - 1 0 0 5 0", "blocks h s - 1 3 3", "end 3"], 1),
    ("first counters of 1 and of 0 change nothing", [M1, C, one(4, 5)], ALL, ["count h s - 1 0", "count h s - 1 0 0 1"], None,
     [J, "hole h s - 1 0 0 1 4", "ok h s - 1 0 0 5 0", "blocks h s - 1 0 3", "end 3"], 1),
    ("a number just below the first counter", [M1, C, one(4, 5)], ALL, ["count h s - 1 4", "count h s - 1 0 0 6"], None,
     [J, "ok h s - 1 0 0 5 0", "early h s - 1 0 0 5 5", "end 3"], 1),
    ("a tail that the first counter cuts, and one below it", [C], ALL, ["count h s - 1 0 0 3", "count h s - 1 1 13 9"],
     ["count h s - 1 0 0 6", "count h s - 1 1 13 9"], [J, "tail h s - 1 0 0 3 5", "end 1"], 1),
    ("a tail whose last number is the first counter", [C], ALL, ["count h s - 1 0 0 5"], ["count h s - 1 0 0 6"],
     [J, "tail h s - 1 0 0 5 5", "end 1"], 1),
    ("blocks that the first counter cuts", [C], ALL, ["count h s - 1 4"], ["count h s - 1 6"], [J, "blocks h s - 1 4 5", "end 1"], 1),
    ("equal counters, and nothing in the log but the certificate", [C], ALL, AT_1, AT_1, [J, "end 1"], 0),
    ("the greatest second counter", [C], ALL, [], ["count h s - 1 1 14 10000000000"],
     [J, "tail h s - 1 1 14 1 9999999999", "end 1"], 1),
    ("the greatest first counter, and a second one as great", [C], ALL, ["count h s - 1 1 14 10000000000"],
     ["count h s - 1 1 14 10000000000"], [J, "end 1"], 0),
    ("the greatest number alone is in the night", [C], ALL, ["count h s - 1 1 14 9999999999"],
     ["count h s - 1 1 14 10000000000"], [J, "tail h s - 1 1 14 9999999999 9999999999", "end 1"], 1),
    ("the greatest counters of blocks", [C], ALL, ["count h s - 1 9999999999"], ["count h s - 1 10000000000"],
     [J, "blocks h s - 1 9999999999 9999999999", "end 1"], 1),
    ("equal counters, and a number that stands at them", [M1, C, one(1, 3)], ALL,
     ["count h s - 1 1", "count h s - 1 0 0 3"], ["count h s - 1 1", "count h s - 1 0 0 3"],
     [J, "ok h s - 1 0 0 3 0", "beyond h s - 1 0 0 3 3", "end 3"], 1),
    ("equal counters, and a number below them", [M1, C, one(0, 2)], ALL, ["count h s - 1 1", "count h s - 1 0 0 3"],
     ["count h s - 1 1", "count h s - 1 0 0 3"], [J, "ok h s - 1 0 0 2 0", "early h s - 1 0 0 2 2", "end 3"], 1),
    ("second counters below the first ones: a number may be both", [M1, C, one(1, 3)], ALL,
     ["count h s - 1 1", "count h s - 1 0 0 5"], ["count h s - 1 0", "count h s - 1 0 0 2"],
     [J, "ok h s - 1 0 0 3 0", "early h s - 1 0 0 3 3", "beyond h s - 1 0 0 3 3", "end 3"], 1),
    ("several early runs, of listed, lost and disputed numbers", [M1, M2, C, one(0, 1), one(1, 2, B), one(2, 3), one(3, 3, B), one(4, 5)],
     ALL, ["count h s - 1 5", "count h s - 1 0 0 7"], None,
     [J, "ok h s - 1 0 0 1 0", "ok h s - 1 0 0 2 1", "gap h s - 1 0 0 3 disputed", "gap h s - 1 0 0 5 lost", "early h s - 1 0 0 1 3",
      "early h s - 1 0 0 5 5", "end 8"], 1),
    ("several runs beyond", [M1, M2, C, one(0, 1), one(1, 2, B), one(2, 4)], ALL, [], ["count h s - 1 3", "count h s - 1 0 0 2"],
     [J, "ok h s - 1 0 0 1 0", "ok h s - 1 0 0 2 1", "hole h s - 1 0 0 3 3", "gap h s - 1 0 0 4 lost", "beyond h s - 1 0 0 2 2",
      "beyond h s - 1 0 0 4 4", "end 6"], 1),
    ("runs that meet at the counters", [M1, C, one(0, 1), one(1, 2), one(2, 3), one(3, 4)], ALL,
     ["count h s - 1 2", "count h s - 1 0 0 3"], ["count h s - 1 3", "count h s - 1 0 0 4"],
     [J, "ok h s - 1 0 0 1 0", *(f"gap h s - 1 0 0 {it} lost" for it in (2, 3, 4)), "early h s - 1 0 0 1 2", "beyond h s - 1 0 0 4 4",
      "end 6"], 1),
    ("the greatest counters", [M1, C, one(LAST, LAST)], ALL, [f"count h s - 1 {LAST}", f"count h s - 1 0 0 {LAST}"],
     [f"count h s - 1 {TOP}", f"count h s - 1 0 0 {TOP}"], [J, f"ok h s - 1 0 0 {LAST} 0", "end 3"], 0),
    ("all numbers lie below the greatest first counter", [M1, C, one(LAST, LAST)], ALL, [f"count h s - 1 {TOP}", f"count h s - 1 0 0 {TOP}"],
     [f"count h s - 1 {TOP}", f"count h s - 1 0 0 {TOP}"],
     [J, f"ok h s - 1 0 0 {LAST} 0", f"early h s - 1 0 0 {LAST} {LAST}", "end 3"], 1),
    ("all numbers are missing", [C], ALL, [], [f"count h s - 1 {TOP}", f"count h s - 1 0 0 {TOP}"],
     [J, f"tail h s - 1 0 0 1 {LAST}", f"blocks h s - 1 0 {LAST}", "end 1"], 1),
    ("the last number is missing", [C], ALL, [f"count h s - 1 {LAST}", f"count h s - 1 0 0 {LAST}"],
     [f"count h s - 1 {TOP}", f"count h s - 1 0 0 {TOP}"], [J, f"tail h s - 1 0 0 {LAST} {LAST}", f"blocks h s - 1 {LAST} {LAST}", "end 1"], 1),
    ("first counters beyond all that is there", [M1, C, one(0)], ALL, [f"count h s - 1 {TOP}", f"count h s - 1 0 0 {TOP}"], None,
     [J, "ok h s - 1 0 0 1 0", "early h s - 1 0 0 1 1", "end 3"], 1),
    ("the last number is beyond", [M1, C, one(0, LAST)], ALL, [f"count h s - 1 0 0 {LAST}"], [f"count h s - 1 0 0 {LAST}"],
     [J, f"ok h s - 1 0 0 {LAST} 0", f"beyond h s - 1 0 0 {LAST} {LAST}", "end 3"], 1),
    ("the greatest of several counters", [M1, C, one(4, 5)], ALL,
     ["count h s - 1 0 0 2", "count h s - 1 3", "count h s - 1 0 0 5", "count h s - 1 4", "count h s - 1 0 0 4"], None,
     [J, "ok h s - 1 0 0 5 0", "end 3"], 0),
    ("counters of another session, and of another group", [M1, C, one(4, 5)], ALL,
     ["count h s - 2 4", "count h s - 2 0 0 5", "count h s - 1 0 1 5", "count h s - 1 1 0 5", "count h1 s - 1 0 0 5", "count h s 1 1 0 0 5"], None,
     [J, "hole h s - 1 0 0 1 4", "ok h s - 1 0 0 5 0", "blocks h s - 1 0 3", "end 3"], 1),
    ("a session that isn't trusted", [M1, C, one(3)], NO_TRUST, ["count h s - 1 2", "count h s - 1 0 0 2"],
     ["count h s - 1 4", "count h s - 1 0 0 4"],
     ["session h s - 1 untrusted", "tail h s - 1 0 0 2 3", "blocks h s - 1 2 3", "unlisted 0", "refused 1", "refused 2", "end 3"], 1),
    ("two sessions, each with its counters", [M1, M2, C, C2, one(3, 3), one(8, 8, B, rsid=2)], ALL,
     ["count h s - 1 3", "count h s - 1 0 0 3", "count h s - 2 7", "count h s - 2 0 0 7"],
     ["count h s - 1 4", "count h s - 1 0 0 4", "count h s - 2 9", "count h s - 2 0 0 9"],
     [J, "ok h s - 1 0 0 3 0", "session h s - 2 joined", "hole h s - 2 0 0 7 7", "ok h s - 2 0 0 8 1", "blocks h s - 2 7 7", "end 6"], 1),
    ("absent sessions, of which one sent nothing in the night", [C], ALL, ["count i s - 1 3", "count i s - 2 3", "count i s - 2 1 13 4"],
     ["count i s - 1 3", "count i s - 2 3", "count i s - 2 1 13 6", "count i s - 3 1"],
     [J, "session i s - 2 absent", "tail i s - 2 1 13 4 5", "session i s - 3 absent", "blocks i s - 3 0 0", "end 1"], 1),
    ("two hashes for one number of the night", [M1, M2, C, S7, S8], ALL, [], ["count h s - 1 2", "count h s - 1 0 0 2"],
     [J, "gap h s - 1 0 0 1 disputed", "unlisted 0", "unlisted 1", "end 5"], 1),
    ("a copy of a block of the night", [M1, M2, C, S, S], ALL, [], ["count h s - 1 1", "count h s - 1 0 0 3"],
     [J, "ok h s - 1 0 0 1 0", "ok h s - 1 0 0 2 1", "end 5"], 0),
]
# what the objects of a report are, by hand
OBJECTS = [M1, C, one(1, 3)], ["count h s - 1 0 0 5"], ["count h s - 1 2", "count h s - 1 0 0 2"], rb"""{"line":"session","host":"h","app":"s","procid":"-","rsid":1,"state":"joined"}
{"line":"ok","host":"h","app":"s","procid":"-","rsid":1,"sg":0,"spri":0,"number":3,"place":0}
{"line":"early","host":"h","app":"s","procid":"-","rsid":1,"sg":0,"spri":0,"first":3,"last":3}
{"line":"beyond","host":"h","app":"s","procid":"-","rsid":1,"sg":0,"spri":0,"first":3,"last":3}
{"line":"blocks","host":"h","app":"s","procid":"-","rsid":1,"first":0,"last":0}
{"line":"end","count":3}
"""


def examples():
    """The model of the logs that were worked out by hand."""
    for name, messages, answers, first, second, wanted, status in EXAMPLES:
        log = Log(messages)
        trusted, valid = answers_to(log, answers)
        said = between_text(log, trusted, valid, first, second)
        tell(f"the model of {name}", "" if said == wanted else f"{said}\n    and not {wanted}")
        tell(f"the model of {name}: its status", "" if status_of(said) == status else f"{status_of(said)}")
        tell(f"the model of {name}: by number", fault_by_number(log, trusted, valid, first, second, said))
        plain = report_text(review(log, trusted, valid))
        tell(f"the model of {name}: the plain report", "" if plain_of(said) == plain_of(plain) else f"{plain}")


# ---- the program

class Nightly:
    """The program, and two files of counters."""

    def __init__(self, path, folder):
        self.program, self.folder = Program(path, folder), folder
        self.first, self.second = (os.path.join(folder, it) for it in ("first", "second"))

    def keep(self, first, second):
        """The options of these counters."""
        put(self.first, ended(first))
        if second is None:
            return ["--from", self.first]
        put(self.second, ended(second))
        return ["--from", self.first, "--counters", self.second]

    def review(self, octets, *words):
        return self.program.run(["review", *words], octets)


def put(path, octets):
    with open(path, "wb") as file:
        file.write(octets)


def check(nightly, what, octets, options, kept, wanted, forms):
    """The checks of one log in these forms."""
    for words in forms:
        text = tally_text(wanted) if "--tally" in words else wanted
        said = nightly.review(octets, *kept, *words, *options)
        tell(f"{what}: {' '.join(words)}", fault_of_form(words, said, text, status_of(wanted)))


def by_hand(nightly):
    for name, messages, answers, first, second, wanted, _ in EXAMPLES:
        options = nightly.program.put_answers(answers_text(*answers_to(Log(messages), answers)))
        kept = nightly.keep(first, second)
        for unit, form in ((frame, []), (line, ["--lines"])):
            octets = b"".join(map(unit, messages))
            check(nightly, name, octets, [*options, *form], kept, wanted, [*FORMS, *TALLIES])
            check(nightly, f"{name}, with --whole", octets, [*options, *form, "--whole"], kept, wanted, FORMS[:1])
        octets = b"".join(map(frame, messages))
        torn = [*wanted[:-1], f"torn {len(octets)}", wanted[-1]]
        check(nightly, f"{name}, torn", octets + b"9 <", options, kept, torn, FORMS)
        if second is not None:
            check(nightly, f"{name}, the options in another order", octets, options, [*kept[2:], *kept[:2]], wanted, FORMS[:1])
    messages, first, second, wanted = OBJECTS
    options = nightly.program.put_answers(answers_text(*answers_to(Log(messages), ALL)))
    said = nightly.review(b"".join(map(frame, messages)), "--json", *nightly.keep(first, second), *options)
    tell("objects by hand", "" if said == (1, wanted, b"") else f"{said}")


def refusals(nightly):
    """What is refused, and in which order."""
    messages = [M1, M2, C, S]
    log, options = b"".join(map(frame, messages)), nightly.program.put_answers(answers_text(*answers_to(Log(messages), ALL)))
    fine, bad, none = (os.path.join(nightly.folder, it) for it in ("fine", "bad", "none"))
    put(fine, ended(AT_1))
    put(bad, joined(AT_1) + b"count h s - 1\n")
    for words, wanted in ((["--from", bad], "C1 3"), (["--from", none], "C2"), (["--from", nightly.folder], "C2"),
                          (["--from", bad, "--counters", fine], "C1 3"), (["--from", fine, "--counters", bad], "C1 3"),
                          (["--from", none, "--counters", bad], "C2"), (["--from", bad, "--counters", none], "C1 3"),
                          (["--counters", bad, "--from", none], "C2"), (["--counters", none, "--from", bad], "C1 3"),
                          (["--from", bad, "--answers", none], "C1 3"), (["--from", fine, "--answers", none], "A2")):
        for form in FORMS:
            said = nightly.review(log, *words, *form, *([] if "--answers" in words else options))
            tell(f"a refusal: {wanted}", "" if said == (2, b"", f"ssign: {wanted}\n".encode()) else f"{words}: {said}")
    said = nightly.review(b"x" + log, "--from", fine, *options)
    tell("a log that is refused", "" if said == (2, b"", b"ssign: F1 0\n") else f"{said}")
    put(bad, b"end 0\n")
    said = nightly.review(log, "--from", bad, *options)
    tell("a file without counters", "" if said == nightly.review(log, "--whole", *options) else f"{said}")
    mistakes = [["review", word] for word in ("--from", "--fro=x", "--from=")]
    mistakes += [["review", "--from", fine, "--from", fine]]
    mistakes += nightly.program.others("review", "--from", fine)
    for words in mistakes:
        status, out, err = nightly.program.run(words, log)
        is_mistake = status == 2 and err and not out
        tell(" ".join(words), "" if is_mistake else f"status {status} {out!r} {err!r}")


# ---- nights by a seed

class Chains(Maker):
    """Sessions that go on, with their counters before and after each block: `events` has the messages of a block and the
    block, and `counters` those at each cut, one more than there are blocks."""

    def __init__(self, seed):
        super().__init__(seed)
        chance = self.chance
        self.gbcs, self.numbers = {}, {}
        self.payload = chance.choice(PAYLOADS)
        self.sessions = [(chance.choice(HOSTS), b"s", b"-", rsid) for rsid in range(chance.choice([1, 1, 2]))]
        self.groups = [chance.choice(GROUPS) for _ in range(chance.choice([1, 2, 2]))]
        # most begin at the least numbers, and some end at the greatest ones
        self.begins = chance.choice([1, 1, 1, 1, LAST - chance.randint(0, 9)])
        self.fronts = {it: self.certificate(it, len(self.payload), 1, self.payload) for it in self.sessions}
        self.events, self.counters = [], [self.counters_now()]
        for _ in range(chance.randint(0, 9)):
            self.event()

    def block(self, session, sd_id, parameters):
        parameters = [(name, self.gbcs.get(session, self.begins - 1) if name == "GBC" else value) for name, value in parameters]
        return super().block(session, sd_id, parameters)

    def event(self):
        """One more block of a session, with its messages."""
        chance, session, group = self.chance, self.chance.choice(self.sessions), self.chance.choice(self.groups)
        first = self.numbers.get((session, group), self.begins)
        texts = [b"<13>1 - - - - - - %d" % chance.getrandbits(64) for _ in range(chance.choice([1, 1, 2, 3]))]
        if first + len(texts) > TOP or self.gbcs.get(session, 0) > LAST:
            return
        block = self.signature(session, group, first, texts)
        self.gbcs[session] = self.gbcs.get(session, self.begins - 1) + 1
        self.numbers[session, group] = first + len(texts)
        self.events.append((session, group, texts, block))
        self.counters.append(self.counters_now())

    def counters_now(self):
        """The lines of the counters, of the sessions that have sent a block."""
        lines = [f"count {names_of(it)} {gbc}" for it, gbc in self.gbcs.items()]
        return lines + [f"count {names_of(it)} {sg} {spri} {number}" for (it, (sg, spri)), number in self.numbers.items()]

    def night(self):
        """A night: its blocks, its messages, its counters, and the events outside of it. The first night of a chain that
        begins at great numbers has first counters too, so that no number is missing below them."""
        chance = self.chance
        low = chance.randint(0, len(self.events))
        high = chance.randint(low, len(self.events))
        inside = self.events[low:high]
        first = self.counters[low]
        if self.begins > 1:
            first = [*first, *(f"count {names_of(it)} {self.begins - 1}" for it in self.sessions),
                     *(f"count {names_of(it)} {sg} {spri} {self.begins}" for it in self.sessions for sg, spri in self.groups)]
        return inside, first, self.counters[high], self.events[:low] + self.events[high:]


def messages_of(chance, chains, inside):
    """The messages of a night, each in a list with what it is."""
    found = [("front", chains.fronts[it].text) for it in sorted({event[0] for event in inside})]
    for _, _, texts, block in inside:
        rows = [*(("text", it) for it in texts), ("block", block.text)]
        found += rows if chance.random() < 0.7 else rows[-1:] + rows[:-1]
    return found


def changed(chance, octets):
    """These octets with another one in one place, which is no LF."""
    at = chance.randrange(len(octets))
    return octets[:at] + bytes([octets[at] ^ 1 if octets[at] ^ 1 != 10 else octets[at] ^ 2]) + octets[at + 1:]


def spoiled(chance, chains, found, others, blocks):
    """A night of which something was changed, and what."""
    kind = chance.choice(["drop", "drop", "drop", "copy", "move", "swap", "change", "other night", "number twice", "GBC twice", "cut off"])
    at = chance.randrange(len(found)) if found else 0
    found = list(found)
    if kind == "other night" and others:
        session, _, texts, block = chance.choice(others)
        rows = [*texts, block.text][chance.choice([0, 0, -1]):]
        front = [("front", chains.fronts[session].text)] if chance.random() < 0.9 else []
        found[at:at] = [*front, *(("other", it) for it in rows)]
        return found, kind
    if kind in ("number twice", "GBC twice") and chains.events:
        session, group, texts, block = chance.choice(chains.events)
        made = Maker(chance.getrandbits(32))
        fields = dict(zip((b"GBC", b"FMN"), (field_of(block.text, it) for it in (b"GBC", b"FMN"))))
        gbc = fields[b"GBC"] if kind == "GBC twice" else min(LAST, fields[b"GBC"] + chance.choice([0, 1, 5]))
        number = fields[b"FMN"] if kind == "number twice" else min(LAST - 2, fields[b"FMN"] + chance.choice([1, 2, 9]))
        chains.gbcs[session] = gbc
        again = chains.signature(session, group, number, [b"<13>1 - - - - - - %d" % made.chance.getrandbits(9)])
        blocks.append(again)
        found.insert(at, ("block", again.text))
        return found, kind
    if not found:
        return found, "nothing"
    if kind == "drop":
        del found[at]
    elif kind == "copy":
        found.insert(chance.randint(0, len(found)), found[at])
    elif kind == "move":
        found.insert(chance.randint(0, len(found) - 1), found.pop(at))
    elif kind == "swap":
        other = chance.randrange(len(found))
        found[at], found[other] = found[other], found[at]
    elif kind == "change":
        found[at] = "changed", changed(chance, found[at][1])
    elif kind == "cut off":
        del found[at:]
    else:
        return found, "nothing"
    return found, kind


def field_of(text, name):
    """The number of a parameter of a block."""
    return int(text.partition(b' %s="' % name)[2].partition(b'"')[0])


def other_counters(chance, lines):
    """Counters near these."""
    found = []
    for it in lines:
        names, _, number = it.rpartition(" ")
        least = 0 if len(it.split(" ")) == 6 else 1
        kind = chance.random()
        if kind < 0.6:
            found.append(it)
        elif kind < 0.85:
            found.append(f"{names} {min(TOP, max(least, int(number) + chance.randint(-3, 3)))}")
        if kind > 0.95:
            found.append(f"{names} {chance.choice([least, 1, TOP])}")
    if chance.random() < 0.2:
        found.append(f"count {chance.choice(HOSTS).decode()} s - {chance.randint(0, 2)} {chance.choice([0, 1, TOP])}")
    if chance.random() < 0.2:
        sg, spri = chance.choice(GROUPS)
        found.append(f"count {chance.choice(HOSTS).decode()} s - {chance.randint(0, 2)} {sg} {spri} {chance.choice([1, 2, TOP])}")
    chance.shuffle(found)
    return found


KINDS = ["a whole night that is clean", "a whole night in which nothing was sent", "a night that begins the chain",
         "a night up to the greatest counters", "an early run", "an early run of several numbers", "a run beyond",
         "a run beyond of several numbers", "a number both early and beyond", "a hole that was cut", "a hole that was left out",
         "a tail that was cut", "a tail that was left out", "blocks that were cut", "blocks that were left out",
         "an absent session that is idle", "an absent session that isn't", "a clean report", "a torn log", "no second counters",
         "equal counters"]


def kinds_of(uncut, text, first, second, torn):
    """What is in a report, and in the one without `--from`."""
    kept = set(text)
    spans = collections.defaultdict(list)
    for it in (it.split(" ") for it in text):
        if it[0] in OUTSIDE:
            yield {"early": "an early run", "beyond": "a run beyond"}[it[0]]
            if it[7] != it[8]:
                yield {"early": "an early run of several numbers", "beyond": "a run beyond of several numbers"}[it[0]]
            spans[it[0], tuple(it[1:7])].append((int(it[7]), int(it[8])))
    for (word, group), runs in spans.items():
        if word == "early" and any(low <= end and begin <= high for low, high in runs for begin, end in spans.get(("beyond", group), [])):
            yield "a number both early and beyond"
    ends = {tuple(it.split(" ")[:-2] + it.split(" ")[-1:]) for it in text}
    for it in uncut:
        word = it.split(" ")[0]
        if word in ("hole", "tail", "blocks") and it not in kept:
            name = {"hole": "a hole that was", "tail": "a tail that was", "blocks": "blocks that were"}[word]
            is_cut = tuple(it.split(" ")[:-2] + it.split(" ")[-1:]) in ends
            yield f"{name} cut" if is_cut else f"{name} left out"
        if it.endswith(" absent"):
            yield "an absent session that isn't" if it in kept else "an absent session that is idle"
    if status_of(text) == 0:
        yield "a clean report"
    if torn is not None:
        yield "a torn log"
    if second is None:
        yield "no second counters"
    elif sorted(first) == sorted(second):
        yield "equal counters"


def by_seed(nightly):
    reached, done = collections.Counter(), collections.Counter()
    for seed in range(SEEDS):
        chance, chains = random.Random(-1 - seed), Chains(seed)
        inside, first, second, others = chains.night()
        blocks = [*chains.fronts.values(), *(event[3] for event in chains.events)]
        found = messages_of(chance, chains, inside)
        is_whole = seed % 4 == 0
        if not is_whole:
            for _ in range(chance.choice([1, 1, 2, 3])):
                found, kind = spoiled(chance, chains, found, others, blocks)
                done[kind] += 1
            if chance.random() < 0.4:
                first, second = (other_counters(chance, it) for it in (first, second))
            second = None if chance.random() < 0.25 else first if chance.random() < 0.1 else second
        trusted = {chains.payload} if is_whole or chance.random() < 0.95 else set()
        valid = {(chains.payload, it.signed, base64.b64decode(it.sign)) for it in blocks if is_whole or chance.random() < 0.97}
        of_lines = seed % 2 == 1
        messages = [text for _, text in found if text and not (of_lines and b"\n" in text)]
        octets = b"".join(map(line if of_lines else frame, messages))
        torn = None
        if not is_whole and chance.random() < 0.1:
            torn, octets = len(octets), octets + (b"<13" if of_lines else b"9 <")
        log = Log(messages)
        text = between_text(log, trusted, valid, first, second, torn)
        plain = report_text(review(log, trusted, valid), torn)
        tell(f"the model of seed {seed}", "" if plain_of(text) == plain_of(plain) else f"{text}, and not {plain}")
        tell(f"the model of seed {seed}, by number", fault_by_number(log, trusted, valid, first, second, text))
        if is_whole:
            odd = [it for it in text if it.split(" ")[0] not in ("session", "ok", "end")]
            tell(f"the model of seed {seed}: a whole night is clean", "" if status_of(text) == 0 and not odd else f"{text}")
            reached["a whole night that is clean" if inside else "a whole night in which nothing was sent"] += 1
            reached["a night that begins the chain"] += bool(inside) and inside == chains.events[:len(inside)]
            reached["a night up to the greatest counters"] += any(it.endswith(f" {TOP}") for it in second)
        if nightly:
            options = [*nightly.program.put_answers(answers_text(trusted, valid)), *(["--lines"] if of_lines else [])]
            forms = [[*FORMS, *TALLIES][seed // 4 % 8]]
            check(nightly, f"seed {seed}", octets, options, nightly.keep(first, second), text, forms)
        reached.update(kinds_of(kept_text(log, trusted, valid, second or [], torn), text, first, second, torn))
    for kind in KINDS:
        print(f"between: {reached[kind]:6} {kind}")
        tell(f"some night has {kind}", "" if reached[kind] else "none has")
    for kind in ("drop", "copy", "move", "swap", "change", "other night", "number twice", "GBC twice", "cut off"):
        print(f"between: {done[kind]:6} {kind}")
        tell(f"some night has a {kind}", "" if done[kind] else "none has")


def main():
    examples()
    with tempfile.TemporaryDirectory() as folder:
        nightly = None
        if sys.argv[1:2] == ["compare"]:
            nightly = Nightly(sys.argv[2], folder)
            by_hand(nightly)
            refusals(nightly)
        by_seed(nightly)
    print(f"between: {passed} passed, {failed} failed")
    return failed > 0 or passed == 0


if __name__ == "__main__":
    sys.exit(main())
