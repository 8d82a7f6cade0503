#!/usr/bin/env python3
"""What `ssign review --counters FILE` says is missing up to counters that were kept, by the definition in docs/dev/FORMATS.md.

    kept.py model             the model alone, over the logs that were worked out by hand and over logs by a seed
    kept.py compare PROGRAM   and the program, over these and over each part of an originator's log

Behind the entries of a session stands a line `tail` for each group that has a counter: the numbers behind its last announced
one, up to the counter. Then stand the lines `blocks`, up to the session's own counter. Behind all sessions stand those that
have a counter and no block in the log, as `absent`. The model takes the verified blocks and the plain report from
review_model.py. The last line is `kept: N passed, M failed`.
"""
import collections
import itertools
import os
import random
import sys
import tempfile
import time

from counted_logs import make
from counters import counters_text
from review_examples import (
    A, ALL, B, C, C2, CERTIFICATE_ALONE, CI, F1, F2, H1, K0, K1, K2, M1, M2, NO_TRUST, S, TOLD, certificate, signature)
from review_logs import GROUPS, HOSTS, LAST
from review_model import Log, review, state
from review_runs import answers_text, answers_to, ended, frame, is_clean, joined, line, read_frames, read_lines, report_text
from whole import ENTRIES, FORMS, Program, fault_of_form, names_of, runs_missing

SEEDS = 10_000
# how many differences are shown
SHOWN = 5
# what is a finding beside a report
BESIDE = ("tail", "blocks")

passed = failed = 0


def tell(what, fault=""):
    """One check, passed where there is no fault."""
    global passed, failed
    if not fault:
        passed += 1
        return
    failed += 1
    if failed <= SHOWN:
        print(f"kept: {what}: FAILED\n    {fault}")


# ---- the definition

class Kept:
    """The greatest counters of a file, by session."""

    def __init__(self, text):
        self.blocks, self.numbers = collections.defaultdict(int), collections.defaultdict(int)
        self.sessions = set()
        for it in text:
            _, host, app, procid, rsid, *counter = it.split(" ")
            session = (host.encode(), app.encode(), procid.encode(), int(rsid))
            self.sessions.add(session)
            if len(counter) == 1:
                self.blocks[session] = max(self.blocks[session], int(counter[0]))
            else:
                key = session, (int(counter[0]), int(counter[1]))
                self.numbers[key] = max(self.numbers[key], int(counter[2]))

    def beside(self, session, announced, gbcs):
        """The lines of a session: `announced` has the greatest number of each group, `gbcs` the GBC that are there."""
        text, names = [], names_of(session)
        for sg, spri in sorted(group for of, group in self.numbers if of == session):
            first, end = announced.get((sg, spri), 0) + 1, self.numbers[session, (sg, spri)]
            if first < end:
                text.append(f"tail {names} {sg} {spri} {first} {end - 1}")
        end = self.blocks[session]
        # a block after the last one that is looked for ends the last run
        runs = runs_missing([*gbcs, end]) if end > max(gbcs, default=-1) else runs_missing(gbcs)
        return text + [f"blocks {names} {first} {last}" for first, last in runs]


def kept_text(log, trusted, valid, counters, torn=None):
    """The lines of the report with what is missing up to the counters."""
    kept, text, waiting = Kept(counters), [], []
    sessions = iter(log.sessions)
    absent = []
    for session in sorted(kept.sessions - set(log.sessions)):
        absent += [f"session {names_of(session)} absent", *kept.beside(session, {}, [])]
    is_told = False
    for it in report_text(review(log, trusted, valid), torn):
        word = it.split(" ")[0]
        if word not in ENTRIES:
            text, waiting = text + waiting, []
        if word not in ENTRIES and word != "session" and not is_told:
            text, is_told = text + absent, True
        text.append(it)
        if word == "session":
            session = next(sessions)
            _, verified = state(log, session, trusted, valid)
            blocks = [block for block in verified if not block.is_certificate]
            announced = {}
            for block in blocks:
                for number, _, _ in block.rows:
                    announced[block.group] = max(announced.get(block.group, 0), number)
            waiting = kept.beside(session, announced, [block.gbc for block in blocks])
    return text


def plain_of(text):
    """The lines of the plain report alone."""
    text = [it for it in text if it.split(" ")[0] not in BESIDE]
    return [it for it in text if not (it.startswith("session ") and it.endswith(" absent"))]


def status_of(text):
    return int(not is_clean(text) or plain_of(text) != text)


# ---- the logs that were worked out by hand

J = "session h s - 1 joined"
OK = ["ok h s - 1 0 0 1 0", "ok h s - 1 0 0 2 1"]
# the counters of a log with one block of two messages
ONE = ["count h s - 1 1", "count h s - 1 0 0 3"]


def one(gbc, number=1, text=A, **how):
    """A block of one number."""
    return signature(text, gbc=gbc, first=number, **how)


# name, messages, answers, counters, lines of the report, its status
EXAMPLES = [
    ("an empty log and no counters", [], ALL, [], ["end 0"], 0),
    ("no counters", [M1, M2, C, S], ALL, [], [J, *OK, "end 4"], 0),
    ("its own counters", [M1, M2, C, S], ALL, ONE, [J, *OK, "end 4"], 0),
    ("an empty log", [], ALL, ONE,
     ["session h s - 1 absent", "tail h s - 1 0 0 1 2", "blocks h s - 1 0 0", "end 0"], 1),
    ("the session is gone", [M1, M2], ALL, ONE,
     ["session h s - 1 absent", "tail h s - 1 0 0 1 2", "blocks h s - 1 0 0", "unlisted 0", "unlisted 1", "end 2"], 1),
    ("the session is gone, and another is there", [M1, M2, C2, signature(A, B, rsid=2)], ALL, ONE,
     ["session h s - 2 joined", "ok h s - 2 0 0 1 0", "ok h s - 2 0 0 2 1", "session h s - 1 absent", "tail h s - 1 0 0 1 2",
      "blocks h s - 1 0 0", "end 4"], 1),
    ("the block is gone", [M1, M2, C], ALL, ONE,
     [J, "tail h s - 1 0 0 1 2", "blocks h s - 1 0 0", "unlisted 0", "unlisted 1", "end 3"], 1),
    ("the certificate block is gone", [M1, M2, S], ALL, ONE,
     ["session h s - 1 incomplete", "tail h s - 1 0 0 1 2", "blocks h s - 1 0 0", "unlisted 0", "unlisted 1", "refused 2", "end 3"], 1),
    ("the session isn't trusted", [M1, C, one(0)], NO_TRUST, ["count h s - 1 1", "count h s - 1 0 0 2"],
     ["session h s - 1 untrusted", "tail h s - 1 0 0 1 1", "blocks h s - 1 0 0", "unlisted 0", "refused 1", "refused 2", "end 3"], 1),
    ("the block is refused", [M1, C, one(0)], CERTIFICATE_ALONE, ["count h s - 1 1", "count h s - 1 0 0 2"],
     [J, "tail h s - 1 0 0 1 1", "blocks h s - 1 0 0", "unlisted 0", "refused 2", "end 3"], 1),
    ("the end is cut off", [M1, C, one(0)], ALL, ["count h s - 1 3", "count h s - 1 0 0 7"],
     [J, "ok h s - 1 0 0 1 0", "tail h s - 1 0 0 2 6", "blocks h s - 1 1 2", "end 3"], 1),
    ("a number is told by its counter alone", [M1, C, one(0)], ALL, ["count h s - 1 0 0 3"],
     [J, "ok h s - 1 0 0 1 0", "tail h s - 1 0 0 2 2", "end 3"], 1),
    ("a block is told by its counter alone", [M1, C, one(0)], ALL, ["count h s - 1 2"],
     [J, "ok h s - 1 0 0 1 0", "blocks h s - 1 1 1", "end 3"], 1),
    ("the counters are older than the log", [M1, M2, C, S], ALL, ["count h s - 1 0", "count h s - 1 0 0 2"], [J, *OK, "end 4"], 0),
    ("a lost block in the middle and the end", [M1, C, one(0), one(2, 5, B)], ALL, ["count h s - 1 5", "count h s - 1 0 0 8"],
     [J, "ok h s - 1 0 0 1 0", "hole h s - 1 0 0 2 4", "gap h s - 1 0 0 5 lost", "tail h s - 1 0 0 6 7", "blocks h s - 1 1 1",
      "blocks h s - 1 3 4", "end 4"], 1),
    ("a group that isn't in the log", [M1, C, one(0)], ALL, ["count h s - 1 2", "count h s - 1 1 13 4", "count h s - 1 0 0 2"],
     [J, "ok h s - 1 0 0 1 0", "tail h s - 1 1 13 1 3", "blocks h s - 1 1 1", "end 3"], 1),
    ("groups in any order", [C], ALL,
     ["count h s - 1 3 191 2", "count h s - 1 1 100 3", "count h s - 1 0 0 4", "count h s - 1 1 9 5", "count h s - 1 2 0 6"],
     [J, "tail h s - 1 0 0 1 3", "tail h s - 1 1 9 1 4", "tail h s - 1 1 100 1 2", "tail h s - 1 2 0 1 5", "tail h s - 1 3 191 1 1",
      "end 1"], 1),
    ("a counter of nothing", [C], ALL, ["count h s - 1 0", "count h s - 1 0 0 1"], [J, "end 1"], 0),
    ("a session of which nothing was sent but its payload", [], ALL, ["count h s - 1 0"], ["session h s - 1 absent", "end 0"], 1),
    ("the greatest of several counters", [M1, C, one(0)], ALL,
     ["count h s - 1 0 0 4", "count h s - 1 3", "count h s - 1 0 0 9", "count h s - 1 2", "count h s - 1 0 0 2"],
     [J, "ok h s - 1 0 0 1 0", "tail h s - 1 0 0 2 8", "blocks h s - 1 1 2", "end 3"], 1),
    ("the greatest counters", [C, one(LAST, LAST)], ALL, ["count h s - 1 10000000000", "count h s - 1 0 0 10000000000"],
     [J, "hole h s - 1 0 0 1 9999999998", "gap h s - 1 0 0 9999999999 lost", "blocks h s - 1 0 9999999998", "end 2"], 1),
    ("the greatest counters of an absent session", [], ALL, ["count h s - 1 10000000000", "count h s - 1 0 0 10000000000"],
     ["session h s - 1 absent", "tail h s - 1 0 0 1 9999999999", "blocks h s - 1 0 9999999999", "end 0"], 1),
    ("absent sessions in their order", [CI], ALL,
     ["count i s - 2 1", "count h1 s - 1 1", "count h s x 1 1", "count - s - 1 1", "count h s - 10 1", "count h s - 9 1", "count h - - 1 1"],
     ["session i s - 1 joined",
      *(it for names in ("- s - 1", "h - - 1", "h s - 9", "h s - 10", "h s x 1", "h1 s - 1", "i s - 2")
        for it in (f"session {names} absent", f"blocks {names} 0 0")), "end 1"], 1),
    ("copies of a block", [M1, M2, C, S, S, S], ALL, ["count h s - 1 2", "count h s - 1 0 0 3"],
     [J, *OK, "blocks h s - 1 1 1", "end 6"], 1),
    ("two blocks with one GBC", [M1, M2, C, one(0), one(0, 2, B)], ALL, ["count h s - 1 1", "count h s - 1 0 0 3"], [J, *OK, "end 5"], 0),
    ("a disputed number", [M1, M2, C, one(0), one(1, 1, B)], ALL, ["count h s - 1 2", "count h s - 1 0 0 2"],
     [J, "gap h s - 1 0 0 1 disputed", "unlisted 0", "unlisted 1", "end 5"], 1),
    ("a message that is lost", [C, one(0)], ALL, ["count h s - 1 1", "count h s - 1 0 0 2"], [J, "gap h s - 1 0 0 1 lost", "end 2"], 1),
    ("two sessions that share a host", [M1, certificate(head=H1), one(0, head=H1)], ALL,
     ["count h1 s - 1 1", "count h1 s - 1 0 0 2", "count h1 s - 2 1"],
     ["session h1 s - 1 joined", "ok h1 s - 1 0 0 1 0", "session h1 s - 2 absent", "blocks h1 s - 2 0 0", "end 3"], 1),
]
# what the objects of a report are, by hand
OBJECTS = [C], ["count h s - 1 2", "count h s - 1 1 13 4", "count i s - 7 1"], rb"""{"line":"session","host":"h","app":"s","procid":"-","rsid":1,"state":"joined"}
{"line":"tail","host":"h","app":"s","procid":"-","rsid":1,"sg":1,"spri":13,"first":1,"last":3}
{"line":"blocks","host":"h","app":"s","procid":"-","rsid":1,"first":0,"last":1}
{"line":"session","host":"i","app":"s","procid":"-","rsid":7,"state":"absent"}
{"line":"blocks","host":"i","app":"s","procid":"-","rsid":7,"first":0,"last":0}
{"line":"end","count":1}
"""


def examples():
    """The model of the logs that were worked out by hand."""
    for name, messages, answers, counters, wanted, status in EXAMPLES:
        log = Log(messages)
        trusted, valid = answers_to(log, answers)
        said = kept_text(log, trusted, valid, counters)
        tell(f"the model of {name}", "" if said == wanted else f"{said}\n    and not {wanted}")
        tell(f"the model of {name}: its status", "" if status_of(said) == status else f"{status_of(said)}")
        plain = report_text(review(log, trusted, valid))
        tell(f"the model of {name}: the plain report", "" if plain_of(said) == plain else f"{plain}")


def is_told(text, session, group, number):
    """Whether a report says of a number that its message is missing."""
    names = [*(field.decode() for field in session[:3]), str(session[3]), *map(str, group)]
    for word, *fields in (it.split(" ") for it in text):
        if fields[:6] == names and (word == "gap" and int(fields[6]) == number
                                    or word in ("hole", "tail") and int(fields[6]) <= number <= int(fields[7])):
            return True
    return False


# ---- the program

class Keeper:
    """The program, and a file of counters."""

    def __init__(self, path, folder):
        self.program, self.folder, self.counters = Program(path, folder), folder, os.path.join(folder, "counters")

    def keep(self, octets):
        with open(self.counters, "wb") as file:
            file.write(octets)
        return ["--counters", self.counters]

    def review(self, octets, *words):
        return self.program.run(["review", *words], octets)


def check(keeper, what, octets, options, counters, wanted, forms):
    """The checks of one log: each form with the counters, and one without them."""
    kept = keeper.keep(ended(counters))
    for words in forms:
        said = keeper.review(octets, *kept, *words, *options)
        tell(f"{what}: {' '.join(words)}", fault_of_form(words, said, wanted, status_of(wanted)))


def by_hand(keeper):
    for name, messages, answers, counters, wanted, status in EXAMPLES:
        options = keeper.program.put_answers(answers_text(*answers_to(Log(messages), answers)))
        for unit, form in ((frame, []), (line, ["--lines"])):
            octets = b"".join(map(unit, messages))
            check(keeper, name, octets, [*options, *form], counters, wanted, FORMS)
            check(keeper, f"{name}, with --whole", octets, [*options, *form, "--whole"], counters, wanted, FORMS[:1])
        octets = b"".join(map(frame, messages))
        torn = [*wanted[:-1], f"torn {len(octets)}", wanted[-1]]
        check(keeper, f"{name}, torn", octets + b"9 <", options, counters, torn, FORMS)
        said = keeper.review(octets, *keeper.keep(ended(counters)[:-1]), *options)
        tell(f"{name}: without the last LF", "" if said == (2, b"", b"ssign: C3\n") else f"{said}")
    messages, counters, wanted = OBJECTS
    options = keeper.program.put_answers(answers_text(*answers_to(Log(messages), ALL)))
    said = keeper.review(b"".join(map(frame, messages)), "--json", *keeper.keep(ended(counters)), *options)
    tell("objects by hand", "" if said == (1, wanted, b"") else f"{said}")


def by_part(keeper):
    """Each set of the ten messages of an originator, with the counters that it ended with."""
    sent = [F1, F2, *TOLD, K0, K1, K2]
    numbers = {TOLD[0]: (13, 1), TOLD[1]: (14, 1), TOLD[2]: (13, 2), TOLD[3]: (14, 2), TOLD[4]: (13, 3)}
    counters = ["count h s - 1 3", "count h s - 1 1 13 4", "count h s - 1 1 14 3"]
    kept, session = keeper.keep(ended(counters)), (b"h", b"s", b"-", 1)
    options = keeper.program.put_answers(answers_text(*answers_to(Log(sent), ALL)))
    given = keeper.program.run(["counters", *options], b"".join(map(frame, sent)))
    tell("the counters of an originator", "" if given == (0, ended(counters), b"") else f"{given}")
    for size in range(len(sent) + 1):
        for some in itertools.combinations(sent, size):
            log, what = Log(list(some)), f"{[sent.index(it) for it in some]} of ten messages"
            octets = b"".join(map(frame, some))
            wanted = kept_text(log, *answers_to(log, ALL), counters)
            status, out, err = keeper.review(octets, *kept, *options)
            tell(what, "" if (status, out, err) == (status_of(wanted), joined(wanted), b"") else f"{status} {out} {err}, and not {wanted}")
            text = out.decode().splitlines()
            untold = [it for it, (spri, number) in numbers.items() if it not in some and not is_told(text, session, (1, spri), number)]
            tell(f"{what}: what is missing is told", f"{untold}" if untold else "")
            tell(f"{what}: the status", "" if status == int(size < len(sent)) else f"status {status}")


def given_back(keeper):
    """Counters that the program wrote, and that are given back with the same log, make no finding."""
    for seed in range(1_000):
        messages, trusted, valid = make(seed)
        octets = b"".join(frame(it) for it in messages if it)
        options = keeper.program.put_answers(answers_text(trusted, valid))
        status, counters, _ = keeper.program.run(["counters", *options], octets)
        said = keeper.review(octets, *keeper.keep(counters), *options)
        wanted = keeper.review(octets, "--whole", *options)
        tell(f"the counters of seed {seed} given back", "" if status == 0 and said == wanted else f"{said}, and not {wanted}")


BAD = [b"", b"x", b"count", b"count h s - 1", b"count h s - 1 1 ", b" count h s - 1 1", b"count  h s - 1 1", b"Count h s - 1 1",
       b"count h s - 1 1\r", b"count h s - 1 1 1", b"count h s - 1 1 1 1 1", b"count h s - 1 01", b"count h s - 01 1", b"count h s - 1 -1",
       b"count h s - 1 +1", b"count h s - 1 10000000001", b"count h s - 10000000000 1", b"count h s - 1 0 0 0", b"count h s - 1 4 0 1",
       b"count h s - 1 0 192 1", b"count h s - 1 0 0 10000000001", b"count h s - 1 00 0 1", b"count h\t s - 1 1", b"count h\xc3\xa9 s - 1 1",
       b"count " + b"h" * 256 + b" s - 1 1", b"count h " + b"s" * 49 + b" - 1 1", b"count h s " + b"p" * 129 + b" 1 1", b"counth s - 1 1",
       b"count h s - 1 x", b"count h s - x 1", b"count h s - 1 1\0", b"count \xff s - 1 1", b"count h s - 1 18446744073709551617",
       b"# a comment", b"gap h s - 1 0 0 1 lost", b"count h s 1 1", b"count h s - 1 99999999999999999999999999"]
GOOD = [b"count " + b"h" * 255 + b" " + b"s" * 48 + b" " + b"p" * 128 + b" 9999999999 10000000000", b"count - - - 0 0",
        b"count h s - 1 3 191 10000000000", b"count h s - 1 0 0 1", b'count " \\ ] 1 1', b"count -- a - 1 0", b"count count count count 0 0"]


def not_whole(keeper, log, options):
    """Files that were cut off, at each octet; that have other ends; and several in one. Where they are taken, nothing is missing."""
    one, two = ended(ONE), ended(["count h s - 1 1"])
    clean = keeper.review(log, *keeper.keep(one), *options)
    tell("a whole file", "" if clean[0] == 0 and clean[1] else f"{clean}")
    for whole in (one, one + two, b"end 0\n" + one, one + b"end 0\n"):
        borders = {at + 1 for at in range(len(whole)) if whole[:at + 1].endswith(b"\n") and whole[:at].rpartition(b"\n")[2].startswith(b"end ")}
        for at in range(len(whole) + 1):
            said = keeper.review(log, *keeper.keep(whole[:at]), *options)
            wanted = clean if at in borders else (2, b"", b"ssign: C3\n")
            tell(f"{whole!r} cut off at {at}", "" if said == wanted else f"{said}")
    lines = joined(ONE)
    for end in (b"0", b"1", b"3", b"02", b"2 ", b" 2", b"2\r", b"+2", b"", b"x", b"22", b"4294967298", b"18446744073709551618"):
        for text in (lines + b"end " + end + b"\n", lines + b"end " + end + b"\n" + lines, one + lines + b"end " + end + b"\nx\n"):
            said = keeper.review(log, *keeper.keep(text), *options)
            tell(f"an end {end!r}", "" if said == (2, b"", b"ssign: C3\n") else f"{said}")
    for bad, code in ((lines + b"end\n", "C1 3"), (one + b"End 0\n", "C1 4"), (one + lines + b"x\n", "C1 6"), (lines + b"x\nend 9\n", "C1 3"),
                      (lines + b"end 9\nx\n", "C3")):
        said = keeper.review(log, *keeper.keep(bad), *options)
        tell(f"{bad!r}", "" if said == (2, b"", f"ssign: {code}\n".encode()) else f"{said}")
    with open(keeper.counters, "wb") as file:
        # it has no octet on the disk: its size alone is looked at
        file.truncate(1 << 32)
    began = time.monotonic()
    said = keeper.review(log, "--counters", keeper.counters, *options)
    tell("a file of 4 GiB", "" if said == (2, b"", b"ssign: C3\n") and time.monotonic() - began < 10 else f"{said} {time.monotonic() - began}")


def refusals(keeper):
    messages = [M1, M2, C, S]
    log, options = b"".join(map(frame, messages)), keeper.program.put_answers(answers_text(*answers_to(Log(messages), ALL)))
    fine = joined(ONE)
    for bad in BAD:
        for number, text in enumerate((bad + b"\n" + fine, fine[:16] + bad + b"\n", fine + bad + b"\n" + bad + b"\n"), 1):
            said = keeper.review(log, *keeper.keep(text), *options)
            wanted = 2, b"", b"ssign: C1 %d\n" % number
            tell(f"a bad line {bad[:40]!r}", "" if said == wanted else f"{said}, and not {wanted}")
    for good in GOOD:
        said = keeper.review(log, *keeper.keep(good + b"\nend 1\n"), *options)
        tell(f"a good line {good[:40]!r}", "" if said[0] in (0, 1) and not said[2] else f"{said}")
    for words, wanted in ((["--counters", os.path.join(keeper.folder, "none")], "C2"), (["--counters", keeper.folder], "C2")):
        for form in FORMS:
            said = keeper.review(log, *words, *options, *form)
            tell(f"a refusal: {wanted}", "" if said == (2, b"", f"ssign: {wanted}\n".encode()) else f"{said}")
    not_whole(keeper, log, options)
    said = keeper.review(b"x" + log, *keeper.keep(ended(ONE)), *options)
    tell("a log that is refused", "" if said == (2, b"", b"ssign: F1 0\n") else f"{said}")
    said = keeper.review(log, *keeper.keep(b"end 0\n"), *options)
    tell("a file without counters", "" if said == keeper.review(log, "--whole", *options) else f"{said}")
    mistakes = [["review", word] for word in ("--counters", "--counter=x", "--counters=")]
    mistakes += [["review", "--counters", keeper.counters, "--counters", keeper.counters]]
    mistakes += keeper.program.others("review", "--counters", keeper.counters)
    for words in mistakes:
        status, out, err = keeper.program.run(words, log)
        is_mistake = status == 2 and err and not out
        tell(" ".join(words), "" if is_mistake else f"status {status} {out!r} {err!r}")


# ---- logs by a seed

KINDS = ["a tail behind an announced number", "a tail from 1", "a group that isn't in the log", "an absent session",
         "an absent session with a tail", "a run up to a counter", "counters that are older", "a session that isn't joined, with a tail",
         "a clean report", "a report that is clean but for what is missing", "a counter twice", "a torn log"]


def some_counters(chance, own):
    """Counters near those of a log, and others."""
    counters = []
    for it in own:
        names, _, number = it.rpartition(" ")
        kind = chance.random()
        if kind < 0.6:
            counters.append(it)
        elif kind < 0.9:
            least = 0 if len(it.split(" ")) == 6 else 1
            counters.append(f"{names} {min(LAST + 1, max(least, int(number) + chance.randint(-2, 3)))}")
    for _ in range(chance.choice([0, 0, 0, 1, 2, 4])):
        names = f"{chance.choice(HOSTS).decode()} s - {chance.randint(0, 2)}"
        if chance.random() < 0.5:
            counters.append(f"count {names} {chance.choice([0, 1, 2, 5, LAST, LAST + 1])}")
        else:
            sg, spri = chance.choice(GROUPS)
            counters.append(f"count {names} {sg} {spri} {chance.choice([1, 2, 3, 9, LAST, LAST + 1])}")
    chance.shuffle(counters)
    return counters


def kinds_of(text, counters, torn):
    """What is in a report, and in its counters."""
    states = {tuple(it.split(" ")[1:5]): it.split(" ")[5] for it in text if it.startswith("session ")}
    told = {tuple(it.split(" ")[1:7]) for it in text if it.split(" ")[0] in ("ok", "gap")}
    for it in (it.split(" ") for it in text):
        if it[0] == "tail":
            yield "a tail from 1" if it[7] == "1" else "a tail behind an announced number"
            if states[tuple(it[1:5])] == "absent":
                yield "an absent session with a tail"
            elif tuple(it[1:7]) not in told:
                yield "a group that isn't in the log"
            if states[tuple(it[1:5])] not in ("absent", "joined"):
                yield "a session that isn't joined, with a tail"
        if it[0] == "blocks" and f"count {' '.join(it[1:5])} {int(it[6]) + 1}" in counters:
            yield "a run up to a counter"
    if "absent" in states.values():
        yield "an absent session"
    if counters and status_of(text) == 0:
        yield "counters that are older"
    if status_of(text) == 0:
        yield "a clean report"
    elif is_clean(plain_of(text)):
        yield "a report that is clean but for what is missing"
    if len({it.rpartition(" ")[0] for it in counters}) < len(counters):
        yield "a counter twice"
    if torn is not None and counters:
        yield "a torn log"


def by_seed(keeper):
    reached = collections.Counter()
    for seed in range(SEEDS):
        messages, trusted, valid = make(seed)
        chance = random.Random(-seed)
        of_lines = seed % 2 == 1
        # a frame has an octet, and a line has no LF in it
        octets = b"".join((line if of_lines else frame)(it) for it in messages if it and not (of_lines and b"\n" in it))
        own = counters_text(Log(messages), trusted, valid)
        if seed % 3 == 0:
            octets = octets[:chance.randint(0, len(octets))]
        messages, torn = (read_lines if of_lines else read_frames)(octets)
        log, counters = Log(messages), some_counters(chance, own)
        wanted = kept_text(log, trusted, valid, counters, torn)
        plain = report_text(review(log, trusted, valid), torn)
        tell(f"the model of seed {seed}", "" if plain_of(wanted) == plain else f"{wanted}, and not {plain}")
        if keeper:
            options = [*keeper.program.put_answers(answers_text(trusted, valid)), *(["--lines"] if of_lines else [])]
            check(keeper, f"seed {seed}", octets, options, counters, wanted, [FORMS[seed // 2 % 4]])
        reached.update(kinds_of(wanted, counters, torn))
    for kind in KINDS:
        print(f"kept: {reached[kind]:6} {kind}")
        tell(f"some log has {kind}", "" if reached[kind] else "none has")


def main():
    examples()
    keeper = None
    with tempfile.TemporaryDirectory() as folder:
        if sys.argv[1:2] == ["compare"]:
            keeper = Keeper(sys.argv[2], folder)
            by_hand(keeper)
            by_part(keeper)
            given_back(keeper)
            refusals(keeper)
        by_seed(keeper)
    print(f"kept: {passed} passed, {failed} failed")
    return failed > 0 or passed == 0


if __name__ == "__main__":
    sys.exit(main())
