#!/usr/bin/env python3
"""Counts what `ssign-keys verify` has ssign do, and has a run of ssign break at each step. See tests/asking.sh.

    asking.py SSIGN-KEYS SSIGN          in a folder with `log`, a signed log of 2 MB or more, and keys/public-key.pem
    asking.py stand-in SSIGN WORD..     what stands in for ssign, and breaks as the variable BREAK says

The last line is `asking: N passed, M failed`.
"""
from __future__ import annotations

import gzip
import hashlib
import io
import json
import mmap
import os
import shutil
import subprocess
import sys
import tempfile
import time
from concurrent.futures import ThreadPoolExecutor
from typing import BinaryIO, Callable, Dict, Iterator, List, NamedTuple, Optional, Sequence, Tuple

sys.path.insert(0, os.path.join(os.path.dirname(os.path.abspath(__file__)), "..", "tools"))
from ssign_keys.faults import Fault
from ssign_keys.progress import Progress
from ssign_keys.report import Group, Reading, ReportVisitor

# a run that takes more seconds hangs
PATIENCE = 100
KEY = ["--key", "keys/public-key.pem"]
WRONG = "ssign-keys: the report of ssign review is wrong, so there is no verdict: "
UNREAD, EARLY, ENDLESS = "ssign didn't read %s to the end", "ssign asks or waits for answers too early", "its questions have no end"
CHANGED = "the log mapped was changed while it was read: run again, or hand over a copy"
PAYLOAD, END = b'{"line":"payload","payload_index":0,"payload":"S0VZ"}\n', b'{"line":"end"}\n'
# the options that questions don't have
OF_REVIEWS = "--in-order", "--some-listed", "--no-sha1", "--ignore-strangers", "--brief"
NO_QUESTION = "ssign-keys: line %d is no object `payload`, `trust?` or `yes?` of ssign review --ask --json"
passed = failed = 0


def word_of(line: bytes) -> bytes:
    """The word of an object."""
    return line.split(b'"')[3]


def tell(what: str, is_so: bool, fault: object = "") -> None:
    """One check."""
    global passed, failed
    passed, failed = passed + is_so, failed + (not is_so)
    if not is_so:
        print(f"asking: {what}: FAILED\n    {str(fault)[:1000]}")


# ---- what stands in for ssign

class StandIn:
    """A run of `ssign review --ask` that keeps to the order as far as it is asked to."""

    def __init__(self, program: str, words: Sequence[str]) -> None:
        self._shared = [it for it in words[1:] if not it.startswith(("--ask=", "--answers="))]
        self._program = program
        given = dict(it.split("=", 1) for it in words if it.startswith(("--ask=", "--answers=")))
        self._ask, self._given = given["--ask"], given["--answers"]

    def read_log(self) -> None:
        """Reads all of standard input."""
        while os.read(0, 1 << 16):
            pass

    def _ssign(self, *words: str) -> bytes:
        with open("log", "rb") as log:
            shared = [it for it in self._shared if words[0] == "review" or it not in OF_REVIEWS]
            return subprocess.run([self._program, *words, *shared], stdin=log, stdout=subprocess.PIPE, check=False).stdout

    def ask(self, change: Callable[[bytes], bytes] = lambda it: it) -> None:
        """Writes the questions, as they are changed, and closes their file."""
        with open(self._ask, "wb") as file:
            file.write(change(self._ssign("questions", "--once") + END))

    def answers(self) -> BinaryIO:
        """Opens the answers."""
        return open(self._given, "rb")

    def report(self, answers: bytes, change: Callable[[bytes], bytes] = lambda it: it) -> None:
        """Writes a report under answers, as it is changed."""
        with tempfile.NamedTemporaryFile(dir=".") as file:
            file.write(answers)
            file.flush()
            os.write(1, change(self._ssign("review", f"--answers={file.name}")))

    def run(self, broken: str) -> int:
        """Does what ssign does, but for what is broken."""
        return int(getattr(self, "do_" + broken)() or 0)

    def whole(self, change: Callable[[bytes], bytes] = lambda it: it, of_report: Callable[[bytes], bytes] = lambda it: it) -> None:
        """All in its order."""
        self.read_log()
        self.ask(change)
        with self.answers() as file:
            self.report(file.read(), of_report)

    def do_nothing_broken(self) -> None:
        """Shows that what breaks is what is broken here."""
        self.whole()

    def do_no_log(self) -> None:
        """Ends without a look at the log."""
        self.ask()
        with self.answers() as file:
            self.report(file.read())

    def do_half_the_log(self) -> None:
        """Leaves the second half of the log."""
        for _ in range(16):
            os.read(0, 1 << 16)
        self.do_no_log()

    def do_no_questions(self) -> None:
        """Never opens the file of questions."""
        self.read_log()
        self.report(b"")

    def do_no_end(self) -> None:
        """All questions, but not the line `end`."""
        self.whole(lambda it: it[:-len(END)])

    def do_half_an_end(self) -> None:
        """The line `end` without its LF."""
        self.whole(lambda it: it[:-1])

    def do_half_a_line(self) -> None:
        """The questions break off in a line."""
        self.whole(lambda it: it[:len(it) // 2])

    def do_half_a_line_and_death(self) -> None:
        """The same, and the run is killed."""
        self.read_log()
        self.ask(lambda it: it[:len(it) // 2])
        os.kill(os.getpid(), 9)

    def do_no_end_and_no_end(self) -> None:
        """The questions have no end, and the run has none either."""
        self.read_log()
        self.ask(lambda it: b"")
        time.sleep(1000)

    def do_another_line(self) -> None:
        """A line that is no question."""
        self.whole(lambda it: PAYLOAD + b"nonsense\n" + it)

    def do_answers_as_questions(self) -> None:
        """The words of an answers file in the questions."""
        self.whole(lambda it: it.replace(b'{"line":"trust?",', b'{"line":"trust",').replace(b'{"line":"yes?",', b'{"line":"yes",'))

    def do_an_answer_among_questions(self) -> None:
        """The word of an answers file in the questions about blocks alone."""
        self.whole(lambda it: it.replace(b'{"line":"yes?",', b'{"line":"yes",'))

    def do_early_questions(self) -> None:
        """Asks before it reads the log."""
        self.ask()
        self.read_log()

    def do_early_answers(self) -> None:
        """Waits for answers before it asks."""
        self.read_log()
        with self.answers() as file:
            file.read()
        self.ask()

    def do_early_answers_in_between(self) -> None:
        """Waits for answers while it asks."""
        self.read_log()
        with open(self._ask, "wb", buffering=0) as file:
            file.write(PAYLOAD)
            with self.answers() as given:
                given.read()

    def do_no_answers(self) -> None:
        """Never opens the answers."""
        self.read_log()
        self.ask()
        self.report(b"")

    def do_no_answers_and_no_end(self) -> None:
        """The same, and never ends."""
        self.read_log()
        self.ask()
        time.sleep(1000)

    def do_unread_answers(self) -> None:
        """Opens the answers, and reads none."""
        self.read_log()
        self.ask()
        with self.answers():
            self.report(b"")

    def do_few_answers(self) -> None:
        """Reads the answers, but for the last ones."""
        self.read_log()
        self.ask()
        with self.answers() as file:
            self.report(file.read(100000).rpartition(b"\n")[0] + b"\n")

    def _without(self, *words: bytes) -> None:
        self.whole(of_report=lambda it: b"".join(line for line in it.splitlines(True) if word_of(line) not in words))

    def do_no_tally(self) -> None:
        """Loses the only group: the rest is the report of a log without a message."""
        self._without(b"ok", b"tally")

    def do_no_last_line(self) -> None:
        """Loses the line `end`."""
        self._without(b"end")

    def do_no_report(self) -> None:
        """Ends well, and reports nothing."""
        self.read_log()
        self.ask()
        with self.answers() as file:
            file.read()

    def do_another_status(self) -> int:
        """Ends with a status that ssign never gives."""
        self.whole()
        return 77

    def do_status_after_the_questions(self) -> int:
        """The same, and before the answers."""
        self.read_log()
        self.ask()
        return 77

    def do_death(self) -> None:
        """Is killed after the questions."""
        self.read_log()
        self.ask()
        os.kill(os.getpid(), 9)

    def do_death_at_the_answers(self) -> None:
        """Is killed while it reads the answers."""
        self.read_log()
        self.ask()
        with self.answers() as file:
            file.read(1000)
            os.kill(os.getpid(), 9)

    def _refuse(self, code: str) -> int:
        sys.stderr.write(f"ssign: {code}\n")
        return 2

    def do_refused_log(self) -> int:
        """Refuses the log, and opens neither file."""
        os.read(0, 1000)
        return self._refuse("F1 0")

    def do_no_room(self) -> int:
        """Can't write the report, as on a full disk."""
        self.whole()
        return self._refuse("W1")

    def do_refused_questions(self) -> int:
        """Can't write the questions."""
        self.read_log()
        self.ask(lambda it: it[:1000])
        return self._refuse("Q1")

    def do_refused_answers(self) -> int:
        """Refuses the answers."""
        self.read_log()
        self.ask()
        with self.answers() as file:
            file.read(1000)
        return self._refuse("A1 1")


def stand_in(program: str, words: Sequence[str]) -> int:
    """What stands in for ssign. Only a review is broken."""
    if words[0] == "review" and "BREAK" in os.environ:
        with open(os.environ["CALLED"], "a", encoding="ascii") as file:
            file.write(f"{os.getpid()}\n")
        return StandIn(program, words).run(os.environ["BREAK"])
    if not words[0].startswith("--"):
        # how it is called, and what it is handed
        octets = sys.stdin.buffer.read(1000)
        if "CHANGE" in os.environ and not os.path.exists("changed-once"):
            open("changing", "w", encoding="ascii").close()
            while os.path.exists("changing"):
                time.sleep(0.01)
        octets += sys.stdin.buffer.read()
        with open(os.environ["CALLED"], "a", encoding="ascii") as file:
            file.write(json.dumps([words[0], len(octets), hashlib.sha256(octets).hexdigest()]) + "\n")
        return subprocess.run([program, *words], input=octets, check=False).returncode
    os.execv(program, [program, *words])


# ---- the tests

class Bench:
    """Runs `ssign-keys verify` with what stands in for ssign."""

    def __init__(self, tool: str, program: str) -> None:
        self._tool = tool
        self._stand_in = os.path.abspath("stand-in")
        with open(self._stand_in, "w", encoding="utf-8") as file:
            file.write(f'#!/bin/sh\nexec {sys.executable} -B "{os.path.abspath(__file__)}" stand-in "{program}" "$@"\n')
        os.chmod(self._stand_in, 0o755)

    def start(self, called: str, more: Dict[str, str], *words: str, stdin: int = subprocess.DEVNULL) -> subprocess.Popen[bytes]:
        """A run that was begun, whose passing files go to a folder of its own."""
        os.makedirs(f"{called}.passing", exist_ok=True)
        return subprocess.Popen([self._tool, "verify", *KEY, "--ssign", self._stand_in, *words], stdin=stdin,
                                stdout=subprocess.PIPE, stderr=subprocess.PIPE,
                                env={**os.environ, **more, "CALLED": called, "TMPDIR": os.path.abspath(f"{called}.passing")})

    def break_at(self, broken: str) -> "Done":
        """A run in which ssign breaks so."""
        child = self.start(f"called.{broken}", {"BREAK": broken}, "log")
        return finished(child, f"called.{broken}")


class Done(NamedTuple):
    """A run that has ended, or was ended."""

    status: Optional[int]
    out: bytes
    complaint: str
    called: List[str]
    left: List[str]


def finished(child: subprocess.Popen[bytes], called: str) -> Done:
    """Waits for a run. The status is None where it hung."""
    try:
        out, said = child.communicate(timeout=PATIENCE)
        status: Optional[int] = child.returncode
    except subprocess.TimeoutExpired:
        child.kill()
        out, said = child.communicate()
        status = None
    with open(called, encoding="ascii") as file:
        lines = file.read().splitlines()
    return Done(status, out, said.decode(), lines, os.listdir(f"{called}.passing"))


BROKEN = {
    "no_log": WRONG + EARLY, "half_the_log": WRONG + EARLY, "no_questions": WRONG + ENDLESS, "no_end": WRONG + ENDLESS,
    "half_an_end": WRONG + ENDLESS, "half_a_line": WRONG + ENDLESS, "no_end_and_no_end": WRONG + ENDLESS,
    "half_a_line_and_death": "ssign-keys: ssign review was ended by the signal SIGKILL, as where memory runs out",
    "another_line": NO_QUESTION % 2, "answers_as_questions": NO_QUESTION % 2, "an_answer_among_questions": NO_QUESTION % 3,
    "early_questions": WRONG + EARLY, "early_answers": WRONG + EARLY, "early_answers_in_between": WRONG + EARLY,
    "no_answers": WRONG + UNREAD % "the answers", "unread_answers": WRONG + UNREAD % "the answers",
    "few_answers": WRONG + UNREAD % "the answers", "no_answers_and_no_end": WRONG + "ssign doesn't read the answers",
    "no_report": WRONG + "it has no end", "no_last_line": WRONG + "it has no end",
    "no_tally": WRONG + "its status isn't that of its lines",
    "another_status": "ssign-keys: ssign review ended with the status 77, which ssign never gives",
    "status_after_the_questions": "ssign-keys: ssign review ended with the status 77, which ssign never gives",
    "death": "ssign-keys: ssign review was ended by the signal SIGKILL, as where memory runs out",
    "death_at_the_answers": "ssign-keys: ssign review was ended by the signal SIGKILL, as where memory runs out",
    "refused_log": "ssign-keys: log: octet 0, ", "no_room": "ssign-keys: a passing file can't be written; TMPDIR names the folder for "
    "it (W1)", "refused_questions": "ssign-keys: a passing file can't be written; TMPDIR names the folder for it (Q1)",
    "refused_answers": "ssign-keys: this is a mistake of ssign-keys, and no verdict: ssign refuses the answers that it made, in line 1 (A1)",
}


def check_broken(bench: Bench) -> None:
    """Each way to break."""
    done = bench.break_at("nothing_broken")
    tell("nothing is broken", done.status == 0 and not done.complaint and b"Verdict: All 20,000 " in done.out, done)
    with ThreadPoolExecutor(3) as pool:
        for (broken, said), done in zip(BROKEN.items(), pool.map(bench.break_at, BROKEN)):
            tell(f"{broken}: status 2, and no output", done.status == 2 and not done.out, done)
            tell(f"{broken}: what is said", done.complaint.startswith(said) and done.complaint.count("\n") == 1, done)
            is_over = not any(os.path.exists(f"/proc/{it}") for it in done.called)
            tell(f"{broken}: nothing is left", is_over and not done.left, done)


def check_counts(bench: Bench) -> None:
    """How often ssign is run, and that each run is handed the log: one run, and another one where texts or times are shown."""
    with open("log", "rb") as file:
        log = file.read()
    with gzip.open("log.gz", "wb") as packed:
        packed.write(log)
    handed = [len(log), hashlib.sha256(log).hexdigest()]
    for what, words, more in (("plain", [], []), ("--json", ["--json"], ["inspect"]), ("a page", ["--html", "page"], ["inspect"]),
                              ("details and a page", ["--details", "--html", "page"], ["inspect"]), ("by two", ["--jobs", "2"], [])):
        for name in ("log", "log.gz", "-"):
            called = f"counted.{what.replace(' ', '-')}.{name}"
            with open("log", "rb") as source:
                done = finished(bench.start(called, {}, *words, name, stdin=source.fileno()), called)
            if "page" in what:
                os.remove(words[-1])
            runs = [json.loads(it) for it in done.called]
            tell(f"{what}, {name}: the status", done.status == 0 and bool(done.out), done)
            tell(f"{what}, {name}: how often ssign is run", runs == [[it, *handed] for it in ("review", *more)], runs)


def check_counts_of_findings(bench: Bench) -> None:
    """How often ssign is run over a log with a changed message: once to review, once for texts, and once more for a raw report."""
    with open("log", "rb") as file:
        log = bytearray(file.read())
    log[log.index(b"message 77 ")] ^= 1
    with open("log.found", "wb") as file:
        file.write(log)
    handed = [len(log), hashlib.sha256(log).hexdigest()]
    for what, words, wanted in (("plain", [], ["review", "inspect"]), ("--json", ["--json"], ["review", "inspect"]),
                                ("--raw", ["--raw"], ["review", "review"])):
        called = f"found.{what}"
        done = finished(bench.start(called, {}, *words, "log.found"), called)
        runs = [json.loads(it) for it in done.called]
        tell(f"{what}, a changed message: the status", done.status == 1 and bool(done.out), done)
        tell(f"{what}, a changed message: how often ssign is run", runs == [[it, *handed] for it in wanted], runs)


class Groups(ReportVisitor):
    """Keeps the groups of a report, and the neighbours of each number that isn't listed."""

    def __init__(self) -> None:
        super().__init__(is_in_order=True)
        self.found: List[Tuple[int, ...]] = []
        self.neighbours: List[Tuple[int, int, int]] = []
        self._last, self._waits = (0, 0), False

    def begin_group(self, group: Group) -> None:
        """No neighbour yet."""
        self._last, self._waits = (0, 0), False

    def listed(self, group: Group, numbers: Sequence[int], places: Sequence[int]) -> None:
        """The neighbour after a run."""
        if self._waits:
            self.neighbours.append((1, numbers[0], places[0]))
        self._last, self._waits = (numbers[-1], places[-1]), False

    def gap(self, group: Group, number: int, why: str) -> None:
        """The neighbour before a run."""
        self.neighbours.append((number, *self._last))
        self._waits = True

    def hole(self, group: Group, first: int, last: int) -> None:
        """The same."""
        self.gap(group, first, "hole")

    def end_group(self, group: Group) -> None:
        """All that is counted."""
        self.found.append((group.sg, group.spri, group.first, group.last, group.announced, group.listed, group.lost, group.disputed,
                           group.unannounced, group.out_of_order, group.first_out_of_order))


def read(report: bytes, is_brief: bool) -> Groups:
    """What is read of a report."""
    groups = Groups()
    Reading(groups, is_brief=is_brief).read(io.BytesIO(report), Progress())
    return groups


def is_refused(report: bytes) -> bool:
    """Whether a report in brief is refused."""
    try:
        read(report, True)
    except Fault:
        return True
    return False


def frames(octets: bytes) -> Iterator[bytes]:
    """The frames of a log."""
    while octets:
        digits = octets[:octets.index(b" ") + 1]
        frame = octets[:len(digits) + int(digits)]
        octets = octets[len(frame):]
        yield frame


def check_brief(tool: str, program: str) -> None:
    """A report in brief is read as the whole one is, and none that lost a line about a number."""
    with open("log", "rb") as file:
        stored = list(frames(file.read()))
    signatures = [at for at, it in enumerate(stored) if b"[ssign VER=" in it]
    for what, lost in (("nothing", []), ("a message", [50]), ("messages and a block", [4, 5, 9, 11, 300, signatures[3]]),
                       ("the front", list(range(5, 130))), ("the last messages and blocks", list(range(len(stored) - 250, len(stored)))),
                       ("every third", list(range(3, 600, 3)) + signatures[2:40:9])):
        gone = set(lost)
        with open("log.lost", "wb") as file:
            file.write(b"".join(it for at, it in enumerate(stored) if at not in gone))
        if os.path.exists("answers.lost"):
            os.remove("answers.lost")
        subprocess.run([tool, "verify", *KEY, "--ssign", program, "--raw", "--answers-out", "answers.lost", "log.lost"], check=False,
                       stdout=subprocess.DEVNULL, stderr=subprocess.DEVNULL)
        whole, brief = (review(program, more) for more in ([], ["--brief"]))
        one, other = read(whole, False), read(brief, True)
        tell(f"{what} lost: counts in brief", one.found == other.found != [], (one.found, other.found))
        tell(f"{what} lost: neighbours in brief", one.neighbours == other.neighbours, (one.neighbours[:9], other.neighbours[:9]))
        lines = brief.splitlines(True)
        needed = [at for at in range(1, len(lines)) if is_needed([word_of(it) for it in lines[at - 1:at + 2]])]
        taken = [lines[at] for at in needed[:100] + needed[-3:] if not is_refused(b"".join(lines[:at] + lines[at + 1:]))]
        tell(f"{what} lost: a report in brief that lost a line", not taken and (len(needed) > 2) == bool(one.neighbours), taken)


def is_needed(words: Sequence[bytes]) -> bool:
    """Whether the middle one of three lines is missed where it is lost: not a listed one that is beside others of its kind alone."""
    others = (b"gap", b"hole")
    return words[1] in (*others, b"end") or words[1] in (b"ok", b"tally") and (words[0] in others or words[2:] != [] and words[2] in others)


def review(program: str, more: Sequence[str]) -> bytes:
    """The report on the log that lost something."""
    with open("log.lost", "rb") as log:
        words = [program, "review", "--json", "--in-order", "--answers=answers.lost", *more]
        return subprocess.run(words, stdin=log, stdout=subprocess.PIPE, check=False).stdout


def check_changed(bench: Bench) -> None:
    """A log that is changed through a map while it is reviewed: the octets of no one moment were handed over, so the next run would get
    others, and nothing is shown."""
    shutil.copyfile("log", "mapped")
    with open("mapped", "r+b") as file, mmap.mmap(file.fileno(), 0) as pages:
        places = 50, len(pages) - 700
        for place in places:
            pages[place] = pages[place]
        before = hashlib.sha256(pages).hexdigest()
        child = bench.start("changed", {"CHANGE": "1"}, "--json", "mapped")
        while not os.path.exists("changing") and child.poll() is None:
            time.sleep(0.01)
        for place in places:
            pages[place] ^= 1
        after = hashlib.sha256(pages).hexdigest()
        os.rename("changing", "changed-once")
        done = finished(child, "changed")
    first, *others = [json.loads(it) for it in done.called]
    tell("a log that is changed meanwhile: it is refused", done.status == 2 and not done.out and CHANGED in done.complaint, done)
    tell("a log that is changed meanwhile: what the review got", first[0] == "review" and first[2] not in (before, after), first)
    tell("a log that is changed meanwhile: the next run gets other octets", all(it[2] == after for it in others), others)


def main(tool: str, program: str) -> None:
    """All tests."""
    bench = Bench(tool, program)
    check_counts(bench)
    check_counts_of_findings(bench)
    check_brief(tool, program)
    check_changed(bench)
    check_broken(bench)
    print(f"asking: {passed} passed, {failed} failed")


if __name__ == "__main__":
    if sys.argv[1] == "stand-in":
        sys.exit(stand_in(sys.argv[2], sys.argv[3:]))
    main(*sys.argv[1:])
