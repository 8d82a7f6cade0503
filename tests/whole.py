#!/usr/bin/env python3
"""What `ssign review --whole` reports on signature blocks that are missing, by the definition in docs/dev/FORMATS.md.

    whole.py model             the model alone, over the logs that were worked out by hand
    whole.py compare PROGRAM   and the program, over these, over logs that it signed, and over 2,000 logs by a seed

Behind the entries of a joined session stands a line `blocks` for each greatest run of values of GBC that none of its
verified signature blocks has, from 0 up to their greatest. The model takes the verified blocks and the plain report from
review_model.py. Each report is read as text and as JSON, whole and as findings, and without `--whole` it is that of a
review. The last line is `whole: N passed, M failed`.
"""
import collections
import itertools
import os
import random
import re
import subprocess
import sys
import tempfile

from counted_logs import make
from report_objects import fault_of
from review_examples import (
    ALL, C, C11, CERTIFICATE_ALONE, F1, F2, H1, K0, K2, M1, M2, NO_SIGNATURE, NO_TRUST, S, S7, S8, TA, TB, TC, TD, TE, A, B, always,
    certificate, h, signature)
from review_logs import LAST
from review_model import Log, kept, review, state
from review_runs import answers_text, answers_to, as_answers, frame, is_clean, joined, line, read_frames, read_lines, report_text

SEEDS = 2_000
# how many differences are shown
SHOWN = 5
ENTRIES = ("ok", "gap", "hole")
FORMS = [[], ["--findings"], ["--json"], ["--json", "--findings"]]

passed = failed = 0


def tell(what, fault=""):
    """One check, passed where there is no fault."""
    global passed, failed
    if not fault:
        passed += 1
        return
    failed += 1
    if failed <= SHOWN:
        print(f"whole: {what}: FAILED\n    {fault}")


# ---- the definition

def runs_missing(counters):
    """The greatest runs of numbers from 0 to the greatest of these that aren't among them."""
    runs, first = [], 0
    for counter in sorted(set(counters)):
        if first < counter:
            runs.append((first, counter - 1))
        first = counter + 1
    return runs


def names_of(session):
    """The first four fields of a line about a session."""
    return " ".join([*(field.decode() for field in session[:3]), str(session[3])])


def lines_missing(log, session, trusted, valid):
    """The lines of a session about its missing blocks."""
    _, verified = state(log, session, trusted, valid)
    runs = runs_missing(block.gbc for block in verified if not block.is_certificate)
    return [f"blocks {names_of(session)} {first} {last}" for first, last in runs]


def whole_text(log, trusted, valid, torn=None, known=()):
    """The lines of the report with the missing blocks."""
    part = kept(log, trusted, valid, known)
    sessions, text, waiting = iter(part.sessions), [], []
    for it in report_text(review(log, trusted, valid, known), torn):
        word = it.split(" ")[0]
        if word not in ENTRIES:
            text, waiting = text + waiting, []
        text.append(it)
        if word == "session":
            waiting = lines_missing(part, next(sessions), trusted, valid)
    return text


def without(text, word):
    return [it for it in text if it.split(" ")[0] != word]


def status_of(text):
    """The status of a report."""
    return int(not is_clean(text) or without(text, "blocks") != text)


def enumerated(counters):
    """The same runs as `runs_missing`, found number by number."""
    missing = [it for it in range(max(counters, default=0)) if it not in counters]
    runs = [list(run) for _, run in itertools.groupby(enumerate(missing), lambda pair: pair[1] - pair[0])]
    return [(run[0][1], run[-1][1]) for run in runs]


# ---- the logs that were worked out by hand

# one message a block, of the PRI 13 and 14 in turn, each PRI a group
G = [b"<%d>1 - - - - - - g%d" % (13 + i % 2, i) for i in range(5)]
G0, G1, G2, G3, G4 = G
N0, N1, N2, N3, N4 = (signature(h(text), sg=1, spri=13 + i % 2, gbc=i, first=i // 2 + 1) for i, text in enumerate(G))
J = "session h s - 1 joined"


def one(gbc, number=1, text=A, **how):
    """A block of one number, without a group."""
    return signature(text, gbc=gbc, first=number, **how)


def all_but(gbc):
    """Each signature is valid but that of the block with this GBC."""
    return always, lambda payload, signed, sign: b'GBC="%d"' % gbc not in signed


# name, messages, answers, lines of the report with --whole, its status
EXAMPLES = [
    ("an empty log", [], ALL, ["end 0"], 0),
    ("nothing is missing", [C, G0, N0, G1, N1, G2, N2, G3, N3, G4, N4], ALL,
     [J, "ok h s - 1 1 13 1 1", "ok h s - 1 1 13 2 5", "ok h s - 1 1 13 3 9", "ok h s - 1 1 14 1 3", "ok h s - 1 1 14 2 7",
      "end 11"], 0),
    ("the last block of a group is lost with its message, and later ones are there", [C, G0, N0, G1, N1, G2, N2, G4, N4], ALL,
     [J, "ok h s - 1 1 13 1 1", "ok h s - 1 1 13 2 5", "ok h s - 1 1 13 3 7", "ok h s - 1 1 14 1 3", "blocks h s - 1 3 3",
      "end 9"], 1),
    ("all of a group is lost", [C, G0, N0, G2, N2, G4, N4], ALL,
     [J, "ok h s - 1 1 13 1 1", "ok h s - 1 1 13 2 3", "ok h s - 1 1 13 3 5", "blocks h s - 1 1 1", "blocks h s - 1 3 3",
      "end 7"], 1),
    ("all of the group that began is lost", [C, G1, N1, G3, N3], ALL,
     [J, "ok h s - 1 1 14 1 1", "ok h s - 1 1 14 2 3", "blocks h s - 1 0 0", "blocks h s - 1 2 2", "end 5"], 1),
    ("the very last block is lost with its message, which nothing shows", [C, G0, N0, G1, N1, G2, N2, G3, N3], ALL,
     [J, "ok h s - 1 1 13 1 1", "ok h s - 1 1 13 2 5", "ok h s - 1 1 14 1 3", "ok h s - 1 1 14 2 7", "end 9"], 0),
    ("all blocks but the last are lost with their messages", [C, G4, N4], ALL,
     [J, "hole h s - 1 1 13 1 2", "ok h s - 1 1 13 3 1", "blocks h s - 1 0 3", "end 3"], 1),
    ("the first block is lost", [M1, M2, C, one(1, 2, B)], ALL,
     [J, "hole h s - 1 0 0 1 1", "ok h s - 1 0 0 2 1", "blocks h s - 1 0 0", "unlisted 0", "end 4"], 1),
    ("a block in the middle is lost", [G0, G2, C, one(0, 1, h(G0)), one(2, 3, h(G2))], ALL,
     [J, "ok h s - 1 0 0 1 0", "hole h s - 1 0 0 2 2", "ok h s - 1 0 0 3 1", "blocks h s - 1 1 1", "end 5"], 1),
    ("some of an originator's log", [F2, F1, F1, TE, K2, TD, TA, TB, TC, K0], ALL,
     [J, "ok h s - 1 1 13 1 6", "ok h s - 1 1 13 2 8", "ok h s - 1 1 13 3 3", "blocks h s - 1 1 1", "unlisted 5", "unlisted 7",
      "end 10"], 1),
    ("several runs, and the blocks in no order", [C, one(7), one(1), one(3)], ALL,
     [J, "gap h s - 1 0 0 1 lost", "blocks h s - 1 0 0", "blocks h s - 1 2 2", "blocks h s - 1 4 6", "end 4"], 1),
    ("a block twice", [M1, M2, C, S, S], ALL, [J, "ok h s - 1 0 0 1 0", "ok h s - 1 0 0 2 1", "end 5"], 0),
    ("each block twice, and one is missing", [M1, M2, S7, S7, one(2, 2, B), one(2, 2, B), C, C], ALL,
     [J, "ok h s - 1 0 0 1 0", "ok h s - 1 0 0 2 1", "blocks h s - 1 1 1", "end 8"], 1),
    ("a block with two signatures", [M1, C, S7, one(0, sign=b' SIGN="AQ=="')], ALL, [J, "ok h s - 1 0 0 1 0", "end 4"], 0),
    ("two blocks with one GBC and other contents", [M1, M2, C, S7, one(0, 2, B)], ALL,
     [J, "ok h s - 1 0 0 1 0", "ok h s - 1 0 0 2 1", "end 5"], 0),
    ("two blocks with one GBC that isn't 0", [M1, M2, C, S7, one(2, 2, B), one(2, 2, B, sg=1)], ALL,
     [J, "ok h s - 1 0 0 1 0", "ok h s - 1 0 0 2 1", "hole h s - 1 1 0 1 1", "gap h s - 1 1 0 2 lost", "blocks h s - 1 1 1",
      "end 6"], 1),
    ("two hashes for one number", [M1, M2, C, S7, S8], ALL,
     [J, "gap h s - 1 0 0 1 disputed", "unlisted 0", "unlisted 1", "end 5"], 1),
    ("the greatest GBC alone", [M1, C, one(LAST)], ALL, [J, "ok h s - 1 0 0 1 0", "blocks h s - 1 0 9999999998", "end 3"], 1),
    ("the least GBC and the greatest", [M1, C, S7, one(LAST)], ALL,
     [J, "ok h s - 1 0 0 1 0", "blocks h s - 1 1 9999999998", "end 4"], 1),
    ("the two greatest GBC", [M1, C, one(LAST), one(LAST - 1)], ALL,
     [J, "ok h s - 1 0 0 1 0", "blocks h s - 1 0 9999999997", "end 4"], 1),
    ("numbers of ten digits in their order", [M1, C, one(LAST), one(10), one(9), one(1000000000)], ALL,
     [J, "ok h s - 1 0 0 1 0", "blocks h s - 1 0 8", "blocks h s - 1 11 999999999", "blocks h s - 1 1000000001 9999999998", "end 6"],
     1),
    ("a session that isn't trusted", [M1, C, one(5)], NO_TRUST,
     ["session h s - 1 untrusted", "unlisted 0", "refused 1", "refused 2", "end 3"], 1),
    ("a session that isn't accepted", [M1, C, one(5)], NO_SIGNATURE,
     ["session h s - 1 unaccepted", "unlisted 0", "refused 1", "refused 2", "end 3"], 1),
    ("a session without its certificate block", [one(5)], ALL, ["session h s - 1 incomplete", "refused 0", "end 1"], 1),
    ("a session that is disputed", [C, C11, one(5)], ALL,
     ["session h s - 1 disputed", "refused 0", "refused 1", "refused 2", "end 3"], 1),
    ("a session that is malformed", [certificate(total=1, fragment=b"x"), one(5)], ALL,
     ["session h s - 1 malformed", "refused 0", "refused 1", "end 2"], 1),
    ("a session without a signature block", [C], ALL, [J, "end 1"], 0),
    ("a session without a verified signature block", [M1, C, one(5)], CERTIFICATE_ALONE,
     [J, "unlisted 0", "refused 2", "end 3"], 1),
    ("the greatest GBC is refused", [M1, C, S7, one(5)], all_but(5), [J, "ok h s - 1 0 0 1 0", "refused 3", "end 4"], 1),
    ("a GBC in the middle is refused", [M1, C, S7, one(1), one(2)], all_but(1),
     [J, "ok h s - 1 0 0 1 0", "blocks h s - 1 1 1", "refused 3", "end 5"], 1),
    ("a GBC in the middle is spoilt", [M1, C, S7, one(1, count=b"2"), one(2)], ALL,
     [J, "ok h s - 1 0 0 1 0", "blocks h s - 1 1 1", "spoilt 3 S5", "end 5"], 1),
    ("two sessions, of which each misses what the other has", [M1, C, certificate(rsid=2), S7, one(2), one(1, rsid=2)], ALL,
     [J, "ok h s - 1 0 0 1 0", "blocks h s - 1 1 1", "session h s - 2 joined", "gap h s - 2 0 0 1 lost", "blocks h s - 2 0 0",
      "end 6"], 1),
    ("two sessions, of which the second one alone is joined", [M1, certificate(head=H1), one(3), one(1, head=H1)], ALL,
     ["session h s - 1 incomplete", "session h1 s - 1 joined", "ok h1 s - 1 0 0 1 0", "blocks h1 s - 1 0 0", "refused 2", "end 4"],
     1),
]
# what the objects of a log are, by hand
OBJECTS = [M1, C, one(3)], rb"""{"line":"session","host":"h","app":"s","procid":"-","rsid":1,"state":"joined"}
{"line":"ok","host":"h","app":"s","procid":"-","rsid":1,"sg":0,"spri":0,"number":1,"place":0}
{"line":"blocks","host":"h","app":"s","procid":"-","rsid":1,"first":0,"last":2}
{"line":"end","count":3}
"""


def examples():
    """The model of the logs that were worked out by hand."""
    for size in range(9):
        for counters in itertools.combinations(range(8), size):
            tell(f"the runs beside {counters}", "" if runs_missing(counters) == enumerated(counters) else repr(runs_missing(counters)))
    for name, messages, answers, wanted, status in EXAMPLES:
        log = Log(messages)
        trusted, valid = answers_to(log, answers)
        said = whole_text(log, trusted, valid)
        tell(f"the model of {name}", "" if said == wanted else f"{said}\n    and not {wanted}")
        tell(f"the model of {name}: its status", "" if status_of(said) == status else f"{status_of(said)}")
        plain = report_text(review(log, trusted, valid))
        tell(f"the model of {name}: the plain report", "" if without(said, "blocks") == plain else f"{plain}")


# ---- the program

class Program:
    def __init__(self, path, folder):
        self.path, self.answers = path, os.path.join(folder, "answers")

    def run(self, words, octets=b""):
        """The status, standard output and standard error."""
        done = subprocess.run([self.path, *words], input=octets, capture_output=True, check=False, timeout=60)
        return done.returncode, done.stdout, done.stderr

    def others(self, command, *words):
        """These words behind each other command that the help lists, and behind what it has to be given: so none that was
        added is missed."""
        listed = [it.decode() for it in re.findall(rb"^  ([a-z][a-z0-9-]*)  +[A-Z]", self.run(["--help"])[1], re.MULTILINE)]
        assert command in listed and len(listed) > 2, listed
        signs = ["--payload", "- N", "--rsid", "1"]
        needed = {"plan": signs, "sign": signs, "explain": ["F1"]}
        return [[it, *needed.get(it, []), *words] for it in listed if it not in ("help", command)]

    def put_answers(self, text):
        with open(self.answers, "wb") as file:
            file.write(text)
        return ["--answers", self.answers]

    def sign(self, messages, *options):
        """A log that the program signed with three octets 0, and answers that call each of its blocks valid."""
        given = ["--payload", "2009-05-03T14:00:39Z K S0VZ", "--rsid", "1", *options]
        log = b"".join(map(frame, messages))
        seals = [it.replace(b"want ", b"seal ", 1) + b" AAAA\n" for it in self.run(["plan", *given], log)[1].splitlines()]
        signed = self.run(["sign", *self.put_answers(b"".join(seals)), *given], log)[1]
        return signed, as_answers(self.run(["questions"], signed)[1])


def fault_of_form(words, said, wanted, status):
    """What is wrong with a report in a form, of which the plain text is wanted."""
    if said[0] != status:
        return f"status {said[0]}, and not {status}: {said[2][:300]!r}"
    if said[2]:
        return f"it complains: {said[2][:300]!r}"
    text = joined(without(wanted, "ok") if "--findings" in words else wanted)
    if "--json" in words:
        return fault_of(text, said[1])
    return "" if said[1] == text else f"{said[1][:1000]!r}\n    and not {text[:1000]!r}"


def check(program, what, octets, options, wanted, forms):
    """The checks of one log: each form with --whole, and one without it."""
    for words in forms:
        said = program.run(["review", "--whole", *words, *options], octets)
        tell(f"{what}: {' '.join(['--whole', *words])}", fault_of_form(words, said, wanted, status_of(wanted)))
    words, plain = forms[-1], without(wanted, "blocks")
    said = program.run(["review", *words, *options], octets)
    tell(f"{what}: without --whole", fault_of_form(words, said, plain, int(not is_clean(plain))))


def by_hand(program):
    for name, messages, answers, wanted, status in EXAMPLES:
        options = program.put_answers(answers_text(*answers_to(Log(messages), answers)))
        for unit, form in ((frame, []), (line, ["--lines"])):
            check(program, name, b"".join(map(unit, messages)), [*options, *form], wanted, FORMS)
        torn = [*wanted[:-1], f"torn {len(b''.join(map(frame, messages)))}", wanted[-1]]
        check(program, f"{name}, torn", b"".join(map(frame, messages)) + b"9 <", options, torn, FORMS)
        said = program.run(["review", "--whole", *options], b"".join(map(frame, messages)))
        tell(f"{name}: its status", "" if said[0] == status else f"status {said[0]}")
    messages, wanted = OBJECTS
    options = program.put_answers(answers_text(*answers_to(Log(messages), ALL)))
    said = program.run(["review", "--json", "--whole", *options], b"".join(map(frame, messages)))
    tell("objects by hand", "" if said == (1, wanted, b"") else f"{said}")
    findings = b"".join(it for it in wanted.splitlines(keepends=True) if b'"ok"' not in it)
    for words in itertools.permutations(["--findings", "--json", "--whole"]):
        said = program.run(["review", *words, *options], b"".join(map(frame, messages)))
        tell(" ".join(words), "" if said == (1, findings, b"") else f"{said}")


def by_signing(program):
    """Each set of blocks of a log that the program signed, with all of its messages."""
    texts = [b"<%d>1 - - - - - - %d" % (13 + i % 3, i) for i in range(6)]
    signed, answers = program.sign(texts, "--groups", "pri", "--count", "1", "--host", 'a"b\\c', "--app", "s")
    messages, _ = read_frames(signed)
    blocks = {Log([it]).blocks[0].gbc: it for it in messages if b"[ssign " in it}
    tell("the program signs six blocks", "" if sorted(blocks) == list(range(6)) else f"{sorted(blocks)}")
    options = program.put_answers(answers)
    for size in range(7):
        for kept in itertools.combinations(blocks, size):
            octets = b"".join(frame(it) for it in messages if it not in blocks.values() or it in [blocks[gbc] for gbc in kept])
            said = program.run(["review", "--whole", *options], octets)
            plain = program.run(["review", *options], octets)
            lines = said[1].decode().splitlines()
            told = [it for it in lines if it.startswith("blocks ")]
            wanted = [f'blocks a"b\\c s - 1 {first} {last}' for first, last in enumerated(kept)]
            what = f"of six blocks {kept} are there"
            tell(what, "" if told == wanted else f"{told}, and not {wanted}")
            tell(f"{what}: the rest", "" if joined(without(lines, "blocks")) == plain[1] else f"{plain}")
            tell(f"{what}: the status", "" if said[0] == int(bool(wanted) or plain[0] == 1) else f"status {said[0]}")


def refusals(program):
    log = frame(M1)
    for words in FORMS:
        said = program.run(["review", "--whole", *words], b"x" + log)
        tell(f"a refusal: --whole {' '.join(words)}", "" if said == (2, b"", b"ssign: F1 0\n") else f"{said}")
    mistakes = [["review", word] for word in ("--whole=x", "--whole=", "--whol", "--wholes", "-w", "--no-whole")]
    mistakes += [["review", "--whole", "--whole"], ["review", "--whole", "x"]]
    mistakes += program.others("review", "--whole")
    for words in mistakes:
        status, out, err = program.run(words, log)
        tell(" ".join(words), "" if status == 2 and err and not out else f"status {status} {out!r} {err!r}")


# ---- logs by a seed

def kinds_of(text, log, trusted, valid, torn):
    """What is in a log and its report."""
    runs = [it.split(" ") for it in text if it.startswith("blocks ")]
    states = {session: state(log, session, trusted, valid) for session in log.sessions}
    if runs and is_clean(without(text, "blocks")):
        yield "a report that is clean but for a missing block"
    if not runs and is_clean(text) and "joined" in (found for found, _ in states.values()):
        yield "a clean report"
    if runs and torn is not None:
        yield "a missing block in a torn log"
    for names, count in collections.Counter(tuple(run[1:5]) for run in runs).items():
        yield "a session with two runs" if count > 1 else "a session with one run"
        if " ".join(["session", *names, "joined"]) not in text:
            yield "a run of a session that isn't joined"
    if len({tuple(run[1:5]) for run in runs}) > 1:
        yield "two sessions with a run"
    for run in runs:
        yield "a run from 0" if run[5] == "0" else "a run behind a block"
        yield "a run of one" if run[5] == run[6] else "a run of several"
        if run[6] == "9999999998":
            yield "a run up to the greatest GBC"
    for session, (found, verified) in states.items():
        counters = [block.gbc for block in verified if not block.is_certificate]
        if len(set(counters)) < len(counters):
            yield "one GBC twice"
        stored = [block.gbc for block in log.of(session) if not block.is_certificate]
        if found == "joined" and runs_missing(stored) != runs_missing(counters):
            yield "a GBC that is refused"
        if found != "joined" and runs_missing(stored):
            yield "a session that isn't joined, with a GBC missing"


KINDS = ["a report that is clean but for a missing block", "a clean report", "a missing block in a torn log", "a session with two runs",
         "a session with one run", "two sessions with a run", "a run from 0", "a run behind a block", "a run of one",
         "a run of several", "a run up to the greatest GBC", "one GBC twice", "a GBC that is refused",
         "a session that isn't joined, with a GBC missing"]


def by_seed(program):
    reached = collections.Counter()
    for seed in range(SEEDS):
        messages, trusted, valid = make(seed)
        chance = random.Random(-seed)
        of_lines = seed % 2 == 1
        # a frame has an octet, and a line has no LF in it
        octets = b"".join((line if of_lines else frame)(it) for it in messages if it and not (of_lines and b"\n" in it))
        if seed % 5 == 0:
            octets = octets[:chance.randint(0, len(octets))]
        messages, torn = (read_lines if of_lines else read_frames)(octets)
        log = Log(messages)
        wanted = whole_text(log, trusted, valid, torn)
        options = [*program.put_answers(answers_text(trusted, valid)), *(["--lines"] if of_lines else [])]
        check(program, f"seed {seed}", octets, options, wanted, [[], FORMS[1 + seed // 2 % 3]])
        reached.update(kinds_of(wanted, log, trusted, valid, torn))
    for kind in KINDS:
        print(f"whole: {reached[kind]:6} {kind}")
        tell(f"some log has {kind}", "" if reached[kind] else "none has")
    count = reached["a run of a session that isn't joined"]
    tell("no run is of a session that isn't joined", f"{count} are" if count else "")


def main():
    examples()
    if sys.argv[1:2] == ["compare"]:
        with tempfile.TemporaryDirectory() as folder:
            program = Program(sys.argv[2], folder)
            by_hand(program)
            by_signing(program)
            refusals(program)
            by_seed(program)
    print(f"whole: {passed} passed, {failed} failed")
    return failed > 0 or passed == 0


if __name__ == "__main__":
    sys.exit(main())
