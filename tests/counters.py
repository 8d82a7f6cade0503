#!/usr/bin/env python3
"""What `ssign counters` reports on a log, by the definition in docs/dev/FORMATS.md.

    counters.py model             the model alone, over the logs that were worked out by hand and over 2,000 logs by a seed
    counters.py compare PROGRAM   and the program, over these and over logs that it signed

Of each joined session there is a line `count` with the next GBC: one more than the greatest of its verified signature
blocks, or 0. Then there is one for each of its groups, with the next number: one more than the greatest that is announced.
The model takes the verified blocks from review_model.py; the report of that model has to say the same of the numbers. The
program's last line `end` says how many lines there are. The last line is `counters: N passed, M failed`.
"""
import collections
import os
import random
import subprocess
import sys
import tempfile

from counted_logs import make
from review_examples import (
    A, ALL, B, C, C1, C11, C2, CERTIFICATE_ALONE, CI, H1, M1, M2, NO_SIGNATURE, NO_TRUST, S, S7, S8, always, certificate, h, signature)
from review_logs import LAST
from review_model import Log, review, state
from review_runs import answers_text, answers_to, as_answers, ended, frame, line, read_frames, read_lines, report_text

SEEDS = 2_000
# how many differences are shown
SHOWN = 5

passed = failed = 0


def tell(what, fault=""):
    """One check, passed where there is no fault."""
    global passed, failed
    if not fault:
        passed += 1
        return
    failed += 1
    if failed <= SHOWN:
        print(f"counters: {what}: FAILED\n    {fault}")


# ---- the definition

def counters_text(log, trusted, valid):
    """The lines of the counters."""
    text = []
    for session in log.sessions:
        found, verified = state(log, session, trusted, valid)
        if found != "joined":
            continue
        names = " ".join([*(field.decode() for field in session[:3]), str(session[3])])
        blocks = [block for block in verified if not block.is_certificate]
        text.append(f"count {names} {max((block.gbc for block in blocks), default=-1) + 1}")
        for group in sorted({block.group for block in blocks}):
            numbers = [number for block in blocks if block.group == group for number, _, _ in block.rows]
            text.append(f"count {names} {group[0]} {group[1]} {max(numbers) + 1}")
    return text


def next_numbers(report):
    """The fields of the groups in the counters, by the `ok` and `gap` lines of a report."""
    greatest = collections.defaultdict(int)
    for word, *fields in (it.split(" ") for it in report):
        if word in ("ok", "gap"):
            greatest[tuple(fields[:6])] = max(greatest[tuple(fields[:6])], int(fields[6]))
    return [[*group, str(number + 1)] for group, number in greatest.items()]


def fault_of_groups(text, report):
    """Whether the counters have the sessions and groups of a report, in its order."""
    lines = [it.split(" ")[1:] for it in text]
    sessions = [it.split(" ")[1:5] for it in report if it.startswith("session ") and it.endswith(" joined")]
    if [it[:4] for it in lines if len(it) == 5] != sessions:
        return f"{text} has other sessions than {report}"
    return "" if [it for it in lines if len(it) == 7] == next_numbers(report) else f"{text} has other groups than {report}"


# ---- the logs that were worked out by hand

# one message a block, of the PRI 13 and 14 in turn, each PRI a group
G = [b"<%d>1 - - - - - - g%d" % (13 + i % 2, i) for i in range(5)]
G0, G1, G2, G3, G4 = G
N0, N1, N2, N3, N4 = (signature(h(text), sg=1, spri=13 + i % 2, gbc=i, first=i // 2 + 1) for i, text in enumerate(G))


def one(gbc, number=1, text=A, **how):
    """A block of one number."""
    return signature(text, gbc=gbc, first=number, **how)


def all_but(gbc):
    """Each signature is valid but that of the block with this GBC."""
    return always, lambda payload, signed, sign: b'GBC="%d"' % gbc not in signed


# name, messages, answers, lines
EXAMPLES = [
    ("an empty log", [], ALL, []),
    ("a log without blocks", [M1, M2], ALL, []),
    ("one block of two messages", [M1, M2, C, S], ALL, ["count h s - 1 1", "count h s - 1 0 0 3"]),
    ("the messages aren't there", [C, S], ALL, ["count h s - 1 1", "count h s - 1 0 0 3"]),
    ("a block three times", [M1, M2, C, S, S, S], ALL, ["count h s - 1 1", "count h s - 1 0 0 3"]),
    ("a session without a signature block", [C], ALL, ["count h s - 1 0"]),
    ("a session without a verified signature block", [M1, C, one(5)], CERTIFICATE_ALONE, ["count h s - 1 0"]),
    ("a session that isn't trusted", [M1, M2, C, S], NO_TRUST, []),
    ("a session that isn't accepted", [M1, M2, C, S], NO_SIGNATURE, []),
    ("a session without its certificate block", [M1, M2, S], ALL, []),
    ("a session that is disputed", [M1, C, C11, S7], ALL, []),
    ("a session that is malformed", [certificate(total=1, fragment=b"x"), S], ALL, []),
    ("two groups", [C, G0, N0, G1, N1, G2, N2, G3, N3, G4, N4], ALL,
     ["count h s - 1 5", "count h s - 1 1 13 4", "count h s - 1 1 14 3"]),
    ("two groups, the last block cut off with its message", [C, G0, N0, G1, N1, G2, N2, G3, N3], ALL,
     ["count h s - 1 4", "count h s - 1 1 13 3", "count h s - 1 1 14 3"]),
    ("two groups, the last block of one lost with its message", [C, G0, N0, G1, N1, G2, N2, G4, N4], ALL,
     ["count h s - 1 5", "count h s - 1 1 13 4", "count h s - 1 1 14 2"]),
    ("one of two groups lost", [C, G0, N0, G2, N2, G4, N4], ALL, ["count h s - 1 5", "count h s - 1 1 13 4"]),
    ("two groups, the blocks in another order", [N4, N1, N0, G0, N3, C, N2], ALL,
     ["count h s - 1 5", "count h s - 1 1 13 4", "count h s - 1 1 14 3"]),
    ("the first block lost", [M2, C, one(1, 2, B)], ALL, ["count h s - 1 2", "count h s - 1 0 0 3"]),
    ("the greatest GBC and the greatest number in two blocks", [C, one(9, 1), one(3, 20)], ALL,
     ["count h s - 1 10", "count h s - 1 0 0 21"]),
    ("several hashes in a block", [C, signature(A, B, A, gbc=2, first=5)], ALL, ["count h s - 1 3", "count h s - 1 0 0 8"]),
    ("the greatest GBC and the greatest number", [C, one(LAST, LAST)], ALL,
     ["count h s - 1 10000000000", "count h s - 1 0 0 10000000000"]),
    ("numbers of nine and ten digits", [C, one(999999999, 999999999), one(1000000000, 1000000000)], ALL,
     ["count h s - 1 1000000001", "count h s - 1 0 0 1000000001"]),
    ("groups by SG and SPRI", [C, *(one(0, i + 1, sg=sg, spri=spri) for i, (sg, spri) in enumerate(
        [(3, 191), (1, 13), (0, 0), (1, 100), (1, 9), (2, 0)]))], ALL,
     ["count h s - 1 1", "count h s - 1 0 0 4", "count h s - 1 1 9 6", "count h s - 1 1 13 3", "count h s - 1 1 100 5",
      "count h s - 1 2 0 7", "count h s - 1 3 191 2"]),
    ("a certificate block in a group of its own", [certificate(sg=1, spri=110), one(0, sg=1, spri=13)], ALL,
     ["count h s - 1 1", "count h s - 1 1 13 2"]),
    ("two hashes for one number", [M1, M2, C, S7, S8], ALL, ["count h s - 1 2", "count h s - 1 0 0 2"]),
    ("the greatest counters are refused", [C, one(1, 2), one(5, 9)], all_but(5), ["count h s - 1 2", "count h s - 1 0 0 3"]),
    ("a group whose blocks are refused", [C, one(1, 2), one(5, 9, sg=1)], all_but(5), ["count h s - 1 2", "count h s - 1 0 0 3"]),
    ("the greatest counters are spoilt", [C, one(1, 2), one(5, 9, count=b"2")], ALL, ["count h s - 1 2", "count h s - 1 0 0 3"]),
    ("sessions in their order", [CI, C2, C1, certificate(rsid=10), one(3, rsid=2), one(0, 4, rsid=10), one(6, 7, head=H1)], ALL,
     ["count h s - 2 4", "count h s - 2 0 0 2", "count h s - 10 1", "count h s - 10 0 0 5", "count h1 s - 1 7", "count h1 s - 1 0 0 8",
      "count i s - 1 0"]),
    ("two sessions, of which one is joined", [certificate(head=H1), one(3), one(1, head=H1)], ALL,
     ["count h1 s - 1 2", "count h1 s - 1 0 0 2"]),
]


def examples():
    """The model of the logs that were worked out by hand."""
    for name, messages, answers, wanted in EXAMPLES:
        log = Log(messages)
        trusted, valid = answers_to(log, answers)
        said = counters_text(log, trusted, valid)
        tell(f"the model of {name}", "" if said == wanted else f"{said}\n    and not {wanted}")
        tell(f"the model of {name}: its groups", fault_of_groups(said, report_text(review(log, trusted, valid))))


# ---- the program

class Program:
    def __init__(self, path, folder):
        self.path, self.answers = path, os.path.join(folder, "answers")

    def run(self, words, octets=b""):
        """The status, standard output and standard error."""
        done = subprocess.run([self.path, *words], input=octets, capture_output=True, check=False, timeout=60)
        return done.returncode, done.stdout, done.stderr

    def put_answers(self, text):
        with open(self.answers, "wb") as file:
            file.write(text)
        return ["--answers", self.answers]


def check(program, what, octets, options, wanted, torn=False):
    """One run of the program."""
    said = program.run(["counters", *options], octets)
    tell(what, "" if said == (int(torn), ended(wanted), b"") else f"{said}\n    and not {wanted}")


def by_hand(program):
    for name, messages, answers, wanted in EXAMPLES:
        options = program.put_answers(answers_text(*answers_to(Log(messages), answers)))
        frames, lines = (b"".join(map(unit, messages)) for unit in (frame, line))
        check(program, name, frames, options, wanted)
        check(program, f"{name}, as lines", lines, ["--lines", *options], wanted)
        check(program, f"{name}, torn", frames + b"9 <", options, wanted, True)
        check(program, f"{name}, torn lines", lines + b"<", [*options, "--lines"], wanted, True)
        check(program, f"{name}, unanswered", frames, [], [])


def by_signing(program):
    """Logs that the program signed with three octets 0, and each of their fronts."""
    payload = "2009-05-03T14:00:39Z K S0VZ"
    for count, copies in ((1, 1), (2, 1), (3, 2), (99, 1)):
        given = ["--payload", payload, "--rsid", "7", "--host", 'a"b\\c', "--groups", "pri", "--count", str(count), "--copies", str(copies)]
        texts = [b"<%d>1 - - - - - - %d" % (13 + i % 3, i) for i in range(10)]
        log = b"".join(map(frame, texts))
        plan = program.run(["plan", *given], log)[1].splitlines()
        seals = b"".join(it.replace(b"want ", b"seal ", 1) + b" AAAA\n" for it in plan)
        signed = program.run(["sign", *program.put_answers(seals), *given], log)[1]
        messages, _ = read_frames(signed)
        options = program.put_answers(as_answers(program.run(["questions"], signed)[1]))
        sent = {13: 4, 14: 3, 15: 3}
        blocks = sum(-(-it // count) for it in sent.values())
        wanted = [f'count a"b\\c - - 7 {blocks}'] + [f'count a"b\\c - - 7 1 {pri} {it + 1}' for pri, it in sent.items()]
        check(program, f"a signed log, {count} in a block", signed, options, wanted)
        before = []
        for end in range(len(messages) + 1):
            octets = b"".join(map(frame, messages[:end]))
            status, out, _ = program.run(["counters", *options], octets)
            lines = out.decode().splitlines()[:-1]
            wanted = counters_of_front(messages[:end])
            tell(f"the first {end} messages, {count} in a block", "" if (status, out) == (0, ended(wanted)) else f"{out}, and not {wanted}")
            # each line of a front is there later, with the same number or a greater one
            later = {it.rpartition(" ")[0]: int(it.rpartition(" ")[2]) for it in lines}
            out_of_order = [it for it in before if later.get(it.rpartition(" ")[0], -1) < int(it.rpartition(" ")[2])]
            tell(f"the first {end} messages, {count} in a block: counters rise", f"{out_of_order}" if out_of_order else "")
            before = lines


def counters_of_front(messages):
    """The counters of the front of such a log: what is announced counts where the certificate block is there."""
    blocks = [block for block in Log(messages).blocks if not block.is_certificate]
    if not Log(messages).certificates((b'a"b\\c', b"-", b"-", 7)):
        return []
    last = {}
    for block in blocks:
        last[block.group[1]] = block.rows[-1][0]
    gbc = blocks[-1].gbc + 1 if blocks else 0
    return [f'count a"b\\c - - 7 {gbc}'] + [f'count a"b\\c - - 7 1 {pri} {number + 1}' for pri, number in sorted(last.items())]


def refusals(program):
    messages = [M1, M2, C, S]
    log, options = b"".join(map(frame, messages)), program.put_answers(answers_text(*answers_to(Log(messages), ALL)))
    folder = os.path.dirname(program.answers)
    bad = os.path.join(folder, "bad")
    with open(bad, "wb") as file:
        file.write(b"trust AAAA\ntrust\n")
    for words, octets, wanted in (
            (options, b"x" + log, "F1 0"), (options, log + b"x", f"F1 {len(log)}"),
            ([*options, "--max-len", "158"], log, f"F2 {log.rindex(b'159 ') + 2}"),
            ([*options, "--max-messages", "3"], log, f"F5 {log.rindex(b'159 ')}"),
            ([*options, "--lines"], b"abc\n\n", "F9 4"), (["--answers", bad], log, "A1 2"),
            (["--answers", os.path.join(folder, "none")], log, "A2"), (["--answers", folder], log, "A2")):
        said = program.run(["counters", *words], octets)
        asked = program.run(["questions", *(it for it in words if it not in options)], octets)
        tell(f"a refusal: {wanted}", "" if said == (2, b"", f"ssign: {wanted}\n".encode()) else f"{said}")
        if wanted[0] == "F":
            tell(f"the refusal of questions: {wanted}", "" if said == asked else f"{said}, and not {asked}")
    with open("/dev/full", "wb") as full:
        done = subprocess.run([program.path, "counters", *options], input=log, stdout=full, stderr=subprocess.PIPE, check=False, timeout=60)
        tell("a full device", "" if (done.returncode, done.stderr) == (2, b"ssign: W1\n") else f"{done}")
    check(program, "the limits that are just met", log, [*options, "--max-len", "159", "--max-messages", "4"],
          ["count h s - 1 1", "count h s - 1 0 0 3"])
    mistakes = [["counters", word] for word in ("--whole", "--findings", "--payload", "x", "-1", "--answers", "--lines=x")]
    mistakes += [["counter"], ["counters", "--max-len", "0"], ["counters", "--max-messages", "-1"], ["counters", "--rsid", "1"]]
    for words in mistakes:
        status, out, err = program.run(words, log)
        tell(" ".join(words), "" if status == 2 and err.startswith(b"error: ") and not out else f"status {status} {out!r} {err!r}")


# ---- logs by a seed

KINDS = ["no joined session", "one joined session", "several joined sessions", "no signature block that counts", "one group",
         "several groups", "a group of SG 0", "a group of another SG", "the greatest GBC", "the greatest number", "a torn log",
         "a GBC that is refused"]


def kinds_of(text, log, trusted, valid, torn):
    """What is in a log and its counters."""
    lines = [it.split(" ") for it in text]
    groups = collections.Counter(tuple(it[1:5]) for it in lines if len(it) == 8)
    sessions = [tuple(it[1:5]) for it in lines if len(it) == 6]
    yield KINDS[min(len(sessions), 2)]
    for session in sessions:
        yield KINDS[3 + min(groups[session], 2)]
    for it in lines:
        if len(it) == 8:
            yield "a group of SG 0" if it[5] == "0" else "a group of another SG"
        if it[-1] == "10000000000":
            yield "the greatest GBC" if len(it) == 6 else "the greatest number"
    if text and torn is not None:
        yield "a torn log"
    for session in log.sessions:
        found, verified = state(log, session, trusted, valid)
        stored = [block.gbc for block in log.of(session) if not block.is_certificate]
        if found == "joined" and max(stored, default=-1) > max((it.gbc for it in verified if not it.is_certificate), default=-1):
            yield "a GBC that is refused"


def by_seed(program):
    reached = collections.Counter()
    for seed in range(SEEDS):
        messages, trusted, valid = make(seed)
        chance = random.Random(-seed)
        of_lines = seed % 2 == 1
        # a frame has an octet, and a line has no LF in it
        octets = b"".join((line if of_lines else frame)(it) for it in messages if it and not (of_lines and b"\n" in it))
        if seed % 5 == 0:
            octets = octets[:chance.randint(0, len(octets))]
        messages, torn = (read_lines if of_lines else read_frames)(octets)
        log = Log(messages)
        wanted = counters_text(log, trusted, valid)
        tell(f"the model of seed {seed}", fault_of_groups(wanted, report_text(review(log, trusted, valid))))
        if program:
            options = [*program.put_answers(answers_text(trusted, valid)), *(["--lines"] if of_lines else [])]
            check(program, f"seed {seed}", octets, options, wanted, torn is not None)
        reached.update(kinds_of(wanted, log, trusted, valid, torn))
    for kind in KINDS:
        print(f"counters: {reached[kind]:6} {kind}")
        tell(f"some log has {kind}", "" if reached[kind] else "none has")


def main():
    examples()
    program = None
    with tempfile.TemporaryDirectory() as folder:
        if sys.argv[1:2] == ["compare"]:
            program = Program(sys.argv[2], folder)
            by_hand(program)
            by_signing(program)
            refusals(program)
        by_seed(program)
    print(f"counters: {passed} passed, {failed} failed")
    return failed > 0 or passed == 0


if __name__ == "__main__":
    sys.exit(main())
