#!/usr/bin/env python3
"""What `ssign` makes of a log if payloads are known beforehand: its option `--pinned`, by the definitions of
docs/dev/FORMATS.md and the model of review_model.py.

    pinned.py model [COUNT]             the model alone, over the logs by hand and COUNT by a seed, 10,000 without a number
    pinned.py compare PROGRAM [COUNT]   and each command of the program that has the option, octet for octet

Of each log by a seed there are two: with what strangers wrote, and without. So it is seen as well

  what strangers can't do   each number that is listed without them stays listed, and of the same text, where they make
                            no session joined that wasn't, and no two known payloads claim one session
  what the option changes   nothing but sessions that would be disputed without it, and what is counted to them

The last line is `pinned: N passed, M failed`.
"""
import base64
import collections
import os
import pathlib
import subprocess
import sys
import tempfile

from counters import counters_text
from nights import Told
from pinned_logs import make
from review_examples import A, B, C, C11, C9A, C9B, CI, CX, H1, M1, M2, P1, S7, S7I, ZEROS, certificate, never, signature
from review_model import Log, claimants, kept, questions, review
from review_runs import answers_text, answers_to, ended, extract_text, frame, is_clean, joined, question_lines, question_text, report_text
from whole import status_of, whole_text

LOGS = 10_000
# how many differences are shown
SHOWN = 3
REACHED = ["a session %s without the option and %s with it" % it for it in (
    ("disputed", "joined"), ("disputed", "disputed"), ("joined", "joined"), ("incomplete", "incomplete"))]
REACHED += ["a session that two payloads claim", "a block that is left out", "a log in which no two blocks disagree",
            "a session that strangers would have made disputed", "a number that stays listed"]

passed = failed = 0


def tell(what, wanted, said):
    """One check."""
    global passed, failed
    if wanted == said:
        passed += 1
        return
    failed += 1
    if failed <= SHOWN:
        print("pinned: %s: FAILED\n    wanted %s\n    said   %s" % (what, wanted, said))


# ---- attacks by hand

P2 = b"2009-05-03T14:00:40Z K S0VZ"
LONGER = P1[:-4] + b"S0VZS0VZ"
CL = [certificate(total=len(LONGER), fragment=LONGER), certificate(total=len(LONGER), index=2, fragment=LONGER[1:])]
FORGED = b' SIGN="AQ=="'
AGREES = certificate(index=4, fragment=P1[3:9], sign=FORGED)
OTHER_VER = certificate(ver=b"0121")
SHORT = certificate(total=20, fragment=P1[:20])
LATER = signature(B, first=2, gbc=1)
LISTED = ["ok h s - 1 0 0 1 0"]
JOINED, DISPUTED = ["session h s - 1 joined", *LISTED], ["session h s - 1 disputed"]


def valid_under(*payloads):
    """Each of these payloads is trusted, and a block is valid under the one that its SIGN `AAAA` and its octets belong to:
    a signature block under each, a certificate block under the one in which its fragment stands."""
    def accepts(payload, signed, sign):
        fragment = signed.partition(b' FRAG="')[2].partition(b'"')[0]
        return payload in payloads and sign == ZEROS and fragment in payload
    return lambda payload: payload in payloads, accepts


OWN = valid_under(P1)
BOTH = valid_under(P1, P2)
# name, messages, answers, known payloads, the report
EXAMPLES = [
    ("no stranger", [M1, C, S7], OWN, [P1], [*JOINED, "end 3"]),
    ("another octet", [M1, C, C11, S7], OWN, [P1], [*JOINED, "refused 2", "end 4"]),
    ("another octet, before all", [M1, C11, C, S7], OWN, [P1], [*JOINED, "refused 1", "end 4"]),
    ("another octet, and the option isn't given", [M1, C, C11, S7], OWN, [],
     [*DISPUTED, "unlisted 0", "refused 1", "refused 2", "refused 3", "end 4"]),
    ("another octet, and another payload is known", [M1, C, C11, S7], OWN, [LONGER],
     [*DISPUTED, "unlisted 0", "refused 1", "refused 2", "refused 3", "end 4"]),
    ("another length", [M1, C, CL[0], S7], OWN, [P1], [*JOINED, "refused 2", "end 4"]),
    ("a shorter length, and octets that stand there", [M1, C, SHORT, S7], OWN, [P1], [*JOINED, "refused 2", "end 4"]),
    ("valid, but of another length", [M1, C, certificate(total=28), S7], OWN, [P1], [*JOINED, "refused 2", "end 4"]),
    ("valid, but at another index", [M1, C, certificate(index=2, fragment=P1[:9]), S7], OWN, [P1],
     [*JOINED, "refused 2", "end 4"]),
    ("it agrees, and isn't valid", [M1, C, AGREES, S7], OWN, [P1], [*JOINED, "refused 2", "end 4"]),
    ("one that agrees, and one that doesn't", [M1, C, AGREES, C11, S7], OWN, [P1],
     [*JOINED, "refused 2", "refused 3", "end 5"]),
    ("valid under another VER", [M1, C, OTHER_VER, C11, S7], OWN, [P1], [*JOINED, "refused 3", "end 5"]),
    ("fragments that overlap, and a stranger's", [M1, C9B, C11, C9A, S7], OWN, [P1], [*JOINED, "refused 2", "end 5"]),
    ("a copy of a block", [M1, C, C, C11, C11, S7], OWN, [P1], [*JOINED, "refused 3", "refused 4", "end 6"]),
    ("a signature block of a stranger", [M1, C, C11, S7, signature(B, gbc=1, sign=FORGED)], OWN, [P1],
     [*JOINED, "refused 2", "refused 4", "end 5"]),
    ("a payload of which a fragment is missing", [M1, C9A, C11, S7], OWN, [P1],
     [*DISPUTED, "unlisted 0", "refused 1", "refused 2", "refused 3", "end 4"]),
    ("a payload of which a fragment isn't valid", [M1, C9A, certificate(index=18, fragment=b"39Z K S0VZ", sign=FORGED), C11, S7],
     OWN, [P1], [*DISPUTED, "unlisted 0", *("refused %d" % it for it in (1, 2, 3, 4)), "end 5"]),
    ("a payload that isn't trusted", [M1, C, C11, S7], (never, OWN[1]), [P1],
     [*DISPUTED, "unlisted 0", "refused 1", "refused 2", "refused 3", "end 4"]),
    ("a text that is no payload", [M1, CX, C, S7], valid_under(b"x"), [b"x"],
     [*DISPUTED, "unlisted 0", "refused 1", "refused 2", "refused 3", "end 4"]),
    ("a text that is no payload, and one that is", [M1, CX, C, S7], valid_under(P1, b"x"), [b"x", P1],
     [*JOINED, "refused 1", "end 4"]),
    ("two payloads claim the session", [M1, C, C11, S7], BOTH, [P1, P2],
     [*DISPUTED, "unlisted 0", "refused 1", "refused 2", "refused 3", "end 4"]),
    ("two are known, and one claims the session", [M1, C, C11, S7], OWN, [P2, P1], [*JOINED, "refused 2", "end 4"]),
    ("two are trusted, and one is known", [M1, C, C11, S7], BOTH, [P2],
     [*JOINED, "refused 1", "end 4"]),
    ("two claim the session, and a third is nobody's", [M1, C, C11, CL[0], S7], BOTH, [P1, P2, LONGER],
     [*DISPUTED, "unlisted 0", *("refused %d" % it for it in (1, 2, 3, 4)), "end 5"]),
    ("the other session of a payload", [M1, C, C11, S7, certificate(head=H1)], OWN, [P1],
     [*JOINED, "session h1 s - 1 joined", "refused 2", "end 5"]),
    ("a session without an own block is the strangers'",
     [M1, C, C11, S7, certificate(head=H1, fragment=P2, sign=FORGED)], OWN, [P1],
     [*JOINED, "session h1 s - 1 untrusted", "refused 2", "refused 4", "end 5"]),
    ("a stranger's text", [M1, C, C11, S7, M2], OWN, [P1], [*JOINED, "unlisted 4", "refused 2", "end 5"]),
    ("a spoilt block", [M1, C, certificate(size=3), S7], OWN, [P1], [*JOINED, "spoilt 2 S8", "end 4"]),
    ("a text that two sessions want, and the option isn't given", [C, C11, S7, CI, S7I, M1], OWN, [],
     [*DISPUTED, "session i s - 1 joined", "ok i s - 1 0 0 1 5", "refused 0", "refused 1", "refused 2", "end 6"]),
    ("a text that two sessions want", [C, C11, S7, CI, S7I, M1], OWN, [P1],
     ["session h s - 1 joined", "ok h s - 1 0 0 1 5", "session i s - 1 joined", "gap i s - 1 0 0 1 lost", "refused 1", "end 6"]),
    ("a later night", [C, LATER, M2], OWN, [P1],
     ["session h s - 1 joined", "hole h s - 1 0 0 1 1", "ok h s - 1 0 0 2 2", "end 3"]),
    ("a later night, and a stranger's copy of a block of the night before", [C, LATER, M2, S7], OWN, [P1],
     ["session h s - 1 joined", "gap h s - 1 0 0 1 lost", "ok h s - 1 0 0 2 2", "end 4"]),
    ("only strangers", [M1, C11, certificate(fragment=P1, sign=FORGED), S7], OWN, [P1],
     [*DISPUTED, "unlisted 0", "refused 1", "refused 2", "refused 3", "end 4"]),
]
# name, messages, known payloads, which payload is asked about and how often
QUESTIONS = [
    ("nothing is disputed", [C, S7], [P1], [(P1, 2)]),
    ("nothing is known", [C, C11, S7], [], []),
    ("one is known", [C, C11, S7], [P1], [(P1, 3)]),
    ("both are known", [C, C11, S7], [P2, P1], [(P2, 3), (P1, 3)]),
    ("one that doesn't stand there", [C, C11, S7], [LONGER], []),
    ("one of which a part is there", [C9A, C11, S7], [P1], []),
    ("one that no block states as a whole", [C9A, C9B, C11], [P1], [(P1, 3)]),
    ("no payload", [CX, C], [b"x"], []),
    ("one that is stated, and another one", [C, CL[0]], [P1, LONGER], [(P1, 2), (LONGER, 2)]),
    ("in two sessions", [C, C11, certificate(head=H1), S7], [P1], [(P1, 3), (P1, 1)]),
]


def examples():
    """The logs by hand, after the model was tried on them."""
    cases = []
    for name, messages, answers, known, wanted in EXAMPLES:
        log = Log(messages)
        trusted, valid = answers_to(log, answers, known)
        tell("the model of %s" % name, wanted, report_text(review(log, trusted, valid, known)))
        cases.append((name, messages, trusted, valid, known))
    for name, messages, known, wanted in QUESTIONS:
        said = []
        for word, payload, *_ in (it.split(" ") for it in questions(Log(messages), known)):
            said += [(bytes.fromhex(payload), 0)] if word == "trust" else []
            said[-1] = (said[-1][0], said[-1][1] + (word == "yes"))
        tell("what is asked: %s" % name, wanted, said)
        cases.append((name, messages, set(), set(), known))
    return cases


# ---- the program

class Program:
    """The program, with the files of one log."""

    def __init__(self, path, folder):
        self.path, self.answers, self.pinned = path, folder / "answers", folder / "pinned"

    def give(self, trusted, valid, known):
        """Puts the answers and the payloads that are known, of which the first stands twice, among lines of another kind."""
        self.answers.write_bytes(answers_text(trusted, valid))
        lines = [b"trust %s\n" % base64.b64encode(it) for it in [*known, *known[:1]]]
        self.pinned.write_bytes(b"".join(lines[:2] + [b"yes AAAA AAAA AAAA\n"] + lines[2:]))

    def run(self, words, octets):
        """The status, standard output and standard error."""
        words = [self.path, *words, "--pinned", self.pinned]
        done = subprocess.run(words, input=octets, capture_output=True, check=False, timeout=60)
        return done.returncode, done.stdout, done.stderr


def runs_of(messages, trusted, valid, known):
    """Each run with its status and its output, by the model."""
    log = Log(messages)
    lines = review(log, trusted, valid, known)
    text, missing = report_text(lines), whole_text(log, trusted, valid, None, known)
    part = kept(log, trusted, valid, known)
    return {
        "review": (int(not is_clean(text)), joined(text)),
        "review --whole": (status_of(missing), joined(missing)),
        "extract": (int(not is_clean(text)), extract_text(lines, messages)),
        "counters": (0, ended(counters_text(part, trusted, valid))),
        "questions": (0, joined(question_text(questions(log, known)))),
        "questions --once": (0, joined(question_lines(log, ["--once"], known))),
        "questions --once --json": (0, joined(question_lines(log, ["--once", "--json"], known))),
    }


def compare(program, name, messages, trusted, valid, known):
    """Each command over one log."""
    octets = b"".join(map(frame, messages))
    program.give(trusted, valid, known)
    # the program goes over them by their octets
    for words, (status, out) in runs_of(messages, trusted, valid, sorted(set(known))).items():
        command, *options = words.split(" ")
        options += [] if command == "questions" else ["--answers", program.answers]
        tell("%s, %s" % (name, words), (status, out, b""), program.run([command, *options], octets))


# ---- what holds of every log

def states(told):
    return {session: told.states[session] for session in told.log.sessions}


def texts_of(told, messages):
    """The text of each number that is listed."""
    return {key: messages[place] for key, place in told.listed.items()}


def lines_by_session(told):
    """What is reported of each session, and the refused blocks of each."""
    facts = collections.defaultdict(list)
    for session, state in told.states.items():
        facts[session].append(state)
    refused = set(told.refused)
    for block in told.log.blocks:
        facts[block.session].append((block.place, block.place in refused))
    return facts


def check_facts(seed, attack, reached):
    """Says what strangers could do in a log, and what the option changed."""
    own, whole = Log(attack.own), Log(attack.messages)
    answers = attack.trusted, attack.valid
    without, pinned, attacked = Told(whole, answers), Told(whole, (*answers, attack.known)), Told(own, (*answers, attack.known))
    found, before = states(pinned), states(without)
    disputed = {session for session in whole.sessions if whole.payload(session)[0] == "disputed"}
    for session in whole.sessions:
        reached["a session %s without the option and %s with it" % (before[session], found[session])] += 1
        reached["a block that is left out"] += len(whole.of(session)) > len(kept(whole, *answers, attack.known).of(session))
    if not disputed:
        reached["a log in which no two blocks disagree"] += 1
        tell("seed %d: no two blocks disagree" % seed, review(whole, *answers), review(whole, *answers, attack.known))
    of_others = [{session: facts for session, facts in lines_by_session(told).items() if session not in disputed}
                 for told in (without, pinned)]
    tell("seed %d: the other sessions" % seed, *of_others)
    twice = [session for session in whole.sessions if len(claimants(whole, session, *answers, attack.known)) > 1]
    reached["a session that two payloads claim"] += len(twice)
    tell("seed %d: two payloads" % seed, [], [session for session in twice if found[session] != "disputed"])
    joined_before = {session for session, state in states(attacked).items() if state == "joined"}
    claimed = {session for session in joined_before if claimants(own, session, *answers, attack.known)}
    if not twice and joined_before == claimed and all(found[session] != "joined" or session in claimed for session in found):
        listed, now = texts_of(attacked, attack.own), texts_of(pinned, attack.messages)
        reached["a number that stays listed"] += len(listed)
        reached["a session that strangers would have made disputed"] += len(claimed & disputed)
        tell("seed %d: what was listed" % seed, listed, {key: text for key, text in now.items() if key in listed})


def main():
    word, *words = sys.argv[1:]
    path = os.path.abspath(words.pop(0)) if word == "compare" else None
    count = int(words[0]) if words else LOGS
    reached = collections.Counter()
    cases = examples()
    with tempfile.TemporaryDirectory() as folder:
        program = path and Program(path, pathlib.Path(folder))
        for it in cases if program else []:
            compare(program, *it)
        for seed in range(count):
            attack = make(seed)
            check_facts(seed, attack, reached)
            if program:
                compare(program, "seed %d" % seed, attack.messages, attack.trusted, attack.valid, attack.known)
    for kind in sorted(reached.keys() | set(REACHED)):
        print("pinned: %6d %s" % (reached[kind], kind))
    for kind in REACHED:
        tell("some log has %s" % kind, True, reached[kind] > 0)
    print("pinned: %d passed, %d failed" % (passed, failed))
    return failed > 0 or passed == 0


if __name__ == "__main__":
    sys.exit(main())
