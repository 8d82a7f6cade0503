#!/usr/bin/env python3
"""Compares what `ssign review`, `extract`, and `questions` in each form write, and how they end, with `review_runs.py`.

    reports.py PROGRAM

over the logs that were worked out by hand, over logs by a seed as frames and as lines, whole and damaged, and over a small
log of which each bit is turned in turn. Damaged frames are read with `--salvage` too, for which `salvage_model.py` has a
second reader. `explain` has to tell of each word and number that was printed. The last line is
`reports: N passed, M failed`.
"""
import collections
import os
import random
import subprocess
import sys
import tempfile

from review_examples import ALL, C, EXAMPLES, M1, M2, QUESTIONS, S
from review_logs import make
from review_model import Log
from review_runs import MAX_LEN, MAX_MESSAGES, answers_text, answers_to, frame, joined, line, run
from salvage_model import Salvaged

COMMANDS = ("review", "questions", "questions --once", "questions --json", "questions --once --json", "extract")
SEEDS = 500
# how many differences are shown
SHOWN = 5
passed = failed = 0


def tell(what, fault=""):
    """One check, passed where there is no fault."""
    global passed, failed
    if not fault:
        passed += 1
        return
    failed += 1
    if failed <= SHOWN:
        print("reports: %s: FAILED\n%s" % (what, fault))


def shown(said):
    return "    status %d\n    %r\n    %r\n" % said


class Program:
    def __init__(self, path, folder):
        self.path, self.answers = path, os.path.join(folder, "answers")
        # the words and numbers that it printed of reviews and faults
        self.words = set()

    def say(self, command, octets, of_lines=False, max_len=MAX_LEN, max_messages=MAX_MESSAGES, answers=b"", salvage=False):
        """Its status, standard output and standard error."""
        words = [self.path, *command.split(" "), "--max-len", str(max_len), "--max-messages", str(max_messages)]
        words += ["--lines"] * of_lines + ["--salvage"] * salvage
        if not command.startswith("questions"):
            with open(self.answers, "wb") as file:
                file.write(answers)
            words += ["--answers", self.answers]
        done = subprocess.run(words, input=octets, capture_output=True, timeout=60)
        if command == "review":
            for fields in map(bytes.split, done.stdout.splitlines()):
                self.words |= {fields[0], fields[-1]} if fields[0] in (b"session", b"gap", b"spoilt") else {fields[0]}
        self.words |= set(done.stderr.split()[1:2])
        return done.returncode, done.stdout, done.stderr

    def compare(self, what, command, octets, answers, **words):
        """Whether it says what the second review does, which is given back."""
        trusted, valid = answers
        wanted = (salvaged if words.get("salvage") else run)(command, octets, trusted=trusted, valid=valid, **words)
        said = self.say(command, octets, answers=answers_text(trusted, valid), **words)
        tell("%s of %s" % (command, what), "" if said == wanted else "    %r %r\n    wanted\n%s    said\n%s" % (
            octets, words, shown(wanted), shown(said)))
        return wanted


def salvaged(command, octets, trusted, valid, salvage, of_lines=False, **limits):
    """What is written if reading goes on after damage."""
    model = Salvaged(octets, **limits)
    return model.put_into(run(command, model.plain(), trusted=trusted, valid=valid, **limits), command.split(" "))


# ---- the logs that were worked out by hand

def by_hand(program):
    for name, messages, answers, wanted in EXAMPLES:
        text = answers_text(*answers_to(Log(messages), answers))
        for of_lines, unit in ((False, frame), (True, line)):
            status, said, _ = program.say("review", b"".join(map(unit, messages)), of_lines, answers=text)
            tell("review of " + name, "" if said == joined(wanted) else "    %r" % said)
            clean = all(it.startswith(("ok ", "end ")) or it.endswith(" joined") for it in wanted)
            tell("status of " + name, "" if status == int(not clean) else "    %d" % status)
    for name, messages, wanted in QUESTIONS:
        said = program.say("questions", b"".join(map(frame, messages)))
        tell(name, "" if said == (0, joined(wanted), b"") else shown(said))


# ---- logs by a seed

def damaged(octets, chance):
    """The octets with one of them changed, lost or added, with an empty line, or without their end."""
    at, octet = chance.randrange(len(octets) or 1), bytes([chance.choice([chance.randrange(256), *b'0123456789 \n"]'])])
    return chance.choice([octets[:at], octets[:at] + octet + octets[at + 1:], octets[:at] + octets[at + 1:],
                          octets[:at] + octet + octets[at:], octets.replace(b"\n", b"\n\n", 1)])


def by_seed(program, reached):
    for seed in range(SEEDS):
        messages, *answers = make(seed)
        chance = random.Random(-seed)
        for of_lines, unit in ((False, frame), (True, line)):
            # a frame has an octet, and a line has no LF in it
            octets = b"".join(unit(it) for it in messages if it and not (of_lines and b"\n" in it))
            for command in COMMANDS:
                program.compare("seed %d" % seed, command, octets, answers, of_lines=of_lines)
            words = {"of_lines": of_lines}
            if chance.random() < 0.3:
                words["max_len"] = chance.choice([1, 3, 100, 200, 400])
            if chance.random() < 0.3:
                words["max_messages"] = chance.randint(1, 6)
            for command in COMMANDS:
                changed = damaged(octets, chance)
                if not of_lines:
                    program.compare("seed %d, damaged, read on" % seed, command, changed, answers, **words, salvage=True)
                said = program.compare("seed %d, damaged" % seed, command, changed, answers, **words)
                reached[command, said[0]] += 1
                reached[said[2][7:9].decode() or said[1][said[1].rfind(b"torn"):][:4].decode()] += 1


# ---- each bit of a small log

def bits(program):
    """Turns each bit of a log that is clean: none goes by without a finding or a refusal."""
    log = b"".join(map(frame, (M1, M2, C, S)))
    answers = answers_to(Log([M1, M2, C, S]), ALL)
    clean = program.compare("the log whose bits are turned", "review", log, answers)
    tell("the log whose bits are turned is clean", "" if clean[0] == 0 else shown(clean))
    for bit in range(8 * len(log)):
        turned = bytearray(log)
        turned[bit // 8] ^= 128 >> bit % 8
        said = program.compare("bit %d" % bit, "review", bytes(turned), answers)
        tell("bit %d is told" % bit, "    it goes by unseen\n" if said[0] == 0 or said[1] == clean[1] else "")


def explained(program):
    """Whether `explain` tells of each word that was printed."""
    for word in sorted(program.words):
        done = subprocess.run([program.path, "explain", word], stdin=subprocess.DEVNULL, capture_output=True, timeout=60)
        tell("explain %r" % word, "" if done.returncode == 0 and done.stdout and not done.stderr else "    %r" % done)


def main():
    reached = collections.Counter()
    with tempfile.TemporaryDirectory() as folder:
        program = Program(sys.argv[1], folder)
        by_hand(program)
        by_seed(program, reached)
        bits(program)
        explained(program)
    for kind in [(command, status) for command in COMMANDS for status in (0, 1, 2)] + ["F1", "F2", "F5", "F9", "torn"]:
        tell("some damaged log has %s" % (kind,), "" if reached[kind] else "    none has")
    print("reports: %d passed, %d failed" % (passed, failed))
    return failed > 0 or passed == 0


if __name__ == "__main__":
    sys.exit(main())
