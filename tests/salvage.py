#!/usr/bin/env python3
"""Compares what each command writes with `--salvage`, and how it ends, with `salvage_model.py`.

    salvage.py PROGRAM [COUNT]

over logs that were worked out by hand, and over COUNT logs by a seed, whole and damaged, which are 2,000 without it. What a
command writes of a damaged log is what it writes of one with the same messages, and the damaged stretches. So are the laws
of what is read, which need no model: frames and stretches cover the log; what is read without the option is read the same
with it; and of what is read before any refusal, all messages but the last two are. And hostile senders write messages that
reach over those of others. The last line is `salvage: N passed, M failed`.
"""
import collections
import os
import random
import re
import sys
import tempfile

import cost_logs
from review_logs import make
from review_runs import Refused, answers_text, frame, read_frames
from salvage_model import Salvaged

COUNT, SENDERS = 2000, 60
# how many differences are shown
SHOWN = 5
RUNS = [["review"], ["review", "--json"], ["review", "--findings", "--whole"], ["review", "--tally"],
        ["review", "--tally", "--json"], ["questions"], ["questions", "--once", "--json"], ["extract"], ["extract", "--unlisted"],
        ["counters"], ["carry"], ["inspect", "--json"], ["inspect", "--findings"], ["inspect", "--unwrap"]]
WITH_ANSWERS = ("review", "extract", "counters", "carry")
passed = failed = 0


def tell(what, fault=""):
    """One check, passed where there is no fault."""
    global passed, failed
    if not fault:
        passed += 1
        return
    failed += 1
    if failed <= SHOWN:
        print("salvage: %s: FAILED\n    %s" % (what, fault))


class Program:
    """The program, with the files of one log."""

    def __init__(self, path, folder):
        self.path = path
        self.log, self.answers, self.out, self.err = (os.path.join(folder, it) for it in ("log", "answers", "out", "err"))

    def say(self, words, octets):
        """The status, standard output and standard error. Files are quicker here than pipes."""
        with open(self.log, "wb") as file:
            file.write(octets)
        write = os.O_WRONLY | os.O_CREAT | os.O_TRUNC
        child = os.posix_spawn(self.path, ["ssign", *words], os.environ, file_actions=[
            (os.POSIX_SPAWN_OPEN, 0, self.log, os.O_RDONLY, 0), (os.POSIX_SPAWN_OPEN, 1, self.out, write, 0o600),
            (os.POSIX_SPAWN_OPEN, 2, self.err, write, 0o600)])
        status = os.WEXITSTATUS(os.waitpid(child, 0)[1])
        with open(self.out, "rb") as out, open(self.err, "rb") as err:
            return status, out.read(), err.read()

    def give(self, answers):
        """Puts the answers of a checker."""
        with open(self.answers, "wb") as file:
            file.write(answers)


# ---- logs by hand

ONE, TWO, THREE = b"7 <13>1 a", b"7 <13>1 b", b"8 <13>1 cc"
LINES = b"<13>1 - - - - - - a line\n" * 3
NESTED = frame(b"<13>1 - a - - - - " + ONE)
# a log, options, the messages, the lines after those of the messages, and the status
EXAMPLES = [
    ("nothing", b"", [], [], ["end 0"], 0),
    ("nothing is damaged", ONE + TWO, [], [b"<13>1 a", b"<13>1 b"], ["end 2"], 0),
    ("an octet was put in", ONE + b"X" + TWO, [], [b"<13>1 a", b"<13>1 b"], ["damaged 1 9 1", "end 2"], 1),
    ("an octet before all", b"X" + ONE + TWO, [], [b"<13>1 a", b"<13>1 b"], ["damaged 0 0 1", "end 2"], 1),
    ("an octet after all", ONE + TWO + b"X", [], [b"<13>1 a", b"<13>1 b"], ["damaged 2 18 1", "end 2"], 1),
    ("two octets", b"X" + ONE + TWO + b"X" + THREE, [], [b"<13>1 a", b"<13>1 b", b"<13>1 cc"],
     ["damaged 0 0 1", "damaged 2 19 1", "end 3"], 1),
    ("a frame between two damages", b"X" + ONE + b"X" + TWO, [], [b"<13>1 b"], ["damaged 0 0 11", "end 1"], 1),
    ("an SP was taken out", b"7<13>1 a" + TWO, [], [b"<13>1 b"], ["damaged 0 0 8", "end 1"], 1),
    ("NULs", ONE + bytes(512) + TWO, [], [b"<13>1 a", b"<13>1 b"], ["damaged 1 9 512", "end 2"], 1),
    ("a picture", b"\x89PNG\r\n\x1a\n\0\0\0\rIHDR", [], [], ["damaged 0 0 16", "end 0"], 1),
    ("a log of lines", LINES, [], [], ["damaged 0 0 75", "end 0"], 1),
    ("a length that is too long", b"8 <13>1 a" + TWO, ["--max-len", "7"], [b"<13>1 b"], ["damaged 0 0 9", "end 1"], 1),
    ("torn", ONE + b"9 <13", [], [b"<13>1 a"], ["torn 9", "end 1"], 1),
    ("torn in a length", ONE + b"65536", [], [b"<13>1 a"], ["torn 9", "end 1"], 1),
    ("torn in a length that is too long", ONE + b"65537", [], [b"<13>1 a"], ["damaged 1 9 5", "end 1"], 1),
    ("a frame that breaks off, and goes on", ONE + b"90 <13" + TWO, [], [b"<13>1 a", b"<13>1 b"], ["damaged 1 9 6", "end 2"], 1),
    ("torn after damage", b"X" + ONE + TWO + b"9 <13", [], [b"<13>1 a", b"<13>1 b"],
     ["damaged 0 0 1", "damaged 2 19 5", "end 2"], 1),
    ("a message without a head", ONE + b"1 x" + TWO, [], [b"<13>1 a", b"x", b"<13>1 b"], ["end 3"], 0),
    ("a message without a head, after damage", b"X1 x" + TWO, [], [b"<13>1 b"], ["damaged 0 0 4", "end 1"], 1),
    ("a nested frame", NESTED + TWO, [], [NESTED[3:], b"<13>1 b"], ["end 2"], 0),
    ("a nested frame, after damage", b"X" + NESTED + TWO, [], [b"<13>1 a", b"<13>1 b"], ["damaged 0 0 22", "end 2"], 1),
    ("digits that make a length with the next one", b"X7 <13>1 1" + TWO + THREE, [], [b"<13>1 1", b"<13>1 b", b"<13>1 cc"],
     ["damaged 0 0 1", "end 3"], 1),
    ("an LF after each frame", ONE + b"\n" + TWO + b"\n" + THREE + b"\n", [], [b"<13>1 a", b"<13>1 b", b"<13>1 cc"],
     ["damaged 1 9 1", "damaged 2 19 1", "damaged 3 30 1", "end 3"], 1),
    ("a CR LF after each frame", ONE + b"\r\n" + TWO + b"\r\n", [], [b"<13>1 a", b"<13>1 b"],
     ["damaged 1 9 2", "damaged 2 20 2", "end 2"], 1),
    ("an LF after each frame but the last", ONE + b"\n" + TWO + b"\n" + THREE, [], [b"<13>1 a", b"<13>1 b", b"<13>1 cc"],
     ["damaged 1 9 1", "damaged 2 19 1", "end 3"], 1),
    ("an LF after the last frame, and damage before", b"X" + ONE + b"\n", [], [b"<13>1 a"],
     ["damaged 0 0 1", "damaged 1 10 1", "end 1"], 1),
    ("two LFs after each frame", ONE + b"\n\n" + TWO + b"\n\n" + THREE + b"\n\n", [], [b"<13>1 a"], ["damaged 1 9 25", "end 1"], 1),
    ("a CR after each frame", ONE + b"\r" + TWO + b"\r", [], [b"<13>1 a"], ["damaged 1 9 11", "end 1"], 1),
    ("an LF CR after each frame", ONE + b"\n\r" + TWO + b"\n\r", [], [b"<13>1 a"], ["damaged 1 9 13", "end 1"], 1),
    ("a nested frame, and an LF after each", NESTED + b"\n" + TWO + b"\n", [], [b"<13>1 a", b"<13>1 b"],
     ["damaged 0 0 21", "damaged 1 30 1", "damaged 2 40 1", "end 2"], 1),
    ("as many messages as are allowed", b"X" + ONE + TWO, ["--max-messages", "2"], [b"<13>1 a", b"<13>1 b"],
     ["damaged 0 0 1", "end 2"], 1),
    ("a message too many", ONE + TWO, ["--max-messages", "1"], "F5 9", [], 2),
    ("a damaged octet too many", ONE + b"X", ["--max-messages", "1"], "F5 9", [], 2),
]


def by_hand(program):
    for name, octets, words, messages, lines, status in EXAMPLES:
        said = program.say(["inspect", "--salvage", *words], octets)
        if isinstance(messages, str):
            tell(name, "" if said == (status, b"", b"ssign: %s\n" % messages.encode()) else repr(said))
            continue
        told = said[1].decode().splitlines()
        tell(name, "" if (said[0], told[len(messages):], said[2]) == (status, lines, b"") else repr(said))
        tell("%s: messages" % name, "" if [it.split(" ")[1] for it in told[:len(messages)]] == [
            str(it) for it in range(len(messages))] else repr(told))
        extracted = program.say(["extract", "--salvage", *words, *places(len(messages))], octets)
        if messages:
            wanted = status, b"".join(map(frame, messages)), b""
            tell("%s: their octets" % name, "" if extracted == wanted else repr(extracted))
    # the forms of the lines
    octets = b"X" + ONE + TWO + b"XX" + THREE
    for words, wanted in (
            (["review", "--json", "--findings"], b"".join(b'{"line":"unlisted","place":%d}\n' % it for it in range(3))
             + b'{"line":"damaged","place":0,"offset":0,"length":1}\n{"line":"damaged","place":2,"offset":19,"length":2}\n'
             b'{"line":"end","count":3}\n'),
            (["review"], b"unlisted 0\nunlisted 1\nunlisted 2\ndamaged 0 0 1\ndamaged 2 19 2\nend 3\n"),
            (["review", "--tally"], b"unlisted-count 3\nrefused-count 0\nspoilt-count 0\ndamaged-count 2 3\nend 3\n"),
            (["review", "--tally", "--json"], b'{"line":"unlisted-count","count":3}\n{"line":"refused-count","count":0}\n'
             b'{"line":"spoilt-count","count":0}\n{"line":"damaged-count","count":2,"octets":3}\n{"line":"end","count":3}\n'),
            (["questions"], b""), (["extract"], b""), (["extract", "--unlisted"], ONE + TWO + THREE), (["counters"], b"end 0\n"),
            (["carry"], ONE + TWO + THREE)):
        said = program.say([*words, "--salvage"], octets)
        tell("by hand: %s" % " ".join(words), "" if said == (1, wanted, b"") else "%r, and not %r" % (said, wanted))
    for command in (*WITH_ANSWERS, "questions", "inspect"):
        for words in (["--salvage", "--lines"], ["--lines", "--salvage"], ["--salvage", "--salvage"], ["--salvage=x"]):
            status, out, err = program.say([command, *words], LINES)
            tell("%s %s is a mistake" % (command, " ".join(words)), "" if (status, out) == (2, b"") and err and not
                 err.startswith(b"ssign: F") else repr((status, out, err)))
    for command in ("plan", "sign"):
        status, out, err = program.say([command, "--rsid", "1", "--payload", "- N", "--salvage"], ONE)
        tell("%s --salvage is a mistake" % command, "" if (status, out) == (2, b"") and err else repr((status, out, err)))


def places(count):
    """The words that have all of so many messages extracted."""
    return [word for it in range(count) for word in ("--place", str(it))]


# ---- logs by a seed

HEADS = [b"<13>1 - h a - - - ", b"<13>1 - - - - - - ", b"<191>999 ", b"<0>1 ", b"<1>1 - h x y - "]
# what begins like a head, and is none
NO_HEADS = [b"<>1 ", b"<13>0 ", b"<13>1x", b"<1234>1 ", b"<13>1234 ", b"<13> 1 ", b"13>1 ", b"<13>01 ", b"<13>1", b""]
# what logs are made of, without any order
PIECES = [b"\n", b"\n", b"\r\n", b"\r", b"<13>1 ", b"<13>1 a", b"7 <13>1 a", b"7 <13>1 1", b"6 <13>1 ", b"15 <13>1 7 <13>1 a", b"1 ", b"1 <", b"0", b"07 ", b"7",
          b"17", b"20 <", b"100 ", b"1 x", b" ", b"<", b">", b"\0\0\0", b"X", b"9999999 ", b"10000000 ", b"9999999", b"65536",
          b"65537 <"]


class Maker:
    """Makes the log of a seed, and damages it."""

    def __init__(self, seed):
        self.chance = random.Random(seed)
        self.answers = b""

    def octets(self, most, among=b"abc 0123456789<>\n"):
        return bytes(self.chance.choice(among) for _ in range(self.chance.randrange(most)))

    def message(self):
        """A message, most often one with a head."""
        chance = self.chance
        kind = chance.random()
        if kind < 0.55:
            return chance.choice(HEADS) + self.octets(60)
        if kind < 0.7:
            return chance.choice(HEADS) + b"in" + b"".join(self.inner() for _ in range(chance.randrange(1, 4)))
        if kind < 0.8:
            return chance.choice(HEADS) + b"x" + self.octets(12, b"0123456789")
        if kind < 0.9:
            return chance.choice(NO_HEADS) + self.octets(20, b"0123456789 <") + b"x"
        return chance.choice([b"x", b"7", bytes(chance.randrange(1, 40)), b"<13>1 " + bytes(9), b"<13>1 - 7 <13>1 a"])

    def inner(self):
        """A frame in a text, or the front of one that reaches further."""
        chance = self.chance
        text = chance.choice(HEADS) + self.octets(20)
        if chance.random() < 0.3:
            return b"%d %s" % (chance.randrange(1, 400), text)
        return frame(text) + chance.choice([b"", b"", b"5", b"5 <", b"x", b"\n5 <", b"\r\n5 <", b"\n"])

    def messages(self):
        """The messages of a log. Some were signed, and answers are kept to what is asked about them."""
        chance = self.chance
        kind = chance.random()
        if kind < 0.15:
            messages, *answers = make(chance.randrange(10 ** 6))
            self.answers = answers_text(*answers)
            messages += [self.message() for _ in range(chance.randrange(3))]
            return [it for it in messages if it]
        if kind < 0.3:
            made = cost_logs.signed(10 * chance.randrange(1, 4))
            self.answers = b"".join(it + b"\n" for it in made.answers)
            return made.messages
        return [self.message() for _ in range(chance.choice([1, 2, 3, 8, 20, 40]))]

    def damaged(self, octets):
        """The octets with a damage, most often near the front of a frame."""
        chance = self.chance
        at = chance.randrange(len(octets) + 1)
        if chance.random() < 0.4:
            fronts = [it.start() for it in re.finditer(rb"[0-9]+ <", octets)]
            at = min(max(chance.choice(fronts or [0]) + chance.randrange(-3, 8), 0), len(octets))
        octet = bytes([chance.choice([chance.randrange(256), *b"0123456789 <>\n"])])
        far = at + chance.randrange(1, 200)
        other = chance.randrange(len(octets) + 1)
        block = octets[other:other + chance.randrange(1, 300)]
        return chance.choice([
            lambda: octets[:at] + octet + octets[at + 1:],
            lambda: octets[:at] + octet + octets[at + 1:],
            lambda: octets[:at] + octet + octets[at:],
            lambda: octets[:at] + octets[at + 1:],
            lambda: octets[:at] + octets[far:],
            lambda: octets[:at] + self.octets(200) + octets[at:],
            lambda: octets[:at] + bytes(len(octets[at:far])) + octets[far:],
            lambda: octets[:at] + block + octets[at:],
            lambda: octets[:at] + block + octets[at + len(block):],
            lambda: octets[:at],
            lambda: octets[at:] + octets[:at],
            lambda: octets[:at] + b"".join(map(frame, self.messages())),
        ])()

    def log(self):
        """A log, and the limits with which it is read."""
        chance = self.chance
        if chance.random() < 0.2:
            octets = b"".join(chance.choice(PIECES) for _ in range(chance.randrange(1, 60)))
        else:
            newline = chance.choice([b"", b"", b"", b"", b"\n", b"\r\n"])
            octets = b"".join(frame(it) + newline for it in self.messages())
            if chance.random() < 0.01:
                # longer than a buffer of the program
                octets += frame(b"<13>1 " + bytes(65000)) + octets * 3
        for _ in range(chance.choice([0, 0, 1, 1, 1, 1, 2, 3, 6])):
            octets = self.damaged(octets)
        limits = {}
        if chance.random() < 0.35:
            limits["max_len"] = chance.choice([1, 6, 7, 8, 15, 20, 50, 65, 100, 200, 1048576])
        if chance.random() < 0.15:
            limits["max_messages"] = chance.randrange(1, 8)
        return octets, limits


def words_of(limits):
    return [word for name, value in limits.items() for word in ("--" + name.replace("_", "-"), str(value))]


def read_plainly(octets, **limits):
    """The messages that are read without the option before the end, and what end it is."""
    try:
        messages, torn = read_frames(octets, **limits)
        return messages, "clean" if torn is None else "torn"
    except Refused as fault:
        return fault.messages, str(fault)[:2]


def differs(octets, said, wanted):
    """The fault of a run over these octets."""
    return "" if said == wanted else "%r\n    %r\n    wanted %r" % (octets, said, wanted)


def compare(program, seed, reached):
    """Each command over one log, and the laws."""
    maker = Maker(seed)
    octets, limits = maker.log()
    model, options = Salvaged(octets, **limits), words_of(limits)
    program.give(maker.answers)
    for words in [["inspect"], *maker.chance.sample(RUNS, 2)]:
        words = [*words, *options, *(["--answers", program.answers] if words[0] in WITH_ANSWERS else [])]
        wanted = model.put_into(program.say(words, model.plain()), words)
        said = program.say([*words, "--salvage"], octets)
        tell("seed %d: %s" % (seed, " ".join(words)), differs(octets, said, wanted))
        if words[0] == "inspect" and "--json" not in words and "--findings" not in words:
            inspected = said
    count = len(model.messages)
    said = extracted = program.say(["extract", "--salvage", *options, *places(max(count, 1))], octets)
    if model.crowded is not None:
        wanted = model.put_into(said, ["extract"])
    elif count:
        is_found = bool(model.stretches) or model.torn is not None
        wanted = int(is_found), b"".join(map(frame, model.messages)), b""
    else:
        wanted = 2, b"", b"ssign: E1 0\n"
    tell("seed %d: all messages" % seed, differs(octets, said, wanted))
    laws(program, seed, octets, limits, inspected, extracted)
    note(model, octets, limits, reached)


def laws(program, seed, octets, limits, inspected, extracted):
    """What holds of every log, whatever it is read as."""
    if inspected[0] != 2:
        messages = read_frames(extracted[1], max_len=1048576)[0] if extracted[0] != 2 else []
        tell("seed %d: frames and stretches cover the log" % seed, differs(
            inspected, covered(messages, inspected[1], octets), octets))
        read, end = read_plainly(octets, **limits)
        front = read if end in ("clean", "torn") else read[:-2]
        tell("seed %d: what is read without the option" % seed, "" if messages[:len(front)] == front else repr((octets, end)))
    plain = program.say(["inspect", *words_of(limits)], octets)
    if plain[0] == 0:
        tell("seed %d: a log that isn't damaged" % seed, "" if plain == inspected else repr((octets, plain, inspected)))


def covered(messages, said, octets):
    """The octets that frames, stretches and a torn end are together."""
    messages, parts, place, at = list(messages), [], 0, 0
    for word, *numbers in (it.split(b" ") for it in said.splitlines()):
        if word == b"damaged":
            before, offset, length = map(int, numbers)
            parts += map(frame, messages[place:before])
            at, place = sum(map(len, parts)), before
            if at != offset:
                return b"".join(parts)
            parts.append(octets[offset:offset + length])
        elif word == b"torn":
            parts += map(frame, messages[place:])
            return b"".join(parts) + octets[int(numbers[0]):]
    return b"".join([*parts, *map(frame, messages[place:])])


# what some log has to have
LF, CR_LF = "an LF after a frame after damage", "a CR LF after a frame after damage"
NESTS, WHOLE = "a message after damage that nests a frame", "a whole frame that isn't read"
DIGITS, LONG = "digits before a length, after damage", "more octets than a buffer has"
REACHED = ["clean", "torn", "F1", "F2", "F5", "one stretch", "many stretches", "nothing is read", "a message after damage", NESTS,
           WHOLE, "torn with the option", "refused with the option", DIGITS, LONG, LF, CR_LF]


def note(model, octets, limits, reached):
    """Counts what a log has."""
    reached[read_plainly(octets, **limits)[1]] += 1
    stretches = len(model.stretches)
    reached["one stretch"] += stretches == 1
    reached["many stretches"] += stretches > 2
    reached["nothing is read"] += not model.messages and stretches > 0
    after = model.messages[model.stretches[0][0]:] if stretches else []
    reached["a message after damage"] += bool(after)
    reached[NESTS] += any(re.search(rb".[1-9][0-9]* <[0-9]+>1 ", it) for it in after)
    reached[DIGITS] += any(re.search(rb"[1-9]$", it) for it in after[:-1])
    reached[WHOLE] += any(model.whole_at(at) is not None for _, at, _ in model.stretches)
    for newline, kind in ((b"\n", LF), (b"\r\n", CR_LF)):
        reached[kind] += any(octets[at:at + size] == newline for _, at, size in model.stretches[1:])
    reached["torn with the option"] += model.torn is not None
    reached["refused with the option"] += model.crowded is not None
    reached[LONG] += len(octets) > 65536


# ---- hostile senders

def honest(number, octets=0):
    """A message of somebody who has nothing to hide."""
    return b"<13>1 2026-11-29T00:00:00Z gate app %d - - message %d " % (number, number) + b"x" * octets


def hostile(chance, newline=b""):
    """A log in which a sender's messages nest frames that reach over those of others up to its own next one, the offsets of
    its own, and the messages of the others. A newline may stand after each frame."""
    front, head = b"<13>1 - h %s - - - own " % (b"a" * chance.randrange(1, 5)), b"<13>1 - h y - - - "
    others = [[honest(100 * i + j, chance.randrange(40)) for j in range(chance.choice([1, 3, 10, 40]))]
              for i in range(chance.randrange(2, 12))]
    last = chance.choice([b"7 <1>1 x", b"x", b"1 <", b"999 <1>1 "])
    # from the last one on, each nested frame ends before the length of the frame that the next one nests; what stands right
    # before the length of an honest frame may be digits of one
    texts = [front + last]
    between = [b"".join(frame(it) + newline for it in block) for block in others]
    for block in reversed(between):
        # where the nested frame of the next message begins in it
        follows = frame(texts[0]).index(front) + len(front)
        tail = head + chance.choice([b"", b"", b"1", b"12", b"x5 <1"])
        texts.insert(0, front + b"%d %s" % (len(tail) + len(newline) + len(block) + follows, tail))
    octets, own = b"", []
    for text, block in zip(texts, [*between, b""]):
        own.append(len(octets))
        octets += frame(text) + newline + block
    return octets, own, [it for block in others for it in block]


def senders(program):
    """An octet is changed in the front of one of the sender's frames: no honest message is hidden by it, but for the last two
    before it."""
    hidden = 0
    for seed in range(SENDERS):
        chance = random.Random(seed)
        octets, own, wanted = hostile(chance)
        ends = [honest(9000 + i) for i in range(4)]
        octets += b"".join(map(frame, ends))
        whole = program.say(["inspect", "--salvage"], octets)
        plain = program.say(["inspect"], octets)
        tell("sender %d: nothing is damaged" % seed, "" if whole == plain and whole[0] == 0 else repr(whole))
        damaged = bytearray(octets)
        at = own[chance.choice([0, 0, chance.randrange(len(own))])]
        damaged[at] = chance.choice(sorted({*b"0123456789Xx \0"} - {damaged[at]}))
        damaged = bytes(damaged)
        inspected = program.say(["inspect", "--salvage"], damaged)
        count = sum(not it.startswith((b"damaged", b"torn", b"end")) for it in inspected[1].splitlines())
        extracted = program.say(["extract", "--salvage", *places(count)], damaged)
        read, end = read_plainly(damaged)
        found = collections.Counter(read_frames(extracted[1])[0])
        lost = collections.Counter([*wanted, *ends]) - found - collections.Counter(read[-2:])
        tell("sender %d: each honest message is read" % seed, "" if not lost and inspected[0] == extracted[0] == 1 else
             "%d of %d aren't: %r of %r" % (sum(lost.values()), len(wanted), sorted(lost)[:3], damaged))
        hidden += end != "clean" and sum((collections.Counter(wanted) - collections.Counter(read)).values()) > 5
    for seed in range(SENDERS):
        chance = random.Random(seed)
        newline = chance.choice([b"\n", b"\r\n"])
        octets, _, wanted = hostile(chance, newline)
        wanted += [honest(9000)]
        octets += frame(wanted[-1]) + chance.choice([b"", newline])
        inspected = program.say(["inspect", "--salvage"], octets)
        count = sum(not it.startswith((b"damaged", b"torn", b"end")) for it in inspected[1].splitlines())
        extracted = program.say(["extract", "--salvage", *places(count)], octets)
        lost = collections.Counter(wanted) - collections.Counter(read_frames(extracted[1])[0])
        tell("sender %d, newlines: each honest message is read" % seed, "" if not lost and inspected[0] == 1 else
             "%d of %d aren't: %r of %r" % (sum(lost.values()), len(wanted), sorted(lost)[:3], octets))
    tell("some sender hides many messages without the option", "" if hidden > SENDERS / 3 else str(hidden))


def main():
    count = int(sys.argv[2]) if len(sys.argv) > 2 else COUNT
    reached = collections.Counter()
    with tempfile.TemporaryDirectory() as folder:
        program = Program(os.path.abspath(sys.argv[1]), folder)
        by_hand(program)
        senders(program)
        for seed in range(count):
            compare(program, seed, reached)
    for kind in REACHED:
        tell("some log has: %s" % kind, "" if reached[kind] else "none has")
    for kind in sorted(reached):
        print("salvage: %6d %s" % (reached[kind], kind))
    print("salvage: %d passed, %d failed" % (passed, failed))
    return failed > 0 or passed == 0


if __name__ == "__main__":
    sys.exit(main())
