#!/usr/bin/env python3
"""What `ssign extract` writes with `--unlisted`, `--place` and `--lines-out`, against the report of the same log.

    extracts.py PROGRAM

over logs by a seed, as frames and as lines, whole and torn. The messages of a log are read a second time, by
review_runs.py. Ends with status 0 if all is as it has to be; else it says what isn't.
"""
import os
import random
import subprocess
import sys
import tempfile

from review_logs import make
from review_runs import answers_text, frame, line, read_frames, read_lines

SEEDS = 250


class Differs(Exception):
    """What isn't as it has to be."""


class Program:
    def __init__(self, path, folder):
        self.path, self.answers = path, os.path.join(folder, "answers")

    def say(self, words, octets):
        done = subprocess.run([self.path, *words], input=octets, capture_output=True, timeout=60)
        return done.returncode, done.stdout, done.stderr


def expect(what, said, wanted):
    if said != wanted:
        raise Differs("%s\n    said   %r\n    wanted %r" % (what, said, wanted))


def written(messages, as_lines):
    """What an extract of these messages, each with its place, writes and complains of, and whether it is refused."""
    if as_lines:
        for place, message in messages:
            if b"\n" in message:
                return b"", b"ssign: E2 %d\n" % place
        return b"".join(line(message) for _, message in messages), b""
    return b"".join(frame(message) for _, message in messages), b""


def extracts(program, what, words, octets, messages, status):
    """An extract that has to write these messages, as frames and as lines."""
    for as_lines in (False, True):
        more = ["--lines-out"] if as_lines else []
        out, complaint = written(messages, as_lines)
        said = program.say(["extract", *words, *more], octets)
        expect("%s %r" % (what, words + more), said, (2 if complaint else status, out, complaint))
        if as_lines and not complaint:
            again = program.say(["extract", "--lines", *(it for n in range(len(messages)) for it in ("--place", str(n)))], out)
            if messages:
                expect("%s: its lines, read again" % what, again, (0, b"".join(frame(it) for _, it in messages), b""))


def compare(program, seed):
    chance = random.Random(seed)
    messages, trusted, valid = make(seed)
    # some messages hold LF or CR, one is a single octet
    messages = list(messages) + chance.choice([[], [b"a\nb"], [b"\n", b"c\r"], [b"x"], [b"<13>1 - - - - - - \n"]])
    chance.shuffle(messages)
    of_lines = chance.random() < 0.3
    # a frame has an octet, and a line has no LF in it
    messages = [it for it in messages if it and not (of_lines and b"\n" in it)]
    octets = b"".join(map(line if of_lines else frame, messages))
    torn = chance.random() < 0.2
    octets += (b"y" if of_lines else b"12") if torn else b""
    read, tear = (read_lines if of_lines else read_frames)(octets)
    expect("seed %d: the log" % seed, (read, tear is not None), (messages, torn))
    with open(program.answers, "wb") as file:
        file.write(answers_text(trusted, valid))
    words = ["--lines"] if of_lines else []
    status, report, _ = program.say(["review", "--answers", program.answers, *words], octets)
    fields = [it.split(b" ") for it in report.splitlines()]
    listed = [int(it[8]) for it in fields if it[0] == b"ok"]
    unlisted = [int(it[1]) for it in fields if it[0] == b"unlisted"]
    at = lambda places: [(place, messages[place]) for place in places]
    what = "seed %d" % seed
    reviewed = ["--answers", program.answers, *words]
    extracts(program, what, reviewed, octets, at(listed), status)
    extracts(program, what, [*reviewed, "--unlisted"], octets, at(unlisted), status)
    for place in range(len(messages)):
        extracts(program, what, ["--place", str(place), *words], octets, at([place]), int(torn))
    for count in (1, 3, 2 * len(messages) + 1):
        places = [chance.randrange(len(messages)) for _ in range(count)] if messages else []
        options = [it for place in places for it in ("--place", str(place))]
        if places:
            extracts(program, what, [*options, *words], octets, at(sorted(set(places))), int(torn))
            more = [len(messages) + chance.randrange(5), len(messages), 9_999_999]
            chance.shuffle(more)
            options = [*options, *(it for place in more for it in ("--place", str(place)))]
        else:
            options = ["--place", "0", "--place", "7"]
        said = program.say(["extract", *options, *words, *chance.choice([[], ["--lines-out"]])], octets)
        expect("%s: a place past the end" % what, said, (2, b"", b"ssign: E1 %d\n" % len(messages)))


def main(path):
    with tempfile.TemporaryDirectory() as folder:
        program = Program(path, folder)
        for seed in range(SEEDS):
            compare(program, seed)


if __name__ == "__main__":
    try:
        main(*sys.argv[1:])
    except Differs as fault:
        sys.exit("extracts.py: %s" % fault)
