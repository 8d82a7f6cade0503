#!/usr/bin/env python3
"""Compares `ssign review --ask` with two runs, of `questions --once` and of `review --answers`.

    ask.py PROGRAM

over the logs of examples/, over logs by a seed as frames and as lines, whole and damaged, and over logs into which strangers
wrote, where the payloads are known. The questions go through a file, a named pipe or /dev/fd, and so do the answers. Then
each way to fail has its turn. The last line is `ask: N passed, M failed`.
"""
import base64
import errno
import fcntl
import os
import random
import resource
import signal
import subprocess
import sys
import tempfile
import threading
import time

import pinned_logs
import review_logs
from review_examples import ALL, C, M1, S
from review_model import Log
from review_runs import answers_text, answers_to, ended, frame, line

ROOT = os.path.dirname(os.path.dirname(os.path.abspath(__file__)))
EXAMPLES = os.path.join(ROOT, "examples")
SEEDS, STRANGERS = 40, 20
# a run that takes more seconds hangs
PATIENCE = 120
END = {False: b"end\n", True: b'{"line":"end"}\n'}
# options of a review alone, which change no question
REVIEWED = [[], ["--findings"], ["--tally"], ["--whole"], ["--findings", "--whole", "--tally"]]
passed = failed = 0


def tell(what, fault=""):
    """One check, passed where there is no fault."""
    global passed, failed
    if not fault:
        passed += 1
        return
    failed += 1
    print("ask: %s: FAILED\n    %s" % (what, str(fault)[:1500]))


def differs(said, wanted):
    return "" if said == wanted else "said   %r\n    wanted %r" % (said, wanted)


def refused(code):
    return 2, b"", b"ssign: %s\n" % code.encode()


class Runs:
    def __init__(self, program, folder):
        self.program, self.folder, self.count = program, folder, 0

    def new(self, octets=None):
        """The path of a file that isn't there, or that holds these octets."""
        self.count += 1
        path = os.path.join(self.folder, str(self.count))
        if octets is not None:
            with open(path, "wb") as file:
                file.write(octets)
        return path

    def pipe(self):
        path = self.new()
        os.mkfifo(path)
        return path

    def say(self, words, octets, **how):
        """Its status, standard output and standard error."""
        done = subprocess.run([self.program, *words], input=octets, capture_output=True, timeout=PATIENCE, **how)
        return done.returncode, done.stdout, done.stderr

    def ask(self, octets, ask, answers, *words, **how):
        return self.say(["review", "--ask", ask, "--answers", answers, *words], octets, **how)

    def two(self, octets, answers, shared, words):
        """What two runs give: the questions, if they are asked, and then what the review says."""
        status, made, _ = self.say(["questions", "--once", *(["--json"] if "--json" in words else []), *shared], octets)
        return None if status == 2 else made + END["--json" in words], self.say(
            ["review", "--answers", self.new(answers), *shared, *words], octets)


def read(path):
    """What a file holds, or None if it isn't there."""
    try:
        with open(path, "rb") as file:
            return file.read()
    except FileNotFoundError:
        return None


def checker(questions, answers, given, kept):
    """Reads all questions, and then gives the answers: both are what opens a file."""
    with questions() as file:
        kept.append(file.read())
    try:
        with answers() as file:
            file.write(given)
    except BrokenPipeError:
        kept.append("the answers weren't read")


def compare(runs, what, octets, answers, shared=(), words=()):
    """Three runs, by files, by named pipes and by /dev/fd, give what two runs give."""
    asked, wanted = runs.two(octets, answers, shared, words)
    # by files: one that isn't there, and one with more octets than there are questions
    for path, before in ((runs.new(), None), (runs.new(b"x" * 100000), b"x" * 100000)):
        said = runs.ask(octets, path, runs.new(answers), *shared, *words)
        tell(what, differs(said, wanted))
        tell(what + ": the questions", differs(read(path), before if asked is None else asked))
    if asked is None:
        return
    # by named pipes
    ask, given, kept = runs.pipe(), runs.pipe(), []
    thread = threading.Thread(target=checker, args=(lambda: open(ask, "rb"), lambda: open(given, "wb"), answers, kept))
    thread.start()
    said = runs.ask(octets, ask, given, *shared, *words)
    thread.join(PATIENCE)
    tell(what + ": by named pipes", differs((said, kept), (wanted, [asked])))
    # by pipes without a name
    (ask, asking), (answering, given), kept = os.pipe(), os.pipe(), []
    process = subprocess.Popen([runs.program, "review", "--ask", "/dev/fd/%d" % asking, "--answers", "/dev/fd/%d" % answering,
                                *shared, *words], stdin=subprocess.PIPE, stdout=subprocess.PIPE, stderr=subprocess.PIPE,
                               pass_fds=(asking, answering))
    # the program holds the end that it was given beside the one that it opens, so the reader looks for the last line
    os.close(asking)
    os.close(answering)
    thread = threading.Thread(target=ends_at, args=(ask, given, answers, END["--json" in words], kept))
    thread.start()
    out, err = process.communicate(octets, timeout=PATIENCE)
    thread.join(PATIENCE)
    tell(what + ": by /dev/fd", differs(((process.returncode, out, err), kept), (wanted, [asked])))


def ends_at(ask, given, answers, end, kept):
    """Reads questions to their last line, and then gives the answers."""
    made = b""
    while made != end and not made.endswith(b"\n" + end):
        part = os.read(ask, 1 << 16)
        if not part:
            break
        made += part
    kept.append(made)
    os.close(ask)
    with os.fdopen(given, "wb") as file:
        file.write(answers)


# ---- one run gives what two give

def example(name):
    with open(os.path.join(EXAMPLES, name), "rb") as file:
        return file.read()


def by_hand(runs):
    four, answers = example("four-messages.frames"), example("four-messages.answers")
    lost, about_lost = example("lost-block.frames"), example("lost-block.answers")
    for words in REVIEWED:
        for form in ([], ["--json"]):
            name = " ".join(words + form)
            compare(runs, "four messages " + name, four, answers, (), words + form)
            compare(runs, "a lost block " + name, lost, about_lost, (), words + form)
    compare(runs, "no answer", four, b"")
    compare(runs, "a torn log", example("torn.frames"), answers)
    compare(runs, "each kind of message", example("kinds.frames"), b"", (), ["--json"])
    compare(runs, "an empty log", b"", b"")
    compare(runs, "an empty log as JSON", b"", b"", (), ["--json"])
    compare(runs, "no frame", four + b"x", answers)
    compare(runs, "no frame, read on", four + b"x" + four, answers, ["--salvage"])
    compare(runs, "too long a message", four, answers, ["--max-len", "100"])
    compare(runs, "a message too many", four, answers, ["--max-messages", "3"])
    counters = runs.new(example("lost-block.counters"))
    for words in (["--counters", counters], ["--from", counters], ["--from", counters, "--counters", counters]):
        for form in ([], ["--json"], ["--findings", "--tally"]):
            compare(runs, "a lost block %s %s" % (words[0], " ".join(form)), lost, about_lost, (), words + form)


def by_seed(runs):
    for seed in range(SEEDS):
        chance = random.Random(seed)
        messages, *who = review_logs.make(seed)
        for form, unit in ([], frame), (["--lines"], line):
            octets = b"".join(unit(it) for it in messages if it and not (form and b"\n" in it))
            answers = answers_text(*who)
            words = chance.choice(REVIEWED) + chance.choice([[], ["--json"]])
            compare(runs, "seed %d %s" % (seed, " ".join(form + words)), octets, answers, form, words)
            at = chance.randrange(len(octets) or 1)
            changed = octets[:at] + chance.choice([b"", b"x", b"9", b"\n\n"]) + octets[at + 1:]
            salvage = [] if form else chance.choice([[], ["--salvage"]])
            compare(runs, "seed %d, damaged %s" % (seed, " ".join(form + salvage + words)), changed, answers, form + salvage, words)


def by_known(runs):
    for seed in range(STRANGERS):
        attack = pinned_logs.make(seed)
        octets = b"".join(map(frame, attack.messages))
        pinned = runs.new(answers_text(set(attack.known), set()))
        words = random.Random(seed).choice(REVIEWED)
        for form in ([], ["--json"]):
            compare(runs, "strangers %d %s" % (seed, " ".join(words + form)), octets, answers_text(attack.trusted, attack.valid),
                    ["--pinned", pinned], words + form)


# ---- the order of things

def until(holds):
    """Waits until this holds, and gives back whether it does."""
    for _ in range(PATIENCE * 50):
        if holds():
            return True
        time.sleep(0.02)
    return False


def is_read(path):
    """Whether somebody has a named pipe open to read it, or waits for a writer."""
    try:
        os.close(os.open(path, os.O_WRONLY | os.O_NONBLOCK))
        return True
    except OSError as fault:
        if fault.errno != errno.ENXIO:
            raise
        return False


def in_order(runs):
    four, answers = example("four-messages.frames"), example("four-messages.answers")
    asked, wanted = runs.two(four, answers, (), ())
    # the log, then the questions, then the answers
    ask, given = runs.new(), runs.pipe()
    process = subprocess.Popen([runs.program, "review", "--ask", ask, "--answers", given], stdin=subprocess.PIPE,
                               stdout=subprocess.PIPE, stderr=subprocess.PIPE)
    process.stdin.write(four)
    process.stdin.flush()
    time.sleep(0.5)
    tell("no question before the end of the log", "" if not os.path.exists(ask) else "there is a file")
    tell("the answers aren't opened before the end of the log", "" if not is_read(given) else "they are")
    process.stdin.close()
    tell("the answers are opened", "" if until(lambda: is_read(given)) else "they aren't")
    tell("and the questions are whole by then", differs(read(ask), asked))
    # to look whether the pipe is read opened and closed it, so the program may have read no answers
    process.kill()
    process.wait()
    process.stdout.close()
    process.stderr.close()
    # a pipe that isn't read holds the run back, and the answers stay closed
    ask, given = runs.pipe(), runs.pipe()
    process = subprocess.Popen([runs.program, "review", "--ask", ask, "--answers", given], stdin=subprocess.PIPE,
                               stdout=subprocess.PIPE, stderr=subprocess.PIPE)
    process.stdin.write(four)
    process.stdin.close()
    time.sleep(0.5)
    tell("the answers aren't opened before the questions are read", "" if not is_read(given) else "they are")
    with open(ask, "rb") as file:
        tell("the questions through a pipe", differs(file.read(), asked))
    with open(given, "wb") as file:
        file.write(answers)
    said = process.stdout.read(), process.stderr.read()
    tell("the report after them", differs((process.wait(PATIENCE), *said), wanted))
    # answers that come before the questions
    answering, giving = os.pipe()
    os.write(giving, answers)
    os.close(giving)
    path = runs.new()
    said = runs.ask(four, path, "/dev/fd/%d" % answering, pass_fds=(answering,))
    tell("answers that come before the questions", differs((said, read(path)), (wanted, asked)))
    os.close(answering)


# ---- what fails

def many(count):
    """A log whose questions have more octets than a pipe holds, and all that a checker answers."""
    messages = [M1, C] + [S] * count
    return b"".join(map(frame, messages)), answers_text(*answers_to(Log(messages), ALL))


def limited(octets):
    """A file of at most so many octets, as on a disk that is full."""
    def limit():
        signal.signal(signal.SIGXFSZ, signal.SIG_IGN)
        resource.setrlimit(resource.RLIMIT_FSIZE, (octets, octets))
    return limit


def broken(runs):
    four, answers = example("four-messages.frames"), runs.new(example("four-messages.answers"))
    for form in ([], ["--json"]):
        asked, wanted = runs.two(four, example("four-messages.answers"), (), form)
        # a disk that is full at each octet of the questions
        for most in range(len(asked) + 1):
            path = runs.new()
            said = runs.ask(four, path, answers, *form, preexec_fn=limited(most))
            full = most < len(asked)
            tell("a disk that is full after %d octets" % most,
                 differs((said, read(path)), (refused("Q1"), asked[:most]) if full else (wanted, asked)))
            os.remove(path)
    # a pipe that breaks at each line, or before the first
    octets, given = many(400)
    given = runs.new(given)
    asked = runs.two(octets, b"", (), ())[0]
    lines = asked.splitlines(True)
    most = 1 << 12
    for count in (0, 1, 2, 3, 5, 10, 50, 100, 200, 300, 390):
        stands = sum(map(len, lines[:count]))
        ask, asking = os.pipe()
        fcntl.fcntl(asking, 1031, most)  # F_SETPIPE_SZ
        process = subprocess.Popen([runs.program, "review", "--ask", "/dev/fd/%d" % asking, "--answers", given],
                                   stdin=subprocess.PIPE, stdout=subprocess.PIPE, stderr=subprocess.PIPE, pass_fds=(asking,))
        os.close(asking)
        thread = threading.Thread(target=lambda: (process.stdin.write(octets), process.stdin.close()))
        thread.start()
        made = b""
        while len(made) < stands:
            made += os.read(ask, min(most, stands - len(made)))
        os.close(ask)
        thread.join(PATIENCE)
        said = process.stdout.read(), process.stderr.read()
        tell("a pipe that breaks after %d lines" % count,
             differs((process.wait(PATIENCE), *said, made), (*refused("Q1"), asked[:stands])))


def unwritable(runs):
    four, answers = example("four-messages.frames"), runs.new(example("four-messages.answers"))
    for what, path in (("a full device", "/dev/full"), ("a folder", runs.folder), ("no name", ""),
                       ("a missing folder", os.path.join(runs.folder, "absent", "questions")),
                       ("a file as a folder", os.path.join(answers, "questions")), ("a name too long", runs.new() + "x" * 300)):
        tell("questions to " + what, differs(runs.ask(four, path, answers), refused("Q1")))
        tell("questions to %s as JSON" % what, differs(runs.ask(four, path, answers, "--json"), refused("Q1")))
    tell("Q1 comes before a fault of the answers", differs(runs.ask(four, "/dev/full", runs.new()), refused("Q1")))


def unanswered(runs):
    four, answers = example("four-messages.frames"), example("four-messages.answers")
    asked, _ = runs.two(four, answers, (), ())
    for what, given, code in (("missing answers", runs.new(), "A2"), ("a folder", runs.folder, "A2"),
                              ("a bad line", runs.new(answers + b"x\n"), "A1 %d" % (answers.count(b"\n") + 1)),
                              ("no line feed at the end", runs.new(answers + b"\n"), "A1 %d" % (answers.count(b"\n") + 1))):
        path = runs.new()
        tell("answers: " + what, differs((runs.ask(four, path, given), read(path)), (refused(code), asked)))
    path = runs.new()
    tell("the questions as answers", differs((runs.ask(four, path, path), read(path)), (refused("A1 1"), asked)))
    path = runs.new()
    tell("no question as an answer", differs((runs.ask(b"", path, path), read(path)), (refused("A1 1"), b"end\n")))


def unread(runs):
    """A log that can't be read writes no question, and opens no file."""
    four = example("four-messages.frames")
    for what, octets, words, code in (
            ("no frame", four + b"x", [], "F1 %d" % len(four)), ("too long", four, ["--max-len", "100"], None),
            ("too many", four, ["--max-messages", "2"], None), ("no frame at once", b"x" * 70000, [], "F1 0"),
            ("an empty line", b"<1>1 - - - - - -\n\n", ["--lines"], "F9 17")):
        path, kept = runs.new(), runs.new(b"kept")
        wanted = refused(code) if code else runs.say(["review", *words], octets)
        tell("a log that is " + what, "" if wanted[0] == 2 else wanted)
        # the file of the answers isn't there, and nobody minds
        tell(what + " comes first", differs((runs.ask(octets, path, runs.new(), *words), read(path)), (wanted, None)))
        tell(what + " leaves the file alone", differs((runs.ask(octets, kept, runs.new(), *words), read(kept)), (wanted, b"kept")))
    path = runs.new()
    done = subprocess.run([runs.program, "review", "--ask", path, "--answers", runs.new()], stdin=os.open(ROOT, os.O_RDONLY),
                          capture_output=True, timeout=PATIENCE)
    tell("a read that fails", differs((done.returncode, done.stdout, done.stderr, read(path)), (*refused("F3"), None)))
    for words, code in ((["--counters", runs.new()], "C2"), (["--from", runs.folder], "C2"), (["--pinned", runs.new()], "A2"),
                        (["--counters", runs.new(ended([]) + b"x\n")], "C1 2"), (["--pinned", runs.new(b"x\n")], "A1 1")):
        path = runs.new()
        tell("%s %s comes before the log" % (words[0], code),
             differs((runs.ask(b"x", path, runs.new(), *words), read(path)), (refused(code), None)))


def mistaken(runs):
    four, path = example("four-messages.frames"), runs.new()
    nothing = runs.new(b"")
    for what, words in (("without answers", ["review", "--ask", path]), ("and nothing more", ["review", "--ask"]),
                        ("twice", ["review", "--ask", path, "--ask", path, "--answers", nothing]),
                        ("before lines that are salvaged", ["review", "--ask", path, "--answers", nothing, "--lines", "--salvage"]),
                        *(("of " + it, [it, "--ask", path, "--answers", nothing])
                          for it in ("questions", "extract", "inspect", "counters", "carry", "plan", "sign", "explain"))):
        status, out, err = runs.say(words, four)
        tell("--ask " + what, "" if (status, out) == (2, b"") and err.startswith(b"error: ") else (status, out, err))
        tell("--ask %s makes no file" % what, "" if not os.path.exists(path) else "there is one")
    status, out, err = runs.say(["review", "--ask", path, "--counters", runs.new()], four)
    tell("--ask without answers comes before a file", "" if status == 2 and b"--answers" in err else err)


def output(runs):
    four, answers = example("four-messages.frames"), example("four-messages.answers")
    asked, _ = runs.two(four, answers, (), ())
    path = runs.new()
    with open("/dev/full", "wb") as full:
        done = subprocess.run([runs.program, "review", "--ask", path, "--answers", runs.new(answers)], input=four, stdout=full,
                              stderr=subprocess.PIPE, timeout=PATIENCE)
    tell("a report on a full device", differs((done.returncode, done.stderr, read(path)), (2, b"ssign: W1\n", asked)))
    # standard output can be the file of the questions: then the report stands after them
    wanted = runs.two(four, answers, (), ())[1]
    read_end, write_end = os.pipe()
    done = subprocess.run([runs.program, "review", "--ask", "/dev/stdout", "--answers", runs.new(answers)], input=four,
                          stdout=write_end, timeout=PATIENCE)
    os.close(write_end)
    with os.fdopen(read_end, "rb") as file:
        tell("both to one pipe", differs((done.returncode, file.read()), (wanted[0], asked + wanted[1])))
    # the rows of a report rest on what was asked: an answer that wasn't asked for changes nothing
    extra = answers + b"trust %s\n" % base64.b64encode(b"nobody")
    path = runs.new()
    tell("an answer that nobody asked for", differs((runs.ask(four, path, runs.new(extra)), read(path)), (wanted, asked)))


def main():
    with tempfile.TemporaryDirectory() as folder:
        runs = Runs(os.path.abspath(sys.argv[1]), folder)
        for part in (by_hand, by_seed, by_known, in_order, broken, unwritable, unanswered, unread, mistaken, output):
            part(runs)
    print("ask: %d passed, %d failed" % (passed, failed))
    return 0 if not failed else 1


if __name__ == "__main__":
    sys.exit(main())
