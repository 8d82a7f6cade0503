#!/usr/bin/env python3
"""What `ssign-keys live` does as a process: its input, its answers, signals, files, a full disk, a seal command, reports.

    live_runs.py SSIGN KEYS

KEYS is a folder of `ssign-keys make`. Each run is a child that was forked after everything was loaded. The last line is
`live_runs: N passed, M failed`.
"""
import contextlib
import fcntl
import functools
import json
import os
import random
import resource
import shlex
import shutil
import signal
import socket
import stat
import subprocess
import sys
import tempfile
import threading
import time

from live_disks import message, original, string_of, used_twice

from ssign_keys import cli, keys, live, live_disk, live_log, live_loop, live_outside
from ssign_keys.live_engine import split_frames
from ssign_keys.live_sure import is_sure

PROGRAM, KEYS = (os.path.abspath(it) for it in sys.argv[1:3])
ROOT = os.path.dirname(os.path.dirname(os.path.realpath(__file__)))
PATIENCE = 30.0
# F_SETPIPE_SZ of Linux, which Python 3.9 has no name for
PIPE_SIZE = 1031
passed = failed = 0


def tell(what, *faults):
    """One check, passed where no fault is true."""
    global passed, failed
    faults = [it for it in faults if it]
    if not faults:
        passed += 1
        return
    failed += 1
    print(f"live_runs: {what}: FAILED")
    for it in faults[:6]:
        print(f"    {it}")


def differ(what, found, wanted):
    """A fault, where something isn't what is wanted."""
    return "" if found == wanted else f"{what}: {found!r}, and not {wanted!r}"


class Process:
    """A child that runs ssign-keys."""

    def __init__(self, words, before=None):
        """`before` is called in the child."""
        ours, theirs, said = os.pipe(), os.pipe(), tempfile.TemporaryFile()
        self.said_file = said
        self.child = os.fork()
        if not self.child:
            os.dup2(ours[0], 0)
            os.dup2(theirs[1], 1)
            os.dup2(said.fileno(), 2)
            os.closerange(3, 100)
            sys.stderr = os.fdopen(2, "w", closefd=False)
            if before is not None:
                before()
            status = cli.main(words)
            sys.stderr.flush()
            os._exit(status)
        os.close(ours[0])
        os.close(theirs[1])
        self.to, self.answers = os.fdopen(ours[1], "wb", buffering=0), os.fdopen(theirs[0], "rb", buffering=0)
        self.status = None

    def say(self, octets):
        """Writes to it."""
        self.to.write(octets)

    def answer(self, seconds=PATIENCE):
        """A line that it answers; None where none comes in time."""
        line, end = b"", time.monotonic() + seconds
        os.set_blocking(self.answers.fileno(), False)
        while not line.endswith(b"\n"):
            octet = self.answers.read(1)
            if octet is None:
                if time.monotonic() > end:
                    return None
                time.sleep(0.01)
            elif not octet:
                return line
            else:
                line += octet
        return line

    def end(self, number=None):
        """Ends its input, or has a signal end it. Gives its status."""
        if number is not None:
            os.kill(self.child, number)
        else:
            self.to.close()
        end = time.monotonic() + PATIENCE
        while self.status is None:
            child, ended = os.waitpid(self.child, os.WNOHANG)
            if child:
                self.status = os.waitstatus_to_exitcode(ended)
            elif time.monotonic() > end:
                os.kill(self.child, signal.SIGKILL)
            else:
                time.sleep(0.01)
        with contextlib.suppress(OSError):
            self.to.close()
        self.answers.close()
        return self.status

    @property
    def said(self):
        """What it wrote to standard error."""
        self.said_file.seek(0)
        return self.said_file.read().decode("utf-8", "replace")


class Signer:
    """Folders of a signer."""

    def __init__(self, folder, *options):
        self.folder = folder
        self.options = ["--host=gate.example.org", "--heartbeat=0", f"--ssign={PROGRAM}", *options]
        self.key = [f"--key={KEYS}/private-key.pem"]

    def path(self, name):
        """A path in the folder."""
        return os.path.join(self.folder, name)

    def start(self, *options, before=None):
        """Starts `live`."""
        with contextlib.suppress(FileNotFoundError):
            os.unlink(self.path("status"))
        return Process(["live", *self.key, f"--state={self.path('state')}", f"--out={self.path('out')}",
                        f"--status={self.path('status')}", *self.options, *options], before)

    def run(self, octets, *options):
        """Signs all of an input."""
        process = self.start(*options)
        process.say(octets)
        process.end()
        return process

    def status(self):
        """What --status says."""
        with open(self.path("status"), encoding="ascii") as file:
            return json.load(file)

    def wait_for(self, what, seconds=PATIENCE):
        """Waits until --status says something. Gives a fault where it doesn't."""
        end = time.monotonic() + seconds
        while time.monotonic() < end:
            with contextlib.suppress(OSError, ValueError):
                if what(self.status()):
                    return ""
            time.sleep(0.05)
        return f"--status never says it: {self.status() if os.path.exists(self.path('status')) else 'no file'}"

    def files(self):
        """The files of the output."""
        return sorted(os.listdir(self.path("out")), key=lambda it: [int(n) for n in it[:-7].split("-")[-2:]])

    def stored(self):
        """All messages and blocks of the output."""
        stored = []
        for it in self.files():
            with open(os.path.join(self.path("out"), it), "rb") as file:
                octets = file.read()
            found, end = split_frames(octets)
            stored += found
            if end != len(octets):
                stored.append(b"TORN")
        return stored

    def originals(self):
        """The messages for which the others were signed, without blocks."""
        return [original(it) for it in self.stored() if b"[ssign" not in it or b" wrapped - |" in it]

    def kept(self, front):
        """The messages of files of the state whose name begins so."""
        found = []
        for name in sorted(os.listdir(self.path("state"))):
            if name.startswith(front):
                with open(os.path.join(self.path("state"), name), "rb") as file:
                    found.append(file.read())
        return found

    def verdict(self, *options):
        """The status and the last object of `verify`, with all counters that were kept."""
        counters = self.path("counters")
        with open(counters, "wb") as file:
            file.write(b"".join(it for it in self.kept("counters-")))
        process = Process(["verify", f"--key={KEYS}/public-key.pem", f"--counters={counters}", "--json", "--max-len=1048576",
                           f"--ssign={PROGRAM}", *options, *(os.path.join(self.path("out"), it) for it in self.files())])
        os.set_blocking(process.answers.fileno(), True)
        rows = process.answers.read(1 << 24) or b""
        while True:
            more = process.answers.read(1 << 24)
            if not more:
                break
            rows += more
        status = process.end()
        return status, [json.loads(it) for it in rows.splitlines()], process.said

    def clean(self, wanted=None, sessions=1):
        """Faults of the whole output: a clean verdict, so many joined sessions, and these messages in their order."""
        status, rows, said = self.verdict()
        states = [it["state"] for it in rows if it.get("line") == "session"]
        return [*used_twice(PROGRAM, framed(self.stored())),
                differ("the status of verify", status, 0) and f"status {status} {rows[-1:]} {said}",
                differ("sessions", states, ["joined"] * sessions), "" if wanted is None else differ("messages", self.originals(), wanted)]


@contextlib.contextmanager
def signer(*options):
    """A signer in a folder of its own."""
    with tempfile.TemporaryDirectory() as folder:
        yield Signer(folder, *options)


def framed(messages):
    """Messages as frames."""
    return b"".join(b"%d %s" % (len(it), it) for it in messages)


def lined(messages):
    """Messages as lines."""
    return b"".join(it + b"\n" for it in messages)


def told(*messages):
    """Messages as omprog hands them over."""
    return lined(map(string_of, messages))


# ---- input

def inputs():
    """Frames and lines, odd messages, and what no log may hold."""
    wanted = [message(n) for n in range(250)]
    block = b'<13>1 - h a p - [ssign VER="0121" x="1"] a block'
    wrap = b"<13>1 - h a p wrapped - |what looks like a wrap"
    odd = [b"\xff\x00\xfe", block, wrap, b" ", b"a\r", b"<13>1 - h a p - - \xef\xbb\xbfx", b"x" * 70000]
    with signer() as it:
        run = it.run(framed(wanted + odd + [b"a\nb"]))
        status = it.status()
        tell("frames", differ("status", run.status, 0), *it.clean(wanted + odd + [b"a\nb"]),
             differ("signed", status["signed"], 258), differ("blocks", status["blocks"], 3), differ("pending", status["pending"], 0),
             differ("wrapped", status["wrapped"], 36 + 7),
             differ("names", len(it.files()), 1))
        run = it.run(framed(wanted[:3]))
        tell("a second run goes on in the same file", differ("status", run.status, 0),
             *it.clean(wanted + odd + [b"a\nb"] + wanted[:3]))
    with signer("--lines") as it:
        run = it.run(lined(wanted + odd) + b"\n\n" + b"no line feed")
        tell("lines", differ("status", run.status, 0), *it.clean(wanted + odd + [b"no line feed"]),
             "a line of standard input is empty" not in run.said and "nothing is said of an empty line")
    long_one = bytes(range(1, 10)) * 120000 + b"\nend"
    longer = [b"y" * 1048577, b"z" * 1048576]
    with signer() as it:
        run = it.run(framed([b"one", long_one, *longer, b"two"]) + b"100 torn")
        aside = split_frames(b"".join(it.kept("aside-")))[0]
        tell("frames that are too long, and one that breaks off", differ("status", run.status, 0),
             differ("aside", b"".join(aside), long_one + b"y" * 1048577 + b"100 torn"),
             differ("stored", [len(each) for each in it.originals()], [3, 1048576, 3]))
    with signer("--lines") as it:
        run = it.run(lined([b"one", b"y" * 3000000, b"two"]))
        aside = split_frames(b"".join(it.kept("aside-")))[0]
        tell("a line that is too long", differ("status", run.status, 0), *it.clean([b"one", b"two"]),
             differ("aside", b"".join(aside), b"y" * 3000000))
    with signer() as it:
        run = it.run(framed([b"one", b"two"]) + b"garbage")
        tell("no frames", differ("status", run.status, 2), differ("stored", it.originals(), [b"one", b"two"]),
             "give --lines" not in run.said and run.said)
        run = it.run(framed([b"three"]))
        tell("after no frames", *it.clean([b"one", b"two", b"three"]))


def sure():
    """What is taken for signable without asking is so by ssign."""
    rng = random.Random(5)
    stamps = [b"-", b"2026-11-27T03:01:30Z", b"2026-11-27T03:01:30.123456+01:00", b"2026-02-30T03:01:30Z", b"2026-11-27T24:01:30Z",
              b"2026-11-27T03:01:60Z", b"2026-11-27T03:01:30.1234567Z"]
    elements = [b"-", b'[a@1 b="c"]', b'[a][b c="d e" f="["]', b'[a x="1"][a y="2"]', b'[ssign VER="1"]', b'[ssign-cert]', b'[a b="\\]"]',
                b'[a b="x]', b"[a  b=\"c\"]", b'[timeQuality tzKnown="1"]', b'[origin ip="::1"][meta x=""]', b"[:a]"]
    messages = []
    for n in range(20000):
        # the first of each list is right; one of the others is taken now and then
        def pick(choices, rarely=.15):
            return rng.choice(choices) if rng.random() < rarely else rng.choice(choices[:2])
        words = [b"<%d>%s" % (pick((0, 191, 192, 999)), pick((b"1", b"1", b"2", b""))), pick(stamps, .3), pick((b"h", b"-", b"h" * 256)),
                 pick((b"a", b"-", b"a" * 49)), pick((b"-", b"1", b"")), pick((b"m", b"-", b"wrapped")), pick(elements, .7)]
        message = b" ".join(words) + pick((b"", b" text", b" |text", b" \xef\xbb\xbfx\xff", b" \x00\xff", b"x"), .5)
        if rng.random() < .2:
            at = rng.randrange(len(message))
            message = message[:at] + rng.choice((b"", b" ", b"]", b'"', b"[", b"\\", bytes([rng.randrange(256)]))) + message[at + rng.randrange(2):]
        messages.append(message or b"x")
    said = subprocess.run([PROGRAM, "inspect", "--findings", "--unwrap"], input=framed(messages), capture_output=True, check=False).stdout
    odd = {int(line.split(b" ")[1]) for line in said.splitlines()[:-1]}
    found = {place for place, it in enumerate(messages) if is_sure(it)}
    tell("what is surely signable", *[f"{messages[it]!r}" for it in sorted(found & odd)[:5]],
         f"only {len(found)} of {len(messages) - len(odd)} are sure" if len(found) * 2 < len(messages) - len(odd) else "")
    print(f"live_runs: {len(messages)} messages: {len(found)} are sure of {len(messages) - len(odd)} that can be signed")


def unwrapped():
    """Messages that can't be signed, without wraps."""
    wanted = [message(n) for n in range(20)]
    with signer("--no-wrap") as it:
        run = it.run(framed(wanted))
        with open(os.path.join(it.path("out"), it.files()[0]), "rb") as file:
            own = next(each for each in split_frames(file.read())[0] if b"[ssign " in each)
        again = it.run(framed([own, *wanted[:4]]))
        status, rows, _ = it.verdict()
        tell("without wraps", differ("statuses", (run.status, again.status, status), (0, 0, 1)),
             differ("stored", it.originals(), wanted + wanted[:4]), differ("aside", it.kept("aside-"), [framed([own])]),
             differ("unlisted", rows[-1]["unlisted"], 4), differ("missing", rows[-1]["missing"], 0))
        last = it.run(framed(wanted[4:6]))
        tell("without wraps, a third run", differ("status", last.status, 0), differ("unsigned", it.status()["unsigned"], 0))


def groups():
    """Groups, copies and other options of a session, over three runs and files."""
    wanted = [b"<%d>1 - h a p - - %d" % (n % 192, n) for n in range(400)]
    for options in (("--groups=pri",), ("--groups=63,127,191", "--copies=2", "--count=3"), ("--ver=0121", "--frag=99", "--pri=5",
                                                                                           "--procid=1", "--msgid=x")):
        with signer(*options, "--messages=50", "--rotate-size=9K") as it:
            ended = [it.run(framed(wanted[at:at + 150])).status for at in (0, 150, 300)]
            tell(f"a session with {' '.join(options)}", differ("status", ended, [0, 0, 0]), *it.clean(wanted),
                 f"only {len(it.files())} files" if len(it.files()) < 3 else "")
            checked = manifest_of(it)
            tell(f"the manifest with {' '.join(options)}", differ("entries", len(checked), len(it.files()) - 1))


def manifest_of(it):
    """The names that the manifest has, where `manifest check` finds no fault but the file that isn't ended."""
    process = Process(["manifest", "check", os.path.join(it.path("state"), "manifest.jsonl"), it.path("out"), "--json"])
    os.set_blocking(process.answers.fileno(), True)
    rows = b""
    while True:
        more = process.answers.read(1 << 20)
        if not more:
            break
        rows += more
    process.end()
    rows = [json.loads(each) for each in rows.splitlines()]
    faults = [each for each in rows if each["line"] != "total" and each.get("where") != it.files()[-1]]
    tell("the manifest has no fault", *map(str, faults))
    with open(os.path.join(it.path("state"), "manifest.jsonl"), encoding="ascii") as file:
        return [json.loads(line)["name"] for line in file]


# ---- signals and time

def signals():
    """TERM and INT end, HUP begins a file, and time has blocks written."""
    wanted = [message(n) for n in range(9)]
    for number in (signal.SIGTERM, signal.SIGINT):
        with signer("--seconds=1000") as it:
            process = it.start()
            process.say(framed(wanted))
            fault = it.wait_for(lambda status: status["taken"] == 9)
            status = process.end(number)
            tell(f"the signal {number}", fault, differ("status", status, 0), *it.clean(wanted))
    with signer("--seconds=0.3") as it:
        process = it.start()
        faults = [it.wait_for(lambda status: status["running"])]
        os.kill(process.child, signal.SIGHUP)
        time.sleep(0.5)
        process.say(framed(wanted[:5]))
        fault = it.wait_for(lambda status: status["blocks"] == 1)
        names = len(it.files())
        os.kill(process.child, signal.SIGHUP)
        second = it.wait_for(lambda status: status["file"].endswith("-000002.frames"))
        os.kill(process.child, signal.SIGHUP)
        process.say(framed(wanted[5:]))
        third = it.wait_for(lambda status: status["blocks"] == 2)
        status = process.end()
        entries = manifest_of(it)
        tell("a block is written after some time, and HUP begins a file where there is something in it", *faults, fault, second, third,
             differ("status", status, 0), differ("files", (names, len(it.files())), (1, 2)), differ("entries", entries, it.files()[:1]),
             *it.clean(wanted))


def days():
    """A file each day, over restarts, and a clock that goes back."""
    wanted = [message(n) for n in range(12)]
    with signer("--rotate-daily", "--seconds=0.1") as it:
        day = it.path("day")

        def before():
            def read(self):
                with open(day, encoding="ascii") as file:
                    return file.read()
            live_outside.World.day = read

        def set_day(text):
            with open(day + ".new", "w", encoding="ascii") as file:
                file.write(text)
            os.replace(day + ".new", day)

        set_day("2026-11-27")
        process = it.start(before=before)
        process.say(framed(wanted[:3]))
        faults = [it.wait_for(lambda status: status["blocks"] == 1)]
        set_day("2026-11-28")
        process.say(framed(wanted[3:6]))
        faults.append(it.wait_for(lambda status: status["file"].endswith("-000002.frames")))
        process.say(framed(wanted[6:9]))
        faults.append(it.wait_for(lambda status: status["signed"] == 9))
        process.end()
        set_day("2026-11-29")
        process = it.start(before=before)
        faults.append(it.wait_for(lambda status: status["file"].endswith("-000003.frames")))
        process.say(framed(wanted[9:]))
        faults.append(it.wait_for(lambda status: status["signed"] == 3))
        set_day("2026-11-28")
        faults.append(it.wait_for(lambda status: status["file"].endswith("-000004.frames")))
        status = process.end()
        tell("a file each day", *faults, differ("status", status, 0), differ("files", len(it.files()), 4), *it.clean(wanted))


def boots():
    """Another boot or machine begins a session, after the old one was ended."""
    wanted = [message(n) for n in range(12)]
    for options, sessions in (((), 3), (("--keep-session",), 2)):
        with signer("--seconds=1000", *options) as it:
            for at, known in enumerate(({live.BOOT: "one"}, {live.BOOT: "two"}, {live.BOOT: "two", live.MACHINE: "other"})):
                def before(known=known):
                    live.identity = lambda path: known.get(path, "same")
                process = it.start(before=before)
                process.say(framed(wanted[4 * at:4 * at + 4]))
                fault = it.wait_for(lambda status: status["taken"] == 4 and status["running"])
                process.end(signal.SIGKILL)
                tell(f"a boot {' '.join(options)}", fault)
            process = it.start(before=before)
            status = process.end()
            tell(f"sessions of boots and machines {' '.join(options)}", differ("status", status, 0), *it.clean(wanted, sessions))
    with signer("--seconds=1000") as it:
        for boot, options in (("one", ()), ("two", ("--keep-session",)), ("two", ())):
            def before(boot=boot):
                live.identity = lambda path: boot if path == live.BOOT else "same"
            process = it.start(*options, before=before)
            process.say(framed(wanted[:2]))
            tell(f"a boot {boot} {' '.join(options)}", differ("status", process.end(), 0))
        tell("a boot in which the session was kept is the one of the session", *it.clean(wanted[:2] * 3))


# ---- answers

def answers():
    """omprog: what is confirmed is on the disk."""
    wanted = [message(n) for n in range(6)]
    with signer("--omprog", "--seconds=1000") as it:
        process = it.start()
        faults = [differ("the first answer", process.answer(), b"OK\n")]
        # a message with the text of a mark is none, and each octet stays as it came
        sent = [b"BEGIN TRANSACTION", *wanted, b"COMMIT TRANSACTION", b"", b"one\n<13>1 - victim.example app - - - two\nBEGIN TRANSACTION",
                bytes(range(256)), b'"\\u0041\\', b"\xff\xfe\xc3 \xed\xa0\x80"]
        for each in sent:
            process.say(told(each))
            faults.append(differ("the answer", process.answer(), b"OK\n"))
            faults.append("" if not each or original(it.stored()[-1]) == each else f"{each} isn't stored")
        process.say(b'"a part')
        time.sleep(0.1)
        status = process.end()
        tell("omprog, each message alone", *faults, differ("status", status, 0), *it.clean([each for each in sent if each]),
             differ("aside", it.kept("aside-"), [framed([b'"a part'])]))
    with signer("--omprog", "--seconds=1000") as it:
        process = it.start()
        faults = [differ("the first answer", process.answer(), b"OK\n")]
        begin, commit = b"BEGIN TRANSACTION", b"COMMIT TRANSACTION"
        # the first end is that of a transaction whose process was killed
        script = [(b"zero", b"OK\n"), (None, commit, b"OK\n"), (None, begin, b"OK\n"), (b"one", b"DEFER_COMMIT\n"),
                  (begin, b"DEFER_COMMIT\n"), (b"", b"DEFER_COMMIT\n"), (commit, b"DEFER_COMMIT\n"), (b"two", b"DEFER_COMMIT\n"),
                  (None, begin, b"OK\n"), (b"three", b"DEFER_COMMIT\n"), (None, commit, b"OK\n"), (b"four", b"OK\n"),
                  (None, begin, b"OK\n"), (b"five", b"DEFER_COMMIT\n")]
        for each, *mark, wished in script:
            process.say(lined(mark) or told(each))
            faults.append(differ(f"the answer to {each} {mark}", process.answer(), wished))
            # rsyslog doesn't send it again once it is answered
            if each and original(it.stored()[-1]) != each:
                faults.append(f"{each} is answered, and isn't stored")
        status = process.end(signal.SIGTERM)
        stored = [it[0] for it in script if it[0]]
        tell("omprog, transactions", *faults, differ("status", status, 0), *it.clean(stored))
        process = it.start()
        process.answer()
        process.answers.close()
        process.say(told(b"six"))
        time.sleep(0.2)
        process.say(told(b"seven"))
        time.sleep(0.2)
        status = process.end()
        stored += [b"six", b"seven"]
        tell("omprog, nobody reads the answers", differ("status", status, 0), *it.clean(stored))
        for line in (b"<13>1 - victim.example app - - - raw", b"", b'"one" "two"', b'"one', b'["one"]', b'"\\ud800"', b'"\\x41"', b'"a\tb"',
                     b"begin transaction", b"BEGIN TRANSACTION "):
            process = it.start()
            process.answer()
            process.say(told(b"before") + line + b"\n" + told(b"after"))
            faults = [differ("the answer", process.answer(), b"OK\n"), differ("the next answer", process.answer(), b"")]
            stored.append(b"before")
            tell(f"omprog, what is no message: {line}", *faults, differ("status", process.end(), 2), *it.clean(stored),
                 "no string of JSON" not in process.said and process.said)


class WatchedDisk(live_disk.Disk):
    """Knows which files have octets that aren't on the disk."""

    dirty = set()

    def append(self, where, name, octets):
        self.dirty.add((where, name))
        super().append(where, name, octets)

    def sync(self, where, name):
        super().sync(where, name)
        self.dirty.discard((where, name))


class WatchedLoop(live_loop.Loop):
    """Reports an OK to messages that aren't on the disk, and a DEFER_COMMIT where nothing was given to the system."""

    def _confirm(self, answer):
        if answer == b"OK\n" and WatchedDisk.dirty and not self._in_transaction:
            sys.stderr.write(f"EARLY {sorted(WatchedDisk.dirty)}\n")
        super()._confirm(answer)


def order():
    """Nothing is confirmed before it is on the disk."""
    def before():
        live.Disk, live.Loop = WatchedDisk, WatchedLoop

    wanted = [message(n) for n in range(24)]
    for options, marks in (((), False), ((), True), (("--no-wrap",), False)):
        with signer("--omprog", "--messages=5", "--seconds=1000", *options) as it:
            process = it.start(before=before)
            faults = [differ("the first answer", process.answer(), b"OK\n")]
            for at in range(0, len(wanted), 4):
                lines = [string_of(each) for each in wanted[at:at + 4]]
                lines = [b"BEGIN TRANSACTION", *lines, b"COMMIT TRANSACTION"] if marks else lines
                # all at once, so that more than one is read at a time
                process.say(lined(lines))
                wished = [b"OK\n", *[b"DEFER_COMMIT\n"] * 4, b"OK\n"] if marks else [b"OK\n"] * 4
                faults.append(differ("answers", [process.answer() for _ in lines], wished))
            # a block that is set aside is confirmed too
            process.say(told(b'<13>1 - h a p - [ssign VER="0121"] no block' if "--no-wrap" in options else wanted[0]))
            faults.append(differ("the last answer", process.answer(), b"OK\n"))
            status = process.end()
            tell(f"what is confirmed is on the disk {' '.join(options)} {marks}", *faults, differ("status", status, 0),
                 process.said if "EARLY" in process.said else "")


def failed_sync():
    """A sync that fails ends the run, and nothing is confirmed after it."""
    import errno
    wanted = [message(n) for n in range(6)]
    for number in (errno.EIO, errno.ENOSPC):
        with signer("--omprog", "--seconds=1000") as it:
            def before(number=number):
                real, count = os.fdatasync, [0]

                def fails(file):
                    count[0] += 1
                    if count[0] >= 8:
                        raise OSError(number, os.strerror(number))
                    real(file)

                os.fdatasync = fails

            process = it.start(before=before)
            process.answer()
            answers = []
            for each in wanted:
                with contextlib.suppress(OSError):
                    process.say(told(each))
                answers.append(process.answer(5.0))
                if answers[-1] != b"OK\n":
                    break
            status = process.end()
            faults = [differ("the last answer", answers[-1], b""), "nothing was confirmed" if len(answers) < 2 else ""]
            run = it.run(b"")
            tell(f"a sync fails with {errno.errorcode[number]}", *faults, differ("status", status, 2),
                 "" if process.said.endswith("(L7)\n") else process.said, differ("the next start", run.status, 0),
                 *it.clean(wanted[:len(answers)]))


def modes():
    """Only the signer reads its state, and nothing is written through a link."""
    with signer() as it:
        before = os.umask(0)
        with open(it.path("precious"), "wb") as file:
            file.write(b"precious")
        for name in ("status", "status.new"):
            os.symlink(it.path("precious"), it.path(name))
        it.run(framed([message(0)]))
        os.umask(before)
        found = {name: os.stat(os.path.join(it.path("state"), name)).st_mode & 0o777 for name in os.listdir(it.path("state"))}
        manifest = found.pop("manifest.jsonl")
        with open(it.path("precious"), "rb") as file:
            tell("links in the place of --status", differ("what they lead to", file.read(), b"precious"),
                 differ("its mode", os.lstat(it.path("status")).st_mode, stat.S_IFREG | 0o644))
        tell("modes", differ("the state", os.stat(it.path("state")).st_mode & 0o777, 0o700), differ("its files", set(found.values()), {0o600}),
             differ("the manifest", manifest, 0o644),
             differ("the output", os.stat(it.path("out")).st_mode & 0o777, 0o750),
             differ("its file", os.stat(os.path.join(it.path("out"), it.files()[0])).st_mode & 0o777, 0o640))
        name = it.files()[0].replace("000001", "000002")
        process = it.start()
        process.say(framed([message(1)]))
        fault = it.wait_for(lambda status: status["taken"] == 1)
        os.symlink(it.path("elsewhere"), os.path.join(it.path("out"), name))
        os.kill(process.child, signal.SIGHUP)
        status = process.end()
        tell("a link where the next file belongs", fault, differ("status", status, 2),
             "" if "no regular file" in process.said else process.said,
             "it was written through" if os.path.exists(it.path("elsewhere")) else "")
    with signer("--seconds=0.1") as it:
        process = it.start()
        process.say(framed([message(1)]))
        fault = it.wait_for(lambda status: status["signed"] == 1)
        other = os.path.join(it.path("out"), it.files()[0].replace("000001", "000002"))
        with open(other, "wb") as file:
            file.write(b"4 what")
        os.kill(process.child, signal.SIGHUP)
        status = process.end()
        with open(other, "rb") as file:
            tell("a file where the next one belongs", fault, differ("status", status, 2), differ("it", file.read(), b"4 what"),
                 "" if process.said.endswith("(L4)\n") else process.said)


def limits():
    """A session that ends before its numbers do, and messages that wait while nobody signs."""
    wanted = [message(n) for n in range(50)]
    with signer("--messages=5", "--seconds=1000") as it:
        def before():
            live_log.LAST_NUMBER = live_log.KEPT_FREE + 20

        process = it.start(before=before)
        faults = []
        for at in (20, 40, 50):
            process.say(framed(wanted[at - (20 if at < 50 else 10):at]))
            faults.append(it.wait_for(lambda status, at=at: status["signed"] == at and status["pending"] == 0))
            if at < 50:
                faults.append(it.wait_for(lambda status, at=at: status["gbc"] == 0))
        status = process.end()
        tell("a session ends before its numbers do", *faults, differ("status", status, 0), *it.clean(wanted, 3))
    with signer("--omprog", "--messages=5", "--seconds=0.2") as it:
        def before():
            live_loop.MOST_PENDING = 20

        def put(text):
            with open(it.path("sealer.new"), "w", encoding="ascii") as file:
                file.write(f"#!/bin/sh\n{text}\n")
            os.chmod(it.path("sealer.new"), 0o755)
            os.replace(it.path("sealer.new"), it.path("sealer"))

        tool, sealed = os.path.join(ROOT, "tools", "ssign-keys"), shlex.quote(it.path("sealed"))
        good = (f"exec {shlex.join([tool, 'seal', KEYS + '/private-key.pem', '--each'])} --state={sealed} "
                f"$([ -e {sealed} ] || echo --new-state)")
        put(good)
        it.key = [f"--seal-command={shlex.quote(it.path('sealer'))}", f"--public={KEYS}/public-key.pem"]
        it.run(told(wanted[0]))
        put("exit 3")
        process = it.start(before=before)
        process.answer()
        answered = 0
        for each in wanted[1:40]:
            process.say(told(each))
            if process.answer(2.0) is None:
                break
            answered += 1
        put(good)
        faults = [differ("the answer once somebody signs", process.answer(), b"OK\n")]
        status = process.end()
        tell("so many messages wait for a block at most", *faults, differ("answered before", answered, 20), differ("status", status, 0),
             *it.clean(wanted[:22]))


def counters():
    """The counters are written at each new file and at each heartbeat, and a file ends with a block of all its messages."""
    wanted = [message(n) for n in range(12)]
    with signer("--seconds=1000") as it:
        process = it.start()
        process.say(framed(wanted[:5]))
        faults = [it.wait_for(lambda status: status["taken"] == 5)]
        os.kill(process.child, signal.SIGHUP)
        faults.append(it.wait_for(lambda status: status["file"].endswith("-000002.frames")))
        rsid = it.files()[0].split("-")[-2]
        wished = [f"count gate.example.org signer - {rsid} 1\ncount gate.example.org signer - {rsid} 0 0 6\nend 2\n".encode()]
        faults.append(differ("counters of the first file", it.kept("counters-"), wished))
        with open(os.path.join(it.path("out"), it.files()[0]), "rb") as file:
            found = split_frames(file.read())[0]
        faults.append("" if b"[ssign " in found[-1] else f"the file doesn't end with a block: {found[-1]!r}")
        with open(it.path("first"), "wb") as file:
            file.write(it.kept("counters-")[0])
        process.say(framed(wanted[5:]))
        status = process.end()
        tell("a file ends with a block and has its counters", *faults, differ("status", status, 0), *it.clean(wanted))
        with open(os.path.join(it.path("state"), "manifest.jsonl"), encoding="ascii") as file:
            entries = [json.loads(line) for line in file]
        tell("the entry has the counters of the file", differ("counters", [each["counters"] for each in entries],
                                                              [wished[0].decode().splitlines()[:-1]]),
             differ("numbers", entries[0]["groups"], [{"sg": 0, "spri": 0, "first": 1, "last": 5}]))
        # the first file by itself, up to the counters that were there when it was ended
        run = Process(["verify", f"--key={KEYS}/public-key.pem", f"--counters={it.path('first')}", "--raw", f"--ssign={PROGRAM}",
                       os.path.join(it.path("out"), it.files()[0])])
        tell("an ended file is clean by itself", differ("status", run.end(), 0))
    with signer("--seconds=0.1") as it:
        def put(text):
            with open(it.path("program.new"), "w", encoding="utf-8") as file:
                file.write(f"#!/bin/sh\n{text}\n")
            os.chmod(it.path("program.new"), 0o755)
            os.replace(it.path("program.new"), it.path("program"))

        put(f'exec {shlex.quote(PROGRAM)} "$@"')
        process = it.start(f"--ssign={it.path('program')}")
        faults = [it.wait_for(lambda status: status["running"])]
        put("exit 7")
        # these are sure, so nobody is asked before they are stored
        process.say(framed(wanted[:3]))
        faults.append(it.wait_for(lambda status: status["failing"]))
        os.kill(process.child, signal.SIGHUP)
        time.sleep(1.0)
        faults.append(differ("files while nobody plans", len(it.files()), 1))
        put(f'exec {shlex.quote(PROGRAM)} "$@"')
        faults.append(it.wait_for(lambda status: status["file"].endswith("-000002.frames")))
        status = process.end()
        tell("no file ends before its messages have a block", *faults, differ("status", status, 0), *it.clean(wanted[:3]))
    with signer("--seconds=1000", "--heartbeat=0.4", "--messages=1") as it:
        process = it.start()
        fault = it.wait_for(lambda status: status["signed"] >= 2)
        found = it.kept("counters-")
        process.end()
        tell("the counters are written at each heartbeat", fault, "" if found else "there are none")


def drained():
    """What stands in the pipe when a signal comes is signed too, also where it is more than is read at once."""
    wanted = [b"<13>1 - h a p - - drained %d" % n for n in range(8000)]
    with signer("--seconds=1000", "--messages=1000") as it:
        process = it.start()
        fcntl.fcntl(process.to, PIPE_SIZE, 1 << 20)
        fault = it.wait_for(lambda status: status["running"])
        os.kill(process.child, signal.SIGSTOP)
        process.say(framed(wanted))
        os.kill(process.child, signal.SIGTERM)
        os.kill(process.child, signal.SIGCONT)
        child, ended = os.waitpid(process.child, 0)
        process.to.close()
        process.answers.close()
        tell("a signal with messages in the pipe", fault, differ("status", os.waitstatus_to_exitcode(ended), 0), *it.clean(wanted))


def put_back():
    """State, output and counters of an earlier time, with the present manifest."""
    with signer("--messages=5", "--rotate-size=1") as it:
        it.run(framed([message(n) for n in range(7)]))
        for name in ("state", "out"):
            shutil.copytree(it.path(name), it.path(f"old-{name}"))
        it.run(framed([message(n) for n in range(7, 20)]))
        shutil.copy(os.path.join(it.path("state"), "manifest.jsonl"), it.path("manifest.jsonl"))
        for name in ("state", "out"):
            shutil.rmtree(it.path(name))
            os.rename(it.path(f"old-{name}"), it.path(name))
        os.replace(it.path("manifest.jsonl"), os.path.join(it.path("state"), "manifest.jsonl"))
        run = it.run(framed([message(20)]))
        tell("all but the manifest is put back", differ("status", run.status, 2),
             "" if "the manifest goes further" in run.said and run.said.endswith("(L4)\n") else run.said)


LIAR = r"""#!{python}
import base64, os, subprocess, sys
words, lie = sys.argv[1:], {lie!r}
if words[0] == "describe":
    os.execv({program!r}, [{program!r}, *words])
ran = subprocess.run([{program!r}, *words], stdin=0, stdout=subprocess.PIPE, close_fds=False)
said = ran.stdout if lie != "silent" or words[0] != "plan" else b""
is_ahead, is_resumed = "--ahead" in words, any(it.startswith("--resume") for it in words)
if ran.returncode == 0 and is_resumed:
    if words[0] == "sign" and lie == "drop":
        length, _, rest = said.partition(b" ")
        said = rest[int(length):]
    if words[0] == "sign" and lie == "other":
        said = said.replace(b"message 4", b"message 5")
    if words[0] == "sign" and lie == "twice":
        length, _, rest = said.partition(b" ")
        said = said[:len(length) + 1 + int(length)] + said
    if is_ahead and lie == "back":
        said = said.replace(b" 6\n", b" 1\n").replace(b" 1\n", b" 0\n", 1)
    if words[0] == "plan" and not is_ahead and lie == "want":
        octets = base64.b64decode(said.split()[1]).replace(b'GBC="0"', b'GBC="7"')
        said = b"want " + base64.b64encode(octets) + b"\n"
os.write(1, said)
sys.exit(ran.returncode)
"""


def lying():
    """A program that isn't ssign: nothing that it says is written where it isn't what was to be signed."""
    wanted = [message(n) for n in range(0, 10, 2)]
    for is_far in (False, True):
        for lie in ("drop", "other", "twice", "back", "want", "silent"):
            with signer("--seconds=1000") as it:
                liar = it.path("liar")
                with open(liar, "w", encoding="utf-8") as file:
                    file.write(LIAR.format(python=sys.executable, lie=lie, program=PROGRAM))
                os.chmod(liar, 0o755)
                if is_far:
                    tool, sealed = os.path.join(ROOT, "tools", "ssign-keys"), it.path("sealed")
                    command = shlex.join([tool, "seal", KEYS + "/private-key.pem", "--each", f"--state={sealed}"])
                    it.key = [f"--seal-command={command} --new-state", f"--public={KEYS}/public-key.pem"]
                run = it.run(framed(wanted), f"--ssign={liar}")
                blocks = [each for each in it.stored() if b"[ssign " in each] if it.files() else []
                tell(f"a lie about {lie}, {'far' if is_far else 'near'}", differ("status", run.status, 2),
                     "" if "Traceback" not in run.said and run.said.count("\n") == 1 else run.said, differ("blocks", blocks, []),
                     differ("stored", it.originals(), wanted if lie != "silent" else []))
                if is_far and os.path.exists(sealed):
                    it.key[0] = f"--seal-command={command}"
                run = it.run(b"" if it.files() else framed(wanted))
                if is_far and lie == "want":
                    # the other machine might have seen the numbers, so they are left out
                    status, rows, _ = it.verdict()
                    tell("after a lie about what another machine signs", differ("statuses", (run.status, status), (0, 1)),
                         differ("listed", rows[-1]["listed"], 5), differ("unannounced", rows[-1]["unannounced"], 5))
                    continue
                tell(f"after a lie about {lie}, {'far' if is_far else 'near'}", differ("status", run.status, 0), *it.clean(wanted))


def full():
    """A limit of file sizes stands for a full disk."""
    wanted = [b"<13>1 - h a p - - %d %s" % (n, b"x" * 900) for n in range(40)]
    with signer("--omprog", "--messages=7") as it:
        process = it.start()
        process.answer()
        for each in wanted[:5]:
            process.say(told(each))
            process.answer()
        size = it.status()["size"]
        resource.prlimit(process.child, resource.RLIMIT_FSIZE, (8000, resource.RLIM_INFINITY))
        confirmed = 5
        while confirmed < 40:
            process.say(told(wanted[confirmed]))
            if process.answer(1.0) is None:
                break
            confirmed += 1
        stuck = confirmed
        torn = [each for each in it.stored() if each == b"TORN"]
        resource.prlimit(process.child, resource.RLIMIT_FSIZE, (resource.RLIM_INFINITY, resource.RLIM_INFINITY))
        faults = [differ("the answer once there is room", process.answer(), b"OK\n")]
        for each in wanted[confirmed + 1:]:
            process.say(told(each))
            faults.append(differ("the answer", process.answer(), b"OK\n"))
        status = process.end()
        lines = [each for each in process.said.splitlines() if "can't be written" in each]
        tell("a full disk", *faults, differ("status", status, 0), f"it was never full: {stuck}, {size}" if stuck >= 39 else "",
             differ("torn", torn, []), differ("lines on standard error", len(lines), 1), *it.clean(wanted))


def at_once():
    """Two processes with one state, or with one output."""
    with signer("--seconds=1000") as it:
        process = it.start()
        process.say(framed([message(0)]))
        fault = it.wait_for(lambda status: status["taken"] == 1)
        second = it.run(framed([message(1)]))
        tell("two with one state", fault, differ("status", second.status, 2),
             "" if second.said.startswith("ssign-keys: the state ") and second.said.endswith("(L1)\n") else second.said)
        shutil.copytree(it.path("state"), it.path("copy"))
        third = Process(["live", *it.key, f"--state={it.path('copy')}", f"--out={it.path('out')}", *it.options])
        third.say(framed([message(2)]))
        third.end()
        tell("two with one output", differ("status", third.status, 2),
             "" if third.said.startswith("ssign-keys: the output ") and third.said.endswith("(L1)\n") else third.said)
        tell("the first one goes on", differ("status", process.end(), 0), *it.clean([message(0)]))


# ---- a seal command

def sealers():
    """A seal command that works, and such that don't."""
    wanted = [message(n) for n in range(30)]
    with signer("--messages=5", "--seconds=0.2") as it:
        command = it.path("sealer")
        sealed = it.path("sealed")
        each = [os.path.join(ROOT, "tools", "ssign-keys"), "seal", f"{KEYS}/private-key.pem", "--each", f"--state={sealed}"]

        def put(text):
            with open(command + ".new", "w", encoding="utf-8") as file:
                file.write(f"#!/bin/sh\n{text}\n")
            os.chmod(command + ".new", 0o755)
            os.replace(command + ".new", command)

        good = f"exec {shlex.join(each)} $([ -e {shlex.quote(sealed)} ] || echo --new-state)"
        put(good)
        it.key = [f"--seal-command={shlex.quote(command)}", f"--public={KEYS}/public-key.pem"]
        run = it.run(framed(wanted[:12]))
        tell("a seal command", differ("status", run.status, 0), *it.clean(wanted[:12]))
        at = 12
        for what, text in (("ends", "exit 3"), ("hangs", "sleep 100"), ("answers something else", "cat"),
                           ("gives a signature that isn't valid", "while read -r a b; do echo \"seal $b AAAA\"; done"),
                           ("isn't there", None)):
            if text is None:
                os.unlink(command)
            else:
                put(text)
            process = it.start("--omprog")
            faults = [differ("the first answer", process.answer(), b"OK\n")]
            for one in wanted[at:at + 3]:
                process.say(told(one))
                faults.append(differ("the answer", process.answer(), b"OK\n"))
            faults.append(it.wait_for(lambda status: status["failing"]) if text != "sleep 100" else "")
            put(good)
            if text == "sleep 100":
                process.end(signal.SIGKILL)
                ended = it.run(b"").status
            else:
                faults.append(it.wait_for(lambda status: status["pending"] == 0))
                ended = process.end()
            at += 3
            lines = [one for one in process.said.splitlines() if "(L5)" in one]
            tell(f"a seal command that {what}", *faults, differ("status", ended, 0), *it.clean(wanted[:at]),
                 differ("lines on standard error", len(lines), 1) if text != "sleep 100" else "")
        put("exit 3")
        process = it.start("--omprog")
        process.answer()
        for one in wanted[at:at + 2]:
            process.say(told(one))
            process.answer()
        ended = process.end(signal.SIGTERM)
        tell("an end while nobody signs", differ("status", ended, 2),
             "The next start has them signed" not in process.said and process.said, differ("stored", it.originals(), wanted[:at + 2]))
        put(good)
        ended = it.run(b"").status
        tell("the next start has them signed", differ("status", ended, 0), *it.clean(wanted[:at + 2]))


def each():
    """`seal --each`: at once, and never a number with other octets."""
    with tempfile.TemporaryDirectory() as folder, open(f"{KEYS}/payload", encoding="ascii") as file:
        state = os.path.join(folder, "sealed")
        payload = file.read().strip()

        def wants(rsid, first, last, start=None):
            words = [PROGRAM, "plan", f"--payload={payload}", f"--rsid={rsid}", "--ver=0121", "--count=2", "--host=h", "--app=s"]
            log = framed([b"<13>1 - h a p - - %d" % n for n in range(first, last)])
            if start is not None:
                counters = os.path.join(folder, "counters")
                with open(counters, "w", encoding="ascii") as file:
                    file.write(f"count h s - {rsid} {start}\ncount h s - {rsid} 0 0 {2 * start + 1}\nend 2\n")
                words.append(f"--resume={counters}")
            return subprocess.run(words, input=log, capture_output=True, check=True).stdout.splitlines(True)

        def ask(lines, *options):
            process = Process(["seal", f"{KEYS}/private-key.pem", "--each", f"--state={state}", *options])
            sealed = 0
            for line in lines:
                process.say(line)
                answer = process.answer()
                if not answer or answer.split(b" ")[1] != line.split(b" ")[1].rstrip(b"\n"):
                    break
                sealed += 1
            return sealed, process.end(), process.said

        first = wants(5, 0, 8)
        tell("seal --each begins its state, and answers at once", differ("sealed", ask(first, "--new-state")[:2], (len(first), 0)))
        tell("the same again", differ("sealed", ask(first)[:2], (len(first), 0)))
        tell("what follows", differ("sealed", ask(wants(5, 8, 12, 4))[:2], (2, 0)))
        for what, lines, known in (("another block with a GBC", wants(5, 50, 52, 5), 0), ("an earlier block", wants(5, 60, 62, 0), 0),
                                   ("an older session", wants(4, 0, 2), 0), ("no `want` line", [b"what\n"], 0)):
            sealed, status, said = ask(lines)
            tell(f"seal --each refuses {what}", differ("sealed", (sealed, status), (known, 2)), "" if said.count("\n") == 1 else said)
        with open(state, "rb") as file:
            before = len(file.read())
        many = wants(5, 0, 1400, 6)
        sealed = ask(many)
        with open(state, "rb") as file:
            after = len(file.read())
        tell("the state doesn't grow for ever", differ("sealed", sealed[:2], (700, 0)), f"{before}, {after}" if after > 513 * 130 else "")
        tell("the last of many again", differ("sealed", ask(many[-2:])[:2], (2, 0)))
        tell("the first of many isn't remembered", differ("sealed", ask(many[:1])[:2], (0, 2)))


# ---- reports

def reports():
    """Heartbeats, what systemd receives, and the file of --status."""
    began = time.strftime("%Y-%m-%dT%H:%M:%SZ", time.gmtime())
    with signer("--seconds=0.1", "--heartbeat=0.3") as it:
        address = it.path("notify")
        with socket.socket(socket.AF_UNIX, socket.SOCK_DGRAM) as manager:
            manager.bind(address)
            manager.settimeout(PATIENCE)
            said, faults = [], []

            def before():
                os.environ.update(NOTIFY_SOCKET=address, WATCHDOG_USEC="400000")

            def listen():
                while "STOPPING=1" not in said:
                    said.append(manager.recv(1 << 16).decode())

            process = it.start(before=before)
            listener = threading.Thread(target=listen, daemon=True)
            listener.start()
            process.say(framed([message(0)]))
            fault = it.wait_for(lambda status: status["signed"] >= 1)
            # who has opened it reads one text, though another one has come
            with open(it.path("status"), encoding="ascii") as opened:
                text = opened.read()
                fault = fault or it.wait_for(lambda status: status != json.loads(text) and status["signed"] >= 3)
                opened.seek(0)
                faults.append(differ("an opened file of --status", opened.read(), text))
            status = process.end()
            listener.join(PATIENCE)
        for word in ("READY=1", "WATCHDOG=1", "STATUS=", "STOPPING=1"):
            faults.append("" if any(each.startswith(word) for each in said) else f"systemd never gets {word}: {said[:9]}")
        beats = [each for each in it.originals() if b" heartbeat - " in each]
        tell("heartbeats and systemd", fault, *faults, differ("status", status, 0), "no heartbeat" if len(beats) < 2 else "",
             "a heartbeat without counters" if b"next GBC 1, next numbers 0 0 " not in b"".join(beats) else "", *it.clean())
        wished = {"time", "session", "file", "size", "messages_in_file", "gbc", "groups", "taken", "signed", "wrapped", "unsigned",
                  "aside", "blocks", "pending", "synced", "failing", "running"}
        last = it.status()
        moments = [began, last["synced"], last["time"], time.strftime("%Y-%m-%dT%H:%M:%SZ", time.gmtime())]
        tell("the file of --status", differ("keys", set(last), wished), differ("running", last["running"], False),
             "" if moments == sorted(moments) else f"when it was synced: {moments}")


def mistakes():
    """Options that go together, another key, and another session."""
    with signer() as it:
        it.run(framed([message(0)]))
        with tempfile.TemporaryDirectory() as other:
            subprocess.run([os.path.join(ROOT, "tools", "ssign-keys"), "make", other], check=True, capture_output=True)
            own, it.key = it.key, [f"--key={other}/private-key.pem"]
            run = it.run(framed([message(1)]))
            tell("another key", differ("status", run.status, 2), "(L3)" not in run.said and run.said)
            it.key = own
        for options, code in ((("--app=other",), "L3"), (("--groups=pri",), "L3"), (("--frag=77",), "L3")):
            run = it.run(framed([message(1)]), *options)
            tell(f"another {options[0]}", differ("status", run.status, 2), f"({code})" not in run.said and run.said)
        run = it.run(framed([message(1)]), "--count=7", "--copies=1", "--pri=110")
        tell("options that may differ, or say the same", differ("status", run.status, 0), *it.clean([message(0), message(1)]))
        run = it.run(framed([message(2)]), "--new-session", "--groups=pri")
        tell("another session", differ("status", run.status, 0), *it.clean([message(0), message(1), message(2)], 2))
        for name in ("state-0", "state-1"):
            with open(os.path.join(it.path("state"), name), "r+b") as file:
                file.truncate(99)
        run = it.run(framed([message(3)]))
        tell("a damaged state", differ("status", run.status, 2), "(L2)" not in run.said and run.said)
        run = it.run(framed([message(3)]), "--new-session")
        tell("another session after a damaged state", differ("status", run.status, 0),
             differ("kept", len([each for each in os.listdir(it.path("state")) if each.startswith("damaged-")]), 2),
             *it.clean([message(n) for n in range(4)], 3))
    with signer() as it:
        it.run(framed([message(0)]), "--app=own")
        run = it.run(framed([message(1)]), "--new-session")
        named = sorted(each[:4] for each in os.listdir(it.path("out")) if each.endswith(".frames"))
        tell("another session keeps the name that isn't given", differ("status", run.status, 0), differ("files", named, ["own-", "own-"]))
    for options, words in ((("--omprog", "--lines"), "--omprog goes without --lines"), (("--public=x",), "--public goes with"),
                           (("--messages=0",), "no number of messages"), (("--seconds=-1",), "no number of seconds"),
                           (("--host=two words",), "--host")):
        with signer() as it:
            run = it.run(b"", *options)
            tell(f"the mistake {options[0]}", differ("status", run.status, 2), words not in run.said and run.said,
                 "a traceback" if "Traceback" in run.said else "")


def main():
    """Makes all checks."""
    keys.key_fault = functools.lru_cache(keys.key_fault)
    keys.read_private_key(f"{KEYS}/private-key.pem")
    for it in (inputs, sure, unwrapped, groups, signals, days, boots, answers, order, full, failed_sync, modes, limits, counters, drained,
               put_back, lying, at_once, sealers, each, reports, mistakes):
        it()
    print(f"live_runs: {passed} passed, {failed} failed")
    return 1 if failed else 0


if __name__ == "__main__":
    sys.exit(main())
