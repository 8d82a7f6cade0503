#!/usr/bin/env python3
"""Sessions that go on from run to run, by `ssign-keys sign --state`: prints `passed WHAT`, or `failed WHAT: WHY`, a line each.

    sessions.py KEYS PROGRAM [all]     KEYS has the folders `long` and `other`, each with a key pair of `ssign-keys make`

Each run is one of the command line, in a child of this process. A run is stopped at a step: a call that names a file, has
one on the disk, starts a program or prints. It is killed there, or the call fails because there is no room, or half of it
is printed. What has to come of it is judged by the blocks that were written, and by reviews up to the counters. Without
`all` each step is stopped in one way, in turn.
"""
from __future__ import annotations

import base64
import errno
import fcntl
import hashlib
import io
import os
import re
import shutil
import signal
import subprocess
import sys
import time
from typing import Callable, Dict, List, NamedTuple, Optional, Sequence, Tuple

ROOT = os.path.join(os.path.dirname(os.path.abspath(__file__)), "..")
sys.path.insert(0, os.path.join(ROOT, "tools"))

from origin_model import Chain, Config  # noqa: E402
from review_runs import frame, read_frames  # noqa: E402
from ssign_keys import cli, programs, progress, session_state  # noqa: E402
# loaded once here, and not in each child
from ssign_keys import keys, ongoing, session_file, sign, verify  # noqa: E402,F401
from ssign_keys.blocks import Signature, block_of  # noqa: E402
from ssign_keys.describer import Describer  # noqa: E402
from ssign_keys.faults import Fault  # noqa: E402

SIGN = re.compile(rb' SIGN="[^"]*"\]')
NAMES = ["--host", "h", "--app", "s"]


class Said(NamedTuple):
    """What a run said."""

    status: int
    out: bytes
    err: str


def counted(stop: int, kind: str) -> None:
    """Has the calls of this process counted, and the one with this number stopped; `steps` has their number at the end."""
    steps = 0

    def is_due() -> bool:
        nonlocal steps
        steps += 1
        if kind == "count":
            with open("steps", "w", encoding="ascii") as file:
                file.write(str(steps))
        return steps == stop

    def wrap(name: str) -> None:
        real = getattr(os, name)

        def call(*words: object, **more: object) -> object:
            if name == "write" and words[0] != 1:
                return real(*words, **more)
            if is_due():
                if kind == "half" and name == "write":
                    octets = bytes(words[1])  # type: ignore[call-overload]
                    real(1, octets[:len(octets) // 2])
                if kind == "full":
                    raise OSError(errno.ENOSPC, os.strerror(errno.ENOSPC))
                os.kill(os.getpid(), signal.SIGKILL)
            return real(*words, **more)
        setattr(os, name, call)

    for it in ("fsync", "replace", "mkdir", "write", "link"):
        wrap(it)
    real_start = subprocess.Popen.__init__

    def start(*words: object, **more: object) -> None:
        if is_due() and kind != "full":
            os.kill(os.getpid(), signal.SIGKILL)
        real_start(*words, **more)  # type: ignore[arg-type]
    setattr(subprocess.Popen, "__init__", start)


def run(*words: str, given: bytes = b"", stop: int = 0, kind: str = "none") -> Said:
    """Runs ssign-keys, and stops it at a step."""
    with open("given", "wb") as file:
        file.write(given)
    child = os.fork()
    if not child:
        for number, (name, flags) in enumerate([("given", os.O_RDONLY), ("out", os.O_WRONLY | os.O_CREAT | os.O_TRUNC),
                                                ("err", os.O_WRONLY | os.O_CREAT | os.O_TRUNC)]):
            opened = os.open(name, flags, 0o600)
            os.dup2(opened, number)
            os.close(opened)
        if kind != "none":
            counted(stop, kind)
        # a run that hangs ends by it
        signal.alarm(600)
        status = 70
        try:
            status = cli.main(list(words))
        finally:
            os._exit(status)
    status = os.waitstatus_to_exitcode(os.waitpid(child, 0)[1])
    with open("out", "rb") as out, open("err", encoding="utf-8") as err:
        return Said(status, out.read(), err.read())


def log_of(night: int, count: int = 5) -> bytes:
    """The lines of a night; of two PRI, so that there may be two groups."""
    return b"".join(b"<%d>1 - h a p m - night %d, message %d\n" % (13 + it % 2, night, it) for it in range(count))


def messages_of(frames: bytes) -> List[bytes]:
    """The whole frames of a log."""
    found: List[bytes] = read_frames(frames)[0]
    return found


def numbers_of(logs: Sequence[bytes]) -> Tuple[Dict[Tuple[object, ...], bytes], List[str]]:
    """The hash that the blocks of these logs announce for each number, and what is wrong: a number or a GBC twice."""
    announced: Dict[Tuple[object, ...], bytes] = {}
    faults: List[str] = []
    seen = set()
    wanted = [base64.b64encode(SIGN.sub(b"]", it)) for log in logs for it in messages_of(log)]
    with Describer(os.environ["SSIGN"]) as describer:
        described = [(base64.b64decode(it), describer.describe(it)) for it in wanted]
    for octets, fields in described:
        if fields["line"] != "signature":
            continue
        block = block_of(fields)
        assert isinstance(block, Signature)
        hashes = re.findall(rb'HB="([^"]*)"', octets)[0].split(b" ")
        for key, value in [(("gbc", block.gbc), octets), *(((*block.group, block.first + at), it) for at, it in enumerate(hashes))]:
            named = (*block.session, *key)
            if named in seen:
                faults.append(f"{named} was given twice")
            seen.add(named)
            announced[named] = value
    return announced, faults


class Trials:
    """The trials, with what came of each."""

    def __init__(self, keys_folder: str, program: str) -> None:
        self.keys, self.program = os.path.abspath(keys_folder), program
        os.environ["SSIGN"] = program

    def tell(self, what: str, faults: Sequence[object]) -> None:
        """One check."""
        said = "; ".join(str(it) for it in faults)
        print(f"failed {what}: {said}" if said else f"passed {what}", flush=True)

    def holds(self, what: str, *are_so: bool) -> None:
        """One check."""
        self.tell(what, [] if all(are_so) else [f"no: {are_so}"])

    def key(self, pair: str = "long", which: str = "private") -> str:
        """The path of a key."""
        return os.path.join(self.keys, pair, f"{which}-key.pem")

    def sign(self, night: int, *words: str, pair: str = "long", stop: int = 0, kind: str = "none", count: int = 5) -> Said:
        """Signs a night in the state S."""
        return run("sign", "--key", self.key(pair), "--state", "S", "--lines", *words, "-", given=log_of(night, count), stop=stop,
                   kind=kind)

    def review(self, logs: Sequence[bytes], counters: bytes) -> Said:
        """The report on logs as one, up to counters."""
        with open("kept", "wb") as file:
            file.write(counters)
        return run("verify", "--key", self.key(which="public"), "--raw", "--counters", "kept", "--frames", "-",
                   given=b"".join(logs))

    def refused(self, what: str, said: Said, words: str) -> None:
        """One check: it was refused with a sentence, and wrote nothing."""
        faults: List[object] = []
        if said.status != 2 or said.out:
            faults.append(f"status {said.status}, {len(said.out)} octets")
        if not re.fullmatch(f"ssign-keys: {words}\n", said.err):
            faults.append(said.err)
        self.tell(what, faults)


def read(path: str) -> bytes:
    """What stands in a file."""
    with open(path, "rb") as file:
        return file.read()


def write(path: str, octets: bytes) -> None:
    """Has these octets stand in a file."""
    with open(path, "wb") as file:
        file.write(octets)


def counters() -> bytes:
    """The counters of all sessions of the state S."""
    return b"".join(read(os.path.join("S", it)) for it in sorted(os.listdir("S")) if it.startswith("counters-"))


def saved() -> object:
    """The counters that the session of the state S was saved with; None where no certificate block of it was signed."""
    try:
        kept = session_file.read_ongoing(read("S/session"))
    except FileNotFoundError:
        return None
    return (kept.session, kept.ends) if kept.certificates else None


def fresh() -> None:
    """Removes the state S."""
    shutil.rmtree("S", ignore_errors=True)


# ---- three nights

def three_nights(trials: Trials) -> None:
    """Three nights of one session are one log, and are what the model of an originator writes."""
    for groups, more in (("one", ["--count", "2"]), ("pri", ["--copies", "2", "--frag", "300"]), ("13,191", ["--stamp", "2026-11-27T00:00:00Z"])):
        fresh()
        begun = trials.sign(1, "--new-session", "--rsid", "7", *NAMES, "--groups", groups, *more)
        said = [begun, *(trials.sign(night) if "--stamp" not in more else trials.sign(night, *more) for night in (2, 3))]
        logs = [it.out for it in said]
        trials.tell(f"three nights, groups {groups}: status 0", [it.err for it in said if it.status or it.err])
        report = trials.review(logs, counters())
        trials.tell(f"three nights, groups {groups}: nothing is missing up to the counters", [] if report.status == 0 else [report])
        trials.holds(f"three nights, groups {groups}: each message is listed", report.out.count(b"\nok ") == 15)
        wanted = model(logs[0], more, groups)
        bare = [[SIGN.sub(b"]", it) for it in messages_of(log)] for log in logs]
        trials.tell(f"three nights, groups {groups}: the model writes the same", [f"night {at + 1}" for at in range(3) if bare[at] != wanted[at]])
        front = b"".join(frame(it) for it in messages_of(logs[0]) if b"[ssign-cert " in it)
        trials.holds(f"three nights, groups {groups}: the certificate blocks stand in front of each, octet for octet",
                     bool(front), *(it.startswith(front) and it.count(b"[ssign-cert ") == front.count(b"[ssign-cert ") for it in logs))


def model(first: bytes, more: Sequence[str], groups: str) -> List[List[bytes]]:
    """What the model of an originator writes in three nights, without signatures."""
    given = dict(zip(more[::2], more[1::2]))
    payload = b"".join(re.findall(rb'\[ssign-cert [^\]]* FRAG="([^"]*)"', b"".join(dict.fromkeys(messages_of(first)))))
    config = Config(["110", "h", "s", "-", "-", "0121", "7", {"one": "one:0", "pri": "pri:"}.get(groups, f"ranges:{groups}"),
                     given.get("--count", "99"), given.get("--copies", "1"), given.get("--frag", "500"), payload.hex()])
    stamp = given.get("--stamp", "-").encode()
    nights: List[List[bytes]] = []
    at = None
    front: List[bytes] = []
    for night in (1, 2, 3):
        chain = Chain(config, at)
        if at is None:
            front = chain.begin(stamp, Blank())
        sent = list(front)
        for it in log_of(night).splitlines():
            sent += chain.submit(it, stamp, Blank())
        sent += chain.flush(stamp, Blank())
        at = chain.counters()
        nights.append([SIGN.sub(b"]", it) for it in sent])
    return nights


class Blank:
    """A sealer for whose signatures nobody looks."""

    def sign(self, octets: bytes) -> bytes:
        """Any octets."""
        return b"\0\0\0"


# ---- stops

def stops(trials: Trials, is_all: bool) -> None:
    """The second night, and then the first one, is stopped at each step; the same command follows."""
    kinds = ("kill", "full", "half")
    for night, words in ((2, []), (1, ["--new-session", *NAMES])):
        fresh()
        if night == 2:
            trials.sign(1, "--new-session", *NAMES)
        shutil.rmtree("before", ignore_errors=True)
        if os.path.isdir("S"):
            shutil.copytree("S", "before")
        first = [read("out")] if night == 2 else []
        before = saved()
        trials.sign(night, *words, kind="count")
        steps = int(read("steps"))
        holes = 0
        faults: List[object] = []
        tried = 0
        for stop in range(1, steps + 1):
            for kind in kinds if is_all else kinds[stop % 3:][:1]:
                tried += 1
                fresh()
                if os.path.isdir("before"):
                    shutil.copytree("before", "S")
                found, has_hole = stopped(trials, night, words, first, before, stop, kind)
                holes += has_hole
                faults += [f"{kind} at step {stop}: {it}" for it in found]
        trials.tell(f"night {night} is stopped at each step", faults[:5])
        trials.holds(f"night {night}: some stops come before numbers are given, and some after", 0 < holes < tried)
        print(f"count night {night}: {steps} steps, {tried} stops, {holes} of them left numbers out")


def stopped(trials: Trials, night: int, words: Sequence[str], first: Sequence[bytes], before: object, stop: int,
            kind: str) -> Tuple[List[object], bool]:
    """What is wrong where a night is stopped at a step, and whether numbers were left out."""
    faults: List[object] = []
    broken = trials.sign(night, *words, stop=stop, kind=kind)
    if broken.status != (2 if kind == "full" and broken.status != -9 else -9) and not (kind == "full" and broken.status == 0):
        faults.append(f"the run that is stopped ended with {broken.status}: {broken.err}")
    kept = saved()
    again = trials.sign(night, *words)
    last = trials.sign(3)
    for it in (again, last):
        if it.status or it.err:
            faults.append(f"the next run ended with {it.status}: {it.err}")
    logs = [*first, again.out, last.out]
    # what was written of the run that was stopped, up to its last whole frame, counts too
    rest = b"".join(frame(it) for it in messages_of(broken.out))
    announced, twice = numbers_of([*first, rest, again.out, last.out])
    faults += twice
    report = trials.review(logs, counters())
    lines = report.out.decode().splitlines()
    odd = [it for it in lines if not it.startswith(("ok ", "hole ", "blocks ", "end ", "session ", "tail "))]
    if odd or report.status not in (0, 1) or report.err:
        faults.append(f"the review says {odd[:3]} {report.err}")
    wanted = [it for log in range(4) for it in log_of(log).splitlines() if log in (1, night, 3)]
    listed = [messages_of(b"".join(logs))[int(it.split(" ")[-1])] for it in lines if it.startswith("ok ")]
    if sorted(listed) != sorted(wanted):
        faults.append(f"{len(listed)} of {len(wanted)} messages are listed")
    has_hole = any(it.startswith(("hole ", "blocks ", "tail ")) or it.endswith(" absent") for it in lines)
    # numbers that were saved as given, and stand nowhere, are reported: of a session that goes on by a hole, of one that ended
    # with the run that was stopped by the counters that it leaves
    was_saved = kept != before
    if has_hole != was_saved:
        faults.append(f"numbers were {'' if was_saved else 'not '}saved as given, and the review says {lines[-4:]}")
    if broken.out and not was_saved:
        faults.append("something was written before the counters were saved")
    if rest and rest == broken.out and any(b"[ssign " in it for it in messages_of(rest)):
        # all of it was written: as a log of its own it stands beside the others
        report = trials.review([*first, rest, again.out, last.out], counters())
        if report.status or report.err:
            faults.append(f"with what was written the review says {report.err} {report.out[-300:]!r}")
    if any(it.startswith("session.") for it in os.listdir("S")):
        faults.append("a passing file is left")
    return faults, has_hole


# ---- two at once, and sessions that end

def two_at_once(trials: Trials) -> None:
    """While one run holds the state, another is refused."""
    fresh()
    trials.sign(1, "--new-session", *NAMES)
    kept = read("S/session")
    lock = os.open("S/lock", os.O_RDWR)
    fcntl.flock(lock, fcntl.LOCK_EX)
    for words in ([], ["--new-session"]):
        trials.refused(f"a second run is refused, {words}", trials.sign(2, *words), "the state S can't be locked: another run uses it")
    os.close(lock)
    trials.holds("a run that is refused changes nothing", read("S/session") == kept)
    # two that start together: one of them signs, or one after the other
    children = []
    for number in (1, 2):
        write(f"given{number}", log_of(number + 1))
        with open(f"given{number}", "rb") as given, open(f"out{number}", "wb") as out, open(f"err{number}", "wb") as err:
            children.append(subprocess.Popen([sys.executable, "-B", os.path.join(ROOT, "tools", "ssign-keys"), "sign", "--key", trials.key(),
                                              "--state", "S", "--lines", "-"], stdin=given, stdout=out, stderr=err))
    statuses = [it.wait() for it in children]
    logs = [read("out1"), read("out2")]
    trials.holds("two that start together: one signs at least", 0 in statuses, set(statuses) <= {0, 2})
    trials.tell("two that start together: no number twice", numbers_of(logs)[1])


def ends(trials: Trials) -> None:
    """A session ends where another one begins; its counters stay."""
    fresh()
    first = trials.sign(1, "--new-session", "--rsid", "7", *NAMES)
    trials.refused("an RSID that was used", trials.sign(2, "--new-session", "--rsid", "7", *NAMES),
                   "--rsid 7: the state S knows a session with the RSID 7, and one that begins needs a greater one; without --new-session "
                   "that session goes on")
    trials.refused("another RSID without --new-session", trials.sign(2, "--rsid", "8"),
                   '--rsid "8": the RSID of the session of the state S is "7"; --new-session begins another')
    trials.holds("the RSID may be given again", trials.sign(2, "--rsid", "07").status == 0)
    kept = read("S/counters-7")
    second = trials.sign(3, "--new-session", "--host", "other", "--app", "s")
    rsid = re.findall(rb'RSID="([0-9]+)"', second.out)[0]
    trials.holds("a session that begins without --rsid has the time as its RSID", abs(int(rsid) - time.time()) < 100)
    trials.holds("the counters of the session before stay", read("S/counters-7") == kept, b"other s - %s 1\n" % rsid in counters())
    report = trials.review([first.out, second.out], read("S/counters-%s" % rsid.decode()))
    trials.holds("both sessions in one log", report.status == 0, report.out.count(b"\nok ") == 10)
    third = trials.sign(3, "--new-session")
    after = re.findall(rb'RSID="([0-9]+)"', third.out)[0]
    trials.holds("the next session has a greater RSID", int(after) > int(rsid))
    trials.holds("and the names of the one before", b"<110>1 - other s - - [ssign-cert " in third.out)
    renamed = trials.sign(3, "--new-session", "--app", "t", "--procid", "5")
    trials.holds("but those that are given", b"<110>1 - other t 5 - [ssign-cert " in renamed.out)
    far = str(int(after) + 1000000)
    trials.sign(3, "--new-session", "--rsid", far)
    fourth = trials.sign(3, "--new-session")
    trials.holds("an RSID after one that is ahead of the clock", b'RSID="%d"' % (int(far) + 1) in fourth.out)
    trials.sign(3, "--new-session", "--rsid", "9999999999")
    trials.refused("no RSID is left", trials.sign(3, "--new-session"), "the state S has a session with the greatest RSID that there is: .*")


# ---- states that aren't those of the run

def others(trials: Trials) -> None:
    """A state of another key, other names, another VER, other groups or another payload."""
    fresh()
    trials.refused("no folder", trials.sign(1), "there is no folder S, which --state names: begin a session in it with --new-session")
    os.mkdir("S")
    trials.refused("an empty folder", trials.sign(1), "the state S has no session: begin one with --new-session")
    # live refuses a folder with such a session for ever
    for name in ("state-0", "state-1"):
        fresh()
        os.mkdir("S")
        write(os.path.join("S", name), b"a state of live")
        for words in ((), ("--new-session", *NAMES)):
            trials.refused(f"a folder of live: {name}: {len(words)} words", trials.sign(1, *words),
                           "the folder of --state is one of `ssign-keys live`: name another one")
        trials.holds(f"a folder of live: {name}: no session is begun", sorted(set(os.listdir("S")) - {"lock"}) == [name])
    fresh()
    trials.refused("--new-session alone", run("sign", "--key", trials.key(), "--rsid", "1", "--new-session", "-"), "--new-session goes with --state FOLDER")
    trials.refused("no name", run("sign", "--key", trials.key(), "--state", "", "-"), "--state has an empty name")
    trials.sign(1, "--new-session", *NAMES)
    kept = read("S/session")
    trials.refused("another key", trials.sign(2, pair="other"), "the session of the state S is that of another key; --new-session begins another")
    stated = read(os.path.join(trials.keys, "long", "payload")).decode().strip()
    for option, value in (("host", "g"), ("app", "x"), ("procid", "1"), ("msgid", "m"), ("pri", "13"), ("ver", "0111"), ("groups", "pri"),
                          ("frag", "20"), ("payload", "- K " + stated.split(" ")[2])):
        said = trials.sign(2, f"--{option}={value}")
        trials.refused(f"another {option}", said, f'--{option} "{re.escape(value[:60])}"?.*: .* of the session of the state S is ".*; --new-session begins another')
    trials.holds("none of them changes the state", read("S/session") == kept)
    trials.holds("the same words are taken", trials.sign(2, *NAMES, "--ver", "0121", "--groups", "one", "--count", "99").status == 0)
    said = trials.sign(3, "--count", "2", "--copies", "3", "--stamp", "2026-11-28T00:00:00Z")
    trials.holds("what is of one run", said.status == 0, len([it for it in messages_of(said.out) if b"[ssign " in it]) == 9)
    trials.refused("a word twice", trials.sign(2, "--host", "h", "--host", "h"), "--host can be given only once")
    trials.holds("a log that can't be signed uses no number up", refused_log(trials))


def refused_log(trials: Trials) -> bool:
    """Whether a log with a message that can't be signed leaves the state as it was, and the session that goes on."""
    kept = read("S/session")
    said = [run("sign", "--key", trials.key(), "--state", "S", "--lines", "--no-wrap", *words, "-", given=b"<13>1 - h a p m - one\nno message\n")
            for words in ([], ["--new-session"], ["--new-session", "--host", "no host"])]
    return all(it.status == 2 and not it.out for it in said) and "(O2)" in said[1].err and "(P2)" in said[2].err and read("S/session") == kept


def damaged(trials: Trials, is_all: bool) -> None:
    """A state that is cut, doubled, changed or can't be read."""
    fresh()
    trials.sign(1, "--new-session", *NAMES)
    whole = read("S/session")
    lines = whole.splitlines(keepends=True)
    cases: Dict[str, bytes] = {"empty": b"", "doubled": whole * 2, "an LF more": whole + b"\n", "a CR": whole.replace(b"\n", b"\r\n", 1),
                               "of another form": whole.replace(b"session 1", b"session 2", 1)}
    cases.update({f"cut at {at}": whole[:at] for at in range(1, len(whole), 1 if is_all else 97)})
    cases.update({f"without line {at}": b"".join(lines[:at] + lines[at + 1:]) for at in range(len(lines))})
    cases.update({f"line {at} twice": b"".join(lines[:at] + lines[at:at + 1] + lines[at:]) for at in range(len(lines))})
    cases.update({f"octet {at} changed": whole[:at] + bytes([whole[at] ^ 1]) + whole[at + 1:]
                  for at in range(0, len(whole), 7 if is_all else 89)})
    # what is changed, and has an end that fits
    for what, (old, new) in {"another RSID": (b"\nrsid 1", b"\nrsid 01"), "a counter of another session": (b"count h s", b"count g s"),
                             "no GBC": (lines[13], b""), "a GBC twice": (lines[13], lines[13] * 2), "a group twice": (lines[14], lines[14] * 2),
                             "number 0": (b" 0 0 6\n", b" 0 0 0\n"), "a number with a zero": (b" 0 0 6\n", b" 0 0 06\n"),
                             "a number that is too great": (b" 0 0 6\n", b" 0 0 10000000001\n"), "another VER": (b"ver 0121", b"ver 0131"),
                             "lines in another order": (lines[3] + lines[4], lines[4] + lines[3]), "no base64": (lines[15], b"certificate x\n")}.items():
        body = b"".join(lines[:-1]).replace(old, new, 1)
        cases[what] = body + b"end %s\n" % hashlib.sha256(body).hexdigest().encode()
    faults: List[object] = []
    for at, (what, octets) in enumerate(cases.items()):
        if octets == whole or is_read(octets):
            faults.append(f"{what}: it is read")
        if at % 8 and not is_all:
            continue
        write("S/session", octets)
        for words in ([], ["--new-session"]) if what in ("empty", "doubled") else ([],):
            said = trials.sign(2, *words)
            if said.status != 2 or said.out or "Nobody knows which numbers were given, so none is given" not in said.err:
                faults.append(f"{what} {words}: {said.status} {said.err}")
            if read("S/session") != octets:
                faults.append(f"{what}: it was changed")
    trials.tell("a state that is cut, doubled or changed is refused", faults[:5])
    print(f"count {len(cases)} states that are cut, doubled or changed")
    os.unlink("S/session")
    for what, make in {"a link": lambda: os.symlink("elsewhere", "S/session"), "a folder": lambda: os.mkdir("S/session"),
                       "a pipe": lambda: os.mkfifo("S/session")}.items():
        make()
        said = trials.sign(2)
        trials.holds(f"{what} in place of the session is refused", said.status == 2, not said.out, "Nobody knows" in said.err)
        (os.rmdir if what == "a folder" else os.unlink)("S/session")
    # the session is gone: the next one has an RSID above those whose counters are there
    write("S/counters-9000000000", b"")
    trials.refused("the session is gone", trials.sign(2), "the state S has no session: begin one with --new-session")
    trials.holds("the session after it", b'RSID="9000000001"' in trials.sign(2, "--new-session", *NAMES).out)
    write("S/session.new", whole[:100])
    trials.holds("a passing file that a run left is no matter", trials.sign(3).status == 0)


def is_read(octets: bytes) -> bool:
    """Whether octets are read as a session."""
    try:
        session_file.read_ongoing(octets)
    except ValueError:
        return False
    return True


def put_back(trials: Trials) -> None:
    """The file of the session is an older copy of it, or that of a session that ended: the counters beside it go further."""
    fresh()
    files = []
    for night, words in ((1, ["--new-session", "--rsid", "7", *NAMES, "--groups", "pri"]), (2, []), (3, ["--new-session", "--rsid", "9"])):
        trials.sign(night, *words)
        files.append(read("S/session"))
    ended = (files[1], "counters-9")
    for octets, name in ((files[0], "counters-9"), ended):
        write("S/session", octets)
        trials.refused("the session that ended is put back", trials.sign(2), f"the session S/session is older than {name} beside it, as "
                       "where an old copy was put back, so it would give numbers again: --new-session begins another")
    os.unlink("S/counters-9")
    write("S/session", files[0])
    kept = read("S/counters-7")
    trials.refused("an older copy of the session is put back", trials.sign(2), "the session S/session is older than counters-7 beside it, .*")
    trials.holds("it is left as it is", read("S/session") == files[0], read("S/counters-7") == kept)
    said = trials.sign(2, "--new-session")
    trials.holds("another session may begin then", said.status == 0, b'RSID="7"' not in said.out)
    trials.holds("with the names of the older copy", b"<110>1 - h s - - [ssign-cert " in said.out)
    trials.holds("the counters that go further stay", read("S/counters-7") == kept)
    # a counters file that is gone, cut off or changed says nothing, and is written again
    for octets in (None, b"", b"count h s - 7 9\n", b"count h s - 7 9\nend 1\n"):
        fresh()
        trials.sign(1, "--new-session", "--rsid", "7", *NAMES)
        os.unlink("S/counters-7")
        if octets is not None:
            write("S/counters-7", octets)
        said, is_whole = trials.sign(2), octets is not None and octets.endswith(b"end 1\n")
        trials.holds(f"counters that are {octets!r}", said.status == (2 if is_whole else 0), not is_whole or "older than counters-7" in said.err)


def modes(trials: Trials) -> None:
    """Nobody else may write to what is made, whatever the umask is."""
    for umask, mode in ((0, 0o644), (0o022, 0o644), (0o027, 0o640), (0o077, 0o600)):
        fresh()
        before = os.umask(umask)
        trials.sign(1, "--new-session", "--rsid", "7", *NAMES)
        os.umask(before)
        found = {name: os.stat(f"S/{name}").st_mode & 0o777 for name in os.listdir("S")}
        trials.holds(f"modes under the umask {umask:03o}: {found}",
                     found == {"lock": 0o600, "session": mode, "counters-7": mode}, not os.stat("S").st_mode & 0o022)


def odd_files(trials: Trials) -> None:
    """Something else stands where a file of the state is to be put: a pipe, a link, a folder."""
    makes: Dict[str, Callable[[str], None]] = {
        "a pipe": os.mkfifo, "a link": lambda it: os.symlink("../victim", it), "a second name": lambda it: os.link("victim", it),
        "a link to nothing": lambda it: os.symlink("nowhere", it)}
    for name in ("session.new", "counters-7.new"):
        for what, make in makes.items():
            fresh()
            trials.sign(1, "--new-session", "--rsid", "7", *NAMES)
            write("victim", b"precious")
            make(f"S/{name}")
            said = [trials.sign(night) for night in (2, 3)]
            trials.holds(f"{what} in place of {name}", *(it.status == 0 for it in said), read("victim") == b"precious",
                         not os.path.islink("S/session"), os.lstat("S/session").st_nlink == 1)
    for name, words in {"counters-7": "the counters S/counters-7 can't be read: it is no regular file",
                        "session.new": "S/session.new can't be written: Is a directory",
                        "lock": "the state S can't be locked: Is a directory"}.items():
        fresh()
        trials.sign(1, "--new-session", "--rsid", "7", *NAMES)
        kept = read("S/session")
        if name != "session.new":
            os.unlink(f"S/{name}")
        os.mkdir(f"S/{name}")
        trials.refused(f"a folder in place of {name}", trials.sign(2), words)
        trials.holds(f"a folder in place of {name} uses no number up", read("S/session") == kept)
    os.rmdir("S/lock")
    os.symlink("elsewhere", "S/lock")
    trials.refused("a link in place of the lock", trials.sign(2), "the state S can't be locked: S/lock is a link")
    fresh()
    write("S", b"")
    trials.refused("a file in place of the folder", trials.sign(1, "--new-session"), "S, which --state names, is no folder")
    os.unlink("S")
    # a session that this user may not read isn't lost
    trials.sign(1, "--new-session", "--rsid", "7", *NAMES)
    real = os.open

    def denied(path: str, *more: int, **named: int) -> int:
        if path == "S/session":
            raise PermissionError(errno.EACCES, os.strerror(errno.EACCES), path)
        return real(path, *more, **named)
    os.open = denied  # type: ignore[assignment]
    trials.refused("a session that may not be read", trials.sign(2), "the session S/session can't be read: Permission denied")
    os.open = real


def words_of_options(trials: Trials) -> None:
    """Words that say the same, or nearly so; a number that is none; a limit that is another one in a later run."""
    fresh()
    for word in ("+7", "-0", "7 ", "10000000000", "\u0667"):
        trials.refused(f"--rsid={word}", trials.sign(1, "--new-session", f"--rsid={word}", *NAMES), f'--rsid "{re.escape(word)}": it has to '
                       "be a number from 0 to 9999999999")
    trials.sign(1, "--new-session", "--rsid", "007", "--host", "42", "--app", "s", "--pri", "013")
    for word in ("--rsid=7", "--pri=13", "--count=099"):
        trials.holds(f"{word} is the same number", trials.sign(2, word).status == 0)
    trials.refused("a name of digits isn't a number", trials.sign(2, "--host", "042"), '--host "042": the HOSTNAME of .* is "42"; .*')
    trials.refused("a VER isn't a number", trials.sign(2, "--ver", "121"), '--ver "121": the VER of .* is "0121"; .*')
    trials.refused("two folders", trials.sign(2, "--state", "T"), "--state can be given only once .*")
    trials.refused("the first run again", trials.sign(1, "--new-session", "--rsid", "7", "--host", "42", "--app", "s"),
                   "--rsid 7: the state S knows a session with the RSID 7, and one that begins needs a greater one; without --new-session "
                   "that session goes on")
    said = [trials.sign(2, "--max-len", "900", count=40), trials.sign(2, "--max-len", "900", "--count", "99", count=40), trials.sign(2, count=40)]
    longest = [max(len(it) for it in messages_of(one.out) if b"[ssign " in it) for one in said]
    trials.holds("--max-len has room for the blocks, as without --state", longest[0] <= 900, longest[1] > 900, longest[2] > 900)


def limits(trials: Trials) -> None:
    """The last numbers that there are, a clock that goes back, a session that is too long to be kept, and logs without a message."""
    fresh()
    trials.sign(1, "--new-session", "--rsid", "7", *NAMES)
    body = read("S/session").rpartition(b"end ")[0].replace(b" 7 1\n", b" 7 9999999998\n").replace(b" 0 0 6\n", b" 0 0 9999999990\n")
    write("S/session", body + b"end %s\n" % hashlib.sha256(body).hexdigest().encode())
    said = trials.sign(2, "--count", "2")
    spent = "standard input: its messages or blocks can't be counted up to 9999999999 in this session: begin another with --new-session"
    trials.refused("more blocks than there are", said, rf"{spent} \(O9\)")
    trials.holds("the last but one block", trials.sign(2).status == 0)
    trials.refused("one message more than there is a number for", trials.sign(3, count=6), rf"{spent} \(O8\)")
    said = trials.sign(3)
    trials.holds("the last block, and the last number", said.status == 0, b'GBC="9999999999" FMN="9999999995" CNT="5"' in said.out)
    trials.refused("no number is left", trials.sign(1, count=1), rf"{spent} \(O8\)")
    trials.holds("a log without a message needs none", trials.sign(1, count=0).status == 0)
    trials.holds("the counters are the last ones", read("S/counters-7") == b"count h s - 7 10000000000\ncount h s - 7 0 0 10000000000\nend 2\n")
    real = time.time
    time.time = lambda: real() - 1e9
    try:
        fresh()
        said = trials.sign(1, "--new-session", "--rsid", str(int(real())), *NAMES)
        again = trials.sign(2, "--new-session", *NAMES)
        trials.holds("the clock goes back: the RSID rises", b'RSID="%d"' % (int(re.findall(rb'RSID="(\d+)"', said.out)[0]) + 1) in again.out)
    finally:
        time.time = real
    fresh()
    logs = [trials.sign(night, *words, count=count) for night, words, count in ((1, ["--new-session", "--rsid", "7", *NAMES], 0), (2, [], 0), (3, [], 5))]
    report = trials.review([it.out for it in logs], counters())
    trials.holds("logs without a message begin a session, and go on", logs[0].out == logs[1].out, report.status == 0, report.out.count(b"\nok ") == 5)
    # what can't be read again isn't begun
    fresh()
    session_state.LONGEST, longest = 3000, session_state.LONGEST
    trials.refused("a session that is too long to be kept", trials.sign(1, "--new-session", "--copies", "9", *NAMES),
                   "the certificate blocks of the session are too long to be kept: .*")
    session_state.LONGEST = longest


class NoRoom:
    """A workplace in a folder that is full."""

    def new_file(self, name: str) -> Unwritable:
        """A passing file to which nothing can be written."""
        return Unwritable(name, "w+b")

    def start(self, words: Sequence[str], *files: object) -> subprocess.Popen[bytes]:
        """Starts a program, whose words are lost."""
        return subprocess.Popen(words, stdin=subprocess.DEVNULL, stdout=subprocess.DEVNULL, stderr=subprocess.DEVNULL)


class Unwritable(io.FileIO):
    """A file to which nothing can be written."""

    def write(self, octets: object) -> int:
        """Fails."""
        raise OSError(errno.ENOSPC, os.strerror(errno.ENOSPC))


def no_room_for_words(trials: Trials) -> None:
    """ssign refuses, and its words have no room where passing files stand."""
    words = ""
    try:
        programs.Run("sh", ["-c", "exit 2"], NoRoom(), progress.Progress(), 0, 1).end(lambda: None)  # type: ignore[arg-type]
    except Fault as fault:
        words = str(fault)
    trials.holds("ssign has no room for its words", words == "a passing file can't be written: No space left on device; TMPDIR names the "
                 "folder for it")


def full_disk(trials: Trials) -> None:
    """Standard output, or the folder of the state, has no room."""
    fresh()
    first = trials.sign(1, "--new-session", *NAMES).out
    os.symlink("/dev/full", "full")
    os.unlink("out")
    os.symlink("/dev/full", "out")
    said = run_full(trials, 2)
    os.unlink("out")
    trials.holds("standard output is full: status 2", said[0] == 2, "standard output can't be written: No space left on device" in said[1])
    again = trials.sign(2)
    report = trials.review([first, again.out], counters())
    trials.holds("standard output is full: the next run goes on, and a hole is reported", report.status == 1, report.out.count(b"\nok ") == 10,
                 report.out.count(b"\nhole ") == 1, report.out.count(b"\nblocks ") == 1, b"\ngap " not in report.out)


def run_full(trials: Trials, night: int) -> Tuple[int, str]:
    """Signs a night onto a full device."""
    with open("/dev/full", "wb") as out:
        done = subprocess.run([sys.executable, "-B", os.path.join(ROOT, "tools", "ssign-keys"), "sign", "--key", trials.key(), "--state", "S",
                               "--lines", "-"], input=log_of(night), stdout=out, stderr=subprocess.PIPE, check=False)
    return done.returncode, done.stderr.decode()


def main(keys_folder: str, program: str, *more: str) -> int:
    """Runs all trials."""
    trials = Trials(keys_folder, program)
    chosen: List[Callable[[], None]] = [
        lambda: three_nights(trials), lambda: stops(trials, "all" in more), lambda: two_at_once(trials), lambda: ends(trials),
        lambda: others(trials), lambda: damaged(trials, "all" in more), lambda: full_disk(trials),
        lambda: put_back(trials), lambda: modes(trials), lambda: odd_files(trials), lambda: words_of_options(trials), lambda: limits(trials),
        lambda: no_room_for_words(trials)]
    only: Optional[str] = next((it for it in more if it.isdigit()), None)
    for at, it in enumerate(chosen):
        if only is None or str(at) == only:
            it()
    return 0


if __name__ == "__main__":
    sys.exit(main(*sys.argv[1:]))
