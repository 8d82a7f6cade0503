"""Tables of what is done to folders of logs, and of what `ssign-keys sign --folder` makes of them.

A row has a name, the folder that it begins with (EMPTY, or SIGNED: two signed logs), and steps. A step has what is done, the words
of the run, its status, the names of the new files (an RSID is N), and what standard error says: these texts, or nothing. After each
step the signed files are read by folder_model.py, by rising RSID: each names the one before, and holds its log.
"""
import collections
import fnmatch
import hashlib
import json
import lzma
import os
import re
import shutil
import stat
import subprocess
import sys
import tempfile
import time
from typing import Callable, List, NamedTuple, Sequence, Tuple

import folder_model
from folder_model import Wrong, bare, check_chain, check_part, read_folder
from folder_runs import Box

EMPTY, SIGNED = "empty", "signed"
A, B = b"<13>1 - h a - - - one\n<13>1 - h a - - - two\n", b"Nov 30 04:00:00 h old: three\n"
FRAMES = ["a.log-1.frames", "b.log-1.frames"]
BEGINS = "ssign-keys: a chain begins in "
DAY = 86400
name = os.path.basename(sys.argv[0])[:-len(".py")]
passed = failed = 0


def tell(what, fault):
    global passed, failed
    if not fault:
        passed += 1
        return
    failed += 1
    print(f"{name}: {what}: FAILED\n    {fault}")


class Step(NamedTuple):
    """What is done, and then a run."""

    act: Callable[[Box], object]
    status: int = 0
    made: Sequence[str] = ()
    said: Sequence[str] = ()
    words: Sequence[str] = ()
    later: float = 0
    """By how many seconds the clock of the run is ahead."""
    program: str = ""
    most: int = 0
    """How many lines a signed file has room for; 0 where it is as many as usual."""
    chains: int = 1
    """How many files begin a chain; -1 where the chain isn't looked at."""


class Row(NamedTuple):
    """A row of the table."""

    name: str
    like: str
    steps: Sequence[Step]


def nothing(box):
    """Nothing is done."""


def put(name, octets, age=60.0):
    return lambda box: box.put(name, octets, age)


def remove(*names):
    return lambda box: box.remove(*names)


def both(*acts):
    return lambda box: [it(box) for it in acts]


def append(name, octets):
    return lambda box: box.append(name, octets)


def rename(*pairs):
    return lambda box: [box.rename(old, new) for old, new in pairs]


def gz(name, new=""):
    return lambda box: box.gz(name, new)


def change(name, at, octet):
    """Another octet stands at a place of a file."""
    def act(box):
        octets = bytearray(box.read(name))
        octets[at] = octet
        box.put(name, bytes(octets), 30)
    return act


def keep(name):
    """A copy is put aside, in the home of the folder."""
    return lambda box: shutil.copy2(box.at(name), os.path.join(box.home, name))


def put_back(name, new=""):
    return lambda box: shutil.copy2(os.path.join(box.home, name), box.at(new or name))


def copy(name, new):
    return lambda box: shutil.copy2(box.at(name), box.at(new))


def forget(box):
    """What was read of logs is forgotten."""
    box.remove(".ssign-seen")


def other_key(box):
    """Another key signs."""
    for it in ("private-key.pem", "public-key.pem", "payload", "sessions"):
        if os.path.exists(os.path.join(box.keys, it)):
            os.unlink(os.path.join(box.keys, it))
    assert box.main(["make", box.keys]).status == 0


def forked(box):
    """The machine is put back to a copy, and signs on; the files of both stand there then."""
    subprocess.run(["cp", "-a", box.home, box.home + ".copy"], check=True)
    box.put("c.log-1", b"one\n")
    box.sign()
    # the other one doesn't know of that session, and has the same second
    home, box.home = box.home, box.home + ".copy"
    time.sleep(1.1)
    box.put("d.log-1", b"other\n")
    box.sign()
    for it in ("d.log-1", "d.log-1.frames"):
        shutil.copy2(box.at(it), os.path.join(home, "logs", it))
    shutil.rmtree(box.home)
    box.home = home


def forged(name, rsid, before=None):
    """A file with a link that nobody signed, by docs/dev/FORMATS.md."""
    def act(box):
        text = {"aside": None, "before": before and {"name": before[0], "rsid": before[1], "sha256": 64 * "0"}, "format": 1, "log": None, "rsid": rsid}
        message = b"<110>1 2026-11-30T04:00:00Z gate ssign - chain - " + json.dumps(text, sort_keys=True, separators=(",", ":")).encode()
        box.put(name, b"%d %s" % (len(message), message))
    return act


def rsids_below(most):
    """Fails where a signed file has a greater RSID."""
    def act(box):
        tell("the greatest RSID", "" if max(it.link["rsid"] for it in read_folder(box.logs)) < most else "it lies ahead")
    return act


def lock(box):
    """Another process holds the lock of the folder, and nothing was signed for three days."""
    for it in box.signed():
        os.utime(box.at(it), (time.time() - 3 * DAY,) * 2)
    WRITERS.append(subprocess.Popen(["flock", "-F", box.logs, "sleep", "1000"]))
    while subprocess.run(["flock", "-n", box.logs, "true"], check=False).returncode == 0:
        time.sleep(0.05)


def seen_as(text):
    """What was seen is written by somebody else."""
    return put(".ssign-seen", text + b"\n" + hashlib.sha256(text).hexdigest().encode() + b"\n")


def as_late(seconds):
    """The beat has the time that its run had."""
    def act(box):
        for it in box.signed():
            if it.startswith("beat-"):
                os.utime(box.at(it), (time.time() + seconds,) * 2)
    return act


def packed(name, octets, pack):
    return put(name, pack(octets))


def zst(octets):
    return subprocess.run(["zstd", "-qc"], input=octets, capture_output=True, check=True).stdout


WRITERS: List[subprocess.Popen] = []


def hold(name):
    """A process has a log open for writing."""
    def act(box):
        with open(box.at(name), "ab") as file:
            WRITERS.append(subprocess.Popen(["sleep", "1000"], stdout=file))
    return act


def let_go(box):
    while WRITERS:
        child = WRITERS.pop()
        child.kill()
        child.wait()


def write_on(name):
    """A process opens a log again and again, and writes to it."""
    def act(box):
        box.put(name, b"x\n", 0)
        WRITERS.append(subprocess.Popen(["sh", "-c", f"while :; do echo more >>{box.at(name)}; sleep 0.2; done"]))
    return act


def stand_in(box, text):
    """A program in place of ssign; `$REAL` is that."""
    path = os.path.join(box.scratch, f"stand-in-{abs(hash(text))}")
    if not os.path.exists(path):
        with open(path, "w", encoding="ascii") as file:
            file.write(f"#!/bin/bash\nREAL={os.path.abspath(box.program)}\n{text}\n")
        os.chmod(path, 0o755)
    return path


KILLED = 'if [[ $1 == sign ]]; then head -c 10 /dev/zero; kill -9 $$; fi\nexec "$REAL" "$@"'
FULL = 'if [[ $1 == sign ]]; then echo "ssign: W1" >&2; exit 2; fi\nexec "$REAL" "$@"'
LEFT_OUT = 'if [[ $1 == sign ]]; then "$REAL" "$@" | sed "s/told/tord/"; exit 0; fi\nexec "$REAL" "$@"'

C = put("c.log-1", b"told\n")
MADE_C = ["c.log-1.frames"]
GONE = "put the signed files back"
DATED = "m.log-20261130"
CHANGED = [f"{DATED} was changed after it was signed: its first 44 octets aren't those", "Compare the two; then"]
OTHER = ["m.log.1 isn't the log that was signed under this name before: it is signed as another one"]


def prepare(box):
    """The folders that rows begin with."""
    box.begin()
    assert box.main(["make", box.keys]).status == 0
    homes = {EMPTY: box.home}
    box.begin(box.home)
    box.put("a.log-1", A, 5000)
    box.put("b.log-1", B, 4000)
    done = box.sign()
    tell("two logs", "" if (done.status, done.out.split()) == (0, FRAMES) else str(done))
    for it in FRAMES:
        verdict = box.verify(it)
        tell(f"{it} verifies", verdict.err if verdict.status else "")
    homes[SIGNED] = box.home
    return homes


def changed(box, step):
    """Changes the clock of a process, and how many lines a signed file has room for."""
    def act():
        real = time.time
        time.time = lambda: real() + step.later
        if step.most:
            box.loaded[1].MOST_LINES = step.most
    return act


def model_fault(box, step, logs):
    """What is wrong with the signed files; empty where nothing is."""
    try:
        files = read_folder(box.logs)
        check_chain(files, step.chains)
        for it in files:
            part = it.link["log"]
            if part is not None:
                log = next((log for log, changed in logs if (hashlib.sha256(log[:part["end"]]).hexdigest(), changed)
                            == (part["sha256"], part["changed"])), None)
                if log is None:
                    return f"{it.name} is of no log that there was"
                check_part(box.logs, it, log)
        return unsigned_fault(box, files) if step.status == 0 and "waits" not in "".join(step.said) else ""
    except (Wrong, ValueError, KeyError, IndexError, AttributeError) as wrong:
        return f"{type(wrong).__name__}: {wrong}"
    return ""


def unsigned_fault(box, files):
    """What is wrong with the logs that lie there: each has a signed file of its own, up to its last octet."""
    parts = [it.link["log"] for it in files if it.link["log"] is not None]
    here = collections.Counter((len(octets), hashlib.sha256(octets).hexdigest())
                               for octets, _ in named_logs(box, "*.log*").values() if octets)
    held = collections.Counter((it["end"], it["sha256"]) for it in parts)
    return f"{here - held} of the logs have no signed file" if here - held else ""


def named_logs(box, glob="*"):
    """The octets of the logs that can be read, and their times, by their names without a compression."""
    found = {}
    for it in box.names():
        seen = os.lstat(box.at(it))
        if not bare(it).endswith((".frames", ".set-aside")) and fnmatch.fnmatchcase(bare(it), glob) and stat.S_ISREG(seen.st_mode):
            try:
                found[bare(it)] = folder_model.plain(box.at(it)), int(seen.st_mtime)
            except (OSError, EOFError, ValueError, lzma.LZMAError):
                continue
    return found


def run_step(box, row, number, step, logs):
    """A step of a row, with its checks."""
    what = f"{row.name}, run {number}"
    before = box.names()
    logs += named_logs(box).values()
    step.act(box)
    logs += named_logs(box).values()
    there = box.names()
    done = box.sign(*step.words, before=changed(box, step), program=stand_in(box, step.program) if step.program else "")
    made = [re.sub(r"(?<=[.-])[0-9]{9,10}(?=\.frames)", "N", it) for it in done.out.splitlines()]
    tell(f"{what}: status", "" if done.status == step.status else f"{done.status}, and not {step.status}: {done.err}")
    tell(f"{what}: new files", "" if made == list(step.made) else f"{made}, and not {step.made}: {done.err}")
    missing = [it for it in step.said if it not in done.err]
    is_silent = bool(step.said) or not done.err
    tell(f"{what}: words", "" if not missing and is_silent else f"{missing} isn't in {done.err!r}")
    tell(f"{what}: nothing is left, or gone", f"{box.hidden()} {before}" if box.hidden() not in ([], [".begins.new"]) or set(there) - set(box.names()) else "")
    if step.chains >= 0:
        tell(f"{what}: the chain", model_fault(box, step, logs))


def run_rows(box, homes, every, least):
    """All rows, or those with a part of $ROWS in their names."""
    only = os.environ.get("ROWS", "").split("|")
    rows = [it for it in every if it is not None and any(part in it.name for part in only)]
    for row in rows:
        box.begin(homes[row.like])
        logs: List[Tuple[bytes, int]] = []
        try:
            for number, step in enumerate(row.steps, 1):
                run_step(box, row, number, step, logs)
            for it in set(box.signed()) - set(FRAMES):
                if row.steps[-1].chains >= 0 and row.name != "the newest signed file is of another key":
                    tell(f"{row.name}: {it} verifies", "" if box.verify(it).status == 0 else box.verify(it).out)
        finally:
            let_go(box)
        box.end()
    print(f"{name}: {len(rows)} rows")
    tell("rows", "" if len(rows) >= least or any(only) else f"{len(rows)} rows")


def main(rows, least, after=None):
    """Runs a table, and what comes after it. Gives the status."""
    with tempfile.TemporaryDirectory() as scratch:
        box = Box(sys.argv[1], sys.argv[2], scratch)
        homes = prepare(box)
        if failed:
            return 1
        run_rows(box, homes, rows, least)
        if after is not None:
            after(box, homes)
    print(f"{name}: {passed} passed, {failed} failed")
    return failed > 0 or passed == 0
