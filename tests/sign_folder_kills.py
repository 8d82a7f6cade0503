#!/usr/bin/env python3
"""Runs of `ssign-keys sign --folder` that are killed before each call that changes something, and what the next run makes of it.

    sign_folder_kills.py TOOLS SSIGN

After the next run each log is signed once and whole, nothing is left over, and no RSID was given to two files. The last line is
`sign_folder_kills: N passed, M failed`.
"""
import os
import signal
import subprocess
import sys
import tempfile

from folder_model import Wrong, check_chain, check_part, read_folder
from folder_runs import Box

LOGS = {"one.log-1": b"first\n" + 70000 * b"x" + b"\n\nthird\n", "two.log-1": b"<13>1 - h a - - - told\ntorn"}
CALLS = ("fsync", "rename", "replace", "unlink", "open", "fork")
passed = failed = 0


def tell(what, fault):
    global passed, failed
    if not fault:
        passed += 1
        return
    failed += 1
    print(f"sign_folder_kills: {what}: FAILED\n    {fault}")


def place_of(words, more):
    """Where a call works: the folder of a descriptor, the file of one, or a path."""
    folder = more.get("dir_fd", more.get("src_dir_fd"))
    number = folder if folder is not None else words[0] if words and isinstance(words[0], int) else None
    return os.readlink(f"/proc/self/fd/{number}") if number is not None else str(words[0]) if words else ""


def killed_at(step, home, noted=None):
    """Has the process be killed before its call number `step`; a file gets a line for each call. Its children live on."""
    count, here = 0, os.getpid()

    def met(name):
        nonlocal count
        count += 1
        if noted is not None:
            os.write(noted, b"%s\n" % name.encode())
        if count == step:
            os.kill(here, signal.SIGKILL)

    def wrap(name):
        real = getattr(os, name)

        def call(*words, **more):
            changes = words[1] & os.O_CREAT if name == "open" else True
            if os.getpid() == here and changes and (name == "fork" or place_of(words, more).startswith(home)):
                met(name)
            return real(*words, **more)
        setattr(os, name, call)

    for it in CALLS:
        wrap(it)
    started = subprocess.Popen.__init__

    def start(self, *words, **more):
        if os.getpid() == here:
            met("start")
        started(self, *words, **more)
    subprocess.Popen.__init__ = start


def fault_of(box, rsids):
    """What is wrong after the next run; empty where nothing is."""
    try:
        files = read_folder(box.logs)
        check_chain(files)
        for log, octets in LOGS.items():
            mine = [it for it in files if it.link["log"] is not None and it.link["log"]["name"] == log]
            if len(mine) != 1:
                return f"{log} is signed {len(mine)} times"
            check_part(box.logs, mine[0], octets)
    except (Wrong, ValueError, KeyError) as wrong:
        return str(wrong)
    new = {it.link["rsid"]: it.sha256 for it in files}
    if any(new.get(rsid, sha256) != sha256 for rsid, sha256 in rsids.items()):
        return "an RSID was given to two files that stay"
    left = box.hidden()
    return f"{left} are left" if left else ""


def sweep(box, what, like):
    """Kills a run at each of its steps."""
    box.begin(like)
    with tempfile.TemporaryFile() as notes:
        done = box.sign(before=lambda: killed_at(0, box.home, notes.fileno()))
        steps = os.pread(notes.fileno(), 1 << 20, 0).decode().split()
    tell(f"{what}: a run that isn't killed", fault_of(box, {}) or done.status and done.err)
    box.end()
    killed = 0
    for step in range(1, len(steps) + 1):
        box.begin(like)
        done = box.sign(before=lambda: killed_at(step, box.home))
        killed += done.status == -signal.SIGKILL
        rsids = {it.link["rsid"]: it.sha256 for it in read_folder(box.logs)}
        done = box.sign()
        for _ in range(50):
            # a child of the run that was killed may still hold the lock
            if "another run signs" not in done.err:
                break
            done = box.sign()
        fault = fault_of(box, rsids) or (f"status {done.status}: {done.err}" if done.status else "")
        tell(f"{what}: killed before {steps[step - 1]}, step {step}", fault)
        box.end()
    tell(f"{what}: runs are killed at all steps", "" if killed == len(steps) > 20 else f"{killed} of {len(steps)} are")


def main():
    with tempfile.TemporaryDirectory() as scratch:
        box = Box(sys.argv[1], sys.argv[2], scratch)
        box.begin()
        assert box.main(["make", box.keys]).status == 0
        for it in LOGS.items():
            box.put(*it)
        sweep(box, "a chain begins", os.path.join(scratch, "home-1"))
        box.home = os.path.join(scratch, "home-1")
        box.remove("one.log-1", "two.log-1")
        assert box.sign().status == 0
        for it in LOGS.items():
            box.put(*it)
        sweep(box, "a chain goes on", os.path.join(scratch, "home-1"))
    print(f"sign_folder_kills: {passed} passed, {failed} failed")
    return failed > 0 or passed == 0


if __name__ == "__main__":
    sys.exit(main())
