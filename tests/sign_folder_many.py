#!/usr/bin/env python3
"""`ssign-keys sign --folder` over folders of thousands of signed files and their logs, with nothing new: linear, and within seconds.

    sign_folder_many.py TOOLS SSIGN

The files are made by hand: a run reads their first messages alone. The last line is `sign_folder_many: N passed, M failed`.
"""
import gzip
import hashlib
import json
import os
import sys
import tempfile
import time

from folder_runs import Box

FEW, MANY = 1250, 5000
# the cost of the start and of the key is in both; a square would take sixteen times as long
MOST = 6.0
SECONDS = 30.0
passed = failed = 0


def tell(what, fault):
    global passed, failed
    if not fault:
        passed += 1
        return
    failed += 1
    print(f"sign_folder_many: {what}: FAILED\n    {fault}")


def link_of(rsid, before, name, log, changed):
    """The message of a link, by docs/dev/FORMATS.md."""
    stamp = time.strftime("%Y-%m-%dT%H:%M:%SZ", time.gmtime(rsid))
    text = {"aside": None, "before": before, "format": 1, "rsid": rsid,
            "log": {"changed": changed, "empty": 0, "end": len(log), "name": name, "sha256": hashlib.sha256(log).hexdigest(), "start": 0}}
    return f"<110>1 {stamp} gate ssign - chain - {json.dumps(text, sort_keys=True, separators=(',', ':'))}".encode()


def fill(box, count, has_fork=False):
    """So many logs, each with a signed file; every other log and signed file is compressed."""
    before, rsid = None, int(time.time()) - 2 * count
    for number in range(count):
        name, log = f"m.log-{number:05}", b"<13>1 - h a - - - %d\n" % number
        pack = gzip.compress if number % 2 else bytes
        extension = ".gz" if number % 2 else ""
        box.put(name + extension, pack(log))
        message = link_of(rsid + number, before, name, log, int(os.stat(box.at(name + extension)).st_mtime))
        octets = b"%d %s" % (len(message), message)
        box.put(f"{name}.frames{extension}", pack(octets))
        before = {"name": f"{name}.frames", "rsid": rsid + number, "sha256": hashlib.sha256(octets).hexdigest()}


def measured(box, count):
    """How many seconds of the processor a first and a second run take."""
    box.begin(os.path.join(box.scratch, "home-1"))
    fill(box, count)
    spent = []
    for run in (1, 2):
        began = os.times()
        done = box.sign()
        ended = os.times()
        spent.append(ended.children_user + ended.children_system - began.children_user - began.children_system)
        tell(f"{count} files, run {run}", "" if done == (0, "", "") else str(done)[:500])
    os.unlink(box.at("m.log-00007.gz"))
    box.put("m.log-00007", b"changed\n", 5000)
    done = box.sign()
    tell(f"{count} files: the changed one is named", "" if done.status == 1 and "m.log-00007 was changed" in done.err else str(done)[:500])
    box.end()
    return spent


def main():
    with tempfile.TemporaryDirectory() as scratch:
        box = Box(sys.argv[1], sys.argv[2], scratch)
        box.begin()
        assert box.main(["make", box.keys]).status == 0
        few, many = measured(box, FEW), measured(box, MANY)
        for run in (0, 1):
            print(f"sign_folder_many: run {run + 1}: {few[run]:.2f} s for {FEW} files, {many[run]:.2f} s for {MANY}")
            tell(f"run {run + 1} is linear", "" if many[run] < MOST * few[run] else f"{many[run] / few[run]:.1f} times as long")
            tell(f"run {run + 1} takes seconds", "" if many[run] < SECONDS else f"{many[run]:.1f} s")
    print(f"sign_folder_many: {passed} passed, {failed} failed")
    return failed > 0 or passed == 0


if __name__ == "__main__":
    sys.exit(main())
