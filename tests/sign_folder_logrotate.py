#!/usr/bin/env python3
"""What logrotate leaves, by its usual ways, and `ssign-keys sign --folder` after each rotation: each line is signed once.

    sign_folder_logrotate.py TOOLS SSIGN

The last line is `sign_folder_logrotate: N passed, M failed`.
"""
import collections
import itertools
import os
import pwd
import grp
import shutil
import subprocess
import sys
import tempfile
import time

from folder_model import Wrong, check_chain, read_folder
from folder_runs import Box
import skips

WAYS = {
    "dates": "dateext\ndateformat -%Y%m%d-%s",
    "dates before the extension": "dateext\ndateformat -%Y%m%d-%s\nextension .log",
    "dates, compressed late": "dateext\ndateformat -%Y%m%d-%s\ncompress\ndelaycompress",
    "numbers": "",
    "numbers, compressed": "compress",
    "numbers, compressed late": "compress\ndelaycompress",
    "copied and cut": "copytruncate",
    "numbers, and one is kept": "rotate 1",
    "copied and cut, compressed": "copytruncate\ncompress\ndateext\ndateformat -%Y%m%d-%s",
}
ROTATIONS = 3
passed = failed = 0


def tell(what, fault):
    global passed, failed
    if not fault:
        passed += 1
        return
    failed += 1
    print(f"sign_folder_logrotate: {what}: FAILED\n    {fault}")


def wait_for_second():
    """Waits for the next second: logrotate keeps a name that is there, and names with dates differ by seconds."""
    now = int(time.time())
    while int(time.time()) == now:
        time.sleep(0.05)


def rotate(box, way):
    """A rotation, as in the night."""
    if "%s" in WAYS[way] or "rotate 1" in WAYS[way]:
        wait_for_second()
    config, state = os.path.join(box.home, "config"), os.path.join(box.home, "state")
    owner = f"{pwd.getpwuid(os.geteuid()).pw_name} {grp.getgrgid(os.getegid()).gr_name}"
    with open(config, "w", encoding="ascii") as file:
        file.write(f'"{box.at("messages.log")}" {{\nrotate 50\nsu {owner}\ncreate 0640\n{WAYS[way]}\n}}\n')
    done = subprocess.run(["logrotate", "-f", "-s", state, config], capture_output=True, text=True, check=False)
    return done.stderr if done.returncode else ""


def fault_of(box, lines):
    """What is wrong; empty where each line is signed once."""
    try:
        files = read_folder(box.logs)
        check_chain(files)
    except (Wrong, ValueError, KeyError) as wrong:
        return str(wrong)
    count = collections.Counter(itertools.chain.from_iterable(it.originals for it in files))
    if count != collections.Counter(lines):
        return f"{count - collections.Counter(lines)} too often, {collections.Counter(lines) - count} too seldom, in {box.names()}"
    return ""


def try_way(box, way, signs_live, is_same=False):
    """Rotations, with a run after each; one before each too, where the log that is written to is signed as well."""
    box.begin(os.path.join(box.scratch, "home-1"))
    lines, what = [], f"{way}{', and signed before' if signs_live else ''}{', the same each night' if is_same else ''}"

    def write():
        lines.append(b"line" if is_same else b"line %d" % len(lines))
        box.append("messages.log", lines[-1] + b"\n")

    for turn in range(ROTATIONS):
        write()
        match = [] if signs_live else ["--match=messages?log?*", "--match=messages-*"]
        if signs_live:
            done = box.sign()
            tell(f"{what}: before rotation {turn}", done.err if done.status else "")
            write()
        tell(f"{what}: rotation {turn}", rotate(box, way))
        done = box.sign(*match)
        tell(f"{what}: after rotation {turn}", done.err if done.status else "")
    tell(f"{what}: each line is signed once", fault_of(box, lines))
    box.end()


def main():
    if shutil.which("logrotate", path=os.environ["PATH"] + ":/usr/sbin:/sbin") is None:
        skips.skip("sign_folder_logrotate", "logrotate is missing")
        print(f"sign_folder_logrotate: 0 passed, 0 failed{skips.more()}")
        return 0
    os.environ["PATH"] += ":/usr/sbin:/sbin"
    with tempfile.TemporaryDirectory() as scratch:
        box = Box(sys.argv[1], sys.argv[2], scratch)
        box.begin()
        tell("keys", box.main(["make", box.keys]).err)
        for way in WAYS:
            for signs_live in (False, True):
                try_way(box, way, signs_live)
            try_way(box, way, False, True)
    print(f"sign_folder_logrotate: {passed} passed, {failed} failed")
    return failed > 0 or passed == 0


if __name__ == "__main__":
    sys.exit(main())
