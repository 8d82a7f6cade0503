#!/usr/bin/env python3
"""Whether a log is read as lines is found by its first octets, and an option overrules: tried against ssign itself.

    log_forms.py PROGRAM

No log that PROGRAM, which is ssign, reads as frames may be taken for lines, and none that begins with `<` for frames. Else
only a log whose first line is a text may be taken for lines.
Logs come as files, by standard input, compressed, and several at once. The last line is `log_forms: N passed, M failed`.
"""
import concurrent.futures
import contextlib
import gzip
import io
import lzma
import os
import random
import re
import subprocess
import sys
import tempfile

ROOT = os.path.dirname(os.path.dirname(os.path.abspath(__file__)))
sys.path.insert(0, os.path.join(ROOT, "tools"))

from ssign_keys.faults import Fault
from ssign_keys.logs import open_log
from ssign_keys.progress import Progress
from ssign_keys.workplace import Workplace

# controls, but for the tab, the CR and the escape of colours
UNSEEN = re.compile(rb"[\x00-\x08\x0b\x0c\x0e-\x1a\x1c-\x1f\x7f]")
TAILS = [b"", b"an 15 09:15:07 gate su: root\n", b"\n", b" ", b" <13>1 - - - - - -", b"3>1 - - - - - - a\n", b"2 ab", b" a", b"5 <13>1", b"0 <", b"\r\n\n", b"\x1f\x8b", b"<", b"1 a1 b",
         b"\x00" * 20]

passed = failed = 0


def tell(what, fault=""):
    """One check, passed where there is no fault."""
    global passed, failed
    if not fault:
        passed += 1
        return
    failed += 1
    print("log_forms: %s: FAILED\n    %s" % (what, fault))


def reads(program, octets, *words):
    """Whether ssign reads this log."""
    run = subprocess.run([program, "inspect", *words], input=octets, stdout=subprocess.DEVNULL, stderr=subprocess.DEVNULL, timeout=60)
    return run.returncode in (0, 1)


def form_of(logs, named=None, given=None):
    """Whether these logs, which stand in files or on standard input, are read as lines; a text where they are refused."""
    saved = os.dup(0)
    try:
        names = []
        for number, octets in enumerate(logs):
            if octets is None:
                names.append("-")
                with tempfile.TemporaryFile() as file:
                    file.write(given)
                    file.flush()
                    os.lseek(file.fileno(), 0, os.SEEK_SET)
                    os.dup2(file.fileno(), 0)
                continue
            names.append("log%d" % number)
            with open(names[-1], "wb") as file:
                file.write(octets)
        # what it reports of a guess, mistakes.py compares
        with Workplace() as workplace, contextlib.redirect_stderr(io.StringIO()):
            return open_log(names, named, workplace, Progress()).are_lines
    except Fault as fault:
        return str(fault)
    finally:
        os.dup2(saved, 0)
        os.close(saved)


def expect(what, wanted, logs, **more):
    """One check of what is said of these logs."""
    found = form_of(logs, **more)
    is_right = found.startswith(wanted) if isinstance(wanted, str) and isinstance(found, str) else found == wanted
    tell(what, "" if is_right else "%r, and not %r" % (found, wanted))


def packed(octets):
    """A log in each form that it may be stored in, but for zstd, whose command may be missing."""
    yield "plain", octets
    yield "gzip", gzip.compress(octets)
    yield "gzip in parts", b"".join(gzip.compress(octets[at : at + 5]) for at in range(0, len(octets), 5)) or gzip.compress(b"")
    yield "xz", lzma.compress(octets)


def check_first_octets(program):
    """Each first octet, with each of some tails."""
    logs = [bytes([first]) + tail for first in range(256) for tail in TAILS]
    with concurrent.futures.ThreadPoolExecutor(min(4, os.cpu_count() or 1)) as pool:
        as_frames = list(pool.map(lambda it: reads(program, it), logs))
    frames = sum(as_frames)
    guessed = 0
    for octets, is_read in zip(logs, as_frames):
        found = form_of([octets])
        if octets.startswith((b"\x1f\x8b", b"\x28\xb5\x2f\xfd", b"\xfd7zXZ\x00")):
            # such a log is compressed, and damaged
            continue
        if octets.startswith(b"<"):
            tell("%r is lines" % octets, "" if found is True and not is_read else "%r" % (found,))
        elif found is True:
            line, end, _ = octets.partition(b"\n")
            guessed += 1
            tell("%r is a line of text" % octets, "" if end and not is_read and not UNSEEN.search(line) else "%r" % (found,))
        else:
            tell("%r isn't taken for lines" % octets, "" if found is False else "%r" % (found,))
    tell("some are taken for lines of text", "" if 100 < guessed < len(logs) // 4 else str(guessed))
    tell("some of them are frames", "" if 50 < frames < len(logs) // 2 else "%d of %d" % (frames, len(logs)))
    print("log_forms: %d logs by their first octet, of which ssign reads %d as frames" % (len(logs), frames))


def check_random(program):
    """Frames and lines of random octets, through each way in."""
    random_of = random.Random(6587)
    for number in range(60):
        messages = [b"<%d>1 " % random_of.randrange(192) + random_of.randbytes(random_of.randrange(40)).replace(b"\n", b"") for _ in range(random_of.randrange(1, 6))]
        frames, lines = b"".join(b"%d %s" % (len(it), it) for it in messages), b"".join(it + b"\n" for it in messages)
        cut = random_of.randrange(1, len(frames) + 1)
        for octets, are_lines in ((frames, False), (lines, True), (frames[:cut], False), (lines[:cut], True)):
            words = ["--lines"] if are_lines else []
            tell("ssign reads the log %d" % number, "" if reads(program, octets, *words) else "it refuses it")
            for way, stored in packed(octets):
                expect("%d, %s" % (number, way), are_lines, [stored])
                expect("%d, %s, on standard input" % (number, way), are_lines, [None], given=stored)
                expect("%d, %s, behind an empty one" % (number, way), are_lines, [b"", gzip.compress(b""), stored])
            for named in (True, False):
                expect("%d, by an option" % number, named, [octets], named=named)


def check_several():
    """Logs of two forms, and without an octet."""
    frames, lines, other, torn = b"3 abc", b"<13>1\n", b"Jan 15\n", b"Jan 15"
    for log in ([b""], [b"", b""], [gzip.compress(b"")]):
        expect("no octet", False, log)
        expect("no octet, by an option", True, log, named=True)
    for logs in ([frames, frames], [frames, b"", frames], [torn, frames]):
        expect("%r" % (logs,), False, logs)
    expect("lines alone", True, [lines, b"", lines, gzip.compress(lines)])
    expect("lines of text", True, [lines, other, gzip.compress(other)])
    for logs, first, second in (([lines, frames], 0, 1), ([frames, lines], 1, 0), ([b"", lines, b"", lines, frames], 1, 4),
                                ([lines, torn], 0, 1), ([frames, other], 1, 0), ([frames, frames, gzip.compress(lines)], 2, 0), ([gzip.compress(frames), lines], 1, 0)):
        expect("%r" % (logs,), "log%d: this is one message a line, and log%d isn't: " % (first, second), logs)
        for named in (True, False):
            found = form_of(logs, named=named)
            tell("%r by an option" % (logs,), "" if found is named or "breaks off" in str(found) else "%r" % (found,))
    expect("a file and standard input", "-: this is one message a line, and log0 isn't: ", [frames, None], given=lines)


def main():
    program = os.path.abspath(sys.argv[1])
    with tempfile.TemporaryDirectory() as folder:
        os.chdir(folder)
        check_first_octets(program)
        check_random(program)
        check_several()
        os.chdir("/")
    print("log_forms: %d passed, %d failed" % (passed, failed))
    return failed > 0 or passed == 0


if __name__ == "__main__":
    sys.exit(main())
