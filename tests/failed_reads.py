#!/usr/bin/env python3
"""A read of standard input that fails once: no command may go on after it, as if nothing had been.

    failed_reads.py PROGRAM LIBRARY

LIBRARY is fail.c. Each command reads the same log of several reads, and each of these fails in turn. The run has to
write F3 and nothing else, and the failed read has to be its last one. The last line is `failed_reads: N passed, M failed`.
"""
import os
import pathlib
import re
import subprocess
import sys
import tempfile
import tty

GIVEN = ["--payload=- N", "--rsid", "1"]
READING = [["review"], ["questions"], ["extract"], ["inspect"], ["counters"], ["carry"]]
COMMANDS = [*READING, ["plan", *GIVEN], ["sign", *GIVEN]]
# more than two buffers of a reader: 65,536 octets each
MESSAGES = [b"<13>1 - - - - - - message %d" % number for number in range(6000)]
FRAMES = [b"%d %s" % (len(it), it) for it in MESSAGES]
LOGS = {"frames": (COMMANDS, [], b"".join(FRAMES)),
        "lines": (COMMANDS, ["--lines"], b"".join(it + b"\n" for it in MESSAGES)),
        "damaged frames": (READING, ["--salvage"], b"".join([*FRAMES[:2000], b"X", *FRAMES[2000:4000], bytes(70_000), *FRAMES[4000:]]))}

# the count of a run that takes longer than a second, and how it is cleared: tests/progress.py
COUNTED = re.compile(rb"\r(ssign: \d+ messages read, \d+ a second)?\x1b\[K")

passed = failed = 0


def tell(what, fault=""):
    """One check, passed where there is no fault."""
    global passed, failed
    if not fault:
        passed += 1
        return
    failed += 1
    print(f"failed_reads: {what}: FAILED\n    {fault}")


def on_terminal(words, log, environment):
    """A run with a terminal as standard error: its status, standard output, and standard error without the count."""
    ours, theirs = os.openpty()
    tty.setraw(theirs)
    with subprocess.Popen(words, stdin=log, stdout=subprocess.PIPE, stderr=theirs, env=environment) as done:
        os.close(theirs)
        out, said = done.stdout.read(), b""
        try:
            while part := os.read(ours, 4096):
                said += part
        except OSError:
            pass
        os.close(ours)
        return done.wait(), out, COUNTED.sub(b"", said)


def aside(words, log, environment):
    """A run without a terminal: its status, standard output and standard error."""
    done = subprocess.run(words, stdin=log, capture_output=True, env=environment, timeout=60, check=False)
    return done.returncode, done.stdout, done.stderr


def run(how, words, path, is_piped, library, number):
    """A run in which this read fails, or none: what it gives, and how many reads there were."""
    counted = path.with_name("reads")
    counted.unlink(missing_ok=True)
    environment = {**os.environ, "LD_PRELOAD": library, "READS": str(counted), "FAILED": str(number)}
    if is_piped:
        with subprocess.Popen(["cat", path], stdout=subprocess.PIPE, stderr=subprocess.DEVNULL) as fed:
            given = how(words, fed.stdout, environment)
            fed.stdout.close()
    else:
        with open(path, "rb") as log:
            given = how(words, log, environment)
    return given, int(counted.read_text(encoding="ascii"))


def main():
    program, library = sys.argv[1:]
    told = subprocess.run([program, "explain", "F3"], capture_output=True, check=True).stdout
    with tempfile.TemporaryDirectory() as folder:
        for form, (commands, flags, octets) in LOGS.items():
            path = pathlib.Path(folder, form)
            path.write_bytes(octets)
            for command in commands:
                words, what = [program, *command, *flags], f"{command[0]}, {form}"
                clean, reads = run(aside, words, path, False, library, 0)
                tell(f"{what}: no read fails", "" if clean[2] in (b"", b"ssign: O6\n") and reads > 3 else f"{clean[2]!r} after {reads} reads")
                for number in range(1, reads + 1):
                    given, last = run(aside, words, path, False, library, number)
                    tell(f"{what}: read {number} of {reads}", "" if (given, last) == ((2, b"", b"ssign: F3\n"), number)
                         else f"{given[0]} {given[1][:100]!r} {given[2]!r} after {last} reads")
                    given, last = run(on_terminal, words, path, False, library, number)
                    tell(f"{what}: read {number} of {reads}, on a terminal", "" if (given, last) == ((2, b"", b"ssign: F3\n" + told), number)
                         else f"{given[0]} {given[1][:100]!r} {given[2]!r} after {last} reads")
                # how much a read of a pipe gives isn't known, but for the first reads there is enough
                for number in range(1, 4):
                    given, last = run(aside, words, path, True, library, number)
                    tell(f"{what}: read {number} of a pipe", "" if (given, last) == ((2, b"", b"ssign: F3\n"), number)
                         else f"{given[0]} {given[1][:100]!r} {given[2]!r} after {last} reads")
    print(f"failed_reads: {passed} passed, {failed} failed")
    return failed > 0 or passed == 0


if __name__ == "__main__":
    sys.exit(main())
