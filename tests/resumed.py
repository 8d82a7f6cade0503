#!/usr/bin/env python3
"""What a review says of an originator that went on from other counters than the last ones: four logs by hand.

    resumed.py PROGRAM

An originator signed the messages `one` and `two` under the numbers 1 and 2, and stopped. The last line is
`resumed: N passed, M failed`.
"""
import os
import subprocess
import sys
import tempfile

from cost_logs import Input, announcing
from review_runs import frame
from signed_log import certificate

PROGRAM = sys.argv[1]
ONE, TWO, THREE, FOUR = (b"<13>1 - host application - - - " + text for text in (b"one", b"two", b"three", b"four"))

passed = failed = 0


def tell(what, log, entries):
    """One check: the report on this log, whose joined session has these entries, and which has findings."""
    global passed, failed
    session = report_session(log)
    wanted = [f"session {session} joined", *(it.replace("SESSION", session) for it in entries), f"end {len(log.messages)}"]
    status, said = review(log)
    if (status, said) == (1, wanted):
        passed += 1
        return
    failed += 1
    print(f"resumed: {what}: FAILED\n    status {status}, {said}\n    and not {wanted}")


def report_session(log):
    """The session's names, as the header of its certificate block has them."""
    words = log.messages[0].decode().split(" ")
    return " ".join([*words[2:5], "7"])


def review(log):
    """The status and the lines of a review."""
    with tempfile.TemporaryDirectory() as folder:
        path = os.path.join(folder, "answers")
        with open(path, "wb") as file:
            file.write(b"".join(line + b"\n" for line in log.answers))
        ran = subprocess.run([PROGRAM, "review", "--answers", path], input=b"".join(map(frame, log.messages)),
                             capture_output=True, check=False, timeout=60)
    return ran.returncode, ran.stdout.decode().splitlines()


def log_of(*parts):
    """A log of a certificate block, and then messages and signature blocks."""
    log = Input()
    log.put_block(certificate())
    for part in parts:
        if isinstance(part, bytes):
            log.put(part)
        else:
            log.put_block(part)
    return log


def main():
    """Makes all checks."""
    first = announcing(ONE, TWO)
    stale = announcing(THREE, FOUR)
    tell("stale counters", log_of(ONE, TWO, first, THREE, FOUR, stale),
         ["gap SESSION 0 0 1 disputed", "gap SESSION 0 0 2 disputed", "unlisted 1", "unlisted 2", "unlisted 4", "unlisted 5"])
    tell("stale counters, and the first block lost", log_of(ONE, TWO, THREE, FOUR, stale),
         ["ok SESSION 0 0 1 3", "ok SESSION 0 0 2 4", "unlisted 1", "unlisted 2"])
    tell("stale counters, and the same messages again", log_of(ONE, TWO, first, ONE, TWO, first),
         ["ok SESSION 0 0 1 1", "ok SESSION 0 0 2 2", "unlisted 4", "unlisted 5"])
    tell("counters that are ahead", log_of(ONE, TWO, first, THREE, FOUR, announcing(THREE, FOUR, first=5, gbc=3)),
         ["ok SESSION 0 0 1 1", "ok SESSION 0 0 2 2", "hole SESSION 0 0 3 4", "ok SESSION 0 0 5 4", "ok SESSION 0 0 6 5"])
    print(f"resumed: {passed} passed, {failed} failed")
    return 1 if failed else 0


if __name__ == "__main__":
    sys.exit(main())
