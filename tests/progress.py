#!/usr/bin/env python3
"""How many messages a run says it has read: on a terminal as standard error, from the second second on, and never else.

    progress.py PROGRAM

A log is fed to the program slowly, piece by piece. The line is written over, and cleared when the log was read or is
refused. Standard output is the same octets as without a terminal. The last line is `progress: N passed, M failed`.
"""
import itertools
import os
import re
import select
import subprocess
import sys
import time
import tty

LINE = re.compile(rb"\rssign: (\d+) messages read, (\d+) a second\x1b\[K")
CLEARED = b"\r\x1b[K"
# how many messages each piece of a slow log has: a piece of at most 4,096 octets is written, and so read, at once
COUNT = 150
# how long another piece of a log has, in octets
PIECE = 3001

passed = failed = 0


def tell(what, fault=""):
    """One check, passed where there is no fault."""
    global passed, failed
    if not fault:
        passed += 1
        return
    failed += 1
    print(f"progress: {what}: FAILED\n    {fault}")


def run(words, pieces, pause, on_terminal):
    """Feeds the pieces, and gives the status, standard output and standard error."""
    ours, theirs = os.openpty() if on_terminal else os.pipe()
    if on_terminal:
        tty.setraw(theirs)
    with subprocess.Popen(words, stdin=subprocess.PIPE, stdout=subprocess.PIPE, stderr=theirs) as done:
        os.close(theirs)
        said = b""

        def listen(seconds):
            """What comes on standard error meanwhile, so that the program never waits for its reader."""
            nonlocal said
            end = time.monotonic() + seconds
            while select.select([ours], [], [], max(0.0, end - time.monotonic()))[0]:
                try:
                    part = os.read(ours, 4096)
                except OSError:
                    part = b""
                if not part:
                    return False
                said += part
            return True

        for piece in pieces:
            try:
                done.stdin.write(piece)
                done.stdin.flush()
            except BrokenPipeError:
                break
            listen(pause)
        try:
            done.stdin.close()
        except BrokenPipeError:
            pass
        out = done.stdout.read()
        while listen(5):
            pass
        os.close(ours)
        return done.wait(), out, said


def slow(program, form, pieces, wanted):
    """A log that comes for more than two seconds: the line counts what came, rises, and is cleared."""
    what = " ".join(["inspect", *form])
    fed = [b"".join(pieces[start:start + COUNT]) for start in range(0, len(pieces), COUNT)]
    quiet = run([program, "inspect", *form], fed, 0, False)
    tell(f"{what}: without a terminal", "" if quiet == (0, wanted, b"") else f"{quiet[0]} {quiet[2]!r}")
    status, out, said = run([program, "inspect", *form], fed, 0.3, True)
    tell(f"{what}: the output is the same", "" if (status, out) == (0, wanted) else f"status {status}, {len(out)} octets")
    counts = [int(count) for count, _ in LINE.findall(said)]
    tell(f"{what}: the line is there", "" if len(counts) > 1 else f"{said!r}")
    tell(f"{what}: it counts the messages that came", "" if all(it % COUNT == 0 for it in counts) and counts == sorted(counts)
         and counts and COUNT <= counts[0] and counts[-1] <= len(pieces) else f"{counts}")
    tell(f"{what}: nothing else is written, and the line is cleared", "" if LINE.sub(b"", said) == CLEARED else f"{said!r}")


def main():
    program = sys.argv[1]
    messages = [b"<13>1 - - - - - - %d" % it for it in range(10 * COUNT)]
    wanted = b"".join(b"plain %d\n" % it for it in range(len(messages))) + b"end %d\n" % len(messages)
    slow(program, [], [b"%d %s" % (len(it), it) for it in messages], wanted)
    slow(program, ["--lines"], [it + b"\n" for it in messages], wanted)

    # pieces that end within a length and within a message count as they are
    log = b"".join(b"%d %s" % (len(it), it) for it in messages)
    parts = [log[start:start + PIECE] for start in range(0, len(log), PIECE)]
    status, out, said = run([program, "inspect"], parts, 2.5 / len(parts), True)
    counts = [int(count) for count, _ in LINE.findall(said)]
    # how many messages have ended after each piece
    ends = list(itertools.accumulate(len(b"%d %s" % (len(it), it)) for it in messages))
    fronts = {sum(end <= PIECE * (number + 1) for end in ends) for number in range(len(parts))}
    tell("pieces of any size", "" if (status, out) == (0, wanted) and counts and set(counts) <= fronts else f"{counts}")

    # a log that is read at once needs no line
    status, out, said = run([program, "inspect"], [log], 0, True)
    tell("a log that comes at once", "" if (status, out, said) == (0, wanted, b"") else f"{status} {said[:200]!r}")

    # a refusal stands on a line of its own
    whole = [b"".join(b"%d %s" % (len(it), it) for it in messages[start:start + COUNT]) for start in range(0, len(messages), COUNT)]
    status, out, said = run([program, "inspect"], [*whole, b"x"], 2.5 / len(whole), True)
    tell("a refusal behind the line", "" if status == 2 and not out and len(LINE.findall(said)) > 0
         and LINE.sub(b"", said).startswith(CLEARED + b"ssign: F1 ") else f"{status} {said[-300:]!r}")

    # a log that is to be signed shows it too
    words = [program, "plan", "--payload=- N", "--rsid", "1"]
    quiet = run(words, parts, 0, False)
    loud = run(words, parts, 2.5 / len(parts), True)
    tell("plan", "" if quiet[:2] == loud[:2] and quiet[2] == b"" and LINE.findall(loud[2]) and LINE.sub(b"", loud[2]) == CLEARED
         else f"{loud[0]} {loud[2][-300:]!r}")
    print(f"progress: {passed} passed, {failed} failed")
    return failed > 0 or passed == 0


if __name__ == "__main__":
    sys.exit(main())
