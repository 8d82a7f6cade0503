#!/bin/sh
# Times `ssign review`, `questions` and `extract`: over signed logs of 1,000,000 messages of 187 octets, ten in a block, and
# of 4,000,000; and a review over logs that strangers could make, at half a size and at that size. Four times the log should
# take about four times as long, and twice the log at most 2.3 times. Every signature is said to be valid. For each run the
# seconds of a processor and the most memory are told.
#
#   ./check                    leaves the program behind
#   bench/runs.sh [PART [WORD]]   each log is one PARTth as large (1 without one); only the logs whose name holds WORD
set -eu
here=$(cd "$(dirname "$0")/.." && pwd)
program=${SSIGN:-$here/crates/ssign/out/ssign}
work=$(mktemp -d)
trap 'rm -rf "$work"' EXIT

if [ ! -x "$program" ]; then
    echo "bench/runs.sh: there is no program $program; ./ssign --build builds one" >&2
    exit 2
fi

PYTHONPATH=$here/tests python3 -B - "$work" "$program" "$@" <<'P'
import os, subprocess, sys

from signed_log import Log, PAYLOAD, b64, certificate, make, message, sha1_of, signature

work, program, *rest = sys.argv[1:]
part, word = int(rest[0]) if rest else 1, rest[1] if rest[1:] else ""
LAST = 9_999_999_999
LONGEST = 99_999_999


def run(command, path):
    """Processor seconds, most memory in MiB, and the status."""
    words = [program, command] + ([] if command == "questions" else ["--answers", f"{path}/answers"])
    with open(f"{path}/log", "rb") as log, open(f"{path}/out", "wb") as out:
        process = subprocess.Popen(words, stdin=log, stdout=out)
        _, status, usage = os.wait4(process.pid, 0)
    return usage.ru_utime + usage.ru_stime, usage.ru_maxrss / 1024, os.waitstatus_to_exitcode(status)


def best(command, path):
    return min(run(command, path) for _ in range(2))


# ---- logs that strangers could make, each of about so many messages

def equal(log, n):
    """Equal messages, announced under as many numbers."""
    text = message(1)
    log.put_block(certificate())
    for first in range(1, n + 1, 10):
        for _ in range(10):
            log.put(text)
        log.put_block(signature(first, [sha1_of(text)] * 10, first // 10))


def one_hash(log, n):
    """One message, whose hash stands in each block of 99."""
    log.put(message(1))
    log.put_block(certificate())
    for i in range(n):
        log.put_block(signature(1 + 99 * i, [sha1_of(b"%d" % j) for j in range(98)] + [sha1_of(message(1))], i))


def sessions(log, n):
    """A session for each block."""
    for i in range(n):
        log.put_block(certificate(rsid=i))


def groups(log, n):
    """768 groups in each session."""
    for i in range(n):
        log.put_block(certificate(rsid=i))
        for group in range(768):
            log.put_block(signature(1, [sha1_of(b"%d" % group)], group, i, (group // 192, group % 192)))


def fragments_of(log, rsid, text, valid):
    """Fragments of one octet, of which the first ones are valid."""
    for i in range(len(text)):
        log.put_block(certificate(i + 1, text[i:i + 1], len(text), rsid), i < valid)


def fragments(log, n):
    """Fragments of one octet, of one session. One is valid: each answer holds the payload, so all would take too much."""
    text = b"- U " + b64(b"x" * (3 * n // 4))
    log.trust(text)
    fragments_of(log, 7, text, 1)


def copies(log, n):
    """Copies of one valid block, of a session with a payload of as many octets. The answers have one line for all."""
    text = b"- U " + b64(b"x" * (3 * n // 4))
    log.trust(text)
    log.put_block(certificate(1, text[:1], len(text)))
    for i in range(1, len(text), 8000):
        log.put_block(certificate(i + 1, text[i:i + 8000], len(text)))
    for i in range(n):
        log.put_block(certificate(1, text[:1], len(text)), False)


def fragments_apart(log, n):
    """Fragments of one octet, eight of each session."""
    log.trust(b"- U AAAA")
    for i in range(n // 8):
        fragments_of(log, i, b"- U AAAA", 8)


def scattered(log, n):
    """Fragments of one octet at scattered indexes, of one session, which is never whole."""
    for i in range(n):
        log.put_block(certificate(i * 7919 % LONGEST + 1, b"x", LONGEST))


def stated(log, n):
    """The longest payload stated, and its last octet alone sent, of as many sessions."""
    for i in range(n):
        log.put_block(certificate(LONGEST, b"x", LONGEST, i))


def disputed(log, n):
    """One number, announced with as many hashes."""
    log.put_block(certificate())
    for i in range(n):
        log.put_block(signature(1, [sha1_of(b"%d" % i)], i))


def far_apart(log, n):
    """The first number and the last one in each group, of as many sessions."""
    for i in range(n // 3):
        log.put_block(certificate(rsid=i))
        log.put_block(signature(LAST, [sha1_of(b"a")], 0, i))
        log.put_block(signature(1, [sha1_of(b"b")], 1, i))


STRANGE = ((equal, 1_000_000), (one_hash, 100_000), (sessions, 100_000), (groups, 1_000), (fragments, 1_000_000),
           (copies, 200_000), (fragments_apart, 800_000), (scattered, 1_000_000), (stated, 100_000), (disputed, 1_000_000),
           (far_apart, 300_000))


def strange(shape, n):
    log = Log(work)
    log.trust(PAYLOAD)
    shape(log, n)
    log.close()
    return best("review", work)


if word in "signed":
    nothing = {"change": (), "lose": (), "double": (), "foreign": ()}
    told = {}
    for count in (1_000_000 // part, 4_000_000 // part):
        make(work, count, 187, 10, False, True, nothing)
        for command in ("review", "questions", "extract"):
            seconds, peak, status = best(command, work)
            grown = " %.2f times" % (seconds / told[command]) if command in told else ""
            told[command] = seconds
            print("signed %9d %-9s %8.2f s %8.1f MiB, status %d%s" % (count, command, seconds, peak, status, grown), flush=True)
for shape, most in STRANGE:
    most = max(most // part, 2)
    if word in shape.__name__:
        (half, _, _), (seconds, peak, status) = strange(shape, most // 2), strange(shape, most)
        print("%-16s %9d %8.2f s %8.1f MiB, status %d, %.2f times its half" % (
            shape.__name__, most, seconds, peak, status, seconds / max(half, 0.001)), flush=True)
P
