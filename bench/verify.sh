#!/usr/bin/env bash
# Times `ssign-keys verify` against `ssign review --answers` over the same log: seconds of the clock and of the processor,
# and the most memory of the largest process, best of two runs. The log has COUNT messages (1,000,000) of about 176 octets
# and BLOCKS signature blocks (100,000), signed by `ssign-keys sign` with a key of 1024 bits. How long signing and
# answering alone took is told too. The last line is the ratio of a verify, less the answering, to a review.
#
#   ./ssign --build               leaves the program behind
#   bench/verify.sh [COUNT [BLOCKS [JOBS]]]
set -eu
here=$(cd "$(dirname "$0")/.." && pwd)
program=${SSIGN:-$here/crates/ssign/out/ssign}
work=$(mktemp -d)
trap 'rm -rf "$work"' EXIT

if [ ! -x "$program" ]; then
    echo "bench/verify.sh: there is no program $program; ./ssign --build builds one" >&2
    exit 2
fi

python3 -B - "$work" "$program" "$here/tools/ssign-keys" "${1:-1000000}" "${2:-100000}" "${3:-1}" <<'P'
import os, subprocess, sys, time

work, program, keys, count, blocks, jobs = sys.argv[1:4] + [int(it) for it in sys.argv[4:]]
per_block = -(-count // blocks)
if not 1 <= per_block <= 99:
    sys.exit("bench/verify.sh: a block holds 1 to 99 hashes")
os.environ["SSIGN"] = program


def run(what, words, out, source=os.devnull, runs=2):
    """Runs a command, tells what the best run took, and gives its seconds of the clock."""
    best = None
    for _ in range(runs):
        with open(source, "rb") as log, open(os.path.join(work, out), "wb") as file:
            began = time.monotonic()
            child = subprocess.Popen(words, stdin=log, stdout=file, cwd=work)
            _, status, usage = os.wait4(child.pid, 0)
            took = time.monotonic() - began
        if os.waitstatus_to_exitcode(status) != 0:
            sys.exit(f"bench/verify.sh: {what} ended with the wait status {status}")
        # the children's too, because each command waits for its own
        said = took, usage.ru_utime + usage.ru_stime, usage.ru_maxrss / 1024
        best = said if best is None or said < best else best
    print("%-28s %8.2f s, %8.2f s of processors, largest process %8.1f MiB" % (what, *best), flush=True)
    return best[0]


def make_log(path):
    """Messages that differ, of 150 to 200 octets."""
    with open(path, "wb") as log:
        for number in range(count):
            text = b"<38>1 2026-01-01T00:00:01.%06dZ web%02d.example.net sshd %d LOGIN - Accepted publickey for alice from " \
                b"192.0.2.%d port %d ssh2: ED25519, number %d" % (
                    number % 1000000, number % 24, 300 + number % 32000, number % 254, 1024 + number % 60000, number)
            text += b"." * (150 + number % 53 - len(text))
            log.write(b"%d %s" % (len(text), text))


make_log(os.path.join(work, "plain"))
os.mkdir(os.path.join(work, "key"))
subprocess.run([keys, "make", "--ver", "0111", os.path.join(work, "key")], check=True)
run("ssign-keys sign", [keys, "sign", "--key", "key/private-key.pem", "--ver", "0121", "--host", "h", "--app", "s",
                        "--count", str(per_block), "plain"], "log", runs=1)
os.remove(os.path.join(work, "plain"))
log = os.path.join(work, "log")
run("ssign questions", [program, "questions"], "questions", log)
answering = run(f"ssign-keys answer --jobs {jobs}", [keys, "answer", "--jobs", str(jobs), "key/public-key.pem"], "answers",
                os.path.join(work, "questions"))
review = run("ssign review --answers", [program, "review", "--answers", "answers"], "report", log)
verify = run(f"ssign-keys verify --jobs {jobs}", [keys, "verify", "--key", "key/public-key.pem", "--jobs", str(jobs), "log"],
             "verdict")
print("%.2f times a review, less the answering" % ((verify - answering) / review))
P
