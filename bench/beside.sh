#!/usr/bin/env bash
# Times `ssign-keys verify` beside `ssign review --answers` over the same log, on four processors and on one, with blocks of
# 99 hashes and of 10. The two are run in turn, five times; of each the least counts, by the clock and in seconds of the
# processors. So other work on the machine changes a ratio less than the seconds. The log has COUNT messages (100,000) of
# about 176 octets. Its key is the usual one of `ssign-keys make`, of 2048 bits.
#
#   ./ssign --build               leaves the program behind
#   bench/beside.sh [COUNT [ROUNDS]]
set -eu
here=$(cd "$(dirname "$0")/.." && pwd)
work=$(mktemp -d)
trap 'rm -rf "$work"' EXIT
# the recorded program, if none is built
program=${SSIGN:-$("$here/ssign" --which)} || exit 2

python3 - "$work" "$program" "$here/tools/ssign-keys" "${1:-100000}" "${2:-5}" <<'P'
import os, subprocess, sys, time

work, program, keys, count, rounds = sys.argv[1:4] + [int(it) for it in sys.argv[4:]]
os.environ["SSIGN"] = program
# the tools are compiled once, as an installation has them
os.environ.pop("PYTHONDONTWRITEBYTECODE", None)
os.environ["PYTHONPYCACHEPREFIX"] = os.path.join(work, "compiled")
os.chdir(work)


def run(words, source, out, processors):
    """Runs a command on these processors, and gives its seconds of the clock and of the processors."""
    with open(source, "rb") as log, open(out, "wb") as file:
        began = time.monotonic()
        child = subprocess.Popen(words, stdin=log, stdout=file, preexec_fn=lambda: os.sched_setaffinity(0, processors))
        _, status, usage = os.wait4(child.pid, 0)
        took = time.monotonic() - began
    if os.waitstatus_to_exitcode(status) != 0:
        sys.exit(f"bench/beside.sh: {words[:2]} ended with the wait status {status}")
    # the children's too, because each command waits for its own
    return took, usage.ru_utime + usage.ru_stime


def make_log(path):
    """Messages that differ, of 150 to 200 octets."""
    with open(path, "wb") as log:
        for number in range(count):
            text = b"<38>1 2026-01-01T00:00:01.%06dZ web%02d.example.net sshd %d LOGIN - Accepted publickey for alice from " \
                b"192.0.2.%d port %d ssh2: ED25519, number %d" % (
                    number % 1000000, number % 24, 300 + number % 32000, number % 254, 1024 + number % 60000, number)
            text += b"." * (150 + number % 53 - len(text))
            log.write(b"%d %s" % (len(text), text))


make_log("plain")
os.mkdir("key")
here = sorted(os.sched_getaffinity(0))
subprocess.run([sys.executable, keys, "make", "key"], check=True)
for per_block in (99, 10):
    with open("log", "wb") as log:
        subprocess.run([sys.executable, keys, "sign", "--key", "key/private-key.pem", "--host", "h", "--app", "s",
                        "--count", str(per_block), "plain"], stdout=log, check=True)
    for processors in (here[:4], here[:1]):
        verify = [sys.executable, keys, "verify", "--key", "key/public-key.pem", "--jobs", str(len(processors))]
        if os.path.exists("answers"):
            os.remove("answers")
        run([*verify, "--answers-out", "answers", "log"], os.devnull, "verdict", processors)
        best = {}
        for _ in range(rounds):
            for name, words, source in (("review", [program, "review", "--answers", "answers"], "log"),
                                        ("verify", [*verify, "log"], os.devnull)):
                took = run(words, source, name, processors)
                best[name] = [min(pair) for pair in zip(took, best.get(name, took))]
        clock, spent = (best["verify"][it] / best["review"][it] for it in (0, 1))
        print("%d messages, blocks of %2d, %d of the processors: review %6.2f s, verify %6.2f s, %5.2f times by the clock; "
              "%6.2f s and %6.2f s of processors, %5.2f times" % (
                  count, per_block, len(processors), best["review"][0], best["verify"][0], clock, best["review"][1],
                  best["verify"][1], spent), flush=True)
P
