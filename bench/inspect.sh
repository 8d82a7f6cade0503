#!/bin/sh
# Times `ssign inspect` over texts that strangers could send, at one size and at twice that size: twice the octets should
# take about twice the time. With a log and a yardstick it also times the log, says how much memory that took beside its
# output, and the ratio to the yardstick.
#
#   ./check                                  leaves the program behind; the times are a processor's, by /usr/bin/time
#   bench/inspect.sh                         the texts of strangers
#   bench/inspect.sh CMD.. -- LOG [LOG..]    logs of frames too, each beside the command CMD.. LOG
set -eu
here=$(cd "$(dirname "$0")/.." && pwd)
program=$here/crates/ssign/out/ssign
work=$(mktemp -d)
trap 'rm -rf "$work"' EXIT

if [ ! -x "$program" ]; then
    echo "bench/inspect.sh: there is no program $program; ./ssign --build builds one" >&2
    exit 2
fi

exec python3 - "$program" "$work" "$@" <<'P'
import os, subprocess, sys
program, work, *rest = sys.argv[1:]
H = b"<110>1 - h s - - "
A = b"qZk+NkcGgWq6PiVxeFDCbJzQ2J0="


def run(args, path):
    """Processor seconds, octets written and most memory in KiB of the best of three runs."""
    best = None
    for _ in range(3):
        with open(path, "rb") as log, open(f"{work}/out", "wb") as out:
            done = subprocess.run(["/usr/bin/time", "-f", "%U %S %M", *args], stdin=log, stdout=out, stderr=subprocess.PIPE)
        if done.returncode != 0:
            sys.exit(f"{args} ended with status {done.returncode}: {done.stderr.decode()}")
        user, system, peak = done.stderr.split()[-3:]
        told = (float(user) + float(system), os.path.getsize(f"{work}/out"), int(peak))
        best = min(best, told) if best else told
    return best


def frame(message):
    return b"%d %s" % (len(message), message)


def names(count):
    """So many different names of four octets."""
    digits = b"0123456789abcdefghijklmnopqrstuvwxyzABCDEFGHIJKLMNOPQRSTUVWXYZ"
    for i in range(count):
        yield bytes(digits[i // 62**k % 62] for k in range(4))


def block(element, *values):
    return H + b"[" + element + b"".join(b' %s="%s"' % it for it in values) + b"]"


def signature(hb):
    return block(b"ssign", (b"VER", b"0111"), (b"RSID", b"1"), (b"SG", b"0"), (b"SPRI", b"0"), (b"GBC", b"0"),
                 (b"FMN", b"1"), (b"CNT", b"99"), (b"HB", hb), (b"SIGN", b"AAAA"))


def certificate(index):
    return block(b"ssign-cert", (b"VER", b"0111"), (b"RSID", b"1"), (b"SG", b"0"), (b"SPRI", b"0"),
                 (b"TPBL", b"99999999"), (b"INDEX", b"%d" % index), (b"FLEN", b"1"), (b"FRAG", b"x"), (b"SIGN", b"AAAA"))


# each gives a text of about so many octets, at most 1 MiB a message
MESSAGES = {
    "an element for every six octets": lambda n: H + b"".join(b"[%s]" % it for it in names(n // 6)),
    "a parameter for every six octets": lambda n: H + b"[a" + b' b=""' * (n // 5 - 8) + b"]",
    "ssign with as many parameters": lambda n: H + b"[ssign" + b' b=""' * (n // 5 - 8) + b"]",
    "HB of hashes alone": lambda n: signature(b" ".join([A] * (n // 29 - 8))),
    "HB of spaces alone": lambda n: signature(b" " * (n - 200)),
    "HB of escapes alone": lambda n: signature(b"\\]" * (n // 2 - 200)),
    "SIGN of one long text": lambda n: block(b"ssign-cert", (b"VER", b"0111"), (b"RSID", b"1"), (b"SG", b"0"), (b"SPRI", b"0"),
        (b"TPBL", b"1"), (b"INDEX", b"1"), (b"FLEN", b"1"), (b"FRAG", b"x"), (b"SIGN", b"AAAA" * (n // 4 - 60))),
}
HALF = 1 << 19
for shape, text in MESSAGES.items():
    seconds = []
    for size in (HALF, 2 * HALF):
        path = f"{work}/log"
        with open(path, "wb") as log:
            log.write(frame(text(size - 64)) * 40)
        seconds.append(run([program, "inspect", "--max-len", "1048576"], path)[0])
    print("%-34s 40 of 512 KiB %.3f s, of 1 MiB %.3f s, ratio %.2f" % (shape, *seconds, seconds[1] / seconds[0]))

LOGS = {
    "messages of one octet": (lambda i: b"m", 5_000_000),
    "fragments at scattered indexes": (lambda i: certificate(i * 7919 % 99_999_999 + 1), 200_000),
}
for shape, (message, count) in LOGS.items():
    seconds = []
    for many in (count, 2 * count):
        path = f"{work}/log"
        with open(path, "wb") as log:
            log.writelines(frame(message(i)) for i in range(many))
        seconds.append(run([program, "inspect"], path)[0])
    print("%-34s %d %.3f s, %d %.3f s, ratio %.2f" % (shape, count, seconds[0], 2 * count, seconds[1], seconds[1] / seconds[0]))

if rest:
    at = rest.index("--")
    for log in rest[at + 1:]:
        mark = run(rest[:at] + [log], "/dev/null")[0]
        seconds, written, peak = run([program, "inspect"], log)
        print("%s: %.3f s, ratio %.2f to %.3f s of %s; %.1f MB written, %.1f MiB at most in memory"
              % (log, seconds, seconds / mark, mark, " ".join(rest[:at]), written / 1e6, peak / 1024))
P
