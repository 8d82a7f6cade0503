#!/bin/sh
# Times the reader of messages over texts that strangers could send, at 256 KiB and at 1 MiB. Four times the octets
# should take about four times as long. Each text stands 60 times in its file, and the time to scan the file is taken off.
#
#   ./check                    leaves the program behind
#   bench/messages.sh [LOG]    LOG: a log of one message a line, which is timed too
set -eu
here=$(cd "$(dirname "$0")/.." && pwd)
program=$here/crates/tool_timing/out/tool_timing
work=$(mktemp -d)
trap 'rm -rf "$work"' EXIT

python3 - "$work" <<'P'
import sys
work = sys.argv[1]
HEAD = b"<13>1 - - - - - "

def different(size):
    """Elements of different SD-IDs up to a size."""
    digits = b"0123456789abcdefghijklmnopqrstuvwxyzABCDEFGHIJKLMNOPQRSTUVWXYZ"
    out, length, n = [], len(HEAD), 0
    while length + 6 <= size:
        i, m = b"", n
        while True:
            i = digits[m % 62:m % 62 + 1] + i
            m //= 62
            if m == 0:
                break
        out.append(b"[" + i + b"]")
        length += len(i) + 2
        n += 1
    return out

for size, name in ((1 << 18, "256k"), (1 << 20, "1m")):
    elements = different(size)
    shapes = {
        "different": HEAD + b"".join(elements),
        "repeat_at_the_end": HEAD + b"".join(elements) + elements[0],
        "parameters": HEAD + b"[a" + b' b=""' * ((size - len(HEAD) - 3) // 5) + b"]",
    }
    for shape, text in shapes.items():
        with open(f"{work}/{shape}.{name}", "wb") as f:
            f.write(b"\n".join([text] * 60))
P

seconds() {
    python3 - "$program" "$@" <<'P'
import subprocess, sys, time
program, path = sys.argv[1], sys.argv[2]
def best(args):
    times = []
    for _ in range(3):
        with open(path, "rb") as f:
            start = time.perf_counter()
            subprocess.run([program] + args, stdin=f, check=True, stdout=subprocess.DEVNULL)
            times.append(time.perf_counter() - start)
    return min(times)
print("%.3f" % (best(["messages"]) - best(["messages", "scan"])))
P
}

for shape in different repeat_at_the_end parameters; do
    small=$(seconds "$work/$shape.256k")
    large=$(seconds "$work/$shape.1m")
    python3 -c "print('%-18s 256 KiB %.2f ms, 1 MiB %.2f ms, ratio %.2f' % ('$shape', $small / 60 * 1000, $large / 60 * 1000, $large / $small))"
done
if [ $# -gt 0 ]; then
    echo "log: $(seconds "$1") s"
fi
