#!/bin/sh
# Times the joiner of payloads over fragments of one octet, 250,000 of them and 1,000,000: at odd indexes of the longest
# payload, so that no two meet, rising, falling and shuffled, and at each index of a payload, falling until it is whole.
# Four times the fragments should take little more than four times as long, in each order. Then it times 10,000,000 octets
# in fragments of 1,000, which make up a payload. It also tells how much memory 1,000 joiners of the longest payload take
# that have one octet each, beside what the program takes with one.
#
#   ./check                   leaves the program behind
#   bench/joining.sh          times it; it needs /usr/bin/time, which tells the memory
set -eu
here=$(cd "$(dirname "$0")/.." && pwd)
program=$here/crates/tool_timing/out/tool_timing

if [ ! -x "$program" ]; then
    echo "bench/joining.sh: there is no program $program; ./check leaves it behind" >&2
    exit 2
fi

exec python3 - "$program" <<'P'
import resource, subprocess, sys
program = sys.argv[1]

def run(order, count):
    """What the program printed, and its seconds on a processor and most memory in KiB."""
    before = resource.getrusage(resource.RUSAGE_CHILDREN)
    done = subprocess.run(["/usr/bin/time", "-f", "%M", program, "joining", order, str(count)], stdin=subprocess.DEVNULL,
                          stdout=subprocess.PIPE, stderr=subprocess.PIPE, check=True)
    after = resource.getrusage(resource.RUSAGE_CHILDREN)
    seconds = after.ru_utime - before.ru_utime + after.ru_stime - before.ru_stime
    return done.stdout.decode().strip(), seconds, int(done.stderr.split()[-1])

def best(order, count):
    """The shortest of three runs."""
    return min((run(order, count) for _ in range(3)), key=lambda r: r[1])

for order in ("rising", "falling", "shuffled", "whole"):
    results = []
    for count in (250_000, 1_000_000):
        said, seconds, memory = best(order, count)
        want = f"{count} agreed, payload of {count if order == 'whole' else 0}"
        if said != want:
            sys.exit(f"bench/joining.sh: {order} {count}: {said}, and not {want}")
        results.append((seconds, memory))
    (small, _), (large, memory) = results
    print("%-8s 250,000: %.3f s, 1,000,000: %.3f s and %.1f MiB, ratio %.1f"
          % (order, small, large, memory / 1024, large / small))

said, seconds, memory = best("pieces", 10_000_000)
if said != "10000 agreed, payload of 10000000":
    sys.exit(f"bench/joining.sh: {said}")
print("10,000,000 octets in fragments of 1,000: %.3f s and %.1f MiB" % (seconds, memory / 1024))

_, _, one = run("joiners", 1)
said, _, thousand = run("joiners", 1000)
if said != "1000 joiners":
    sys.exit(f"bench/joining.sh: {said}")
print("1,000 joiners: %d KiB, one: %d KiB" % (thousand, one))
P
