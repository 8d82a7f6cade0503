#!/bin/sh
# Times the reader of frames and of lines over logs of 250,000 messages and of 1,000,000: four times the octets should
# take about four times as long.
#
#   ./check                          leaves the program behind
#   bench/frames.sh                  times it
#   bench/frames.sh LOG LINES CMD..  times it over a log of frames and one of lines too, and the command CMD.. LOG,
#                                    with the ratios to it
set -eu
here=$(cd "$(dirname "$0")/.." && pwd)
program=$here/crates/tool_timing/out/tool_timing
work=$(mktemp -d)
trap 'rm -rf "$work"' EXIT

if [ ! -x "$program" ]; then
    echo "bench/frames.sh: there is no program $program; ./check leaves it behind" >&2
    exit 2
fi

exec python3 - "$program" "$work" "$@" <<'P'
import subprocess, sys, time
program, work, *rest = sys.argv[1:]

def best(args, path=None):
    """The shortest of three runs, in seconds."""
    times = []
    for _ in range(3):
        with open(path or "/dev/null", "rb") as log:
            start = time.perf_counter()
            subprocess.run(args, stdin=log, check=True, stdout=subprocess.DEVNULL)
            times.append(time.perf_counter() - start)
    return min(times)

SHAPES = {"187 octets": b"m" * 187, "1 octet": b"m"}
FORMS = {"frames": (lambda m: b"%d %s" % (len(m), m), ["frames"]), "lines": (lambda m: m + b"\n", ["lines"])}
for shape, message in SHAPES.items():
    for form, (unit, words) in FORMS.items():
        seconds = []
        for count in (250_000, 1_000_000):
            path = f"{work}/log"
            with open(path, "wb") as log:
                log.write(unit(message) * count)
            seconds.append(best([program] + words, path))
        print("%-6s of %-10s 250,000: %.3f s, 1,000,000: %.3f s, ratio %.1f"
              % (form, shape, seconds[0], seconds[1], seconds[1] / seconds[0]))

if rest:
    frames, lines, *command = rest
    mark = best(command + [frames])
    print("%s: %.3f s" % (" ".join(command), mark))
    for form, path in (("frames", frames), ("lines", lines)):
        seconds = best([program] + FORMS[form][1], path)
        print("%s: %.3f s, ratio %.1f" % (form, seconds, seconds / mark))
P
