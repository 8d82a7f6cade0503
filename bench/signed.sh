#!/bin/sh
# Times `ssign review`, `extract` and `questions` over a signed log of COUNT messages of 187 octets (1,000,000 without a
# number), ten in a block: the seconds of a processor, the best of three runs, the most memory, and the ratio to the
# review. Every signature is said to be valid.
#
# With a yardstick, a program that also reviews, it times that over the same log and answers too, sees that it prints what
# `ssign review` prints, and tells ratios to it. It is called as `YARDSTICK.. --answers FILE LOG`.
#
#   ./ssign --build                          leaves the program behind
#   bench/signed.sh [COUNT [YARDSTICK..]]
set -eu
here=$(cd "$(dirname "$0")/.." && pwd)
program=${SSIGN:-$here/crates/ssign/out/ssign}
work=$(mktemp -d)
trap 'rm -rf "$work"' EXIT

if [ ! -x "$program" ]; then
    echo "bench/signed.sh: there is no program $program; ./ssign --build builds one" >&2
    exit 2
fi
count=1000000
if [ $# -gt 0 ]; then
    count=$1
    shift
fi

PYTHONPATH=$here/bench python3 -B - "$work" "$program" "$count" "$here/tests/signed_log.py" "$@" <<'P'
"""Runs each command three times, and tells the best run."""
import filecmp
import os
import subprocess
import sys

from measured import Command, best_by_turns

work, program, count, maker, *yardstick = sys.argv[1:]
subprocess.run([sys.executable, "-B", maker, count, work], check=True)
log, answers = f"{work}/log", f"{work}/answers"
commands = {"yardstick": Command([*yardstick, "--answers", answers, log], os.devnull, f"{work}/yardstick")} if yardstick else {}
commands["review"] = Command([program, "review", "--answers", answers], log, f"{work}/review")
commands["extract"] = Command([program, "extract", "--answers", answers], log, f"{work}/extract")
commands["questions"] = Command([program, "questions"], log, f"{work}/questions")
took = best_by_turns(commands)
if yardstick and not filecmp.cmp(f"{work}/yardstick", f"{work}/review", shallow=False):
    sys.exit("the yardstick and ssign review print different reports")
base = took["yardstick" if yardstick else "review"]
for name, run in took.items():
    print(f"{name:10} {run.seconds:7.2f} s {run.peak / 1e6:8.0f} MB {run.seconds / base.seconds:6.2f}")
P
