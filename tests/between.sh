#!/usr/bin/env bash
# `review --from`, with `--counters` and without, in each form of a report: tests/between.py.
# shellcheck source=tests/lib.sh
. "$(dirname -- "$0")/lib.sh"
need_program

python3 -B "$root/tests/between.py" compare "$program"
