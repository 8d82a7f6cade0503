#!/usr/bin/env bash
# `review --counters`, alone and in each form of a report: tests/kept.py.
# shellcheck source=tests/lib.sh
. "$(dirname -- "$0")/lib.sh"
need_program

python3 -B "$root/tests/kept.py" compare "$program"
