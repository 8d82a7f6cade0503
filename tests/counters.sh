#!/usr/bin/env bash
# `counters`, against the definition: tests/counters.py.
# shellcheck source=tests/lib.sh
. "$(dirname -- "$0")/lib.sh"
need_program

python3 -B "$root/tests/counters.py" compare "$program"
