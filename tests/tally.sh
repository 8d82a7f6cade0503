#!/usr/bin/env bash
# `review --tally`, alone and with the other forms: tests/tally.py.
# shellcheck source=tests/lib.sh
. "$(dirname -- "$0")/lib.sh"
need_program

python3 -B "$root/tests/tally.py" "$program"
