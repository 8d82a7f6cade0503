#!/usr/bin/env bash
# What a run says of itself on a terminal while it reads a log for longer than a second: tests/progress.py.
# shellcheck source=tests/lib.sh
. "$(dirname -- "$0")/lib.sh"
need_program

python3 -B "$root/tests/progress.py" "$program"
