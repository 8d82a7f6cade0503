#!/usr/bin/env bash
# `review --ask`: one run writes the questions of `questions --once` and the report of `review --answers`, by files and by
# pipes, and each way in which it fails: tests/ask.py.
# shellcheck source=tests/lib.sh
. "$(dirname -- "$0")/lib.sh"
need_program

python3 -B "$root/tests/ask.py" "$program"
