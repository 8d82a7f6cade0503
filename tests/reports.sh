#!/usr/bin/env bash
# `review`, `questions` and `extract` against a second review in Python, over the octets of logs: see reports.py.
# shellcheck source=tests/lib.sh
. "$(dirname -- "$0")/lib.sh"
need_program
python3 -B "$root/tests/reports.py" "$program"
