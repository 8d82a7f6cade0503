#!/usr/bin/env bash
# A log that is reviewed night by night, against one review of everything: tests/nights.py, by the second review in Python.
# What the built program carries over is compared with it too.
# shellcheck source=tests/lib.sh
. "$(dirname -- "$0")/lib.sh"
need_program

python3 -B "$root/tests/nights.py" "$program" "$@"
