#!/usr/bin/env bash
# Originators that go on from other counters than the last ones: tests/resumed.py.
# shellcheck source=tests/lib.sh
. "$(dirname -- "$0")/lib.sh"
need_program

python3 -B "$root/tests/resumed.py" "$program"
