#!/usr/bin/env bash
# How often the program calls functions that do the work, over small logs: see calls.py. A message that is hashed twice, or a
# review that is made twice, costs twice as much for twice the input too, so cost.sh doesn't see it.
# shellcheck source=tests/lib.sh
. "$(dirname -- "$0")/lib.sh"
need_program
need_command valgrind
python3 -B "$root/tests/calls.py" "$program" "$@"
