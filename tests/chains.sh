#!/usr/bin/env bash
# Originators that go on after one another, by `plan --ahead` and `--resume`: tests/chains.py.
# shellcheck source=tests/lib.sh
. "$(dirname -- "$0")/lib.sh"
need_program

python3 -B "$root/tests/chains.py" "$program"
