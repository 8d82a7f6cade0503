#!/usr/bin/env bash
# `review --whole`, alone and with `--json` and `--findings`: tests/whole.py.
# shellcheck source=tests/lib.sh
. "$(dirname -- "$0")/lib.sh"
need_program

python3 -B "$root/tests/whole.py" compare "$program"
