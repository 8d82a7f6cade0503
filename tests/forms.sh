#!/usr/bin/env bash
# `review --json`, `--findings` and both: tests/forms.py.
# shellcheck source=tests/lib.sh
. "$(dirname -- "$0")/lib.sh"
need_program

python3 -B "$root/tests/forms.py" "$program"
