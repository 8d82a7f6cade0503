#!/usr/bin/env bash
# `review --brief`, `--blocks`, `--no-sha1`, `--some-listed` and `--ignore-strangers`, in each form and beside each other option:
# tests/brief.py.
# shellcheck source=tests/lib.sh
. "$(dirname -- "$0")/lib.sh"
need_program

python3 -B "$root/tests/brief.py" "$program"
