#!/usr/bin/env bash
# `inspect` over texts by hand: tests/texts.py.
# shellcheck source=tests/lib.sh
. "$(dirname -- "$0")/lib.sh"
need_program

python3 -B "$root/tests/texts.py" "$program"
