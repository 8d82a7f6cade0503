#!/usr/bin/env bash
# `review --in-order` and `--not-empty`, in each form: tests/order.py.
# shellcheck source=tests/lib.sh
. "$(dirname -- "$0")/lib.sh"
need_program

python3 -B "$root/tests/order.py" "$program"
