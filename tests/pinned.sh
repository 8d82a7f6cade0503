#!/usr/bin/env bash
# The option `--pinned`: what strangers' certificate blocks can't do where payloads are known beforehand. Attacks by hand,
# and logs by a seed against a second review in Python, pinned.py: 300 of them, or with PINNED_ALL=1 10,000.
# shellcheck source=tests/lib.sh
. "$(dirname -- "$0")/lib.sh"
need_program

count=300
[[ ! ${PINNED_ALL-} ]] || count=10000
python3 -B "$root/tests/pinned.py" compare "$program" "$count"
