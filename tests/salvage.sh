#!/usr/bin/env bash
# The option `--salvage`: what is read of logs that are damaged, against a second reader in Python, and the laws of what is
# read; and senders whose messages reach over those of others: see salvage.py. 2,000 logs, or with SALVAGE_ALL=1 20,000.
# shellcheck source=tests/lib.sh
. "$(dirname -- "$0")/lib.sh"
need_program

count=2000
[[ ! ${SALVAGE_ALL-} ]] || count=20000
python3 -B "$root/tests/salvage.py" "$program" "$count"
