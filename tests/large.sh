#!/usr/bin/env bash
# Logs of 1,000,000 messages, of 100,000 blocks, and of messages up to the longest: no command is out of memory. See large.py.
# shellcheck source=tests/lib.sh
. "$(dirname -- "$0")/lib.sh"
need_program
python3 -B "$root/tests/large.py" "$program" "$@"
