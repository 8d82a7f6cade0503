#!/usr/bin/env bash
# Reviews of logs in parts, against reviews of whole logs, by the second review in Python: parts.py.
# shellcheck source=tests/lib.sh
. "$(dirname -- "$0")/lib.sh"

python3 -B "$root/tests/parts.py" "$@"
