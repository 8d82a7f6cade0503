#!/usr/bin/env bash
# The originator against a second originator in Python, over 20,000 scripts of calls by a seed.
# shellcheck source=tests/lib.sh
. "$(dirname -- "$0")/lib.sh"
originated=${ORIGINATED:-$root/crates/tool_originated/out/tool_originated}
need_made "$originated"

python3 -B "$root/tests/originators.py" "$originated"
