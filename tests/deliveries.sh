#!/usr/bin/env bash
# The review of what originators sent against the law of the two ends: four logs worked out by hand, each subset of the ten
# messages of an originator, and 20,000 deliveries by a seed.
# shellcheck source=tests/lib.sh
. "$(dirname -- "$0")/lib.sh"
originated=${ORIGINATED:-$root/crates/tool_originated/out/tool_originated}
reviewed=${REVIEWED:-$root/crates/tool_reviewed/out/tool_reviewed}
need_made "$originated" "$reviewed"

python3 -B "$root/tests/deliveries.py" "$originated" "$reviewed"
