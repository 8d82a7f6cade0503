#!/usr/bin/env bash
# The reviewer against a second review in Python, over logs worked out by hand and 10,000 logs by a seed.
# shellcheck source=tests/lib.sh
. "$(dirname -- "$0")/lib.sh"
reviewed=${REVIEWED:-$root/crates/tool_reviewed/out/tool_reviewed}
need_made "$reviewed"

python3 -B "$root/tests/reviews.py" compare "$reviewed"
