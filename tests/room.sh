#!/usr/bin/env bash
# The memory that calls of the libraries take, over inputs of up to 10,000 messages: see room.py.
# shellcheck source=tests/lib.sh
. "$(dirname -- "$0")/lib.sh"
programs=()
for it in tool_timing tool_originated tool_reviewed; do
    made=$root/crates/$it/out/$it
    [[ -z ${TOOLS:-} ]] || made=$TOOLS/$it/out/$it
    need_made "$made"
    programs+=("$made")
done
need_program
need_command cc
cc -O1 -shared -fPIC -o "$scratch/count.so" "$root/tests/count.c" -ldl || exit 1
python3 -B "$root/tests/room.py" "$scratch/count.so" "${programs[@]}" "$program" "$@"
