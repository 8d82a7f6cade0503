#!/usr/bin/env bash
# What each command costs over logs and answers, honest ones and those that strangers could make, at some size and at
# twice that, without a clock: see cost.py. A stand-in that is too slow has to be found out.
# shellcheck source=tests/lib.sh
. "$(dirname -- "$0")/lib.sh"
need_program
words=()
if command -v cc >/dev/null; then
    cc -O1 -shared -fPIC -o "$scratch/count.so" "$root/tests/count.c" -ldl || exit 1
    cc -O1 -o "$scratch/slow" "$root/tests/slow.c" || exit 1
    words=(--count "$scratch/count.so" --slow "$scratch/slow")
else
    skip "no cc here, so room and copies aren't counted, and no slow stand-in is tried"
fi
adds cost.py python3 -B "$root/tests/cost.py" "$program" "${words[@]}" "$@"
finish
