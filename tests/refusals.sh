#!/usr/bin/env bash
# Each allocation of the built program is refused in turn, in runs of every command: see refusals.py. tests/memory.sh
# does the same to tests of the libraries, which make a call again.
# shellcheck source=tests/lib.sh
. "$(dirname -- "$0")/lib.sh"
need_program
words=()
if command -v cc >/dev/null; then
    words=("$scratch/refuse.so")
    cc -shared -fPIC -o "${words[0]}" "$root/tests/refuse.c" -ldl || exit 1
else
    skip "no cc here, so no allocation is refused"
fi
adds refusals.py python3 -B "$root/tests/refusals.py" "$program" "${words[@]}" "$@"
finish
