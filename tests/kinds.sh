#!/usr/bin/env bash
# `inspect` against a second reading of blocks, kinds.py beside this file, over generated logs.
# shellcheck source=tests/lib.sh
. "$(dirname -- "$0")/lib.sh"
need_program

for seed in 1 2 3 4; do
    python3 -B "$root/tests/kinds.py" make "$seed" 15000 >"$scratch/log"
    python3 -B "$root/tests/kinds.py" tell <"$scratch/log" >"$scratch/wanted"
    run inspect <"$scratch/log"
    holds "seed $seed: the log is read to its end" test "$status" = 0
    holds "seed $seed: each line is that of the second reading" cmp -- "$scratch/out" "$scratch/wanted"
done
# Without these the logs would show little.
for kind in plain signature certificate 'spoilt [0-9]* S'{1..9} 'unparsed [0-9]* M'{1..12}; do
    holds "some line says $kind" grep -q "^$kind\b" "$scratch/wanted"
done
while read -r word; do
    run explain "$word" </dev/null
    expect "explain $word" 0 'SOME TEXT' ''
done < <(awk '{ print $1 } $1 == "spoilt" || $1 == "unparsed" { print $3 }' "$scratch/wanted" | sort -u)
finish
