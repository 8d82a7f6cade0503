#!/usr/bin/env bash
# `review --salvage` of logs that were really signed: each octet changed, put in or taken out, and what a disk loses: see
# salvage_keys.py. One damage for each octet, or with SALVAGE_ALL=1 each damage.
# shellcheck source=tests/lib.sh
. "$(dirname -- "$0")/lib.sh"
need_program
keys_program=$root/tools/ssign-keys
need_cryptography
export SSIGN=$program
mkdir "$scratch/short" "$scratch/long"
"$keys_program" make "$scratch/short" --ver 0111
"$keys_program" make "$scratch/long"
python3 -B "$root/tests/salvage_keys.py" "$program" "$keys_program" "$scratch" ${SALVAGE_ALL:+all}
