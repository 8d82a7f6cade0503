#!/usr/bin/env bash
# Keys with which anybody can sign, and others that are none of DSA, by each way in which a key is given: weak_keys.py.
# shellcheck source=tests/lib.sh
. "$(dirname -- "$0")/lib.sh"
need_cryptography
mkdir -- "$scratch/one" "$scratch/weak"
holds 'a good key' "$root/tools/ssign-keys" make --ver 0111 "$scratch/one"
said=$(python3 -B "$root/tests/weak_keys.py" "$root/tools" "$scratch/one/private-key.pem" "$scratch/weak" 2>&1) && fault='' || fault=$said
printf '%s\n' "$said" | grep -E '^(weak keys|cases): ' | sed "s/^/$name: /"
tell 'each weak key is refused' "$fault"
finish
