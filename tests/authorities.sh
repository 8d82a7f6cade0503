#!/usr/bin/env bash
# Checks a table of chains of certificates with `ssign-keys` (--ca, --ca-anchor) and with `openssl verify`: authorities.py.
# shellcheck source=tests/lib.sh
. "$(dirname -- "$0")/lib.sh"
need_cryptography
need_command openssl
mkdir -- "$scratch/one"
holds 'a good key' "$root/tools/ssign-keys" make --ver 0111 "$scratch/one"
said=$(python3 -B "$root/tests/authorities.py" "$root/tools" "$scratch/one/private-key.pem" 2>&1) && fault='' || fault=$said
tell 'each chain is judged as openssl does, or there is a reason' "$fault"
echo "$name: $(tail -n 1 <<<"$said")"
finish
