#!/usr/bin/env bash
# `ssign-keys verify` runs ssign once, and once more for texts and times, each over the same octets. It refuses a run that breaks off,
# or that doesn't read, ask and wait in its order, at each step: tests/asking.py.
# shellcheck source=tests/lib.sh
. "$(dirname -- "$0")/lib.sh"
need_program
need_cryptography
export SSIGN=$program
cd -- "$scratch" || exit 1
mkdir keys
"$root/tools/ssign-keys" make --ver 0121 keys
seq -f '<13>1 - gate app - - - message %.0f of a log that is longer than what is read of it at once' 20000 >plain
"$root/tools/ssign-keys" sign --key keys/private-key.pem --ver 0121 --host gate --app signer --rsid 1 --lines plain >log
holds 'a log is signed' test "$(stat -c %s log)" -gt 2000000
adds 'asking.py' python3 -B "$root/tests/asking.py" "$root/tools/ssign-keys" "$program"
finish
