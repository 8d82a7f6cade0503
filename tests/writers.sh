#!/usr/bin/env bash
# Each command of ssign-keys and ssign-archive that writes to standard output, where that can't take it: status 2 and one
# sentence, with PYTHONUNBUFFERED and without.
# shellcheck source=tests/lib.sh
. "$(dirname -- "$0")/lib.sh"
need_program
keys_program=$root/tools/ssign-keys
need_cryptography
export SSIGN=$program
cd -- "$scratch" || exit 1
mkdir -p passing made/keys made/archive/gate
export TMPDIR=$scratch/passing
seq -f '<13>1 - gate app - - - message %.0f' 300 >made/messages
"$keys_program" make made/keys
"$keys_program" sign --key made/keys/private-key.pem --rsid 1 --host gate --app signer --lines made/messages >made/long
"$program" questions <made/long >made/questions
cp made/long made/archive/gate/log
holds 'the questions are longer than a pipe' test "$(wc -c <made/questions)" -gt 4096
if python3 -B "$root/tests/full_outputs.py" made "$root/tools" >said 2>&1; then
    tell 'no output is cut without a word' ''
else
    tell 'no output is cut without a word' "$(sed 's/^/    /' said)"
fi
echo "$name: $(tail -n 1 said)"
holds 'no passing file is left' test -z "$(ls -A -- "$TMPDIR")"
finish
