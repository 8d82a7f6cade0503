#!/usr/bin/env bash
# Attacks on whoever seals what another machine wants: octets that are no block, other sessions, blocks that contradict each
# other, state files that were removed, cut or changed, kills and full disks. seal_attacks.py makes them.
# shellcheck source=tests/lib.sh
. "$(dirname -- "$0")/lib.sh"
need_program
need_cryptography
cd -- "$scratch" || exit 1
mkdir long other work
"$root/tools/ssign-keys" make long
"$root/tools/ssign-keys" make other
(cd work && python3 -B "$root/tests/seal_attacks.py" .. "$program") >told 2>err
holds 'the attacks run to their end' test "$?" = 0 -a ! -s err
while read -r word what; do
    [[ $word == passed ]] && tell "$what" '' || tell "${what%%: *}" "    ${what#*: }"
done <told
grep -o '[0-9]* of [0-9]* blocks with changed octets.*\|[0-9]* runs that were killed.*\|a state file .* at [0-9]* places' told | sed "s/^/$name: /"

finish
