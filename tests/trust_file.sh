#!/usr/bin/env bash
# Trust files: `ssign-keys verify --trust` and `answer --trust`. Good and bad files, sessions by pattern, limits at each second,
# authorities, and attacks by whoever has the key of another session: trust_file.py.
# shellcheck source=tests/lib.sh
. "$(dirname -- "$0")/lib.sh"
need_program
need_cryptography
cd -- "$scratch" || exit 1
SSIGN=$program python3 -B "$root/tests/trust_file.py" "$root/tools" >told 2>err
holds 'the cases run to their end' test "$?" = 0 -a ! -s err
cat err
while read -r word what; do
    case $word in
    passed) tell "$what" '' ;;
    *) tell "${what%%: *}" "    ${what#*: }" ;;
    esac
done <told
finish
