#!/usr/bin/env bash
# The files of examples/ are those that the scripts beside them make.
# shellcheck source=tests/lib.sh
. "$(dirname -- "$0")/lib.sh"

mkdir -- "$scratch/made"
holds 'examples/make.py runs' python3 "$root/examples/make.py" "$scratch/made"
for file in four-messages.frames four-messages.answers torn.frames kinds.frames lost-block.frames lost-block.answers \
    one-message.log one-message.seals odd-message.log odd-message.seals; do
    holds "examples/$file is what make.py makes" cmp -- "$root/examples/$file" "$scratch/made/$file"
done

finish
