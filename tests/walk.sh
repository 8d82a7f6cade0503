#!/usr/bin/env bash
# The way of a log from its messages to a review, as examples/README.md shows it: the blocks of commands are run in one
# shell, in the order of the page, and each has to give the output and the status that the page says. What is random,
# keys and signatures, stands in no output there.
# shellcheck source=tests/lib.sh
. "$(dirname -- "$0")/lib.sh"
need_program

# A block of commands is one whose text after it says `with status N`; where that also says `prints, `, the next block
# is the output. The commands, statuses and outputs:
commands=() statuses=() outputs=()

# take BLOCK TEXT: a block, and the text in front of it.
take() {
    local last=$((${#commands[@]} - 1))
    if [[ $2 =~ 'prints, with status '([0-2])','$'\n'*$ ]]; then
        statuses[last]=${BASH_REMATCH[1]}
        outputs[last]=$1
        return
    fi
    close "$2"
    commands+=("$1")
}

# close TEXT: the text after a block of commands that prints nothing.
close() {
    local last=$((${#commands[@]} - 1))
    [[ $1 =~ 'ends with status '([0-2])', and prints nothing' ]] || return
    statuses[last]=${BASH_REMATCH[1]}
    outputs[last]=
}

read_page() {
    local line block='' text=''
    # the line that is added ends the last block
    while IFS= read -r line; do
        if [[ $line == '    '* ]]; then
            block+=${block:+$'\n'}${line:4}
            continue
        fi
        if [[ $block ]]; then
            take "$block" "$text"
            block=''
            text=''
        fi
        text+=$line$'\n'
    done < <(cat -- "$root/examples/README.md" && echo)
    close "$text"
}

read_page
has_keys=yes
if ! python3 -c 'import cryptography' 2>/dev/null; then
    has_keys=
    skip "no cryptography for python3 here, so only what examples/README.md does without keys is done"
fi
# ssign-keys runs this program too
export SSIGN=$program

mkdir -- "$scratch/way" && cd -- "$scratch/way" || exit 1
ln -s -- "$program" ssign
ln -s -- "$root/examples" examples
ln -s -- "$root/tools" tools
for number in "${!commands[@]}"; do
    [[ $has_keys || ${commands[number]} != *walk* ]] || continue
    printf '{\n%s\n} >%q 2>%q </dev/null\n' "${commands[number]}" "$scratch/out.$number" "$scratch/err.$number"
    printf 'echo $? >%q\n' "$scratch/status.$number"
done >"$scratch/script"
timeout $((5 * patience)) bash "$scratch/script"

for number in "${!commands[@]}"; do
    command=${commands[number]}
    [[ $has_keys || $command != *walk* ]] || continue
    command=${command//$'\n'/; }
    if [[ ! ${statuses[number]-} ]]; then
        tell "$command" '    the page says nothing of what it gives'
        continue
    fi
    status=$(<"$scratch/status.$number")
    # the page has words in place of what each new key has anew
    sed -E 's/SHA-256 [0-9a-f]{64}(\)|$)/SHA-256 FINGERPRINT\1/; s/ of [0-9-]{10}T[0-9:]{8}Z, as its/ of TIME, as its/' \
        "$scratch/out.$number" >"$scratch/out"
    cp -- "$scratch/err.$number" "$scratch/err"
    # what is shown may lack the LF at its end, as a decoded block does
    [[ -s $scratch/out && $(tail -c 1 -- "$scratch/out") ]] && echo >>"$scratch/out"
    expect "$command" "${statuses[number]}" "${outputs[number]}" ''
done

finish
