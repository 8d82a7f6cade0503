#!/usr/bin/env bash
# The examples of README.md and of the pages for users: a block that is one line with `./ssign`, or with `./tools/ssign-keys`
# and a file of examples/, is a command, the block after it is what the program prints, and between the two stands `status N`.
# Where the command has `./ssign` twice, the last one prints. The same holds of the README of the crate `ssign`. The blocks
# of README.md that sign and verify are run one after the other, and README.md has at most 900 words. What the README of
# each crate has to be, and where the example of a library stands, crate_readmes.py says.
# shellcheck source=tests/lib.sh
. "$(dirname -- "$0")/lib.sh"
need_program
cd -- "$root" || exit 1
# the last command of a pipeline runs in this shell, so that `run` keeps its status here
shopt -s lastpipe

# example FILE COMMAND TEXT OUTPUT: one check, of a command, the text after it, and the output that is shown.
example() {
    local file=$1 command=$2 text=$3 output=$4
    if ! [[ $text =~ status\ ([0-2]) ]]; then
        tell "$file: $command" '    no status stands between the command and its output'
        return
    fi
    local wanted=${BASH_REMATCH[1]}
    if [[ $command == *./tools/ssign-keys\ * ]]; then
        if ! python3 -c 'import cryptography' 2>"$scratch/err"; then
            skip "$file: $command: the Python module cryptography is missing"
            return
        fi
        SSIGN=$program timeout "$patience" bash -c "$command" >"$scratch/out" 2>"$scratch/err"
        status=$?
    else
        # shellcheck disable=SC2016
        command=${command//.\/ssign /'"$program" '}
        eval "${command%'"$program" '*}run ${command##*'"$program" '}"
    fi
    expect "$file: $command" "$wanted" "$output" ''
}

# is_command BLOCK: whether a block is the command of an example.
is_command() {
    [[ $1 != *$'\n'* && ($1 == *./ssign\ * || $1 == *./tools/ssign-keys\ *examples/*) ]]
}

# examples FILE: one check for each of its examples.
examples() {
    local file=$1 line block='' command='' text=''
    # the line that is added ends the last block
    while IFS= read -r line; do
        if [[ $line == '    '[^\ ]* || $block && $line == '    '* ]]; then
            block+=${block:+$'\n'}${line:4}
            continue
        fi
        if is_command "$block"; then
            [[ -z $command ]] || tell "$file: $command" '    its output is not shown'
            command=$block
            text=''
        elif [[ $block && $command ]]; then
            example "$file" "$command" "$text" "$block"
            command=''
        fi
        block=''
        text+=$line$'\n'
    done < <(cat -- "$file" && echo)
    [[ -z $command ]] || tell "$file: $command" '    its output is not shown'
}

# block FILE HEADING: the first block after a heading.
block() {
    awk -v heading="$2" '/^#/ { inside = $0 == heading; next }
        inside && /^    / { found = 1; print substr($0, 5); next } inside && found { exit }' "$1"
}

# in_order: the blocks of README.md below these headings, by one shell. The last line of two of them is a verdict.
in_order() {
    local heading fault
    if ! python3 -c 'import cryptography' 2>"$scratch/fault"; then
        skip 'the blocks of README.md that sign: the Python module cryptography is missing'
        return
    fi
    echo 'set -e; mktemp() { mkdir -- "$scratch/trial" && echo "$scratch/trial"; }' >"$scratch/blocks"
    for heading in Sign Verify Live; do
        block README.md "## $heading" >"$scratch/block"
        fault=''
        [[ $(wc -l <"$scratch/block") =~ ^[1-3]$ ]] || fault="    it has $(wc -l <"$scratch/block") lines"
        tell "README.md, $heading: a block of one to three lines" "$fault"
        { cat -- "$scratch/block" && echo "echo the end of $heading"; } >>"$scratch/blocks"
    done
    env scratch="$scratch" SSIGN="$program" timeout $((5 * patience)) bash "$scratch/blocks" >"$scratch/out" 2>"$scratch/err"
    status=$?
    expect 'README.md: its blocks, one after the other' 0 'SOME TEXT' ''
    for heading in Verify Live; do
        holds "README.md, $heading: the verdict" grep -q '^Verdict: All 10 announced messages are present and unchanged' \
            <(grep -B 1 -x "the end of $heading" "$scratch/out")
    done
}

holds 'README.md has at most 900 words' test "$(wc -w <README.md)" -le 900
in_order
for page in README.md docs/user/index.md docs/user/*/*.md crates/ssign/README.md; do
    # pages of a pattern that matches none
    [[ ! -f $page ]] || examples "$page"
done
for folder in crates/*/; do
    holds "${folder}README.md" python3 -B "$root/tests/crate_readmes.py" "$(basename -- "$folder")"
done
finish
