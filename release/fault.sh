#!/usr/bin/env bash
# Says why a program isn't to be run as the one of the sources at hand: in a few words that follow its name, with status 1.
# A program that may be run has no fault: then this prints nothing, with status 0.
#
#     release/fault.sh PROGRAM     PROGRAM.txt is the text beside it, as release/describe.sh writes it
#
# The program has to have the SHA-256 of its text, and the sources at hand the hash of its text. Contents alone decide:
# dates can lie, as where another version is unpacked over a tree.
set -u

self=$(readlink -f -- "${BASH_SOURCE[0]}") && folder=$(dirname -- "$self") || exit 2
if [[ $# != 1 ]]; then
    echo 'fault.sh: it takes one word, the program' >&2
    exit 2
fi
program=$1

# found WORDS: the fault is this.
found() {
    printf '%s\n' "$*"
    exit 1
}

# A shell takes a file that the system can't run for a script.
is_elf() {
    local LC_ALL=C start
    IFS= read -r -d '' -n 4 start <"$program" && [[ $start == $'\177ELF' ]]
}

# stray: names the first file among the sources that has no name of one, such as a copy that an editor left.
stray() {
    local line name
    while IFS= read -r -d '' line; do
        # after the hash and two spaces
        name=${line:66}
        if [[ $name != *.rt && $name != *.antt && $name != crates.txt ]]; then
            printf ' (%q stands among them, and is none: move it away)' "$name"
            return
        fi
    done < <(bash "$folder/sources.sh" --list 2>/dev/null)
}

[[ -f $program ]] || found "isn't there"
[[ -f $program.txt ]] || found 'has no text beside it'
{ mapfile -t lines <"$program.txt"; } 2>/dev/null || found 'has a text that cannot be read'
text=$(printf '%s\n' "${lines[@]}")
[[ ${#lines[@]} == 3 && $text =~ ^'program '([0-9a-f]{64})$'\ntoolchain '[^$'\n']+$'\nsources '([0-9a-f]{64})$ ]] ||
    found "has a text that isn't as release/describe.sh writes it"
sum_told=${BASH_REMATCH[1]}
sources_told=${BASH_REMATCH[2]}

sum=$(sha256sum 2>/dev/null <"$program") || found 'cannot be read'
[[ ${sum%% *} == "$sum_told" ]] || found "hasn't the SHA-256 that its text gives"
sources=$(bash "$folder/sources.sh" 2>&1) || found "cannot be compared with the sources: $sources"
[[ $sources == "$sources_told" ]] || found "is of other sources$(stray)"
[[ -x $program ]] || found 'may not be executed (chmod +x)'
{ is_elf && "$program" --version </dev/null >/dev/null; } 2>/dev/null || found "doesn't run on this machine"
