#!/usr/bin/env bash
# Prints one SHA-256 over all that the program is made of: crates.txt, and each file in src/ and specs/ of ssign and of
# the crates below it. Proofs don't count, because they change no program. Names and contents both count; dates, owners,
# umask and locale don't.
#
#     release/sources.sh           the hash
#     release/sources.sh --list    what is hashed: the SHA-256 and the name of each file, and a NUL after each
set -u -f -o pipefail
export LC_ALL=C

refuse() {
    printf 'sources.sh: %s\n' "$*" >&2
    exit 2
}

self=$(readlink -f -- "${BASH_SOURCE[0]}") && root=$(dirname -- "$self") || exit 2
cd -- "$root/.." || exit 2

# The crates of the repository and the libraries of each: the lines of crates.txt, `NAME WORD..: LIBRARY..`. A library
# without such a line is the toolchain's.
declare -A libraries=() seen=()
while IFS= read -r line || [[ $line ]]; do
    line=${line%%#*}
    [[ $line =~ ^[[:space:]]*([A-Za-z0-9_]+)([[:space:]][^:]*)?:(.*)$ ]] || continue
    libraries[${BASH_REMATCH[1]}]=${BASH_REMATCH[3]}
done <crates.txt || refuse 'crates.txt cannot be read'
[[ ${libraries[ssign]+there} ]] || refuse 'crates.txt has no line for ssign'

# see CRATE: puts this crate, and those below it, among the seen.
see() {
    local library
    seen[$1]=
    for library in ${libraries[$1]}; do
        [[ $library =~ ^[A-Za-z0-9_]+$ ]] || refuse "crates.txt names a library $library"
        [[ ${libraries[$library]+there} && ! ${seen[$library]+there} ]] && see "$library"
    done
    return 0
}
see ssign

folders=()
for crate in "${!seen[@]}"; do
    [[ -d crates/$crate/src ]] || refuse "there is no folder crates/$crate/src"
    for part in src specs; do
        [[ -d crates/$crate/$part ]] && folders+=("crates/$crate/$part")
    done
done

# A link counts as what it leads to. What is neither a file nor a folder has no contents.
strange=$(find -L crates.txt "${folders[@]}" ! -type f ! -type d -print -quit) || refuse 'the sources cannot be read'
[[ -z $strange ]] || refuse "$strange is neither a file nor a folder"

# Sorted by whole lines, so that the order in which a folder is read doesn't count.
list() {
    find -L crates.txt "${folders[@]}" -type f -exec sha256sum -z -- {} + | sort -z
}
case "$#${1-}" in
0)
    hash=$(list | sha256sum) || refuse 'the sources cannot be read'
    printf '%s\n' "${hash%% *}"
    ;;
1--list) list || refuse 'the sources cannot be read' ;;
*) refuse 'it takes no word but --list' ;;
esac
