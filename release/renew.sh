#!/usr/bin/env bash
# Records the program of these sources in release/: proves and builds it where it isn't up to date, copies it, and writes
# the text that says what it is. Where a source changes meanwhile, nothing is recorded.
set -u

self=$(readlink -f -- "${BASH_SOURCE[0]}") && root=$(dirname -- "$self")/.. || exit 2
cd -- "$root" || exit 2
program=crates/ssign/out/ssign
recorded=release/ssign-x86_64-linux

refuse() {
    printf 'renew.sh: %s\n' "$*" >&2
    exit 2
}

[[ $# == 0 ]] || refuse 'it takes no words'
new=$(mktemp -d release/new.XXXXXX) || exit 2
trap 'rm -rf -- "$new"' EXIT
release/sources.sh >"$new/begun" || exit 2
./ssign --build </dev/null || exit 2
# The text beside the program says nothing of the toolchain at hand. rt knows by contents whether what it built itself is up
# to date, and builds again where it isn't; what `rt ci` built from nothing has no such stamp.
if [[ -e $program.stamp ]]; then
    (cd crates/ssign && exec rt run -- --help) </dev/null >/dev/null 2>&1 || refuse 'rt cannot build the program: ./ssign --build'
fi
cp -- "$program" "$new/program" && chmod 755 -- "$new/program" || exit 2
release/describe.sh "$new/program" "$new/begun" >"$new/text" || refuse 'nothing is recorded'
chmod 644 -- "$new/text" || exit 2
mv -f -- "$new/program" "$recorded" && mv -f -- "$new/text" "$recorded.txt" || exit 2
printf 'recorded %s:\n' "$recorded"
cat -- "$recorded.txt"
