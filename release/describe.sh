#!/usr/bin/env bash
# Prints the text that stands beside a program: its SHA-256, the toolchain, and the hash of its sources, a line each. By it
# release/fault.sh decides whether the program may be run.
#
#     release/sources.sh >BEGUN                 before the program is built
#     release/describe.sh PROGRAM BEGUN         after it
#
# A source may change during a build. So it refuses where the sources haven't the hash that BEGUN holds, or where one is
# newer than BEGUN.
set -u

refuse() {
    printf 'describe.sh: %s\n' "$*" >&2
    exit 2
}

self=$(readlink -f -- "${BASH_SOURCE[0]}") && root=$(dirname -- "$self")/.. || exit 2
[[ $# == 2 ]] || refuse 'it takes two words, the program and the file of the hash from before its build'
# what rt complains of beside its version is no part of it
toolchain=$(rt version </dev/null 2>/dev/null) || refuse "the command rt of the Rattle toolchain isn't in PATH"
[[ $toolchain ]] || refuse 'rt version prints nothing'
sum=$(sha256sum <"$1") && begun=$(<"$2") || exit 2
# a folder counts too, because one changes where a file of it goes
newer=$(find -L "$root/crates.txt" "$root"/crates/*/src "$root"/crates/*/specs -newer "$2" -print -quit) || exit 2
[[ -z $newer ]] || refuse "$newer is newer than the beginning of the build"
sources=$(bash "$root/release/sources.sh") || exit 2
[[ $sources == "$begun" ]] || refuse 'the sources changed during the build'
printf 'program %s\ntoolchain %s\nsources %s\n' "${sum%% *}" "$toolchain" "$sources"
