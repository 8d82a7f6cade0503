#!/usr/bin/env bash
# The recorded build of release/: its text is whole, it is of the sources at hand, it was built by the toolchain that
# docs/dev/PROOFS.md names, and it has the SHA-256 that the text gives. The program that was built here has to be the same,
# octet for octet, whichever toolchain built it. If CI is set, another one fails, because what is published has to be
# compared. Elsewhere another one gives a warning if the toolchain is the recorded one, because what was proved here is
# the one here. Another toolchain may well make another program, so then it is only reported that they differ.
# shellcheck source=tests/lib.sh
. "$(dirname -- "$0")/lib.sh"
need_program

recorded=$root/release/ssign-x86_64-linux
renews='release/renew.sh renews the recorded build'

# fact NAME: what the text says of it.
fact() {
    sed -n "s/^$1 //p" "$recorded.txt" 2>"$scratch/fault"
}

sum_of() {
    local line
    line=$(sha256sum <"$1") && printf '%s' "${line%% *}"
} 2>"$scratch/fault"

# differ WHAT HERE RECORDED: the fault of a check in which the two are equal, and none where they are.
differ() {
    [[ $2 == "$3" && $3 ]] || printf '    %s: %s here, and %s is recorded; %s\n' "$1" "${2:-none}" "${3:-none}" "$renews"
}

toolchain=$(fact toolchain)
whole=$(printf 'program %s\ntoolchain %s\nsources %s\n.' "$(fact program)" "$toolchain" "$(fact sources)")
holds "the text $recorded.txt is three lines, program, toolchain and sources; $renews" cmp -- "$recorded.txt" <(printf '%s' "${whole%.}")
holds 'the text names a toolchain' test "$toolchain"

sources=$("$root/release/sources.sh")
fault=$(differ 'hash of the sources' "$sources" "$(fact sources)")
tell 'the recorded build is of these sources' "$fault"
fault=$(differ 'SHA-256 of the program' "$(sum_of "$recorded")" "$(fact program)")
tell 'the recorded program is the one that the text speaks of' "$fault"
holds 'the recorded program may be executed' test -x "$recorded"
holds "docs/dev/PROOFS.md names the toolchain of the recorded build, $toolchain" grep -qF -- "\`$toolchain\`" "$root/docs/dev/PROOFS.md"

# what rt complains of beside its version is no part of it
here=$(rt version </dev/null 2>"$scratch/fault") || here='a toolchain without the command rt in PATH'
built=$(sum_of "$program")
if [[ $sources != "$(fact sources)" ]]; then
    : # told above
elif [[ $built == "$(fact program)" || ${CI-} ]]; then
    fault=$(differ "SHA-256 of the program that $here built" "$built" "$(fact program)")
    tell 'the program built here is the recorded one' "$fault"
elif [[ $here != "$toolchain" ]]; then
    echo "$name: the program built here isn't the recorded one, which another toolchain made: $toolchain, and here $here"
else
    echo "$name: warning: the program built here differs from the recorded one, with the same sources and toolchain: SHA-256 $built here, and $(fact program) is recorded. The one here is the one that was proved here."
fi

finish
