#!/usr/bin/env bash
# Proves and builds the program, and compares it with the recorded one. `./ssign --build` calls it. A program that was built
# here and is of the sources at hand isn't built again.
#
# Standard error has how long the build takes and how far it is. What the prover says goes to a file, which is named.
set -u

# The CPU minutes that the proofs of the program and of the libraries below it took from nothing (2026-11-24, on a slow
# machine): all of them, and those in which one processor alone has work, for reading the libraries below a crate before it
# and for putting it together after it. Up to four processors share the rest of a crate.
all_minutes=61
lone_minutes=15

self=$(readlink -f -- "${BASH_SOURCE[0]}") && root=$(dirname -- "$(dirname -- "$self")") || exit 2
out=$root/crates/ssign/out
program=$out/ssign
prover_said=$out/ssign.log
# the hash of the sources from before the build; its date is the beginning of the build
begun=$out/ssign.begun
recorded=$root/release/ssign-x86_64-linux

say() {
    printf 'ssign: %s\n' "$*" >&2
}

refuse() {
    say "$*"
    exit 2
}

# is_current PROGRAM: whether it is the program of the sources at hand, and runs here.
is_current() {
    bash "$root/release/fault.sh" "$1" </dev/null >/dev/null 2>&1
}

announce() {
    local processors used seconds minutes bound=about
    processors=$(nproc 2>/dev/null) && [[ $processors =~ ^[1-9][0-9]*$ ]] || processors=1
    used=$((processors >= 4 ? 4 : processors >= 2 ? 2 : 1))
    seconds=$((60 * lone_minutes + 60 * (all_minutes - lone_minutes) / used))
    minutes=$(((seconds + 59) / 60))
    compgen -G "$root/crates/*/out/incremental" >/dev/null && bound='at most about'
    say "proving and building the program, which takes $bound $minutes minutes on this machine ($processors processors)"
    say "what the prover says goes to $prover_said"
}

# follow: keeps what rt says, from standard input, in the log, and reports how far it is. On a terminal that is one line,
# which is written over; elsewhere a line for each crate, and at most one each half minute.
follow() {
    local line crate='' done='' reported=$SECONDS is_terminal=''
    [[ -t 2 ]] && is_terminal=1
    while IFS= read -r line; do
        printf '%s\n' "$line"
        if [[ $line =~ ^'rt: chose --jobs '[0-9]+' for '([a-z0-9_]+)$ ]]; then
            crate=${BASH_REMATCH[1]}
            done=$crate
            reported=$((SECONDS - 30))
        elif [[ $crate && $line =~ ^'so far: '([0-9]+)' of '([0-9]+)' functions checked' ]]; then
            done="$crate, ${BASH_REMATCH[1]} of ${BASH_REMATCH[2]} functions proved"
        else
            continue
        fi
        if [[ $is_terminal ]]; then
            printf '\r%-70s' "ssign: $done" >&2
        elif ((SECONDS - reported >= 30)); then
            say "$done"
            reported=$SECONDS
        fi
    done >"$prover_said"
    [[ $is_terminal && $done ]] && printf '\r%-70s\r' '' >&2
}

# libraries: the crates of this repository that the program stands on, in the order of crates.txt, lowest first.
libraries() {
    local name below
    declare -A is_below=()
    while read -r name below; do
        [[ $name == ssign: ]] || continue
        for name in $below; do
            is_below[$name]=1
        done
    done <"$root/crates.txt"
    while IFS=: read -r name below; do
        [[ $name && ${is_below[$name]-} ]] && printf '%s\n' "$name"
    done <"$root/crates.txt"
    return 0
}

# prove: proves and builds the program, in a shell of its own. Each library that was never begun comes first, by itself.
# If rt is asked for the program at once, it reads all sources a first time to report mistakes early, which takes a minute.
# rt builds by running, so the program is run on nothing at the end.
prove() (
    local library
    for library in $(libraries); do
        [[ -d $root/crates/$library/out/incremental ]] && continue
        (cd -- "$root/crates/$library" && exec rt lib) >&2 || exit
    done
    cd -- "$root/crates/ssign" && exec rt run -- --help
)

# starts_here: whether the system can run what stands in the place of the program.
starts_here() {
    local LC_ALL=C start
    { IFS= read -r -d '' -n 4 start <"$program" && [[ $start == $'\177ELF' ]] && "$program" --version </dev/null >/dev/null; } 2>/dev/null
}

# build: in a shell of its own, whose end lets go of its lock. The text beside the program goes first and comes last, so
# that nothing that a broken-off build left is ever run.
build() (
    command -v rt >/dev/null || refuse "the command rt of the Rattle toolchain, which builds the program, isn't in PATH"
    { mkdir -p -- "$out" && : >>"$prover_said"; } 2>/dev/null ||
        refuse "nothing can be written to $out, where the program is built"
    # One build at a time; whoever waited may find that all is done.
    exec 9<"$out"
    if command -v flock >/dev/null && ! flock -n 9; then
        say 'waiting for another build of the program to end'
        flock 9
        is_current "$program" && exit 0
    fi
    announce
    rm -f -- "$program.txt" && bash "$root/release/sources.sh" >"$begun" </dev/null || exit 2
    # rt may take what stands there for what it made
    [[ ! -e $program ]] || starts_here || rm -f -- "$program" || exit 2
    prove </dev/null 2>&1 >/dev/null | follow
    if [[ ${PIPESTATUS[0]} != 0 ]] || ! starts_here; then
        say "the program could not be built. The last lines of $prover_said, without those of what went well:"
        grep -v -e '^statements ' -e '^library ' -e '^fn .*: proved$' -- "$prover_said" | tail -n 12 >&2
        exit 2
    fi
    bash "$root/release/describe.sh" "$program" "$begun" >"$program.new" </dev/null ||
        refuse 'so the program that was built is never run: ./ssign --build again'
    mv -f -- "$program.new" "$program.txt" && rm -f -- "$begun" || exit 2
    say 'built'
)

# fact NAME PROGRAM: what the text beside a program says of it.
fact() {
    sed -n "s/^$1 //p" "$2.txt" 2>/dev/null
}

# compare_with_recorded: reports whether the program that was built here is the recorded one.
compare_with_recorded() {
    local sum other toolchain other_toolchain
    sum=$(fact program "$program") other=$(fact program "$recorded")
    toolchain=$(fact toolchain "$program") other_toolchain=$(fact toolchain "$recorded")
    if ! [[ $other =~ ^[0-9a-f]{64}$ && $other_toolchain ]]; then
        say "there is no recorded program to compare it with, or its text isn't whole"
    elif [[ $sum == "$other" ]]; then
        say "it is the recorded program, octet for octet: SHA-256 $sum"
    elif [[ $(fact sources "$program") != "$(fact sources "$recorded")" ]]; then
        say 'it differs from the recorded program, which is of other sources'
    elif [[ $toolchain != "$other_toolchain" ]]; then
        say "it differs from the recorded program, which another toolchain made: $other_toolchain, and here $toolchain"
    else
        say "it differs from the recorded program, with the same sources and toolchain: SHA-256 $sum, and $other is recorded"
    fi
}

[[ $# == 0 ]] || refuse 'tools/build.sh takes no words'
if is_current "$program"; then
    say 'the program is built from these sources already'
else
    build || exit 2
fi
compare_with_recorded
