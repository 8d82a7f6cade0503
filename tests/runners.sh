#!/usr/bin/env bash
# What runs the tests: which program tests/lib.sh takes, what tests/all.sh (`make test`) says and how it ends, and that
# .ci/run ends as ./check does whatever becomes of the tools that ./setup installs. All of it in a copy with scripts, a gate
# and a setup that are made up.
# shellcheck source=tests/lib.sh
. "$(dirname -- "$0")/lib.sh"
copy=$scratch/copy
mkdir -p -- "$copy/tests" "$copy/.ci" "$scratch/passing"
(cd -- "$root" && tar -c --exclude='crates/*/out' crates.txt crates/*/src crates/*/specs release Makefile) | tar -x -C "$copy"
cp -- "$root/tests/lib.sh" "$root/tests/all.sh" "$copy/tests/"
cp -- "$root/setup" "$copy/setup"
cp -- "$root/.ci/run" "$copy/.ci/run"
cp -- "$root/check" "$copy/check"
chmod 755 "$copy/tests/all.sh" "$copy/.ci/run"
# sources may have changed since the program was recorded
sed -i "s/^sources .*/sources $("$copy/release/sources.sh")/" "$copy/release/ssign-x86_64-linux.txt"
unset SSIGN SSIGN_GATE
export TMPDIR=$scratch/passing
cd -- "$copy" || exit 1
recorded=$copy/release/ssign-x86_64-linux
built=$copy/crates/ssign/out/ssign

# script NAME: makes a script of the copy, of standard input after the helpers.
script() {
    # shellcheck disable=SC2016
    { printf '. "$(dirname -- "$0")/lib.sh"\n' && cat; } >"tests/$1.sh"
}
# kept WORD..: runs a command, and keeps what it wrote and how it ended.
kept() {
    timeout "$patience" "$@" >"$scratch/out" 2>"$scratch/err" </dev/null
    status=$?
}

# ---- which program is taken
script shows <<'S'
need_program
echo "$program"
tell it ''
finish
S
shows="shows: 1 passed, 0 failed"
if "$recorded" --version </dev/null >out 2>&1; then
    kept bash tests/shows.sh
    expect 'neither SSIGN nor a build: the recorded program' 0 "$recorded"$'\n'"$shows" ''
    SSIGN=/bin/true kept bash tests/shows.sh
    expect 'SSIGN' 0 /bin/true$'\n'"$shows" ''
    mkdir -p "${built%/*}" && printf '#!/bin/sh\n' >"$built" && chmod 755 "$built"
    kept bash tests/shows.sh
    expect 'a build' 0 "$built"$'\n'"$shows" ''
    rm -- "$built"
    SSIGN=none kept bash tests/shows.sh
    expect 'SSIGN that names nothing' 1 "shows: there is no program $copy/none; ./ssign --build builds one"$'\n''shows: 0 passed, 1 failed' ''
    echo >>crates.txt
    kept bash tests/shows.sh
    expect 'the recorded program of other sources' 1 "shows: there is no program $built, and the recorded one is of other sources; ./ssign --build builds one"$'\n''shows: 0 passed, 1 failed' ''
    kept tests/all.sh shows
    expect 'all.sh with no program' 1 "all: there is no program $built, and the recorded one is of other sources; ./ssign --build builds one"$'\n''0 passed, 1 failed, 0 skipped' ''
    cp -- "$root/crates.txt" crates.txt
else
    skip "the recorded program, because it doesn't run here"
fi
printf 'no program' >"$scratch/other"
cp -- "$recorded" "$scratch/recorded" && cp -- "$scratch/other" "$recorded"
kept bash tests/shows.sh
expect 'a recorded program that does not run' 1 "shows: there is no program $built, and the recorded one hasn't the SHA-256 that its text gives; ./ssign --build builds one"$'\n''shows: 0 passed, 1 failed' ''
cp -- "$scratch/recorded" "$recorded"

# ---- what only the gate makes
script made <<'S'
need_made "$root/crates/tool/out/tool"
tell it ''
finish
S
kept bash tests/made.sh
expect "a program of the gate's that is missing" 77 "made: left out: crates/tool/out/tool isn't here, which ./check makes" ''
SSIGN_GATE=1 kept bash tests/made.sh
expect 'the same in the gate' 1 "made: there is no program $copy/crates/tool/out/tool; ./check leaves it behind"$'\n''made: 0 passed, 1 failed' ''

# ---- tests/all.sh
export SSIGN=/bin/true
# ends NAME COUNTS STATUS: a script that says its counts, and ends so.
ends() {
    printf 'echo "%s: %s"\nexit %d\n' "$1" "$2" "$3" >"tests/$1.sh"
}
# all WHAT STATUS LAST NAME..: one check of the last line and the status, and that no other line has bare counts.
all() {
    local what=$1 wanted=$2 last=$3
    shift 3
    case ${1-} in --all) set -- --all -j 2 "${@:2}" ;; *) set -- -j 2 "$@" ;; esac
    kept tests/all.sh "$@"
    tell "$what" "$([[ $status == "$wanted" && $(tail -n 1 "$scratch/out") == "$last" && ! -s $scratch/err ]] || cat "$scratch/out" "$scratch/err"
        [[ $(grep -cE '^[0-9]+ passed, [0-9]+ failed, [0-9]+ skipped$' "$scratch/out") == 1 ]] || echo 'more than one line of bare counts')"
}
ends good '3 passed, 0 failed' 0
ends better '4 passed, 0 failed' 0
ends bad '5 passed, 2 failed' 1
ends lying '6 passed, 0 failed' 1
printf 'echo "silent: all is well"\n' >tests/silent.sh
printf 'kill -9 $$\n' >tests/killed.sh
all 'two that pass' 0 '7 passed, 0 failed, 0 skipped' good better
all 'one that fails' 1 '8 passed, 2 failed, 0 skipped' good bad
all 'a status that belies the counts' 1 '6 passed, 1 failed, 0 skipped' lying
all 'no counts' 1 '3 passed, 1 failed, 0 skipped' good silent
holds 'what a script that failed said is shown' grep -qx 'silent: all is well' "$scratch/out"
all 'a script that is killed' 1 '3 passed, 1 failed, 0 skipped' good killed
all 'one that is left out' 0 '3 passed, 0 failed, 1 skipped' good made
holds 'it is named, with why' grep -qx "    made: left out: crates/tool/out/tool isn't here, which ./check makes" "$scratch/out"
all 'all that there is is left out' 1 '0 passed, 0 failed, 1 skipped' made
SSIGN_GATE=1 all 'nor does a variable of the gate count' 0 '3 passed, 0 failed, 1 skipped' good made
kept tests/all.sh --gate -j 2 good made
tell 'in the gate it has failed' "$([[ $status == 1 && $(tail -n 1 "$scratch/out") == '3 passed, 1 failed, 0 skipped' ]] || cat "$scratch/out" "$scratch/err")"
script some <<'S'
skip 'what needs it, which is missing'
skip 'no it here, so nothing is run'
tell it ''
finish
S
all 'one that skips some' 0 '1 passed, 0 failed, 2 skipped' some
holds 'both of its lines are repeated' test "$(grep -c '^    some: skipped: ' "$scratch/out")" = 2
script late <<'S'
tell it ''
leave_out 'the rest needs more'
S
all 'one that is left out after a check' 0 '1 passed, 0 failed, 1 skipped' late
script nothing <<'S'
skip 'all of it'
finish
S
all 'one that skips all' 1 '0 passed, 0 failed, 1 skipped' nothing
all 'that is no failure of the run' 0 '3 passed, 0 failed, 1 skipped' nothing good
script adding <<'S'
adds 'what is good' printf 'other: skipped: a thing\nother: 5 passed, 2 failed, 1 skipped\n'
adds 'what says nothing' true
finish
S
kept bash tests/adding.sh
expect 'counts that are added' 1 $'adding: skipped: a thing\nadding: what says nothing: FAILED\n    it said nothing\nadding: 5 passed, 3 failed, 1 skipped' ''
# without Python, and with one that is too old
script asks <<'S'
python3 -c pass
tell it ''
finish
S
kept env SSIGN_NO_PYTHON=1 bash tests/asks.sh
expect 'no Python: a script that needs it' 77 'asks: left out: Python 3.9 or newer is missing' ''
kept env SSIGN_NO_PYTHON=1 bash tests/some.sh
expect 'no Python: another one' 0 $'some: skipped: what needs it, which is missing\nsome: skipped: no it here, so nothing is run\nsome: 1 passed, 0 failed, 2 skipped' ''
rm -- tests/{late,nothing,adding,asks,some}.sh
rm -- tests/{bad,lying,silent,killed}.sh
all 'all of them' 0 '8 passed, 0 failed, 1 skipped'
# one of those that take minutes is left out, unless it is named or all are asked for
ends verify '20 passed, 0 failed' 0
all 'all of them but a slow one' 0 '8 passed, 0 failed, 2 skipped'
holds 'it is named, and how it is run' grep -qx '    verify: left out: it takes minutes; --all runs it' "$scratch/out"
all 'a slow one that is named' 0 '23 passed, 0 failed, 0 skipped' verify good
all 'a slow one, where all are asked for' 0 '28 passed, 0 failed, 1 skipped' --all
kept tests/all.sh --gate -j 2
tell 'a slow one in the gate' "$([[ $status == 1 && $(tail -n 1 "$scratch/out") == '28 passed, 1 failed, 0 skipped' ]] || cat "$scratch/out" "$scratch/err")"
rm -- tests/verify.sh
# are_gone FILE..: whether the processes whose numbers stand in the files have ended.
# shellcheck disable=SC2317
are_gone() {
    local file
    for file in "$@"; do
        ! kill -0 "$(<"$file")" 2>/dev/null || return 1
    done
}
# two scripts that wait are ended with the run, whoever asks it to end
for signal in INT TERM HUP; do
    for it in slow slower; do
        printf 'echo $$ >"%s/%s"\nsleep 50\necho "%s: 1 passed, 0 failed"\n' "$scratch" "$it" "$it" >"tests/$it.sh"
        rm -f -- "$scratch/$it"
    done
    # a shell that isn't interactive has its background children ignore SIGINT
    python3 -c 'import os, signal, sys; signal.signal(signal.SIGINT, signal.SIG_DFL); os.execvp(sys.argv[1], sys.argv[1:])' \
        tests/all.sh -j 2 slow slower >"$scratch/out" 2>&1 </dev/null &
    run=$!
    for ((tries = 0; tries < 300; tries++)); do
        [[ -s $scratch/slow && -s $scratch/slower ]] && break
        sleep 0.1
    done
    kill -s "$signal" "$run"
    wait "$run"
    holds "SIG$signal: it isn't taken for success" test "$?" != 0
    sleep 0.5
    holds "SIG$signal: no script is left" are_gone "$scratch/slow" "$scratch/slower"
done
rm -- tests/{slow,slower}.sh
for words in '-j' '-j 0' '-j x' '-x' 'none' '../all' ''; do
    # shellcheck disable=SC2086
    [[ $words ]] && kept tests/all.sh $words
    [[ ! $words ]] || tell "the words $words" "$([[ $status == 2 && ! -s $scratch/out && -s $scratch/err ]] || echo "status $status")"
done
if command -v make >"$scratch/out"; then
    kept make -s test JOBS=2
    tell 'make test' "$([[ $status == 0 && $(tail -n 1 "$scratch/out") == '8 passed, 0 failed, 1 skipped' ]] || cat "$scratch/out" "$scratch/err")"
else
    skip "make test, because make is missing"
fi

# ---- .ci/run
# the gate and the setup of the copy say what they were given
# shellcheck disable=SC2016
printf '#!/bin/sh\necho "CI is $CI"\n[ -t 0 ] || read -r it || echo "no standard input"\necho "5 passed, 1 failed"\nexit 1\n' >check
printf '#!/bin/sh\necho "setup $*"\nexit "$ENDS"\n' >setup
chmod 755 check setup
gate='CI is true'$'\n''no standard input'$'\n''5 passed, 1 failed'
CI=true ENDS=0 kept "$copy/.ci/run"
expect 'it installs, and is the gate' 1 $'setup tools\n'"$gate" ''
CI=true ENDS=3 kept "$copy/.ci/run"
expect 'nothing can be installed, and it goes on' 1 $'setup tools\n'"$gate" 'run: ./setup tools ended with status 3; the tests skip what needs the rest'

# ---- no test installs on this machine
found=$(cd -- "$root" && grep -lE '(apt|apt-get|dpkg) (-[^ ]+ )*install |setup (run|test|tools)' tests/*.sh | grep -vE '/(runners|setup)\.sh$' |
    xargs -r grep -nE '^[^"#'\'']*((apt|apt-get) .*install |setup (run|test|tools))')
tell 'no test installs anything' "$found"
finish
