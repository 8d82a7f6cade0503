# shellcheck shell=bash
# Helpers of the tests beside this file, which source it. A test states its checks one after the other and ends with
# `finish`, whose line `NAME: N passed, M failed` is what tests/all.sh adds up, with `, K skipped` where something was.
#
# A test that drives the program calls `need_program` first. The program is the file that the variable SSIGN names, or
# else the one that a build of this repository leaves, or else the recorded one, if it is of these sources and runs here.
# A test that needs other programs, which ./check alone makes, calls `need_made`. A part that can't be run here calls `skip`,
# and a test that can't be run at all calls `leave_out`. Nothing else may pass over a check.
set -u

root=$(CDPATH='' cd -- "$(dirname -- "${BASH_SOURCE[0]}")/.." && pwd) || exit 1
program=${SSIGN:-$root/crates/ssign/out/ssign}
[[ $program == /* ]] || program=$PWD/$program
name=$(basename -- "$0" .sh)
# `ssign-keys sign` remembers which sessions were begun with a key. The tests give an RSID again, each for itself
export SSIGN_SESSIONS=/dev/null
passed=0
failed=0
skipped=0
status=0
# the counts at the end of a line
# shellcheck disable=SC2034
counts_form='([0-9]+) passed, ([0-9]+) failed(, ([0-9]+) skipped)?$'
# a program that takes longer than this hangs
patience=60

scratch=$(mktemp -d) || exit 1
trap 'rm -rf -- "$scratch"' EXIT

# find_program: has `program` name a program that is there, or says why there is none.
find_program() {
    local recorded=$root/release/ssign-x86_64-linux fault
    [[ -f $program && -x $program ]] && return
    if [[ ${SSIGN-} ]]; then
        echo "$name: there is no program $program; ./ssign --build builds one"
        return 1
    fi
    if fault=$("$root/release/fault.sh" "$recorded"); then
        program=$recorded
        return
    fi
    echo "$name: there is no program $program, and the recorded one $fault; ./ssign --build builds one"
    return 1
}

need_program() {
    find_program && return
    failed=1
    finish
}

# skip WHAT: counts a part of the test that can't be run here. WHAT says which, and why. tests/all.sh repeats the line.
skip() {
    skipped=$((skipped + 1))
    printf '%s: skipped: %s\n' "$name" "$*"
}

# leave_out WHY: ends a test that can't be run here, with the status 77, or with the counts where some was run.
leave_out() {
    if [[ $((passed + failed)) != 0 ]]; then
        skip "$1"
        finish
    fi
    printf '%s: left out: %s\n' "$name" "$1"
    exit 77
}

# need_cryptography: leaves the test out where Python has no module cryptography.
need_cryptography() {
    python3 -c 'import cryptography' 2>/dev/null || leave_out 'the Python module cryptography is missing'
}

# need_command COMMAND..: leaves the test out where one of these commands is missing.
need_command() {
    local it
    for it in "$@"; do
        command -v "$it" >/dev/null || leave_out "$it is missing"
    done
}

# need_made FILE..: leaves the test out if one of these programs isn't there. ./check has made them all and says so by the
# variable SSIGN_GATE, so there a test that lacks one has failed.
need_made() {
    local file
    for file in "$@"; do
        [[ -f $file && -x $file ]] && continue
        [[ ${SSIGN_GATE-} ]] || leave_out "${file#"$root/"} isn't here, which ./check makes"
        echo "$name: there is no program $file; ./check leaves it behind"
        failed=1
        finish
    done
}

# run ARG..: runs the program on this function's standard input, and keeps what it wrote and how it ended.
run() {
    timeout "$patience" "$program" "$@" >"$scratch/out" 2>"$scratch/err"
    status=$?
}

# words_of CODE: what the program explains of a refusal, without the name of its number, and the code: the end of a line of
# `ssign-keys`.
words_of() {
    printf '%s (%s)' "$("$program" explain "$1" </dev/null | sed -E "s/^($1 or )?$1 [A-Z]+: //")" "$1"
}

# sentence_of CODE: the first sentence of what the program explains of a code, without its full stop.
sentence_of() {
    "$program" explain "$1" </dev/null | sed -E 's/\.( .*)?$//'
}

# list_commands [COMMAND..]: sets the array `commands` to the commands that the program's help lists, in its order, but for
# those that are named. So a check that goes over them misses none that was added. A help that lists none is a failed check.
list_commands() {
    local each
    commands=()
    while read -r each; do
        [[ " help $* " == *" $each "* ]] || commands+=("$each")
    done < <(timeout "$patience" "$program" --help </dev/null | sed -nE 's/^  ([a-z][a-z0-9-]*)  +[A-Z].*/\1/p')
    [[ ${#commands[@]} -gt 0 ]] || tell 'the commands' '    the help lists none'
}

# lines TEXT: TEXT and an LF, or nothing where TEXT is empty.
lines() {
    [[ -z $1 ]] || printf '%s\n' "$1"
}

# expect WHAT STATUS OUTPUT COMPLAINT: one check of the last run. OUTPUT and COMPLAINT are all of standard output and
# of standard error, without the LF at the end. `SOME TEXT` stands for any text that isn't empty.
expect() {
    local what=$1 wanted=$2
    local -A texts=([out]=$3 [err]=$4)
    local fault='' stream
    [[ $status == "$wanted" ]] || fault+="    status $status, and not $wanted"$'\n'
    for stream in out err; do
        if [[ ${texts[$stream]} == 'SOME TEXT' ]]; then
            [[ -s $scratch/$stream ]] && continue
        else
            lines "${texts[$stream]}" | cmp -s -- - "$scratch/$stream" && continue
        fi
        fault+="    std$stream: $(head -c 300 -- "$scratch/$stream" | cat -v)"$'\n'
        fault+="    and not: $(head -c 300 <<<"${texts[$stream]}")"$'\n'
    done
    tell "$what" "$fault"
}

# tell WHAT FAULT: one check, passed where FAULT is empty.
tell() {
    if [[ -z $2 ]]; then
        passed=$((passed + 1))
    else
        failed=$((failed + 1))
        printf '%s: %s: FAILED\n%s\n' "$name" "$1" "${2%$'\n'}"
    fi
}

# holds WHAT COMMAND..: one check, passed where COMMAND ends with status 0.
holds() {
    local what=$1 said
    shift
    said=$("$@" 2>&1) && said='' || said="    ${said:-$* ended with another status than 0}"
    tell "$what" "$said"
}

# validate WHAT PAGE: tidy has nothing against a page of HTML, where it is installed.
validate() {
    local said=''
    if command -v tidy >"$scratch/tidy"; then
        said=$(tidy -quiet -errors -utf8 --drop-empty-elements no -- "$2" 2>&1)
        tell "$1" "$said"
    elif [[ -z ${no_tidy-} ]]; then
        no_tidy=told
        skip "tidy over the HTML, because it is missing; the parser of this test looks at it"
    fi
}

# frame TEXT: TEXT as an octet-counted frame.
frame() {
    local LC_ALL=C
    printf '%d %s' "${#1}" "$1"
}

# answered <QUESTIONS >ANSWERS: the answers file that says yes to each line of `ssign questions`, as if a checker had.
answered() {
    sed 's/^trust? /trust /; s/^yes? /yes /'
}

# unanswered <ANSWERS >QUESTIONS: the other way, the questions that these lines of an answers file answer.
unanswered() {
    sed 's/^trust /trust? /; s/^yes /yes? /'
}

# counters_of LINE..: prints a counters file of these lines, each of which follows `count `.
counters_of() {
    [[ $# == 0 ]] || printf 'count %s\n' "$@"
    echo "end $#"
}

# milliseconds COMMAND..: how long a command takes, of the processors.
milliseconds() {
    python3 -c 'import os, subprocess, sys
subprocess.run(sys.argv[1:], stdout=subprocess.DEVNULL, stderr=subprocess.DEVNULL)
spent = os.times()
print(int(1000 * (spent.children_user + spent.children_system)))' "$@"
}

# adds WHAT COMMAND..: the checks of a script of Python, whose last line has its counts.
adds() {
    local what=$1 said
    shift
    said=$("$@" 2>&1)
    if ! [[ $(tail -n 1 <<<"$said") =~ $counts_form ]]; then
        tell "$what" "${said:-    it said nothing}"
        return
    fi
    passed=$((passed + BASH_REMATCH[1])) failed=$((failed + BASH_REMATCH[2])) skipped=$((skipped + ${BASH_REMATCH[4]:-0}))
    head -n -1 <<<"$said" | sed -E "s/^[a-z_]+: skipped: /$name: skipped: /"
}

finish() {
    local more=''
    [[ $skipped == 0 ]] || more=", $skipped skipped"
    printf '%s: %d passed, %d failed%s\n' "$name" "$passed" "$failed" "$more"
    [[ $failed == 0 && $((passed + skipped)) != 0 ]]
    exit
}

# A test that calls Python, or a tool that is written in it, can't be run without. tests/all.sh says where it is too old.
if [[ ${SSIGN_NO_PYTHON-} ]] || ! command -v python3 >/dev/null; then
    [[ $name == all ]] || ! grep -qE 'python3|tools/|milliseconds' -- "$0" || leave_out 'Python 3.9 or newer is missing'
fi
