#!/usr/bin/env bash
# The units of systemd that check, alarm and stamp: that systemd takes them, how far they are shut in, and that their commands
# have their options. And `ssign-keys alarm`, over status files that are right, old, odd or not there.
# shellcheck source=tests/lib.sh
. "$(dirname -- "$0")/lib.sh"
need_cryptography
keys_program=$root/tools/ssign-keys
units=$root/examples/systemd
cd -- "$scratch" || exit 1

# ---- the units
for it in check alarm stamp; do
    # a template is looked at as an instance, with a program that is here
    sed 's|^ExecStart=/usr/bin/ssign-keys |ExecStart=/bin/true |' "$units/ssign-$it@.service" >"ssign-$it@srv-logs.service"
    cp -- "$units/ssign-$it@.timer" "ssign-$it@srv-logs.timer"
    read -r -a words < <(sed -n 's|^ExecStart=/usr/bin/ssign-keys ||p' "$units/ssign-$it@.service")
    holds "ssign-$it@.service starts a command" test "${words[0]}" = "$it"
    python3 -B "$keys_program" "$it" --help >help
    for word in "${words[@]}"; do
        [[ $word != --* ]] || holds "$it has $word" grep -qE -- "^ +$word\b" help
    done
done
if command -v systemd-analyze >found; then
    systemd-analyze verify --man=no "$scratch"/ssign-*@srv-logs.{service,timer} >said 2>&1
    holds 'systemd takes the units: status' test "$?" = 0
    holds 'systemd takes the units, without a word' test ! -s said
    for it in check:10 alarm:10 stamp:20; do
        # 10 is an exposure of 1.0
        systemd-analyze security --no-pager --offline=yes --threshold="${it#*:}" "$scratch/ssign-${it%:*}@srv-logs.service" >said 2>&1
        holds "how far ssign-${it%:*}@.service is shut in" test "$?" = 0
    done
else
    skip "no systemd-analyze here, so nobody reads the units"
fi

# ---- the alarm
# status FILE LAST_CLEAN [FINDING]: writes a status file; LAST_CLEAN is as `date -d` takes it, or null.
status() {
    local clean=null
    [[ $2 == null ]] || clean=\"$(date -u -d "$2" +%Y-%m-%dT%H:%M:%SZ)\"
    printf '{"format": 1, "time": "%s", "last_clean": %s, "memory": "1:ab", "status": 0, "verdict": "3 files", "findings": [%s]}\n' \
        "$(date -u -d '1 hour ago' +%Y-%m-%dT%H:%M:%SZ)" "$clean" "${3:+\"$3\"}" >"$1"
}
# alarm WHAT STATUS TEXT WORD..: the status of `alarm`, and words of its one line.
alarm() {
    local what=$1 wanted=$2 text=$3
    shift 3
    python3 -B "$keys_program" alarm "$@" >out 2>err
    holds "$what: status" test "$?" = "$wanted"
    holds "$what: one line" test "$(wc -l <out)$(wc -c <err)" = 10
    holds "$what: what is said" grep -qF -- "$text" out
}
status good '40 hours ago'
alarm 'in time' 0 "good: the last clean check was at $(date -u -d '40 hours ago' +%Y-%m-%dT)" good
status late '49 hours ago' 'alpha/m-05.log.frames missing'
alarm 'too old' 1 'late: no check was clean for 48 hours: the last clean one was at ' late
holds 'too old: what the last check found' grep -q ': 3 files, first alpha/m-05.log.frames missing$' out
alarm 'another limit' 0 'the last clean check was at' --older 3d late
alarm 'a shorter limit' 1 'no check was clean for 39 hours' --older 39h good
status never null 'alpha damaged'
alarm 'none was clean yet' 1 'never: no check was clean yet; the last one was at ' never
status soon '4 minutes'
alarm 'a clock that goes a little wrong' 0 'the last clean check was at' soon
status early '1 hour'
alarm 'a time that is not yet' 1 'one of the two is wrong' early
alarm 'no file' 1 "absent: there is no file of a check, or it can't be read" absent
for odd in '' '[1]' '{"time": 1, "memory": "x"}' '{"time": "x", "memory": 2}' 'hello' '{"time":' "$(printf '[%.0s' {1..5000})"; do
    printf '%s' "$odd" >odd
    alarm "an odd file: ${odd:0:20}" 1 "it can't be read" odd
done
for clean in 7 '"yesterday"' '{}' '""' '"2026-13-01T00:00:00Z"'; do
    printf '{"time": "x", "memory": "1:ab", "last_clean": %s, "verdict": 7, "findings": 3}' "$clean" >odd
    alarm "an odd time: $clean" 1 'no check was clean yet' odd
done
printf '{"time": "\\u001b[31m", "memory": "1:ab", "verdict": "\\u001b[31m\\nx", "findings": ["\\u001b[31m\\ny"]}' >odd
alarm 'a file that a stranger wrote' 1 'no check was clean yet; the last one was at \x1b[31m: \x1b[31m\x0ax, first \x1b[31m\x0ay' odd
holds 'a file that a stranger wrote: nothing but letters' test -z "$(LC_ALL=C tr -d '\n -~' <out)"
mkfifo pipe
alarm 'a pipe' 1 "it can't be read" pipe
python3 -B "$keys_program" alarm good late never >out 2>err
holds 'several: status' test "$?" = 1
holds 'several: a line for each' test "$(cut -d : -f 1 out | tr '\n' ' ')" = 'good late never '
for words in '' '--older x good' '--older 0d good' '--no good'; do
    # shellcheck disable=SC2086
    python3 -B "$keys_program" alarm $words >out 2>err
    holds "a mistake: '$words'" test "$?$(wc -c <out)$(wc -l <err)" = 201
done
finish
