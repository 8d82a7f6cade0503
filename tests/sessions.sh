#!/usr/bin/env bash
# A session that goes on from run to run. `ssign-keys sign --state`: three nights against a model, stopped at each step, two
# runs at once, and states that are damaged or another's (sessions.py). Nights with entries in a manifest, and what a run that
# was stopped left out. Which sessions were begun with a key is remembered beside it.
# shellcheck source=tests/lib.sh
. "$(dirname -- "$0")/lib.sh"
need_program
need_cryptography
export SSIGN=$program
cd -- "$scratch" || exit 1
mkdir long other work
"$root/tools/ssign-keys" make long
"$root/tools/ssign-keys" make other
(cd work && python3 -B "$root/tests/sessions.py" .. "$program") >told 2>err
holds 'the trials run to their end' test "$?" = 0 -a ! -s err
while read -r word what; do
    case $word in
    passed) tell "$what" '' ;;
    count) echo "$name: $what" ;;
    *) tell "${what%%: *}" "    ${what#*: }" ;;
    esac
done <told

# ---- the options, where there is no state
keys() {
    timeout "$patience" "$root/tools/ssign-keys" "$@" >out 2>err </dev/null
    status=$?
}
echo '<13>1 - h a p m - one' >log
keys sign --key long/private-key.pem --rsid 1 log
holds 'without --state nothing is kept' test "$status" = 0 -a "$(ls)" = $'err\nlog\nlong\nother\nout\ntold\nwork'

# ---- the sessions of a key
# known: signs, as without SSIGN_SESSIONS, and has `begun` be the session of the signed log
known() {
    env -u SSIGN_SESSIONS timeout "$patience" "$root/tools/ssign-keys" sign --key long/private-key.pem "$@" >out 2>err </dev/null
    status=$?
    begun=$("$program" inspect <out | sed -n 's/^certificate 0 \(.*\) 0 0 .*/\1/p' | cut -d ' ' -f 1-4)
}
# taken WHAT RSID NAMES LAST [WORD..]: an RSID that isn't after the last one of these names is refused
taken() {
    known --rsid "$2" "${@:5}" log
    expect "$1" 2 '' "ssign-keys: --rsid $2: with this key a session of $3 was begun with the RSID $4 ($PWD/long/private-key.pem.sessions), and one that begins needs a greater one: leave --rsid out. To go on in one session, sign with --state"
}
machine=$(uname -n)
known log
first=${begun##* }
holds 'a session that begins without a name has that of the machine' test "$status" = 0 -a "${begun% *}" = "$machine - -" -a ! -s err
holds 'its RSID is the time' test "$(($(date +%s) - first))" -ge 0 -a "$(($(date +%s) - first))" -lt 60
known log
holds 'the next one has a greater RSID' test "$status" = 0 -a "${begun##* }" -gt "$first"
first=${begun##* }
taken 'an RSID again' "$first" "$machine - -" "$first"
taken 'a smaller RSID' 1 "$machine - -" "$first"
known --rsid 7 --host h --app s log
holds 'an RSID that is given' test "$status" = 0 -a "$begun" = 'h s - 7'
holds 'the file of the sessions is for its owner alone' test "$(stat -c %a long/private-key.pem.sessions)" = 600
holds 'the greatest RSIDs are known' grep -qxF 'h s - 7' long/private-key.pem.sessions
taken 'the names, again' 7 'h s -' 7 --host h --app s
known --host h --app s --rsid 9999999999 log
known --host h --app s log
expect 'no RSID is left' 2 '' "ssign-keys: a session of h s - has the greatest RSID that there is ($PWD/long/private-key.pem.sessions): begin with other names, by --app"
known --rsid 6 --app z long/private-key.pem
holds 'a log that is refused' test "$status" = 2 -a ! -s out
known --rsid 6 --app z log
holds 'it used nothing up' test "$status" = 0 -a "$begun" = "$machine z - 6"
for it in 1 2 3 4 5; do
    env -u SSIGN_SESSIONS "$root/tools/ssign-keys" sign --key long/private-key.pem --app both log >"at-once-$it" 2>err.$it &
done
wait
holds 'runs at the same time begin five sessions' test "$(for it in 1 2 3 4 5; do "$program" inspect <"at-once-$it" | grep -m 1 -o 'both - [0-9]*'; done | sort -u | wc -l)" = 5
# with --state
known --rsid 8 --app goes log
known --state begun --new-session --rsid 8 --app goes log
expect 'a state begins no session that is known' 2 '' "ssign-keys: --rsid 8: with this key a session of $machine goes - was begun with the RSID 8 ($PWD/long/private-key.pem.sessions), and one that begins needs a greater one: leave --rsid out. To go on in one session, sign with --state"
known --state begun --new-session --app goes log
first=${begun##* }
holds 'a state begins a session with the name of the machine' test "$status" = 0 -a "${begun% *}" = "$machine goes -"
known --state begun log
holds 'its session goes on' test "$status" = 0 -a "$begun" = "$machine goes - $first"
taken 'a session of a state is known' "$first" "$machine goes -" "$first" --app goes
# what can't be remembered
SSIGN_SESSIONS=none/known keys sign --key long/private-key.pem --rsid 1 log
holds 'no folder for the sessions: the log is signed' test "$status" = 0
holds 'no folder for the sessions: a line says so' test "$(<err)" = "ssign-keys: warning: the sessions of this key can't be kept: $PWD/none/known.lock can't be opened: No such file or directory. So a session that is begun twice isn't noticed; SSIGN_SESSIONS names another file for them"
SSIGN_SESSIONS=work keys sign --key long/private-key.pem --rsid 1 log
holds 'sessions that can'"'"'t be read: a line says so' test "$status" = 0 -a "$(<err)" = "ssign-keys: warning: the sessions of this key aren't known: $PWD/work can't be read: it is no regular file. So a session that is begun twice isn't noticed; SSIGN_SESSIONS names another file for them"
for it in 'h s - 7' $'h s - 7\nh s -\n' $'h s - 07\n'; do
    printf '%s' "$it" >known
    SSIGN_SESSIONS=known keys sign --key long/private-key.pem log
    holds "sessions that aren't as they were written are refused: ${it@Q}" test "$status" = 2 -a ! -s out -a "$(grep -c "^ssign-keys: $PWD/known, which has the sessions of this key, .*: put it back as it was, or remove it and give no --rsid that was used$" err)" = 1
    holds 'nothing is written to them' test "$(<known)" = "${it%$'\n'}"
done
printf 'h s - 7\nh s - 9\n' >known
SSIGN_SESSIONS=known keys sign --key long/private-key.pem --host h --app s --rsid 8 log
holds 'SSIGN_SESSIONS names the sessions' grep -qF "was begun with the RSID 9 ($PWD/known)" err

# ---- nights of one session, each with an entry in a manifest
manifest=manifest
# begin: no night is signed, and the manifest is empty
begin() {
    rm -rf state nights
    mkdir nights
    : >"$manifest"
    new=(--new-session --rsid 1)
}
# signed N LINE..: night N is signed, with these lines, and counters-N is where it ends
signed() {
    printf '%s\n' "${@:2}" >"night$1"
    keys sign --key long/private-key.pem --state state --host h --app signer ${new[@]+"${new[@]}"} "night$1"
    holds "night $1 is signed" test "$status" = 0 -a ! -s err
    new=()
    mv out "nights/night$1.frames"
    cp state/counters-1 "counters-$1"
}
# entry N [OPTION..]: it gets its entry
entry() {
    keys manifest add "$manifest" "nights/night$1.frames" --counters "counters-$1" "${@:2}"
    holds "night $1 has its entry" test "$status" = 0 -a ! -s err
}
# night N: night N is signed, with two messages
night() {
    signed "$1" "<13>1 - h a p m - night $1, one" "<14>1 - h a p m - night $1, two"
}
begin
for it in 1 2 3; do
    night "$it"
    entry "$it"
done
holds 'the nights are one session' test "$(sed 's/.*"rsid":\([0-9]*\),"groups":\(.*\),"counters":\(.*\),"set_aside".*/\1 \2 \3/' "$manifest")" = \
    '1 [{"sg":0,"spri":0,"first":1,"last":2}] ["count h signer - 1 1","count h signer - 1 0 0 3"]
1 [{"sg":0,"spri":0,"first":3,"last":4}] ["count h signer - 1 2","count h signer - 1 0 0 5"]
1 [{"sg":0,"spri":0,"first":5,"last":6}] ["count h signer - 1 3","count h signer - 1 0 0 7"]'
keys manifest check "$manifest" nights --logs '*.frames'
holds 'the manifest is clean' test "$status" = 0
keys verify --key long/public-key.pem --manifest "$manifest" nights/night{1,2,3}.frames
holds 'all nights together are clean' grep -qF 'All 6 announced messages are present and unchanged' out
holds 'all nights together: status 0' test "$status" = 0
keys verify --key long/public-key.pem --raw --manifest "$manifest" nights/night2.frames
holds 'one night alone lacks the numbers before' test "$status" = 1 -a "$(grep -v '^ok ' out)" = \
    $'session h signer - 1 joined\nhole h signer - 1 0 0 1 2\nblocks h signer - 1 0 0\nend 6'
holds 'one night alone is the one of its entry' test ! -s err
for it in 1 2 3; do
    keys verify --key long/public-key.pem --raw --manifest "$manifest" --from-manifest "nights/night$it.frames"
    holds "night $it alone is clean between its counters" test "$status.$(grep -cv '^ok ' out)" = 0.2
done
keys verify --key long/public-key.pem --nights "$manifest" --jobs 2 nights
expect 'each night by itself' 0 'Verdict: Nights 1 to 3: all 3 clean; numbers 1 to 6 are there, each once, and nothing else is.' ''
keys verify --key long/public-key.pem --raw --manifest "$manifest" nights/night{1,3}.frames
holds 'a night between is missing' grep -qx 'hole h signer - 1 0 0 3 4' out

# nights without a message, and numbers that no entry has
for it in 4 5; do
    : >"night$it"
    keys sign --key long/private-key.pem --state state "night$it"
    holds "night $it has no message" test "$status" = 0
    mv out "nights/night$it.frames"
    # such a log announces no number, and its counters are those that it shows
    counters_of 'h signer - 1 0' >"counters-$it"
    entry "$it"
done
holds 'two nights without a message are alike' cmp nights/night4.frames nights/night5.frames
keys manifest check "$manifest" nights --logs '*.frames'
holds 'each of the two has its entry, and the manifest is clean still' test "$status" = 0
night 6
rm nights/night6.frames
night 7
entry 7
keys manifest check "$manifest" nights --logs '*.frames'
holds 'a night was signed, and has no entry: it is a finding' test "$status" = 1
holds 'the manifest lacks its numbers' grep -qxF 'line 6: skipped, no line before it has the numbers 7 to 8 of SG 0, SPRI 0 of the session h signer - 1' out

# ---- a run that is stopped after it gave numbers: they are left out, which is a finding of its night alone, until it was seen
# shellcheck disable=SC2016
printf '#!/bin/sh\n[ "$1" != sign ] || kill -KILL "$PPID"\nexec %q "$@"\n' "$program" >stopping
chmod +x stopping
# stopped: a run over a night of two messages is ended once its counters were saved
stopped() {
    printf '<13>1 - h a p m - stopped, %s\n' one two >night
    { SSIGN=$scratch/stopping keys sign --key long/private-key.pem --state state night; } 2>"$scratch/said"
    holds 'the run is stopped' test "$status" = 137 -a ! -s out
}
# checked WHAT STATUS FINDINGS ARG..: the check of the manifest has these findings, one a line
checked() {
    keys manifest check "$manifest" nights --logs '*.frames' "${@:4}"
    tell "$1" "$([[ $status == "$2" && $(sed '$d' out) == "$3" ]] || cat out err)"
}
mark() {
    keys manifest check "$manifest" nights --logs '*.frames'
    tail -n 1 out | sed 's/.* //'
}
why=": by the signer's state, a run had given them when it was stopped"
left='left-out, no line before it has the numbers'
none='skipped, no line before it has the numbers'
of='of SG 0, SPRI 0 of the session h signer - 1'
begin
night 1
entry 1
mark1=$(mark)
stopped
cp state/counters-1 given
night 2
entry 2 --left-out counters-1 given
checked 'numbers are left out: a finding' 1 "line 2: $left 3 to 4 $of$why"
mark2=$(mark)
night 3
entry 3
checked 'later nights: it is still one for who sees it for the first time' 1 "line 2: $left 3 to 4 $of$why"
checked 'what was seen is no finding again' 0 '' --seen "$mark2"
checked 'what was seen, and kept' 0 '' --seen "$mark2" --last "$mark2"
checked 'only the entry before was seen' 1 "line 2: $left 3 to 4 $of$why" --seen "$mark1"
checked 'another entry was seen' 1 "entry 2: replaced, it isn't the one whose SHA-256 was kept"$'\n'"line 2: $left 3 to 4 $of$why" --seen "${mark1/#1/2}"
checked 'an entry was seen that is not there' 1 "entry 9: cut, the manifest has 3 entries, and this one was kept"$'\n'"line 2: $left 3 to 4 $of$why" --seen "${mark2/#2/9}"
keys manifest check "$manifest" nights --seen x
holds 'no entry is named: status' test "$status" = 2
# nights WHAT STATUS NIGHTS VERDICT ARG..: each night with findings, and the verdict
nights() {
    keys verify --key long/public-key.pem --nights "$manifest" nights/*.frames "${@:5}"
    tell "$1" "$([[ $status == "$2" && $(sed -n 's/^Night \([0-9]*\) .*/\1/p' out) == "$3" && $(tail -n 1 out) == "Verdict: $4" ]] || cat out err)"
}
nights 'its night alone has findings' 1 2 'FINDINGS: nights 1 to 3: 2 of 3 nights are clean; with findings: night 2; 1 difference from the manifest.'
holds 'its night: why' grep -q '^Night 2 (entry 2, night2.frames): FINDINGS: .*; 2 numbers are unannounced; ' out
nights 'what was seen: all nights are clean' 0 '' 'Nights 1 to 3: all 3 clean; numbers 1 to 8 are there, each once, and nothing else is, but for 2 numbers that stopped runs left out.' --manifest-seen "$mark2"
keys verify --key long/public-key.pem --json --nights "$manifest" nights/*.frames --manifest-seen "$mark2"
holds 'what was seen: as JSON' grep -q '^{"line":"verdict","status":0,.*"left_out":2}$' out
nights 'only the entry before was seen: its night has findings' 1 2 'FINDINGS: nights 1 to 3: 2 of 3 nights are clean; with findings: night 2; 1 difference from the manifest.' --manifest-seen "$mark1"
# one WHAT STATUS ARG..: one night by itself
one() {
    keys verify --key long/public-key.pem --manifest "$manifest" --from-manifest "${@:3}"
    tell "$1" "$([[ $status == "$2" ]] || cat out err)"
}
one 'the night itself, before it was seen' 1 nights/night2.frames
one 'the night itself, once it was seen' 0 --manifest-seen "$mark2" nights/night2.frames
holds 'the night itself, once it was seen: nothing is missing' grep -q '^Verdict: All 2 announced messages .* Nothing is missing between the counters\.$' out
one 'the night after it' 0 --manifest-seen "$mark2" nights/night3.frames
one 'the night before it' 0 --manifest-seen "$mark2" nights/night1.frames
keys verify --key long/public-key.pem --manifest-seen "$mark2" nights/night1.frames
holds 'an entry of no manifest was seen' grep -qxF 'ssign-keys: --manifest-seen says something of a manifest: name it with --manifest' err

# what a log lost that was signed besides is none of it, and stays a finding
cp "$manifest" whole
night 4
rm nights/night4.frames
stopped
stopped
cp state/counters-1 given
night 5
entry 5 --left-out counters-4 given
checked 'numbers that are lost, and others that two runs left out' 1 "line 2: $left 3 to 4 $of$why
line 4: $none 9 to 10 $of
line 4: $left 11 to 14 $of$why"
checked 'what is lost stays a finding' 1 "line 4: $none 9 to 10 $of" --seen "$(mark)"
nights 'what is lost stays a finding of its night' 1 4 'FINDINGS: nights 1 to 4: 3 of 4 nights are clean; with findings: night 4; 1 difference from the manifest.' --manifest-seen "$(mark)"

# entries whose left_out isn't what is spelled so
# spoilt WHAT PYTHON: the last entry with this change is refused, though its line follows the one before
spoilt() {
    python3 -B - "$manifest" spoilt "$2" <<'END'
import hashlib, json, sys
lines = open(sys.argv[1], encoding="ascii").read().splitlines()
it = json.loads(lines[1])
exec(sys.argv[3])
lines[1] = json.dumps(it, separators=(",", ":"))
open(sys.argv[2], "w", encoding="ascii").write("".join(f"{line}\n" for line in lines[:2]))
END
    keys manifest check spoilt nights
    tell "an entry: $1" "$([[ $status == 2 && ! -s out ]] && grep -q '^ssign-keys: the line 2 of the manifest spoilt is no entry: ' err || cat out err)"
}
spoilt 'nothing is left out' 'it["left_out"]["to"] = it["left_out"]["from"]'
spoilt 'it goes back' 'it["left_out"] = {"from": it["left_out"]["to"], "to": it["left_out"]["from"]}'
spoilt 'it goes on where its numbers have begun' 'it["left_out"]["to"][1] = it["left_out"]["to"][1][:-1] + "9"'
spoilt 'another session' 'it["left_out"]["to"] = [line.replace(" 1 ", " 2 ", 1) for line in it["left_out"]["to"]]'
spoilt 'no counters' 'it["left_out"]["from"] = []'
spoilt 'no lines' 'it["left_out"]["from"] = 3'
spoilt 'one key more' 'it["left_out"]["by"] = "me"'
spoilt 'a needless zero' 'it["left_out"]["from"][0] = it["left_out"]["from"][0][:-1] + "0" + it["left_out"]["from"][0][-1:]'
spoilt 'null' 'it["left_out"] = None'

# the same entry by hand, and counters that aren't those before the log
# added FROM TO: the second night is added to a manifest of the first one
added() {
    head -n 1 whole >first
    keys manifest add first nights/night2.frames --counters counters-2 --signed "$(sed -n '2s/.*"signed":"\([^"]*\)".*/\1/p' whole)" --left-out "$@"
}
# ends RSID GBC NUMBER: counters
ends() {
    counters_of "h signer - $1 $2" "h signer - $1 0 0 $3"
}
added counters-1 <(ends 1 2 5)
holds 'by hand: the entry is the same' test "$status" = 0
holds 'by hand: octet for octet' cmp first <(head -n 2 whole)
# not_added WHAT TEXT FROM TO: it is refused, and the manifest stays
not_added() {
    added "$3" "$4"
    holds "by hand: $1" grep -qF -- "$2" err
    holds "by hand: $1: nothing is added" test "$status" = 2 -a "$(wc -l <first)" = 1
}
not_added 'the log begins later' "the log doesn't begin at the counters " counters-1 <(ends 1 2 4)
not_added 'the log begins before' "its left_out goes on where its numbers have begun" counters-1 <(ends 1 2 6)
not_added 'counters that go back' "its left_out doesn't go from counters to greater ones" <(ends 1 2 5) counters-1
not_added 'nothing is left out' "its left_out doesn't go from counters to greater ones" <(ends 1 2 5) <(ends 1 2 5)
not_added 'an entry goes further' "the entry 1 of the manifest first goes further than the first counters of --left-out" <(ends 1 0 1) <(ends 1 2 5)
not_added 'another session' 'of --left-out is of another session than the log' counters-1 <(ends 2 2 5)
not_added 'no counters' "isn't one that \`ssign counters\` writes" counters-1 <(printf 'x\nend 1\n')
not_added 'counters that were cut off' "isn't whole: its counters have no end, as where the file was cut off" counters-1 <(ends 1 2 5 | head -n 2)
keys manifest check "$manifest" nights --left-out "$manifest" "$manifest"
expect 'nothing is left out by a check' 2 '' "ssign-keys: --left-out doesn't go with \`manifest check\`"
added counters-1 <(ends 1 2 5) --seen "$mark2"
expect 'nothing is seen by add' 2 '' "ssign-keys: --seen doesn't go with \`manifest add\`"
finish
