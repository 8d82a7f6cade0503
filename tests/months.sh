#!/usr/bin/env bash
# `ssign-keys verify --nights`: a month of one session, signed night by night with real keys, judged night by night between
# the counters of its manifest. Each night gets a damage of its own (months.py), and only the damaged ones have findings.
# shellcheck source=tests/lib.sh
. "$(dirname -- "$0")/lib.sh"
need_program
need_cryptography
cd -- "$scratch" || exit 1
export SSIGN=$program TMPDIR=$scratch/passing
mkdir passing keys logs other
# thirty nights take as long as thirty runs
patience=$((30 * patience))

# keys ARG..: runs `ssign-keys` as `run` does the program.
keys() {
    timeout "$patience" "$root/tools/ssign-keys" "$@" >out 2>err
    status=$?
}
# nights WHAT STATUS VERDICT ARG..: judges nights; the last line is the verdict, and nothing is said besides
nights() {
    keys verify --key keys/public-key.pem --jobs 4 "${@:4}"
    local fault=''
    [[ $status == "$2" ]] || fault+="    status $status, and not $2"$'\n'
    [[ $(tail -n 1 out) == "Verdict: $3" ]] || fault+="    $(tail -n 1 out | head -c 600)"$'\n'
    [[ ! -s err ]] || fault+="    stderr: $(head -c 300 err)"$'\n'
    tell "$1" "$fault"
}
# refused WHAT SENTENCE ARG..: it is refused with this sentence, and nothing is printed
refused() {
    keys verify --key keys/public-key.pem "${@:3}"
    expect "$1" 2 '' "ssign-keys: $2"
}

keys make keys
python3 -B "$root/tests/months.py" sign "$root/tools/ssign-keys" keys logs manifest >made
status=$?
holds 'a month was signed' test "$status" = 0
total=$(<made)
holds 'with many messages' test "$total" -gt 100
all="numbers 1 to $total are there, each once, and nothing else is"
nights 'all nights, by their folder' 0 "Nights 1 to 30: all 30 clean; $all." --nights manifest logs
mapfile -t turned < <(printf '%s\n' logs/night-* | sort -r)
nights 'all nights, by their names, in another order' 0 "Nights 1 to 30: all 30 clean; $all." --nights manifest "${turned[@]}"
gzip -k logs/night-07.frames && mv logs/night-07.frames away
nights 'one of them compressed' 0 "Nights 1 to 30: all 30 clean; $all." --nights manifest logs
rm logs/night-07.frames.gz && mv away logs/night-07.frames
# each night has a process of its own, and no night starts an interpreter
mkdir starts
printf '%s\n' 'import os' 'with open(os.environ["STARTS"], "a", encoding="ascii") as file:' '    file.write("x\n")' >starts/sitecustomize.py
PYTHONPATH=$scratch/starts STARTS=$scratch/started keys verify --key keys/public-key.pem --jobs 4 --json --nights manifest logs
holds 'one interpreter judges all nights' test "$(wc -l <started)" = 1
holds 'the JSON has each night and the verdict' test "$status.$(grep -c '^{"line":"night",.*"status":0,' out).$(grep -c '^{"line":"verdict","status":0,' out)" = 0.30.1
# the same nights as one log
keys verify --key keys/public-key.pem --manifest manifest logs/night-*.frames
holds 'one review of all says the same' test "$status" = 0
holds 'with as many messages' grep -q "^Verdict: All $total announced messages are present and unchanged" out

# a damage in each night, and in every other one
python3 -B "$root/tests/months.py" damage logs every 1 >done-all
keys verify --key keys/public-key.pem --jobs 4 --nights manifest every
holds 'each night is damaged: status 1' test "$status" = 1
holds 'each night is damaged: none is clean' grep -q '^Verdict: FINDINGS: nights 1 to 30: 0 of 30 nights are clean; with findings: nights 1 to 30' out
holds 'each night has its line' test "$(grep -c '^Night ' out)" = 30
python3 -B "$root/tests/months.py" damage logs others 2 >done-half
keys verify --key keys/public-key.pem --jobs 3 --nights manifest others
holds 'every other night: status 1' test "$status" = 1
holds 'only the damaged ones have findings' cmp <(sed -n 's/^Night \([0-9]*\) .*/\1/p' out) <(seq 1 2 29)
# without the manifest's SHA-256: what the review itself finds between the counters, by a manifest that has each damaged octet
python3 -B "$root/tests/months.py" relist manifest every relisted
keys verify --key keys/public-key.pem --jobs 4 --json --nights relisted every
python3 -B "$root/tests/months.py" compare done-all out >said 2>&1 && : >said
tell 'what a damage does shows in the review too' "$(<said)"

# what is missing, unknown, or given twice
mkdir fewer && cp logs/* fewer && rm fewer/night-1[12].frames
nights 'two nights are gone' 1 'FINDINGS: nights 1 to 30: 28 of 30 nights are clean; with findings: nights 11 to 12.' --nights manifest fewer
cp logs/night-05.frames stray
nights 'a log that no entry names' 1 'FINDINGS: nights 1 to 30: 30 of 30 nights are clean; 1 difference from the manifest.' --nights manifest logs stray
refused 'two logs of one name' 'fewer/night-05.frames and logs/night-05.frames have one name: each night has one log' --nights manifest logs fewer/night-05.frames
refused 'standard input' 'standard input has no name that a manifest could hold: name the logs or their folder' --nights manifest -
refused 'no such manifest' "the manifest gone isn't there; to begin one, make an empty file of this name" --nights gone logs
for it in --whole --raw --details --hostname --findings --from-manifest '--counters=x' '--from=x' '--manifest=x' '--html=x' '--answers-out=x' '--counters-out=x'; do
    refused "$it" "${it%%=*} doesn't go with --nights, which judges many logs: it is of one log" --nights manifest "$it" logs
done
: >empty
nights 'a manifest without entries' 1 'FINDINGS: the manifest names no night.' --nights empty logs
sed 10d manifest >shorter
keys verify --key keys/public-key.pem --jobs 4 --nights shorter logs
holds 'an entry was taken out' grep -q '^  line 10: broken' out
holds 'an entry was taken out: its numbers are skipped' grep -q '^  line 10: skipped' out
holds 'an entry was taken out: status 1' test "$status" = 1
keys make other
keys verify --key other/public-key.pem --jobs 4 --nights manifest logs
holds 'by another key no night is clean' grep -q '^Verdict: FINDINGS: nights 1 to 30: 0 of 30' out
nights 'with both keys the verdict names them' 0 "Nights 1 to 30: all 30 clean; $all. Each of these 2 keys could have signed any session \
that no --session-key names: keys/public-key.pem, other/public-key.pem." --key other/public-key.pem --nights manifest logs
# a night that can't be judged
mkdir bad && cp logs/* bad && printf 'x' >bad/night-09.frames
keys verify --key keys/public-key.pem --jobs 4 --frames --nights manifest bad
holds 'a night that is refused: status 2' test "$status" = 2
holds 'a night that is refused: why' grep -q "^Night 9 (entry 9, night-09.frames): not judged: ssign-keys: " out
holds 'a night that is refused: the verdict' grep -q '^Verdict: NOT ALL JUDGED: nights 1 to 30: 29 of 30 nights are clean; not judged: night 9' out
# a night of which a frame is damaged: all its other messages are judged
mkdir hurt && cp logs/* hurt && printf x | dd of=hurt/night-09.frames bs=1 conv=notrunc status=none
keys verify --key keys/public-key.pem --jobs 4 --nights manifest hurt
holds 'a damaged night: status 1' test "$status" = 1
holds 'a damaged night: its verdict' grep -q "^Night 9 (entry 9, night-09.frames): changed, .*; 1 stretch of the log is damaged ([0-9,]* octets)[;.]" out
holds 'a damaged night: the verdict' grep -q '^Verdict: FINDINGS: nights 1 to 30: 29 of 30 nights are clean; with findings: night 9\.' out
# a night whose messages stand from the last to the first, and whose entry has these octets
mkdir turned && cp logs/* turned && python3 -B "$root/tests/verdicts.py" damage reversed logs/night-09.frames >turned/night-09.frames
python3 -B "$root/tests/months.py" relist manifest turned relisted-turned
keys verify --key keys/public-key.pem --jobs 4 --nights relisted-turned turned
holds 'a night from the last to the first: status 1' test "$status" = 1
holds 'a night from the last to the first: its verdict' grep -qE \
    '^Night 9 \(entry 9, night-09.frames\): FINDINGS: of ([0-9]+) announced messages \1 are present and unchanged; [0-9]+ listed messages? (is|are) out of order\. Nothing is missing ' out
holds 'a night from the last to the first: no other line' test "$(wc -l <out)" = 2
nights 'a night from the last to the first, in any order' 0 "Nights 1 to 30: all 30 clean; $all." --any-order --nights relisted-turned turned
# many differences: the verdict stands in front of them too
for each in $(seq 40); do strays+=("stray-$each") && cp logs/night-05.frames "stray-$each"; done
keys verify --key keys/public-key.pem --jobs 4 --nights manifest logs "${strays[@]}"
holds 'many differences: the verdict stands in front' cmp <(head -n 1 out) <(tail -n 1 out)
holds 'many differences: each has its line' test "$(grep -c '^  stray-.*: unknown' out).$(wc -l <out)" = 40.43
# a night whose process is killed
# shellcheck disable=SC2016
printf '#!/bin/sh\nif [ "$1" = review ]; then echo x >>reviews; [ "$(wc -l <reviews)" != 9 ] || kill -KILL "$PPID"; fi\nexec %q "$@"\n' "$program" >killer
chmod +x killer
mkdir killed
TMPDIR=$scratch/killed keys verify --key keys/public-key.pem --ssign ./killer --nights manifest logs
holds 'a night whose process is killed: status 2' test "$status" = 2
holds 'a night whose process is killed: its line' grep -qE '^Night ([0-9]+) \(entry \1, .*: not judged: it ended by a signal$' out
holds 'a night whose process is killed: the others are judged' grep -qE '^Verdict: NOT ALL JUDGED: nights 1 to 30: 29 of 30 nights are clean; not judged: night [0-9]+\.' out
# ---- two nights of one session, each signed by a key of its own, or under a payload of its own
[[ -e other/private-key.pem ]] || keys make other
mkdir two
for text in one two; do
    printf '<13>1 2026-01-01T00:00:01Z h app - - - message %s\n' "$text"
done >messages
# two_night N KEY PAYLOAD: a night of two messages, which begins with the certificate blocks of its key
two_night() {
    local number=$1 key=$2
    local session=("--payload=$3" --rsid=50 --ver=0121 --host=gate --app=signer)
    "$program" plan "${session[@]}" <none | "$root/tools/ssign-keys" seal "$key/private-key.pem" >seals
    "$program" sign "${session[@]}" --answers=seals <none >"two/night-$number"
    [[ $number == 1 ]] && counters_of 'gate signer - 50 0' 'gate signer - 50 0 0 1' >begin
    "$program" plan "${session[@]}" --resume=begin --lines <messages | "$root/tools/ssign-keys" seal "$key/private-key.pem" >seals
    "$program" sign "${session[@]}" --resume=begin --answers=seals --lines <messages >>"two/night-$number"
    counters_of "gate signer - 50 $number" "gate signer - 50 0 0 $((2 * number + 1))" >begin
    keys manifest add two-nights "two/night-$number" --counters begin
    [[ $status == 0 ]] || tell "two nights: night $number has an entry" "$(<err)"
}
: >none
# the keys are given both, so each night by itself is clean
both=(--key other/public-key.pem --nights two-nights two)
could='Each of these 2 keys could have signed any session that no --session-key names: keys/public-key.pem, other/public-key.pem.'
fingerprint() {
    openssl pkey -pubin -in "$1/public-key.pem" -outform DER 2>fault | sha256sum | cut -d ' ' -f 1
}
payload="2026-01-01T00:00:00Z $(cut -d ' ' -f 2- keys/payload)"
: >two-nights
two_night 1 keys "$payload"
two_night 2 keys "$payload"
nights 'two nights under one payload' 0 "Nights 1 to 2: all 2 clean; numbers 1 to 4 are there, each once, and nothing else is. $could" "${both[@]}"
: >two-nights
two_night 1 keys "$payload"
two_night 2 other "2026-01-01T00:00:00Z $(cut -d ' ' -f 2- other/payload)"
nights 'two nights by two keys' 1 "FINDINGS: nights 1 to 2: 1 of 2 nights is clean; with findings: night 2. $could" "${both[@]}"
if command -v openssl >fault; then
    holds 'two nights by two keys: the sentence' grep -qF "Night 2 (entry 2, night-2): its session has another payload than in night 1: one of 2026-01-01T00:00:00Z, key SHA-256 \
$(fingerprint other); there one of 2026-01-01T00:00:00Z, key SHA-256 $(fingerprint keys); All 2 announced messages are present and unchanged" out
fi
: >two-nights
two_night 1 keys "$payload"
two_night 2 keys "2026-01-02T00:00:00Z $(cut -d ' ' -f 2- keys/payload)"
nights 'two nights under two payloads of one key' 1 "FINDINGS: nights 1 to 2: 1 of 2 nights is clean; with findings: night 2. $could" "${both[@]}"

# ---- one night by itself, in each form
for it in 3 4 5 6; do
    python3 -B "$root/tests/months.py" ends manifest "$it" >"c$it"
done
night=logs/night-05.frames
first=$(sed -n 's/^count gate signer - 7 0 0 //p' c4)
last=$(($(sed -n 's/^count gate signer - 7 0 0 //p' c5) - 1))
# shows WHAT STATUS PATTERN ARG..: the output has a line of this pattern
shows() {
    keys verify --key keys/public-key.pem "${@:4}"
    tell "$1" "$([[ $status == "$2" ]] && grep -qE -e "$3" out || { echo "status $status"; head -c 2000 out err; })"
}
count=$((last - first + 1))
shows 'its own night' 0 "^Verdict: All $count announced messages .* Nothing is missing between the counters\.$" --from c4 --counters c5 "$night"
shows 'its own night: its numbers' 0 "^    numbers $first to $last: $count listed$" --from c4 --counters c5 "$night"
shows 'its own night, without an end' 0 "^Verdict: All $count announced messages" --from c4 "$night"
shows 'its own night, as a report' 0 '^end ' --raw --from c4 --counters c5 "$night"
holds 'its own night, as a report: nothing is missing' test "$(grep -cv '^ok ' out)" = 2
shows 'its own night, as JSON' 0 '"early":0,"beyond":0,"unlisted":0' --json --from c4 --counters c5 "$night"
holds 'its own night, as JSON: the first counters' grep -q "^{\"line\":\"checked\".*\"from\":{\"name\":\"c4\",\"size\":$(wc -c <c4),\"sha256\":\"$(sha256sum <c4 | cut -c1-64)\"}" out
shows 'a later night' 1 "^  early, announced here .*: SG 0, SPRI 0 .*, numbers $first to $last" --from c5 --counters c6 "$night"
shows 'a later night: the verdict' 1 "^Verdict: FINDINGS: .*; $count numbers lie below the counters that the night begins with" --from c5 --counters c6 "$night"
shows 'a later night, as JSON' 1 "^{\"line\":\"early\",.*\"first\":$first,\"last\":$last,\"count\":$count,\"finding\":\"early\"}$" --json --from c5 --counters c6 "$night"
shows 'an earlier night' 1 "^  beyond, announced here .*, numbers $first to $last" --from c3 --counters c4 "$night"
shows 'an earlier night, as JSON' 1 "\"beyond\":$count,\"unlisted\":0" --json --from c3 --counters c4 "$night"
shows 'an earlier night, as a page' 1 '^Verdict: ' --html page --from c3 --counters c4 "$night"
holds 'an earlier night, as a page: its row' grep -q '<table id="beyond"' page
shows 'a night without a message' 1 'Nothing is missing between the counters\.$' --manifest manifest --from-manifest logs/night-06.frames
holds 'a night without a message: what to do' grep -qF "A night without a message looks the same: \`ssign-keys verify --nights MANIFEST FOLDER\` judges it by its entry, beside the other nights." out
shows 'a night whose messages are gone' 1 '^Verdict: NOTHING IS SHOWN: ' --from c4 --counters c5 every/night-06.frames
shows 'a changed night' 1 '^Verdict: FINDINGS: ' --manifest manifest --from-manifest every/night-02.frames
holds 'a changed night is not called silent' test "$(grep -c 'A night without a message' out)" = 0
refused 'two first counters' '--from can be given only once: put the files one after another (`cat`)' --from c3 --from c4 "$night"
refused 'first counters of two kinds' "--from doesn't go with --from-manifest: a night begins at one of them" --from c3 --from-manifest --manifest manifest "$night"
refused 'a night of no manifest' '--from-manifest begins at the counters of a manifest: name it with --manifest' --from-manifest "$night"
echo 'count 1' >broken
refused 'bad first counters' "the counters file broken: line 1: $(words_of C1)" --from broken --counters c5 "$night"
refused 'first counters that are gone' "the counters file gone can't be read: No such file or directory" --from gone "$night"

# a signal ends all of it
timeout -s TERM 0.7 "$root/tools/ssign-keys" verify --key keys/public-key.pem --jobs 4 --nights manifest logs >out 2>err
holds 'a signal: nothing is printed' test ! -s out
# On a busy machine the processes that it ends take their folders away later.
for _ in {1..100}; do
    [[ $(ls -A passing) ]] || break
    sleep 0.1
done
holds 'nothing is left' test "$(ls -A passing)" = ''
finish
