#!/usr/bin/env bash
# `plan` and `sign`: what they write is what the originator of tests/signing_model.py does, for each option at both ends
# of its range; what they refuse, and in which order; and that a log that was planned, sealed and signed is reviewed as
# clean.
# shellcheck source=tests/lib.sh
. "$(dirname -- "$0")/lib.sh"
need_program

payload='2009-05-03T14:00:39Z K S0VZ'
given=(--payload "$payload" --rsid 1)
header=(--host h --app s)
# the certificate block of the example that nothing was changed in, and its signed octets
block=$(tail -c +65 -- "$root/examples/four-messages.frames" | head -c 146)
read -r _ _ octets _ < <(sed -n 2p "$root/examples/four-messages.answers")
seals=$scratch/seals
log=$scratch/log

# model COMMAND OPTION..: what the model says of standard input.
model() {
    python3 -B "$root/tests/signing_model.py" "$@"
}

# seal < PLAN: its lines with a signature of three octets 0.
seal() {
    sed 's/^want \(.*\)$/seal \1 AAAA/'
}

# wrote WHAT FILE: one check of the last run, which succeeded and wrote what the file holds.
wrote() {
    local fault=''
    [[ $status == 0 ]] || fault+="    status $status"$'\n'
    [[ ! -s $scratch/err ]] || fault+="    stderr: $(head -c 300 "$scratch/err")"$'\n'
    if ! cmp -s -- "$2" "$scratch/out"; then
        fault+="    stdout: $(head -c 300 "$scratch/out" | cat -v)"$'\n'
        fault+="    and not: $(head -c 300 "$2" | cat -v)"$'\n'
    fi
    tell "$1" "$fault"
}

# both WHAT OPTION..: a plan and a signed log of the file `log`, as the model has them. The plan's lines, with a
# signature each, are the answers of `sign`.
both() {
    local what=$1
    shift
    model plan "$@" <"$log" >"$scratch/wants" || tell "$what: the model" '    it failed'
    model sign "$@" <"$log" >"$scratch/frames"
    run plan "$@" <"$log"
    wrote "plan: $what" "$scratch/wants"
    seal <"$scratch/out" >"$seals"
    run sign --answers "$seals" "$@" <"$log"
    wrote "sign: $what" "$scratch/frames"
}

# refused WHAT COMPLAINT OPTION..: a plan and a signed log of the file `log` are refused alike.
refused() {
    local what=$1 complaint=$2 command
    shift 2
    for command in plan sign; do
        run "$command" "$@" <"$log"
        expect "$command: $what" 2 '' "$complaint"
    done
}

# ---- an empty log
: >"$log"
printf 'seal %s AAAA\n' "$octets" >"$seals"
run sign --answers "$seals" "${given[@]}" "${header[@]}" <"$log"
printf %s "$block" >"$scratch/block"
wrote 'an empty log is signed' "$scratch/block"
run plan "${given[@]}" "${header[@]}" <"$log"
expect 'an empty log is planned' 0 "want $octets" ''
run sign "${given[@]}" "${header[@]}" <"$log"
expect 'without answers nothing is signed' 2 '' 'ssign: O6'
run sign --answers /dev/null "${given[@]}" "${header[@]}" <"$log"
expect 'without a line nothing is signed' 2 '' 'ssign: O6'
run sign --answers "$seals" "${given[@]}" "${header[@]}" --rsid 2 <"$log"
expect 'an option twice is a mistake' 2 '' 'SOME TEXT'
run sign --answers "$seals" --payload "$payload" --rsid 2 "${header[@]}" <"$log"
expect 'the seal of another block' 2 '' 'ssign: O6'

# ---- logs that are refused
printf '3 ab' >"$log"
refused 'a torn log' 'ssign: P1 0' "${given[@]}"
printf '3 abc3 ab' >"$log"
refused 'a torn log is told before a message' 'ssign: P1 5' "${given[@]}"
printf '3 abcx' >"$log"
refused 'a bad length is told before a message' 'ssign: F1 5' "${given[@]}"
printf '3 abc' >"$log"
run plan "${given[@]}" <"$log"
expect 'plan: a message that is none of RFC 5424' 2 '' 'ssign: O2 0'
run sign --answers "$seals" "${given[@]}" "${header[@]}" <"$log"
expect 'sign: a message that is none of RFC 5424' 2 '' 'ssign: O2 0'
run sign "${given[@]}" "${header[@]}" <"$log"
expect 'sign: the certificate blocks come before the messages' 2 '' 'ssign: O6'
{ frame '<13>1 - - - - - - a'; frame '<13>1 - - - - - [ssign]'; } >"$log"
run plan "${given[@]}" <"$log"
expect 'plan: a block' 2 '' 'ssign: O3 1'
run sign --answers "$seals" "${given[@]}" "${header[@]}" <"$log"
expect 'sign: a block' 2 '' 'ssign: O3 1'
for command in plan sign; do
    run "$command" "${given[@]}" <"$root"
    expect "$command: a folder as standard input" 2 '' 'ssign: F3'
done
printf 'abc\n\n' >"$log"
refused '--lines and an empty line' 'ssign: F9 4' --lines "${given[@]}"
printf 'abc\nab' >"$log"
refused '--lines and a line without its end' 'ssign: P1 4' --lines "${given[@]}"
printf '2 ab1 a' >"$log"
refused 'a message over --max-len' 'ssign: F2 0' --max-len 1 "${given[@]}"
refused 'a message past --max-messages' 'ssign: F5 4' --max-messages 1 "${given[@]}"

# ---- words: mistakes in the command line
mistaken() {
    local what=$1 command
    shift
    for command in plan sign; do
        run "$command" "$@" </dev/null
        expect "$command: $what" 2 '' 'SOME TEXT'
        holds "$command: $what is clap's" grep -q '^error: ' "$scratch/err"
    done
}
mistaken 'no --payload' --rsid 1
mistaken 'no --rsid' --payload "$payload"
mistaken '--payload without a value' --rsid 1 --payload
for option in '--rsid 10000000000' '--rsid x' '--rsid 1 --pri 192' '--rsid 1 --count 0' '--rsid 1 --count 100' \
    '--rsid 1 --frag 0' '--rsid 1 --frag 10000' '--rsid 1 --copies 0' '--rsid 1 --copies 10' '--rsid 1 --ver 0112' \
    '--rsid 1 --ver 111' '--rsid 1 --max-len 0' '--rsid 1 --max-len 1048577' '--rsid 1 --max-messages 0' \
    '--rsid 1 --max-messages 10000001' '--rsid 1 --lines=1' '--rsid 1 --group one' '--rsid 1 log'; do
    # shellcheck disable=SC2086 # options and their values
    mistaken "$option" --payload "$payload" $option
done
run plan --answers "$seals" "${given[@]}" </dev/null
expect 'a plan has no answers' 2 '' 'SOME TEXT'
for command in plan sign; do
    run "$command" --help </dev/null
    expect "$command --help" 0 'SOME TEXT' ''
    for option in resume wrap payload rsid stamp pri host app procid msgid ver groups count frag copies \
        lines max-len max-messages; do
        holds "$command --help has --$option" grep -q -- "--$option " "$scratch/out"
    done
done

# ---- texts out of their form
: >"$log"
long() {
    printf 'a%.0s' $(seq "$1")
}
time=2009-05-03T14:00:39Z
for text in x '' "$payload " "$payload=" "$time K" "$time K " "$time K S0V" "$time N S0VZ" "$time N  " \
    "$time X S0VZ" "$time  K S0VZ" '2009-05-03T14:00:60Z K S0VZ' "${payload,,}"; do
    refused "--payload '$text'" 'ssign: P2' --rsid 1 --payload "$text"
done
for text in x '' 2009-05-03 2009-05-03t14:00:39Z 2009-02-29T14:00:39Z 2009-05-03T14:00:39.1234567Z \
    2009-05-03T14:00:39; do
    refused "--stamp '$text'" 'ssign: P2' "${given[@]}" --stamp "$text"
done
# shellcheck disable=SC2258 # commas that are words
for text in '' One ones 190 1,1,191 2,1,191 191,191 192 1,192 1,,191 ,191 191, 01,191 1,0191 +1,191 ' 1,191' \
    '1, 191' '1 191' one,191 191,one 256,191 1,447 18446744073709551616,191; do
    refused "--groups '$text'" 'ssign: P2' "${given[@]}" --groups "$text"
done
for option in host:255 app:48 procid:128 msgid:32; do
    field=${option%:*} most=${option#*:}
    for text in '' 'a b' $'a\tb' $'\xc3\xa9' "$(long $((most + 1)))"; do
        refused "--$field '${text:0:40}'" 'ssign: P2' "${given[@]}" "--$field" "$text"
    done
done

# ---- each option at both ends of its range
for index in $(seq 120); do
    frame "<$((index % 5 * 40 + index % 3))>1 - - - - - - message $index"
done >"$log"
both 'no other option' "${given[@]}"
for option in '--rsid 0' '--rsid 9999999999'; do
    # shellcheck disable=SC2086 # an option and its value
    both "$option" --payload "$payload" $option
done
# shellcheck disable=SC2089 # quotes that are octets of a value
for option in '--stamp -' '--stamp 0000-01-01T00:00:00Z' '--stamp 9999-12-31T23:59:59.999999-23:59' '--pri 0' \
    '--pri 191' '--host -' '--app -' '--procid -' '--msgid -' '--host h' '--app s' '--procid p' '--msgid m' \
    "--host $(long 255)" "--app $(long 48)" "--procid $(long 128)" "--msgid $(long 32)" '--ver 0111' '--ver 0121' \
    '--groups one' '--groups pri' '--groups 191' '--groups 0,191' '--groups 9,10,99,100,190,191' \
    "--groups $(seq -s , 0 191)" '--count 1' '--count 99' '--frag 1' '--frag 9999' '--copies 1' '--copies 9' \
    '--host !~ --app " --procid ] --msgid =' '--groups pri --count 2 --copies 2 --pri 13 --ver 0121' \
    '--groups 100,191 --count 7 --frag 20'; do
    # shellcheck disable=SC2086,SC2090 # an option and its value
    both "$option" "${given[@]}" $option
done
for text in "$time N" "$time N " "$time C S0VZ" "$time P S0VZ" "$time U S0VZ" "$time K $(long 4000)" '- N' '- K S0VZ'; do
    both "--payload '${text:0:40}'" --rsid 1 --payload "$text"
done
run plan "${given[@]}" --copies 9 <"$log"
cp -- "$scratch/out" "$scratch/nine"
run plan "${given[@]}" <"$log"
wrote 'a plan is the same for any --copies' "$scratch/nine"
python3 -c '
import sys
log = sys.stdin.buffer.read()
while log:
    length, _, log = log.partition(b" ")
    sys.stdout.buffer.write(log[:int(length)] + b"\n")
    log = log[int(length):]' <"$log" >"$scratch/lines"
for command in plan sign; do
    model "$command" "${given[@]}" <"$log" >"$scratch/wanted"
    run plan "${given[@]}" <"$log"
    seal <"$scratch/out" >"$seals"
    answers=()
    [[ $command == plan ]] || answers=(--answers "$seals")
    run "$command" --lines "${answers[@]}" "${given[@]}" <"$scratch/lines"
    wrote "$command: --lines" "$scratch/wanted"
done
run plan "${given[@]}" --max-len 30 --max-messages 120 <"$log"
wrote 'as many messages and octets as may be' "$scratch/nine"

# ---- seals
for index in 0 1 2 3 4; do
    frame "<13>1 - - - - - - message $index"
done >"$log"
# two certificate blocks, blocks after the messages at 1 and 3, and one at the end
run plan "${given[@]}" --frag 20 --count 2 <"$log"
seal <"$scratch/out" >"$scratch/all"
holds 'five blocks are planned' test "$(wc -l <"$scratch/all")" = 5
line=0
for complaint in O6 O6 'O6 1' 'O6 3' O6; do
    line=$((line + 1))
    sed "${line}d" "$scratch/all" >"$seals"
    run sign --answers "$seals" "${given[@]}" --frag 20 --count 2 <"$log"
    expect "without seal $line" 2 '' "ssign: $complaint"
done
# the third seal with a signature of so many octets
of_octets() {
    sed "3s/AAAA\$/$(head -c "$1" /dev/zero | base64 -w 0 | sed 's:/:\\/:g')/" "$scratch/all" >"$seals"
    run sign --answers "$seals" "${given[@]}" --frag 20 --count 2 <"$log"
}
of_octets 1025
expect 'a signature of 1025 octets' 2 '' 'ssign: O7 1'
of_octets 1024
expect 'a signature of 1024 octets' 0 'SOME TEXT' ''
{ cat "$scratch/all"; sed 's/AAAA$/AAAB/' "$scratch/all"; } >"$seals"
run sign --answers "$seals" "${given[@]}" --frag 20 --count 2 <"$log"
cp -- "$scratch/out" "$scratch/first"
run sign --answers "$scratch/all" "${given[@]}" --frag 20 --count 2 <"$log"
wrote 'the first of two seals counts' "$scratch/first"

# ---- what comes first: the command line, its texts, the answers, the log
printf 'x' >"$log"
missing=(--answers "$scratch/no such file")
run sign "${missing[@]}" "${given[@]}" --stamp x --pri 192 <"$log"
expect 'a mistake in the command line is told before P2' 2 '' 'SOME TEXT'
holds 'it is a mistake' grep -q '^error: ' "$scratch/err"
run sign "${missing[@]}" "${given[@]}" --stamp x <"$log"
expect 'P2 is told before A2' 2 '' 'ssign: P2'
run sign "${missing[@]}" "${given[@]}" <"$log"
expect 'A2 comes before F1' 2 '' 'ssign: A2'
printf 'want S0VZ\n' >"$seals"
run sign --answers "$seals" "${given[@]}" <"$log"
expect 'A1 is told before F1' 2 '' 'ssign: A1 1'
run sign --answers "$seals" "${given[@]}" <"$root"
expect 'A1 is told before F3' 2 '' 'ssign: A1 1'

# ---- counters: where an originator goes on
counters=$scratch/counters
session='h s - 1'
# count LINE..: these counters are in the file
count() {
    counters_of "$@" >"$counters"
}
going=(--resume "$counters" "${given[@]}" "${header[@]}")
: >"$log"
run plan --ahead "${given[@]}" "${header[@]}" <"$log"
expect 'a new session ends at GBC 0' 0 "count $session 0
end 1" ''
count "$session 0"
for command in plan sign; do
    run "$command" "${going[@]}" <"$log"
    expect "$command: --resume over an empty log writes nothing" 0 '' ''
done
run plan --ahead "${going[@]}" <"$log"
expect 'plan --ahead over an empty log writes the same counters' 0 "count $session 0
end 1" ''
frame '<13>1 - - - - - - a' >"$log"
count "$session 7" "$session 0 0 5" "$session 0 0 4" "$session 6" 'h s - 2 0 0 90' 'h s - 2 99' 'h2 s - 1 1 13 80' "$session 0 0 1"
run plan --ahead "${going[@]}" <"$log"
expect 'the greatest counter of the session counts' 0 "count $session 8
count $session 0 0 6
end 2" ''
run plan "${going[@]}" <"$log"
seal <"$scratch/out" >"$seals"
run sign --answers "$seals" "${going[@]}" <"$log"
holds 'the block has these numbers' grep -q ' GBC="7" FMN="5" CNT="1" ' "$scratch/out"
holds 'and there is no certificate block' test "$(grep -c ssign-cert "$scratch/out")" = 0
run sign "${going[@]}" <"$log"
expect 'without answers it is refused at its end' 2 '' 'ssign: O6'
run plan --ahead --ahead "${given[@]}" <"$log"
expect '--ahead twice is a mistake' 2 '' 'SOME TEXT'
run sign --ahead "${given[@]}" <"$log"
expect 'sign has no --ahead' 2 '' 'SOME TEXT'

# ---- wraps, and signed logs as lines
long_one="<13>Oct 11 22:14:15 gate su: $(long 4000)"
{
    frame 'hello'
    frame '<13>1 - - - - - - a'
    frame '<34>Oct 11 22:14:15 gate su: failed'
    frame '<14>1 2009-05-03T14:00:39.123456789Z h su - - - m'
    frame "${block#* }"
    frame '<13>1 - h s - wrapped - |m'
    frame "$long_one"
} >"$log"
both '--wrap' --wrap "${given[@]}"
both '--wrap with a header' --wrap --stamp 2009-05-03T14:00:39Z --host h --app s --procid 7 "${given[@]}"
both '--wrap and groups' --wrap --groups pri --count 1 "${given[@]}"
both '--wrap and limits' --wrap --max-len $((${#long_one} + 25)) "${given[@]}"
model plan --ahead --wrap "${given[@]}" <"$log" >"$scratch/wanted"
run plan --ahead --wrap "${given[@]}" <"$log"
wrote 'plan --ahead --wrap' "$scratch/wanted"
count "$session 7" "$session 0 0 5"
both '--wrap and --resume' --wrap "${going[@]}"
refused '--wrap and a wrap that is too long' 'ssign: O11 6' --wrap --max-len $((${#long_one} + 24)) "${given[@]}"
refused '--wrap and a message that is too long' 'ssign: F2 0' --wrap --max-len 1 "${given[@]}"
run plan --ahead --wrap --max-len $((${#long_one} + 24)) "${given[@]}" <"$log"
expect 'plan --ahead: a wrap that is too long' 2 '' 'ssign: O11 6'
run plan "${given[@]}" <"$log"
expect 'without --wrap the first odd message is refused' 2 '' 'ssign: O2 0'
{ cat "$log"; printf '3 ab'; } >"$scratch/torn"
run plan --wrap --max-len $((${#long_one} + 24)) "${given[@]}" <"$scratch/torn"
expect 'P1 comes before O11' 2 '' "ssign: P1 $(stat -c %s "$log")"

# what is listed of a signed log gives the messages back
run plan --wrap "${given[@]}" "${header[@]}" <"$log"
seal <"$scratch/out" >"$seals"
run sign --wrap --answers "$seals" "${given[@]}" "${header[@]}" <"$log"
cp -- "$scratch/out" "$scratch/signed"
run questions <"$scratch/signed"
answered <"$scratch/out" >"$scratch/answers"
run review --answers "$scratch/answers" <"$scratch/signed"
holds 'a log with wraps is reviewed as clean' test "$status" = 0
run extract --answers "$scratch/answers" <"$scratch/signed"
cp -- "$scratch/out" "$scratch/listed"
holds 'and gives its messages back' python3 -B - "$root/tests" "$log" "$scratch/listed" <<'END'
import sys
sys.path.insert(0, sys.argv[1])
from signing_model import messages
from wrap_model import original
log, listed = (messages(open(path, "rb").read(), False) for path in sys.argv[2:])
sys.exit(log != [text if original(text) is None else original(text) for text in listed])
END

# lines: the same messages, each ended by LF
model sign --wrap --lines-out "${given[@]}" "${header[@]}" <"$log" >"$scratch/wanted"
run sign --wrap --lines-out --answers "$seals" "${given[@]}" "${header[@]}" <"$log"
wrote 'sign --lines-out' "$scratch/wanted"
run review --lines --answers "$scratch/answers" <"$scratch/wanted"
holds 'a signed log of lines is reviewed as clean' test "$status" = 0
run extract --lines --answers "$scratch/answers" <"$scratch/wanted"
wrote 'and lists the same messages' "$scratch/listed"
{ cat "$log"; frame $'a\nb'; frame $'\n'; } >"$scratch/breaks"
run sign --wrap --lines-out --answers "$seals" "${given[@]}" "${header[@]}" <"$scratch/breaks"
expect 'sign --lines-out: a message with LF' 2 '' 'ssign: E2 7'
run sign --lines-out --answers /dev/null "${given[@]}" <"$scratch/breaks"
expect 'E2 comes before O2 and O6' 2 '' 'ssign: E2 7'
run sign --wrap --lines-out --max-len $((${#long_one} + 24)) --answers /dev/null "${given[@]}" <"$scratch/breaks"
expect 'E2 comes before O11' 2 '' 'ssign: E2 7'
{ cat "$scratch/breaks"; printf '3 ab'; } >"$scratch/torn"
run sign --lines-out "${given[@]}" <"$scratch/torn"
expect 'P1 comes before E2' 2 '' "ssign: P1 $(stat -c %s "$scratch/breaks")"
run sign --wrap --answers /dev/null "${given[@]}" <"$scratch/breaks"
expect 'as frames it comes as far as its seals' 2 '' 'ssign: O6'
run plan --lines-out "${given[@]}" <"$log"
expect 'plan has no --lines-out' 2 '' 'SOME TEXT'

# ---- counters that are refused: `rejected WHAT COMPLAINT OPTION..` by plan, plan --ahead and sign
rejected() {
    local what=$1 complaint=$2 command
    shift 2
    for command in plan 'plan --ahead' sign; do
        # shellcheck disable=SC2086 # a command and a flag
        run $command "$@" <"$log"
        expect "$command: $what" 2 '' "$complaint"
    done
}
rejected 'a counters file that is not there' 'ssign: C2' --resume "$scratch/no such file" "${given[@]}"
rejected 'a folder for counters' 'ssign: C2' --resume "$root" "${given[@]}"
printf 'count %s 1\ncount %s 01\n' "$session" "$session" >"$counters"
rejected 'a line that is no counter' 'ssign: C1 2' "${going[@]}"
for it in '' "count $session 1"$'\n' "count $session 1"$'\nend 1' "count $session 1"$'\nend 2\n' $'end 0\n'"count $session 1"$'\n'; do
    printf %s "$it" >"$counters"
    rejected "a file without its end: ${it@Q}" 'ssign: C3' "${going[@]}"
done
count
rejected 'no counter at all' 'ssign: C5' "${going[@]}"
count "$session 0 0 5" 'h s - 2 7' 'h - - 1 7' '- s - 1 7' 'h s 1 1 7'
rejected 'no counter of the blocks of the session' 'ssign: C5' "${going[@]}"
count 'h s - 2 1 13 5' "$session 0 0 5" "$session 1 13 5" "$session 2 191 5" "$session 7"
rejected 'another SG' 'ssign: C6 3' "${going[@]}"
rejected 'SG 0, and groups by PRI' 'ssign: C6 2' --groups pri "${going[@]}"
count 'h s - 2 1 13 5' "$session 2 191 5" "$session 7"
rejected 'ranges, and one group' 'ssign: C6 2' "${going[@]}"
count "$session 7" "$session 0 1 5"
rejected 'one group with another SPRI' 'ssign: C6 2' "${going[@]}"
count "$session 7" "$session 2 100 5" "$session 2 99 5"
rejected 'an SPRI that is no bound' 'ssign: C6 3' --groups 100,191 "${going[@]}"
count "$session 7" "$session 3 100 5"
rejected 'SG 3' 'ssign: C6 2' --groups pri "${going[@]}"

# ---- counters near their end
frame '<13>1 - - - - - - a' >"$log"
count "$session 7" "$session 0 0 9999999999"
run plan --ahead "${going[@]}" <"$log"
expect 'the last number is given' 0 "count $session 8
count $session 0 0 10000000000
end 2" ''
{ frame '<13>1 - - - - - - a'; frame '<13>1 - - - - - - b'; } >"$log"
rejected 'a message after the last number' 'ssign: O8 1' "${going[@]}"
count "$session 9999999999"
run plan --ahead "${going[@]}" <"$log"
expect 'the last block is sent' 0 "count $session 10000000000
count $session 0 0 3
end 2" ''
count "$session 10000000000"
rejected 'a block after the last one, at the end' 'ssign: O9' "${going[@]}"
rejected 'a block after the last one, at a message' 'ssign: O9 0' --count 1 "${going[@]}"
# of the two blocks that end the log the first one has a GBC and no seal: O9 comes before O6
{ frame '<13>1 - - - - - - a'; frame '<14>1 - - - - - - b'; } >"$log"
count "$session 9999999999"
rejected 'of two blocks the second one is after the last one' 'ssign: O9' --groups pri "${going[@]}"
run sign --groups one "${going[@]}" <"$log"
expect 'sign: one block, which has no seal' 2 '' 'ssign: O6'
count "$session 10000000000"
run plan --ahead "${going[@]}" </dev/null
expect 'spent counters are kept' 0 "count $session 10000000000
end 1" ''

# ---- what comes first: the command line, its texts, the counters, the answers, the log, the originator
printf 'x' >"$log"
count
for command in plan 'plan --ahead' "sign --answers $seals.not-there"; do
    # shellcheck disable=SC2086 # a command and its options
    {
        run $command --pri 192 --stamp x "${going[@]}" <"$log"
        holds "${command%%.*}: a mistake comes before P2" grep -q '^error: ' "$scratch/err"
        run $command --stamp x "${going[@]}" <"$log"
        expect "${command%%.*}: P2 comes before C5" 2 '' 'ssign: P2'
        run $command "${going[@]}" <"$log"
        expect "${command%%.*}: C5 comes before A2 and F1" 2 '' 'ssign: C5'
    }
done
count "$session 10000000000"
run sign --answers "$seals.not-there" "${going[@]}" <"$log"
expect 'A2 comes before F1' 2 '' 'ssign: A2'
frame '<13>1 - - - - - - a' >"$log"
printf '3 ab' >>"$log"
rejected 'P1 comes before O9' 'ssign: P1 22' "${going[@]}"

# ---- a full device
: >"$scratch/out"
for command in plan 'plan --ahead' "sign --answers $scratch/all --frag 20 --count 2"; do
    # shellcheck disable=SC2086 # a command and its options
    timeout "$patience" "$program" $command "${given[@]}" </dev/null >/dev/full 2>"$scratch/err"
    status=$?
    expect "${command%% --answers*}: a full device" 2 '' 'ssign: W1'
done

# ---- 100,000 messages, signed and reviewed
python3 -c '
for index in range(100_000):
    text = "<13>1 - - - - - - %d" % index
    print("%d %s" % (len(text), text), end="")' >"$log"
run plan "${given[@]}" <"$log"
seal <"$scratch/out" >"$seals"
holds 'a plan has a line for each block' test "$(wc -l <"$seals")" = 10001
run sign --answers "$seals" "${given[@]}" <"$log"
cp -- "$scratch/out" "$scratch/signed"
expect 'it is signed' 0 'SOME TEXT' ''
run questions <"$scratch/signed"
answered <"$scratch/out" >"$scratch/answers"
holds 'a question for each block, and one for the payload' test "$(wc -l <"$scratch/answers")" = 10002
run review --answers "$scratch/answers" <"$scratch/signed"
holds 'its review finds nothing' test "$status" = 0
holds 'its review lists each message' test "$(grep -c '^ok - - - 1 0 0 ' "$scratch/out")" = 100000
holds 'its review ends with all messages and blocks' test "$(tail -n 1 "$scratch/out")" = 'end 110001'

finish
