#!/usr/bin/env bash
# `questions`: what a signature checker is asked about a log. No question is an answer.
# shellcheck source=tests/lib.sh
. "$(dirname -- "$0")/lib.sh"
need_program

log=$root/examples/four-messages.frames
head='<110>1 - h s - - '
payload=$(printf '2009-05-03T14:00:39Z K S0VZ' | base64 -w 0)
certificate="${head}[ssign-cert VER=\"0111\" RSID=\"1\" SG=\"0\" SPRI=\"0\" TPBL=\"27\" INDEX=\"1\" FLEN=\"27\" FRAG=\"2009-05-03T14:00:39Z K S0VZ\"]"
signature="${head}[ssign VER=\"0111\" RSID=\"1\" SG=\"0\" SPRI=\"0\" GBC=\"0\" FMN=\"1\" CNT=\"2\" HB=\"qZk+NkcGgWq6PiVxeFDCbJzQ2J0= hJg+RBw70m66rkqh+VEp5eVGcPE=\"]"
trust="trust? $payload"
# yes TEXT: the question about the signature AAAA of the text.
yes() {
    printf 'yes? %s %s AAAA' "$payload" "$(printf %s "$1" | base64 -w 0)"
}
about_certificate=$(yes "$certificate") about_signature=$(yes "$signature")
three=$trust$'\n'$about_certificate$'\n'$about_signature

# signed TEXT: the block with its signature, as a frame.
signed() {
    frame "${1%]} SIGN=\"AAAA\"]"
}

run questions <"$log"
expect 'a log of two messages and two blocks' 0 "$three" ''
cp -- "$scratch/out" "$scratch/asked"
run review --answers "$scratch/asked" <"$log"
expect 'the questions as answers' 2 '' 'ssign: A1 1'
tail -n 1 -- "$scratch/asked" | cat -- "$root/examples/four-messages.answers" - >"$scratch/mixed"
run review --answers "$scratch/mixed" <"$log"
expect 'a question after answers' 2 '' 'ssign: A1 4'
answered <"$scratch/asked" >"$scratch/answers"
run review --answers "$scratch/answers" <"$log"
expect 'the answers to them' 0 'session h s - 1 joined
ok h s - 1 0 0 1 0
ok h s - 1 0 0 2 1
end 4' ''
run questions < <(signed "$signature" && signed "$certificate" && signed "$signature")
expect 'each block by its place, and again where it is repeated' 0 \
    "$trust"$'\n'"$about_signature"$'\n'"$about_certificate"$'\n'"$about_signature" ''
run questions < <(signed "${certificate/RSID=\"1\"/RSID=\"2\"}" && cat -- "$log")
expect 'session 1 before session 2' 0 "$three"$'\n'"$trust"$'\n'"$(yes "${certificate/RSID=\"1\"/RSID=\"2\"}")" ''
# beside TEXT: the block between other elements, which have a SIGN and a `]` in a value, and before a MSG.
beside() {
    printf '%s[x@1 SIGN="AAAA"]%s[y@1 a="\]"] hello SIGN="AAAA"' "$head" "${1#"$head"}"
}
run questions < <(frame "$(beside "${certificate%]} SIGN=\"AAAA\"]")")
expect 'other elements and a MSG are signed too' 0 "$trust"$'\n'"$(yes "$(beside "$certificate")")" ''
run questions < <(frame "$(beside "$certificate")")
expect 'a block without its SIGN, which is spoilt' 0 '' ''

# Each payload once
other_payload=$(printf '2009-05-03T14:00:40Z K S0VZ' | base64 -w 0)
# once TEXT [INDEX]: the question about the signature AAAA of the text, under the payload with this index.
once() {
    printf 'yes? %s %s AAAA' "${2:-0}" "$(printf %s "$1" | base64 -w 0)"
}
second=${certificate/RSID=\"1\"/RSID=\"2\"}
third=${certificate/RSID=\"1\"/RSID=\"3\"} third=${third/:39Z/:40Z}
fourth=${certificate/RSID=\"1\"/RSID=\"4\"}
run questions --once <"$log"
expect 'the payload once' 0 "payload 0 $payload"$'\n'"trust? 0"$'\n'"$(once "$certificate")"$'\n'"$(once "$signature")" ''
run questions --once < <(signed "$fourth" && signed "$third" && signed "$second" && cat -- "$log")
expect 'sessions with one payload, and another between them' 0 "payload 0 $payload
trust? 0
$(once "$certificate")
$(once "$signature")
trust? 0
$(once "$second")
payload 1 $other_payload
trust? 1
$(once "$third" 1)
trust? 0
$(once "$fourth")" ''
run questions --once < <(signed "$third" && signed "$signature" && signed "$second")
expect 'no payload of a session that is incomplete' 0 "payload 0 $payload
trust? 0
$(once "$second")
payload 1 $other_payload
trust? 1
$(once "$third" 1)" ''
run questions --once </dev/null
expect 'an empty log, with each payload once' 0 '' ''
run questions --once < <(printf '3 abc')
expect 'a message alone, with each payload once' 0 '' ''
run questions --once < <(cat -- "$log" && printf 12)
expect 'a torn end, with each payload once' 1 "payload 0 $payload"$'\n'"trust? 0"$'\n'"$(once "$certificate")"$'\n'"$(once "$signature")" ''
run questions --once < <(cat -- "$log" && printf x)
expect 'no digit behind a frame, with each payload once' 2 '' 'ssign: F1 373'
run questions --once --once <"$log"
expect 'the option twice' 2 '' 'SOME TEXT'
run questions --once=0 <"$log"
expect 'the option with a value' 2 '' 'SOME TEXT'
for options in --once --json '--once --json'; do
    # shellcheck disable=SC2086 # these are words
    run questions $options <"$log"
    grep -v '^payload' "$scratch/out" >"$scratch/asked"
    run review --answers "$scratch/asked" <"$log"
    expect "the questions of $options as answers" 2 '' 'ssign: A1 1'
done

# What the objects say of a question
about='"host":"h","app":"s","procid":"-","rsid":1'
sha256=${signature/VER=\"0111\"/VER=\"0121\"}
sha256=${sha256/HB=*/HB=\"$(printf %032d 0 | base64 -w 0)\"]} sha256=${sha256/CNT=\"2\"/CNT=\"1\"}
sha256=${sha256/SG=\"0\" SPRI=\"0\" GBC=\"0\" FMN=\"1\"/SG=\"3\" SPRI=\"190\" GBC=\"9999999998\" FMN=\"9999999999\"}
back=${certificate/INDEX=\"1\" FLEN=\"27\" FRAG=\"2009-05-03T14:00:39Z K S0VZ\"/INDEX=\"18\" FLEN=\"10\" FRAG=\"39Z K S0VZ\"}
# object TEXT PLACE REST [ABOUT]: the object of the question about the signature AAAA of the text.
object() {
    printf '{"line":"yes?",%s,"octets":"%s","signature":"AAAA","place":%s,%s,%s}' \
        "${4:-\"payload\":\"$payload\"}" "$(printf %s "$1" | base64 -w 0)" "$2" "$about" "$3"
}
objects() {
    printf '{"line":"trust?",%s,%s}\n%s\n%s\n%s' "$1" "$about" \
        "$(object "$certificate" 1 '"ver":"0111","sg":0,"spri":0,"total":27,"index":1,"length":27' "$1")" \
        "$(object "$sha256" 2 '"ver":"0121","sg":3,"spri":190,"gbc":9999999998,"first":9999999999,"count":1' "$1")" \
        "$(object "$back" 3 '"ver":"0111","sg":0,"spri":0,"total":27,"index":18,"length":10' "$1")"
}
messages() {
    frame '<13>1 - - - - - -' && signed "$certificate" && signed "$sha256" && signed "$back"
}
run questions --json < <(messages)
expect 'the session, the place and the parameters of each block' 0 "$(objects "\"payload\":\"$payload\"")" ''
run questions --json --once < <(messages)
expect 'the same, with the payload once' 0 \
    "{\"line\":\"payload\",\"payload_index\":0,\"payload\":\"$payload\"}"$'\n'"$(objects '"payload_index":0')" ''

# Nothing to ask
run questions </dev/null
expect 'an empty log' 0 '' ''
run questions < <(printf '3 abc')
expect 'a message alone' 0 '' ''
run questions < <(signed "$signature")
expect 'a session without a payload' 0 '' ''
run questions < <(signed "$certificate" && signed "${certificate/:39Z/:40Z}")
expect 'a session with two payloads' 0 '' ''

# Torn ends and refusals
run questions < <(cat -- "$log" && printf 12)
expect 'a torn end' 1 "$three" ''
run questions < <(head -c -1 -- "$log")
expect 'a torn block' 1 "$trust"$'\n'"$about_certificate" ''
run questions < <(cat -- "$log" && printf x)
expect 'no digit behind a frame' 2 '' 'ssign: F1 373'
run questions --max-len 158 <"$log"
expect 'a block over --max-len' 2 '' 'ssign: F2 212'
run questions --max-messages 3 <"$log"
expect 'a block past --max-messages' 2 '' 'ssign: F5 210'
run questions <"$root"
expect 'a folder as standard input' 2 '' 'ssign: F3'
run questions --answers /dev/null <"$log"
expect 'answers, which a question has none of' 2 '' 'SOME TEXT'
for options in '' --once '--once --json'; do
    # shellcheck disable=SC2086 # these are words
    timeout "$patience" "$program" questions $options <"$log" >/dev/full 2>"$scratch/err"
    status=$?
    : >"$scratch/out"
    expect "a full device $options" 2 '' 'ssign: W1'
done

finish
