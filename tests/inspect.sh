#!/usr/bin/env bash
# `inspect`: what each stored message is, one line a message, through the built program.
# shellcheck source=tests/lib.sh
. "$(dirname -- "$0")/lib.sh"
need_program

H='<110>1 - h s - - '
A='qZk+NkcGgWq6PiVxeFDCbJzQ2J0='
B='hJg+RBw70m66rkqh+VEp5eVGcPE='
A2='ungWv48Bz+pBQUDeXa4iI7ADYaOWF3qctBD/YfIAFa0='
certificate='[ssign-cert VER="0111" RSID="1" SG="0" SPRI="0" TPBL="27" INDEX="1" FLEN="27" FRAG="2009-05-03T14:00:39Z K S0VZ" SIGN="AAAA"]'
signature="[ssign VER=\"0111\" RSID=\"1\" SG=\"0\" SPRI=\"0\" GBC=\"0\" FMN=\"1\" CNT=\"2\" HB=\"$A $B\" SIGN=\"AAAA\"]"

# told WHAT MESSAGE LINE: the line about a message that is the only one of its log.
told() {
    run inspect < <(frame "$2")
    expect "$1" 0 "$3"$'\nend 1' ''
}

run inspect <"$root/examples/kinds.frames"
expect 'a message of each kind, and a torn end' 1 'plain 0
unparsed 1 M1 0
certificate 2 h s - 1 0 0 27 1 27
signature 3 h s - 1 0 0 0 1 2
spoilt 4 S3
torn 531
end 5' ''
run inspect <"$root/examples/four-messages.frames"
expect 'four messages' 0 'unparsed 0 M1 0
unparsed 1 M1 0
certificate 2 h s - 1 0 0 27 1 27
signature 3 h s - 1 0 0 0 1 2
end 4' ''
run inspect <"$root/examples/signed/signed.frames"
expect 'real signatures' 0 'certificate 0 gate.example.org signer - 1 0 0 575 1 500
certificate 1 gate.example.org signer - 1 0 0 575 501 75
plain 2
plain 3
plain 4
plain 5
signature 6 gate.example.org signer - 1 0 0 0 1 4
plain 7
plain 8
plain 9
plain 10
signature 11 gate.example.org signer - 1 0 0 1 5 4
plain 12
plain 13
signature 14 gate.example.org signer - 1 0 0 2 9 2
end 15' ''
run inspect </dev/null
expect 'an empty log' 0 'end 0' ''

# What stands in a block, and what stands beside it
told 'another header' "<0>1 2009-05-03T14:00:39.25-07:00 host.example app 42 id ${signature/RSID=\"1\"/RSID=\"9999999999\"}" \
    'signature 0 host.example app 42 9999999999 0 0 0 1 2'
told 'no header field' "<191>1 - - - - - $certificate and a MSG" 'certificate 0 - - - 1 0 0 27 1 27'
told 'elements beside the block' "${H}[x@1 SIGN=\"AAAA\"]${signature}[y@1 a=\"\\]\"] hello SIGN=\"AAAA\"" 'signature 0 h s - 1 0 0 0 1 2'
told 'SHA-256' "${H}[ssign VER=\"0121\" RSID=\"0\" SG=\"3\" SPRI=\"191\" GBC=\"9999999999\" FMN=\"9999999999\" CNT=\"1\" HB=\"$A2\" SIGN=\"AAAA\"]" \
    'signature 0 h s - 0 3 191 9999999999 9999999999 1'
told 'a fragment far inside its payload' "${H}[ssign-cert VER=\"0111\" RSID=\"1\" SG=\"0\" SPRI=\"0\" TPBL=\"99999999\" INDEX=\"99999999\" FLEN=\"1\" FRAG=\"x\" SIGN=\"AAAA\"]" \
    'certificate 0 h s - 1 0 0 99999999 99999999 1'
told 'a fragment whose value is shorter than its spelling' "${H}[ssign-cert VER=\"0111\" RSID=\"1\" SG=\"0\" SPRI=\"0\" TPBL=\"4\" INDEX=\"1\" FLEN=\"4\" FRAG=\"\\\"\\]\\\\x\" SIGN=\"AAAA\"]" \
    'certificate 0 h s - 1 0 0 4 1 4'
told 'a plain backslash in a fragment' "${H}[ssign-cert VER=\"0111\" RSID=\"1\" SG=\"0\" SPRI=\"0\" TPBL=\"2\" INDEX=\"1\" FLEN=\"2\" FRAG=\"\\x\" SIGN=\"AAAA\"]" \
    'certificate 0 h s - 1 0 0 2 1 2'
told 'another SD-ID in capitals' "${H}[SSIGN]" 'plain 0'
told 'the octets of a block in MSG alone' "<13>1 - - - - - - $signature" 'plain 0'

# Each cause, and the first of two
told 'both blocks' "$H$certificate$signature" 'spoilt 0 S1'
told 'both blocks, one of them with a wrong name' "$H${certificate}[ssign]" 'spoilt 0 S1'
told 'no parameter' "${H}[ssign]" 'spoilt 0 S2'
told 'one parameter too many' "$H${signature/ SIGN=/ X=\"\" SIGN=}" 'spoilt 0 S2'
told 'a name in small letters and a wrong version' "$H${signature/VER=\"0111\"/ver=\"0211\"}" 'spoilt 0 S2'
told 'an unknown version and a bad number' "$H${signature/VER=\"0111\" RSID=\"1\"/VER=\"0211\" RSID=\"x\"}" 'spoilt 0 S3'
told 'a needless zero and a wrong count' "$H${signature/CNT=\"2\"/CNT=\"03\"}" 'spoilt 0 S4'
told 'a group that is none' "$H${signature/SG=\"0\"/SG=\"4\"}" 'spoilt 0 S4'
told 'a fragment at 0' "$H${certificate/INDEX=\"1\"/INDEX=\"0\"}" 'spoilt 0 S4'
told 'three hashes announced, two there' "$H${signature/CNT=\"2\"/CNT=\"3\"}" 'spoilt 0 S5'
told 'no hash' "${H}[ssign VER=\"0111\" RSID=\"1\" SG=\"0\" SPRI=\"0\" GBC=\"0\" FMN=\"1\" CNT=\"1\" HB=\"\" SIGN=\"AAAA\"]" 'spoilt 0 S6'
told 'hashes of the other version' "$H${signature/VER=\"0111\"/VER=\"0121\"}" 'spoilt 0 S6'
unsigned=${signature/SIGN=\"AAAA\"/SIGN=\"\"}
told 'a hash without its padding and no signature' "$H${unsigned/J0= /J0 }" 'spoilt 0 S6'
told 'no signature and a last number of eleven digits' "$H${unsigned/FMN=\"1\"/FMN=\"9999999999\"}" 'spoilt 0 S7'
told 'unused bits that are not zero' "$H${certificate/SIGN=\"AAAA\"/SIGN=\"AAB=\"}" 'spoilt 0 S7'
told 'a fragment past the end of its payload' "$H${certificate/TPBL=\"27\"/TPBL=\"26\"}" 'spoilt 0 S8'
told 'a fragment of another length' "$H${certificate/FLEN=\"27\"/FLEN=\"26\"}" 'spoilt 0 S8'
told 'a last number of eleven digits' "$H${signature/FMN=\"1\"/FMN=\"9999999999\"}" 'spoilt 0 S9'
told 'a last number of ten digits' "$H${signature/FMN=\"1\"/FMN=\"9999999998\"}" 'signature 0 h s - 1 0 0 0 9999999998 2'

# Messages that aren't RFC 5424's, with the part and the position
told 'a priority of 192' '<192>1 - - - - - -' 'unparsed 0 M1 0'
told 'version 2' '<13>2 - - - - - -' 'unparsed 0 M2 4'
told 'a 29 February that there was not' '<13>1 2023-02-29T00:00:00Z - - - - -' 'unparsed 0 M3 6'
x=$(printf 'x%.0s' {1..256})
told 'each field as long as it may be' "<13>1 - ${x:0:255} ${x:0:48} ${x:0:128} ${x:0:32} -" 'plain 0'
told 'a HOSTNAME of 256 octets' "<13>1 - $x - - - -" 'unparsed 0 M4 8'
told 'an APP-NAME of 49 octets' "<13>1 - - ${x:0:49} - - -" 'unparsed 0 M5 10'
told 'a PROCID of 129 octets' "<13>1 - - - ${x:0:129} - -" 'unparsed 0 M6 12'
told 'a MSGID of 33 octets' "<13>1 - - - - ${x:0:33} -" 'unparsed 0 M7 14'
told 'no structured data' '<13>1 - - - - -' 'unparsed 0 M7 14'
told 'octets behind the structured data' '<13>1 - - - - - -x' 'unparsed 0 M8 17'
told 'an element without a name' '<13>1 - - - - - [=' 'unparsed 0 M9 17'
told 'an SD-ID twice' '<13>1 - - - - - [a][a]' 'unparsed 0 M11 20'
told 'a block element twice' "$H$signature$signature" "unparsed 0 M11 $((17 + ${#signature} + 1))"
run inspect < <(frame '<13>1 - - - - - [a b="X"]' | LC_ALL=C tr X '\303')
expect 'a value that is not UTF-8' 0 $'unparsed 0 M10 22\nend 1' ''
run inspect < <(printf '22 <13>1 - - - - - - \357\273\277\377')
expect 'a marked MSG that is not UTF-8' 0 $'unparsed 0 M12 18\nend 1' ''

# Wraps are plain, and with --unwrap what the original in them is
wrap='<13>1 - h s - wrapped - |'
{ frame "${wrap}abc" && frame "$wrap<13>1 - - - - - -" && frame "$wrap$H$signature" && frame "$wrap$H$certificate" && frame "$wrap${H}[ssign]" &&
    frame "$wrap$wrap<13>2" && frame "$wrap" && frame '<13>1 - h s - wrapped - x' && frame "$H$signature" && frame abc; } >"$scratch/wraps"
run inspect <"$scratch/wraps"
expect 'wraps' 0 'plain 0
plain 1
plain 2
plain 3
plain 4
plain 5
plain 6
plain 7
signature 8 h s - 1 0 0 0 1 2
unparsed 9 M1 0
end 10' ''
run inspect --unwrap <"$scratch/wraps"
expect 'originals' 0 'wrapped-unparsed 0 M1 0
wrapped-plain 1
wrapped-signature 2 h s - 1 0 0 0 1 2
wrapped-certificate 3 h s - 1 0 0 27 1 27
wrapped-spoilt 4 S2
wrapped-plain 5
wrapped-unparsed 6 M1 0
plain 7
signature 8 h s - 1 0 0 0 1 2
unparsed 9 M1 0
end 10' ''
run inspect --unwrap --findings <"$scratch/wraps"
expect 'originals stand in the findings' 0 'wrapped-unparsed 0 M1 0
wrapped-plain 1
wrapped-signature 2 h s - 1 0 0 0 1 2
wrapped-certificate 3 h s - 1 0 0 27 1 27
wrapped-spoilt 4 S2
wrapped-plain 5
wrapped-unparsed 6 M1 0
signature 8 h s - 1 0 0 0 1 2
unparsed 9 M1 0
end 10' ''
run inspect --unwrap --json < <(frame "${wrap}<13>2" && printf 3)
expect 'an original as JSON, and a torn end' 1 '{"line":"wrapped-unparsed","place":0,"part":"M2","offset":4}
{"line":"torn","offset":33}
{"line":"end","count":1}' ''

# ---- facts about messages

# encoded TEXT: strict base64 of a text.
encoded() {
    printf %s "$1" | base64 -w 0
}

# shown WHAT STATUS PLACES WANTED ARG..: the objects of standard input, with the messages at these places shown.
shown() {
    local what=$1 wanted=$2 places=$3 objects=$4
    shift 4
    printf %s "$places" >"$scratch/places"
    run inspect --json --facts "$scratch/places" "$@"
    expect "facts: $what" "$wanted" "$objects" ''
}
names='"host":"h","app":"s","procid":"-","rsid":1,"sg":0,"spri":0'
late='<13>1 2009-05-03T14:00:39.25-07:00 h a p m - [ssign'
unsigned_certificate=${certificate/ SIGN=\"AAAA\"/}
unsigned_signature=${signature/ SIGN=\"AAAA\"/}
{ frame abc && frame "$late" && frame "$H$certificate" && frame "$H$signature" && frame "${H}[ssign]" && frame "${wrap}abc"; } >"$scratch/log"
about() {
    printf '%s\n' \
        '{"line":"unparsed","place":0,"part":"M1","offset":0,"octets":3'"$1}" \
        '{"line":"plain","place":1,"octets":51,"timestamp":"2009-05-03T14:00:39.25-07:00","marked":1'"$2}" \
        "{\"line\":\"certificate\",\"place\":2,$names,\"total\":27,\"index\":1,\"length\":27,\"octets\":142,\"timestamp\":\"-\",\"marked\":1$3}" \
        "{\"line\":\"signature\",\"place\":3,$names,\"gbc\":0,\"first\":1,\"count\":2,\"octets\":159,\"timestamp\":\"-\",\"marked\":1$4}" \
        '{"line":"spoilt","place":4,"cause":"S2","octets":24,"timestamp":"-","marked":1'"$5}" \
        '{"line":"plain","place":5,"octets":28,"timestamp":"-"'"$6}" '{"line":"end","count":6}'
}
shown 'no place' 0 '' "$(about '' '' '' '' '' '')" <"$scratch/log"
# YWJj is abc
shown 'a text that is no message' 0 $'0\n' "$(about ',"text":"YWJj"' '' '' '' '' '')" <"$scratch/log"
shown 'places in any order, one twice, and some that the log has not' 0 $'9999999\n4\n1\n4\n6\n' \
    "$(about '' ",\"text\":\"$(encoded "$late")\"" '' '' ",\"text\":\"$(encoded "${H}[ssign]")\"" '')" <"$scratch/log"
# MjAw.. is 2009-05-03T14:00:39Z K S0VZ, and AAAA three zeros
shown 'blocks' 0 $'3\n2\n' "$(about '' '' \
    ",\"text\":\"$(encoded "$H$certificate")\",\"fragment\":\"MjAwOS0wNS0wM1QxNDowMDozOVogSyBTMFZa\",\"ver\":\"0111\",\"signed\":\"$(encoded "$H$unsigned_certificate")\",\"signature\":\"AAAA\"" \
    ",\"text\":\"$(encoded "$H$signature")\",\"ver\":\"0111\",\"signed\":\"$(encoded "$H$unsigned_signature")\",\"signature\":\"AAAA\"" '' '')" <"$scratch/log"
shown 'a wrap' 0 $'5\n' "$(about '' '' '' '' '' ",\"text\":\"$(encoded "${wrap}abc")\",\"original\":\"YWJj\"")" <"$scratch/log"
shown 'the original of a wrap' 0 $'5\n' "$(about '' '' '' '' '' ",\"text\":\"$(encoded "${wrap}abc")\",\"original\":\"YWJj\"" |
    sed 's/"plain","place":5/"wrapped-unparsed","place":5,"part":"M1","offset":0/')" --unwrap <"$scratch/log"
shown 'a wrap of nothing' 0 $'0\n' "{\"line\":\"plain\",\"place\":0,\"octets\":25,\"timestamp\":\"-\",\"text\":\"$(encoded "$wrap")\",\"original\":\"\"}
{\"line\":\"end\",\"count\":1}" < <(frame "$wrap")
shown 'findings' 0 $'1\n5\n' "$(about '' '' '' '' '' '' | grep -v '"plain"')" --findings <"$scratch/log"
shown 'an escaped fragment' 0 $'0\n' "{\"line\":\"certificate\",\"place\":0,$names,\"total\":4,\"index\":1,\"length\":4,\"octets\":120,\"timestamp\":\"-\",\"marked\":1,\"text\":\"$(
    encoded "${H}[ssign-cert VER=\"0111\" RSID=\"1\" SG=\"0\" SPRI=\"0\" TPBL=\"4\" INDEX=\"1\" FLEN=\"4\" FRAG=\"\\\"\\]\\\\x\" SIGN=\"AQ==\"]"
)\",\"fragment\":\"Il1ceA==\",\"ver\":\"0111\",\"signed\":\"$(
    encoded "${H}[ssign-cert VER=\"0111\" RSID=\"1\" SG=\"0\" SPRI=\"0\" TPBL=\"4\" INDEX=\"1\" FLEN=\"4\" FRAG=\"\\\"\\]\\\\x\"]"
)\",\"signature\":\"AQ==\"}
{\"line\":\"end\",\"count\":1}" < <(frame "${H}[ssign-cert VER=\"0111\" RSID=\"1\" SG=\"0\" SPRI=\"0\" TPBL=\"4\" INDEX=\"1\" FLEN=\"4\" FRAG=\"\\\"\\]\\\\x\" SIGN=\"AQ==\"]")
# A TIMESTAMP stands where the parts up to it are right, whatever fails after it
shown 'faults before and after TIMESTAMP' 0 '' '{"line":"unparsed","place":0,"part":"M1","offset":0,"octets":16}
{"line":"unparsed","place":1,"part":"M2","offset":4,"octets":15}
{"line":"unparsed","place":2,"part":"M3","offset":6,"octets":34}
{"line":"unparsed","place":3,"part":"M3","offset":6,"octets":7}
{"line":"unparsed","place":4,"part":"M4","offset":8,"octets":8,"timestamp":"-"}
{"line":"unparsed","place":5,"part":"M8","offset":36,"octets":37,"timestamp":"2024-02-29T23:59:59Z"}
{"line":"unparsed","place":6,"part":"M9","offset":17,"octets":24,"timestamp":"-","marked":1}
{"line":"end","count":7}' < <(frame '<192>1 - - - - -' && frame '<13>2 - - - - -' && frame '<13>1 2023-02-29T00:00:00Z - - - -' && frame '<13>1 -' &&
    frame '<13>1 - ' && frame '<13>1 2024-02-29T23:59:59Z - - - - -x' && frame '<13>1 - - - - - [=[ssign')
shown 'a torn end' 1 '' $'{"line":"unparsed","place":0,"part":"M1","offset":0,"octets":3}\n{"line":"torn","offset":5}\n{"line":"end","count":1}' < <(printf '3 abc3 ab')
shown 'damage' 1 $'0\n' $'{"line":"plain","place":0,"octets":17,"timestamp":"-","text":"PDEzPjEgLSAtIC0gLSAtIC0="}\n{"line":"damaged","place":1,"offset":20,"length":3}\n{"line":"end","count":1}' \
    --salvage < <(frame '<13>1 - - - - - -' && printf xxx)
shown 'lines' 0 $'1\n' $'{"line":"unparsed","place":0,"part":"M1","offset":0,"octets":3}\n{"line":"unparsed","place":1,"part":"M1","offset":0,"octets":2,"text":"YWI="}\n{"line":"end","count":2}' --lines < <(printf 'abc\nab\n')
# the first 16384 octets of a message and of what is in a wrap
long=$(printf '%16384s' '' | tr ' ' a)
shown 'long texts' 0 $'0\n1\n2\n' "{\"line\":\"unparsed\",\"place\":0,\"part\":\"M1\",\"offset\":0,\"octets\":16384,\"text\":\"$(encoded "$long")\"}
{\"line\":\"unparsed\",\"place\":1,\"part\":\"M1\",\"offset\":0,\"octets\":16385,\"text\":\"$(encoded "$long")\"}
{\"line\":\"plain\",\"place\":2,\"octets\":16410,\"timestamp\":\"-\",\"text\":\"$(encoded "$wrap${long:25}")\",\"original\":\"$(encoded "$long")\"}
{\"line\":\"end\",\"count\":3}" < <(frame "$long" && frame "${long}b" && frame "$wrap${long}b")
run inspect --json --facts <(printf '0\n') < <(frame abc)
expect 'facts: a pipe of places' 0 $'{"line":"unparsed","place":0,"part":"M1","offset":0,"octets":3,"text":"YWJj"}\n{"line":"end","count":1}' ''

# no_places WHAT PLACES CODE: a file of places that is refused, before a log that is none.
no_places() {
    printf %b "$2" >"$scratch/places"
    run inspect --json --facts "$scratch/places" < <(printf x)
    expect "facts: $1" 2 '' "ssign: $3"
}
no_places 'an empty line' '\n' 'N1 1'
no_places 'the first bad line' '0\n9999999\n10000000\nx\n' 'N1 3'
no_places 'a leading zero' '00\n' 'N1 1'
no_places 'a sign' '+1\n' 'N1 1'
no_places 'a number below zero' '-1\n' 'N1 1'
no_places 'a CR' '1\n1\r\n' 'N1 2'
no_places 'a space' '1 \n' 'N1 1'
no_places 'a NUL' '\0\n' 'N1 1'
no_places 'two places on a line' '1 2\n' 'N1 1'
no_places 'no last line end' '1\n2' 'N3'
no_places 'no line end at all' 'x' 'N3'
no_places 'a bad line before a cut one' 'x\n1' 'N1 1'
run inspect --json --facts "$scratch/no such file" < <(printf x)
expect 'facts: no such file' 2 '' 'ssign: N2'
run inspect --json --facts / < <(printf x)
expect 'facts: a folder' 2 '' 'ssign: N2'
run inspect --json --facts - < <(printf x)
expect 'facts: a hyphen is the name of a file' 2 '' 'ssign: N2'
no_places 'a bad log after good places' '1\n' 'F1 0'
for words in '' --findings --unwrap; do
    # shellcheck disable=SC2086 # none, or one word
    run inspect --facts "$scratch/places" $words < <(printf x)
    expect "facts: without --json $words" 2 '' "error: the argument '--facts <FILE>' cannot be used without '--json'"$'\n\n'"Usage: ssign inspect [OPTIONS] < FILE"$'\n\n'"For more information, try '--help'."
done
holds 'facts about messages by a seed' python3 -B "$root/tests/facts.py" "$program"

# Lines, limits and refusals, as in a review
run inspect --lines < <(printf '%s\n' abc "$H$certificate" 'ab')
expect 'lines' 0 $'unparsed 0 M1 0\ncertificate 1 h s - 1 0 0 27 1 27\nunparsed 2 M1 0\nend 3' ''
run inspect --lines < <(printf 'abc\nab')
expect 'a line without its LF' 1 $'unparsed 0 M1 0\ntorn 4\nend 1' ''
run inspect --lines < <(printf 'abc\n\n')
expect 'an empty line' 2 '' 'ssign: F9 4'
run inspect < <(printf '3 abc3 ab')
expect 'a torn frame' 1 $'unparsed 0 M1 0\ntorn 5\nend 1' ''
run inspect < <(printf '3 abcx')
expect 'an octet that is no length' 2 '' 'ssign: F1 5'
run inspect --max-len 3 < <(printf '3 abc4 abcd')
expect 'a frame over --max-len' 2 '' 'ssign: F2 5'
run inspect --max-messages 1 < <(printf '1 a1 b')
expect 'a message too many' 2 '' 'ssign: F5 3'
run inspect <"$root"
expect 'a folder as standard input' 2 '' 'ssign: F3'
run inspect --answers "$root/examples/four-messages.answers" </dev/null
expect 'an option of another command' 2 '' 'SOME TEXT'
run inspect --help
expect 'help' 0 'SOME TEXT' ''
if [[ -c /dev/full ]]; then
    timeout "$patience" "$program" inspect <"$root/examples/kinds.frames" >/dev/full 2>"$scratch/err"
    status=$?
    : >"$scratch/out"
    expect 'a full device' 2 '' 'ssign: W1'
fi
run inspect < <(yes '3 abc' | head -n 20000 | tr -d '\n')
expect 'a log of many messages' 0 "$(seq -f 'unparsed %.0f M1 0' 0 19999)"$'\nend 20000' ''
finish
