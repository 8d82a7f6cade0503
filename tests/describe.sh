#!/usr/bin/env bash
# `describe`: what the octets say that a signature covers, against a second reading (describe.py), and line by line.
# shellcheck source=tests/lib.sh
. "$(dirname -- "$0")/lib.sh"
need_program
cd -- "$scratch" || exit 1

head='<46>1 - h a - - '
signature="${head}[ssign VER=\"0111\" RSID=\"1\" SG=\"0\" SPRI=\"0\" GBC=\"0\" FMN=\"1\" CNT=\"1\" HB=\"qZk+NkcGgWq6PiVxeFDCbJzQ2J0=\"]"
certificate="${head}[ssign-cert VER=\"0121\" RSID=\"1\" SG=\"0\" SPRI=\"0\" TPBL=\"27\" INDEX=\"1\" FLEN=\"5\" FRAG=\"2009-\"]"
of_signature='"host":"h","app":"a","procid":"-","rsid":1,"ver":"0111","sg":0,"spri":0,"gbc":0,"first":1,"count":1'
of_certificate='"host":"h","app":"a","procid":"-","rsid":1,"ver":"0121","sg":0,"spri":0,"total":27,"index":1,"length":5,"fragment":"MjAwOS0="'
# want TEXT: the line that wants these octets to be signed
want() {
    printf 'want %s\n' "$(printf %s "$1" | base64 -w 0)"
}
# described WHAT OBJECT TEXT: the octets of the text have this object
described() {
    run describe < <(want "$3")
    expect "$1" 0 "$2" ''
}

described 'a signature block' "{\"line\":\"signature\",$of_signature,\"exact\":1}" "$signature"
described 'a certificate block' "{\"line\":\"certificate\",$of_certificate,\"exact\":1}" "$certificate"
described 'a MSG after it' "{\"line\":\"signature\",$of_signature}" "$signature hello"
described 'another element before it' "{\"line\":\"signature\",$of_signature}" "${head}[x@1 y=\"\\]\"]${signature#"$head"}"
described 'a value with an escape that needs none' "{\"line\":\"certificate\",$of_certificate}" "${certificate/RSID=\"1\"/RSID=\"1\"}[x y=\"1\"]"
none='{"line":"none"}'
described 'no message' "$none" 'hello'
described 'a message without a block' "$none" "${head}-"
described 'both elements' "$none" "$signature${certificate#"$head"}"
described 'a block with SIGN' "$none" "${signature%]} SIGN=\"AA==\"]"
described 'a number with a leading zero' "$none" "${signature/GBC=\"0\"/GBC=\"00\"}"
described 'another VER' "$none" "${signature/0111/0131}"
described 'a hash too few' "$none" "${signature/CNT=\"1\"/CNT=\"2\"}"

# lines
run describe </dev/null
expect 'no line' 0 '' ''
run describe < <(printf 'trust? eA==\nyes? eA== %s eA==\n' "$(printf %s "$signature" | base64 -w 0)")
expect 'questions' 0 "{\"line\":\"signature\",$of_signature,\"exact\":1}" ''
run describe < <(printf 'yes? 0 %s eA==\n' "$(printf %s "$certificate" | base64 -w 0)")
expect 'a question with an index' 0 "{\"line\":\"certificate\",$of_certificate,\"exact\":1}" ''
# bad WHAT LINE: it is refused as the second line, once the first one is answered
bad() {
    run describe < <(want x && printf '%b' "$2")
    expect "$1" 2 "$none" 'ssign: D1 2'
}
bad 'an empty line' '\n'
bad 'a line without LF' 'want eA=='
bad 'another word' 'seal eA==\n'
bad 'no octet' 'want \n'
bad 'no base64' 'want eA=\n'
bad 'base64 with bits that are left over' 'want eB==\n'
bad 'a CR' 'want eA==\r\n'
bad 'two words to sign' 'want eA== eA==\n'
bad 'a question without a signature' 'yes? eA== eA==\n'
bad 'a question with a word more' 'yes? eA== eA== eA== eA==\n'
bad 'an answer' 'yes eA== eA== eA==\n'
bad 'a payload of --once' 'payload 0 eA==\n'
run describe --json </dev/null
tell 'an option' "$([[ $status == 2 && ! -s $scratch/out ]] || echo "    status $status")"

# one line at a time: each answer is there before the next line is written
coproc "$program" describe
describing=$COPROC_PID
want "$signature" >&"${COPROC[1]}"
read -r -t "$patience" -u "${COPROC[0]}" first
want x >&"${COPROC[1]}"
read -r -t "$patience" -u "${COPROC[0]}" second
tell 'an answer before the next line' "$([[ "$first|$second" == "{\"line\":\"signature\",$of_signature,\"exact\":1}|$none" ]] || echo "    $first|$second")"
eval "exec ${COPROC[1]}>&-"
ended=0
wait "$describing" || ended=$?
tell 'it ends with its input' "$([[ $ended == 0 ]] || echo "    with status $ended")"

# a second reading
python3 -B "$root/tests/describe.py" make "$program" . >made
tell 'what plan writes is exact' "$(read -r exact all <made; [[ $exact == "$all" ]] || cat made)"
"$program" questions <"$root/examples/signed/signed.frames" >>lines
run describe <lines
ended=0
python3 -B "$root/tests/describe.py" compare lines out >said || ended=$?
tell 'a second reading of all lines' "$([[ $ended == 0 ]] || head -c 2000 said)"
read -r _ exact others <said
tell 'with exact and other blocks' "$([[ $exact -gt 300 && $others -gt 300 ]] || cat said)"
finish
