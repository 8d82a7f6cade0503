#!/usr/bin/env bash
# `--answers FILE`: what a signature checker said decides the report, and a bad file is refused before the log
# is read.
# shellcheck source=tests/lib.sh
. "$(dirname -- "$0")/lib.sh"
need_program

log=$root/examples/four-messages.frames
answers=$root/examples/four-messages.answers
mapfile -t line <"$answers"
trust=${line[0]} certificate=${line[1]} signature=${line[2]}
file=$scratch/answers

# with WHAT STATUS OUTPUT COMPLAINT LINE..: a review of the four messages with an answers file of these lines.
with() {
    local what=$1 wanted=$2 output=$3 complaint=$4
    shift 4
    printf '%s\n' "$@" >"$file"
    run review --answers "$file" <"$log"
    expect "$what" "$wanted" "$output" "$complaint"
}

joined='session h s - 1 joined
ok h s - 1 0 0 1 0
ok h s - 1 0 0 2 1
end 4'
refused='unlisted 0
unlisted 1
refused 2
refused 3
end 4'

# Reports
run review --answers "$answers" <"$log"
expect 'all answers' 0 "$joined" ''
run review --answers="$answers" --max-len 159 --max-messages 4 <"$log"
expect 'all answers, beside other options' 0 "$joined" ''
with 'all answers, in another order' 0 "$joined" '' "$signature" "$certificate" "$trust"
with 'all answers, one of them twice' 0 "$joined" '' "$trust" "$certificate" "$trust" "$signature"
with 'all answers, with a seal' 0 "$joined" '' 'seal S0VZ AAAA' "$trust" "$certificate" "$signature"
run review --answers <(printf '%s\n%s\n%s' "$trust" "$certificate" "$signature") <"$log"
expect 'all answers by a pipe, without the last LF' 0 "$joined" ''
with 'no yes for the payload' 1 $'session h s - 1 untrusted\n'"$refused" '' "$certificate" "$signature"
with 'no yes for the certificate block' 1 $'session h s - 1 unaccepted\n'"$refused" '' "$trust" "$signature"
with 'no yes for the signature block' 1 'session h s - 1 joined
unlisted 0
unlisted 1
refused 3
end 4' '' "$trust" "$certificate"
with 'a yes for another signature' 1 $'session h s - 1 unaccepted\n'"$refused" '' \
    "$trust" "${certificate% AAAA} AAAB" "$signature"
with 'a yes for other octets' 1 $'session h s - 1 unaccepted\n'"$refused" '' \
    "$trust" "${certificate/ P/ Q}" "$signature"
with 'a yes under another payload' 1 $'session h s - 1 unaccepted\n'"$refused" '' \
    "$trust" "${certificate/ M/ N}" "$signature"
with 'trust in another payload' 1 $'session h s - 1 untrusted\n'"$refused" '' \
    "${trust/ M/ N}" "$certificate" "$signature"
run review --answers /dev/null <"$log"
expect 'no answers' 1 $'session h s - 1 untrusted\n'"$refused" ''
run review --answers "$answers" </dev/null
expect 'answers, and an empty log' 0 'end 0' ''
run review --answers "$root/examples/signed/signed.answers" <"$root/examples/signed/signed.frames"
expect 'real signatures, and what openssl said of them' 0 'session gate.example.org signer - 1 joined
ok gate.example.org signer - 1 0 0 1 2
ok gate.example.org signer - 1 0 0 2 3
ok gate.example.org signer - 1 0 0 3 4
ok gate.example.org signer - 1 0 0 4 5
ok gate.example.org signer - 1 0 0 5 7
ok gate.example.org signer - 1 0 0 6 8
ok gate.example.org signer - 1 0 0 7 9
ok gate.example.org signer - 1 0 0 8 10
ok gate.example.org signer - 1 0 0 9 12
ok gate.example.org signer - 1 0 0 10 13
end 15' ''

# Files that are refused
bad() {
    with "$1" 2 '' 'ssign: A1 2' "$trust" "$2" "$certificate" "$signature"
}
bad 'an empty line' ''
bad 'another word' 'want S0VZ'
bad 'a capital letter' 'Trust S0VZ'
bad 'a question about a payload' 'trust? S0VZ'
bad 'a question about a block' 'yes? S0VZ S0VZ AAAA'
bad 'a field too few' 'yes S0VZ S0VZ'
bad 'a field too many' 'trust S0VZ S0VZ'
bad 'two spaces' 'trust  S0VZ'
bad 'a space at the end' 'trust S0VZ '
bad 'an empty field' 'trust '
bad 'a CR at the end' $'trust S0VZ\r'
bad 'base64 without its padding' 'trust S0U'
bad 'base64 with other bits than zeros' 'trust S0V='
bad 'base64 of another alphabet' 'trust S0V_'
with 'base64 with its padding' 0 "$joined" '' "$trust" 'trust S0U=' "$certificate" "$signature"
with 'two bad lines, of which the first is told' 2 '' 'ssign: A1 1' '' "$trust" ''
with 'an empty line at the end' 2 '' 'ssign: A1 4' "$trust" "$certificate" "$signature" ''
run review --answers "$root" <"$log"
expect 'a folder' 2 '' 'ssign: A2'
run review --answers "$scratch/no such file" <"$log"
expect 'no such file' 2 '' 'ssign: A2'
for code in A1 A2; do
    run explain "$code" </dev/null
    expect "explain $code" 0 'SOME TEXT' ''
done

# What comes first: the command line, then the answers, then the log
run review --answers "$scratch/no such file" --max-len 0 <"$log"
[[ $(<"$scratch/err") == *A2* ]] && said='    it tells A2' || said=''
tell 'a mistake in the command line is told before A2' "$said"
expect 'it ends the program' 2 '' 'SOME TEXT'
run review --answers "$scratch/no such file" < <(printf x)
expect 'A2 is told before F1' 2 '' 'ssign: A2'
printf 'x\n' >"$file"
run review --answers "$file" < <(printf x)
expect 'A1 is told before F1' 2 '' 'ssign: A1 1'
run review --answers "$file" <"$root"
expect 'A1 is told before F3' 2 '' 'ssign: A1 1'
run review --answers "$answers" < <(printf x)
expect 'good answers, and F1' 2 '' 'ssign: F1 0'
run review --answers </dev/null
expect 'no word behind --answers' 2 '' 'SOME TEXT'

finish
