#!/usr/bin/env bash
# What the program adds to a refusal where standard error is a terminal: the sentence that `ssign explain` says of the
# code, and what is meant. Without a terminal it adds nothing.
# shellcheck source=tests/lib.sh
. "$(dirname -- "$0")/lib.sh"
need_program

payload='2009-05-03T14:00:39Z K S0VZ'
given=(--payload "$payload" --rsid 1)
log=$scratch/log

cat >"$scratch/on_terminal.py" <<'P'
"""Runs the words with a terminal as standard error alone, and writes what came there to the file of the first word."""
import os, subprocess, sys, tty
ours, theirs = os.openpty()
tty.setraw(theirs)
run = subprocess.Popen(sys.argv[2:], stderr=theirs)
os.close(theirs)
with open(sys.argv[1], "wb") as there:
    try:
        while piece := os.read(ours, 4096):
            there.write(piece)
    except OSError:
        pass
sys.exit(run.wait())
P

# shown ARG..: runs the program on this function's standard input, with a terminal as standard error alone.
shown() {
    timeout "$patience" python3 -B "$scratch/on_terminal.py" "$scratch/err" "$program" "$@" >"$scratch/out"
    status=$?
}

# explained CODE: the sentence of the code.
explained() {
    "$program" explain "$1" </dev/null
}

# refused WHAT REFUSAL REMARK ARG..: two checks of a run over the file `log`, with a terminal and without. REMARK is all
# that stands after the sentence of the code, without the LF at the end.
refused() {
    local what=$1 refusal=$2 remark=$3 code
    shift 3
    code=${refusal%% *}
    shown "$@" <"$log"
    expect "$what" 2 '' "ssign: $refusal"$'\n'"$(explained "$code")${remark:+$'\n'}$remark"
    run "$@" <"$log"
    expect "$what: without a terminal" 2 '' "ssign: $refusal"
}

# both WHAT REFUSAL REMARK ARG..: the same of a review and of a plan.
both() {
    local what=$1 refusal=$2 remark=$3
    shift 3
    refused "review: $what" "$refusal" "$remark" review "$@"
    refused "plan: $what" "$refusal" "$remark" plan "${given[@]}" "$@"
}

gzip='The log is compressed by gzip: hand over its contents, as in zcat FILE | ssign ..'
xz='The log is compressed by xz: hand over its contents, as in xzcat FILE | ssign ..'
zstd='The log is compressed by zstd: hand over its contents, as in zstdcat FILE | ssign ..'
mark='The log begins with a byte order mark, which is no part of a message: leave it out, as in tail -c +4 FILE | ssign ..'
unframed='The log has one message a line: say --lines.'
framed='The log has octet-counted frames: leave --lines out.'

# ---- logs that are read as what they aren't; the marks are those of RFC 1952, of the format of xz, and of RFC 8878
printf '<13>1 - - - - - - a\n' >"$scratch/lines"
gzip -c "$scratch/lines" >"$log"
both 'gzip' 'F1 0' "$gzip"
both 'gzip, read as lines' 'F2 1' "$gzip" --lines --max-len 1
printf '\xfd7zXZ\x00\x00\x04' >"$log"
both 'xz' 'F1 0' "$xz"
both 'xz, read as lines' 'F2 1' "$xz" --lines --max-len 1
printf '\x28\xb5\x2f\xfd\x04\x58' >"$log"
both 'zstd' 'F1 0' "$zstd"
both 'zstd, read as lines' 'F2 1' "$zstd" --lines --max-len 1
printf '\xef\xbb\xbf5 abcde' >"$log"
both 'a byte order mark' 'F1 0' "$mark"
printf '\xef\xbb\xbf\n\n' >"$log"
both 'a byte order mark, read as lines' 'F9 4' "$mark" --lines
cp -- "$scratch/lines" "$log"
both 'lines, read as frames' 'F1 0' "$unframed"
both 'lines, read as lines' 'F2 2' '' --lines --max-len 2
for digit in 0 1 9; do
    printf '%d abc\n\n' "$digit" >"$log"
    both "frames from $digit, and an empty line" 'F9 6' "$framed" --lines
    both "frames from $digit, and a line too long" 'F2 1' "$framed" --lines --max-len 1
    printf '%d abc\n%d ' "$digit" "$digit" >"$log"
    both "frames from $digit, and a line too many" 'F5 6' "$framed" --lines --max-messages 1
    refused "plan: frames from $digit, and a torn line" 'P1 6' "$framed" plan --lines "${given[@]}"
done
for first in '/' ':'; do
    printf '%s\n\n' "$first" >"$log"
    both "$first, an octet beside the digits" 'F9 2' '' --lines
done

# what isn't such a mark, or only begins as one
for octets in x '\x1f' '\x1f\x8a' '\x8b\x1f' '\xfd7zXZ' '\xfd7zXZ\x01' '\x28\xb5\x2f' '\xef\xbb' '\xef\xbb\xbe'; do
    # shellcheck disable=SC2059 # octets
    printf "$octets" >"$log"
    both "the octets $octets" 'F1 0' ''
done
printf '3 abc<' >"$log"
both 'a later <' 'F1 5' ''
printf '3 abc\x1f\x8b' >"$log"
both 'a later mark' 'F1 5' ''

# an octet at a time, as a slow pipe gives them
python3 -B -c '
import os, sys, time
for octet in bytes([0xfd, 0x37, 0x7a, 0x58, 0x5a, 0]):
    os.write(1, bytes([octet]))
    time.sleep(0.02)
' | shown review --lines --max-len 5
expect 'an octet at a time' 2 '' "ssign: F2 5"$'\n'"$(explained F2)"$'\n'"$xz"

# ---- other refusals of a run
printf '3 ab' >"$log"
refused 'plan: a torn log' 'P1 0' '' plan "${given[@]}"
printf '2 ab1 a' >"$log"
both 'a message too many' 'F5 4' '' --max-messages 1
printf '3 abc' >"$log"
refused 'a message that is none of RFC 5424' 'O2 0' '' plan "${given[@]}"
refused 'a wrap that is too long' 'O11 0' '' plan --wrap --max-len 3 "${given[@]}"
printf '2 a\n' >"$log"
refused 'a message that is no line' 'E2 0' '' sign --lines-out "${given[@]}"
printf '<13>1 - - - - - - a\n' >"$log"
refused 'no seal line' 'O6' '' sign --lines "${given[@]}"
# Python itself can't begin on a folder
timeout "$patience" python3 -B "$scratch/on_terminal.py" "$scratch/err" bash -c 'exec "$1" review <"$2"' _ "$program" "$root" \
    >"$scratch/out" </dev/null
status=$?
expect 'a folder as standard input' 2 '' "ssign: F3"$'\n'"$(explained F3)"
timeout "$patience" python3 -B "$scratch/on_terminal.py" "$scratch/err" "$program" review >/dev/full </dev/null
status=$?
: >"$scratch/out"
expect 'a full disk' 2 '' "ssign: W1"$'\n'"$(explained W1)"

# ---- the answers file
: >"$log"
printf 'trust\n' >"$scratch/answers"
refused 'review: a line that is no answer' 'A1 1' "The answers file is --answers \"$scratch/answers\"." review --answers "$scratch/answers"
refused 'sign: a line that is no answer' 'A1 1' "The answers file is --answers \"$scratch/answers\"." \
    sign "${given[@]}" --answers "$scratch/answers"
refused 'no such file' 'A2' 'The answers file is --answers "no\n\u{1b}[31m file".' extract --answers $'no\n\e[31m file'
refused 'a folder' 'A2' 'The answers file is --answers "/".' sign "${given[@]}" --answers /

# ---- the file of known payloads
refused 'counters: a line that is no known payload' 'A1 1' "The file of known payloads is --pinned \"$scratch/answers\"." \
    counters --pinned "$scratch/answers" --answers /
refused 'a folder of known payloads' 'A2' 'The file of known payloads is --pinned "/".' questions --pinned /

# ---- the places files
printf '0\n00\n' >"$scratch/places"
refused 'extract: a line that is no place' 'N1 2' "The places file is --places \"$scratch/places\"." extract --places "$scratch/places"
refused 'inspect: a line that is no place' 'N1 2' "The places file is --facts \"$scratch/places\"." inspect --json --facts "$scratch/places"
printf '0\n1' >"$scratch/places"
refused 'a cut line of places' 'N3' "The places file is --places \"$scratch/places\"." extract --places "$scratch/places" --answers /
refused 'a folder of places' 'N2' 'The places file is --facts "/".' inspect --json --facts /

# ---- the file of the questions, and the answers after them
refused 'no file for the questions' 'Q1' 'The file of the questions is --ask "/".' review --ask / --answers /
refused 'a folder of answers after the questions' 'A2' 'The answers file is --answers "/".' \
    review --ask "$scratch/asked" --answers /
refused 'a line that is no answer, after the questions' 'A1 1' "The answers file is --answers \"$scratch/answers\"." \
    review --ask "$scratch/asked" --answers "$scratch/answers"

# ---- the counters files of a review
printf 'count\n' >"$scratch/counters"
refused 'review: a bad line of the counters' 'C1 1' "The counters file is --counters \"$scratch/counters\"." review --counters "$scratch/counters"
refused 'review: a bad line of the first counters' 'C1 1' "The counters file is --from \"$scratch/counters\"." \
    review --from "$scratch/counters" --counters /
refused 'review: a folder of first counters' 'C2' 'The counters file is --from "/".' review --counters "$scratch/counters" --from /

# ---- the counters file of an originator that goes on
counters_of '- - - 1 3' '- - - 1 1 13 5' >"$scratch/counters"
for command in plan 'plan --ahead' sign; do
    # shellcheck disable=SC2086 # a command and a flag
    {
        refused "$command: another group" 'C6 2' "The counters file is --resume \"$scratch/counters\"." \
            $command "${given[@]}" --resume "$scratch/counters"
        refused "$command: no counter of the session" 'C5' "The counters file is --resume \"$scratch/counters\"." \
            $command "${given[@]}" --host h --resume "$scratch/counters"
        refused "$command: a folder of counters" 'C2' 'The counters file is --resume "/".' $command "${given[@]}" --resume /
    }
done

# ---- the texts of options
out_of_form() {
    local option=$1 text=$2 printed=$3 hint=$4 command
    shift 4
    for command in plan sign; do
        refused "$command: $option '$text'" 'P2' "The option is $option $printed.${hint:+$'\n'}$hint" "$command" "$@"
    done
}
hint="--payload wants the text of the payload block, not the name of a file: say --payload \"\$(cat keys/payload)\"."
# shellcheck disable=SC2016 # a text
for text in keys/payload x '' '$(cat'; do
    out_of_form --payload "$text" "\"$text\"" "$hint" --rsid 1 --payload "$text"
done
out_of_form --payload 'no payload' '"no payload"' '' --rsid 1 --payload 'no payload'
out_of_form --payload $'a\tb' '"a\tb"' "$hint" --rsid 1 --payload $'a\tb'
for option in stamp groups host app procid msgid; do
    out_of_form "--$option" 'a b' '"a b"' '' "${given[@]}" "--$option" 'a b'
    out_of_form "--$option" $'\e]0;\a' '"\u{1b}]0;\u{7}"' '' "${given[@]}" "--$option" $'\e]0;\a'
done
out_of_form --host "$(printf 'h%.0s' {1..256})" "\"$(printf 'h%.0s' {1..256})\"" '' "${given[@]}" --host "$(printf 'h%.0s' {1..256})"
out_of_form --app "$(printf 'a%.0s' {1..49})" "\"$(printf 'a%.0s' {1..49})\"" '' "${given[@]}" --app "$(printf 'a%.0s' {1..49})"
# the first of several, in this order
order=(payload stamp groups host app procid msgid)
for ((first = 0; first < 7; first++)); do
    words=(--rsid 1)
    ((first)) && words+=(--payload "$payload")
    for ((option = 6; option >= first; option--)); do
        words+=("--${order[option]}" 'a b')
    done
    out_of_form "--${order[first]}" 'a b' '"a b"' '' "${words[@]}"
done

# ---- what isn't refused, and mistakes in the command line
shown review <"$root/examples/torn.frames"
expect 'a verdict has no words' 1 'SOME TEXT' ''
shown explain gap </dev/null
expect 'nor has an explanation' 0 'SOME TEXT' ''
for words in '' 'review x' 'review --max-len -1' 'explain nothing' 'explain'; do
    # shellcheck disable=SC2086 # words
    shown $words </dev/null
    mv -- "$scratch/err" "$scratch/there"
    # shellcheck disable=SC2086 # words
    run $words </dev/null
    holds "the words '$words' are a mistake of the same text on a terminal" cmp -- "$scratch/there" "$scratch/err"
    holds "the words '$words' are a mistake" test "$status" = 2
done

finish
