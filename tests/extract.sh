#!/usr/bin/env bash
# `extract`: the messages that a review lists, in the order of its report, as frames, and the status of that review; with
# `--unlisted` and `--place` others, with `--lines-out` as lines, and with `--unwrap` the originals of wraps.
# shellcheck source=tests/lib.sh
. "$(dirname -- "$0")/lib.sh"
need_program

log=$root/examples/four-messages.frames
answers=$root/examples/four-messages.answers
long=abcdbcdecdefdefgefghfghighijhijkijkljklmklmnlmnomnopnopq
both="3 abc56 $long"
blocks() {
    tail -c +65 -- "$log"
}

# gives WHAT STATUS FRAMES ARG..: an extract of standard input that is these frames, with no LF after them.
gives() {
    local what=$1 wanted=$2 frames=$3
    shift 3
    run extract "$@"
    holds "$what: status $wanted" test "$status" = "$wanted"
    holds "$what: the frames" cmp -- "$scratch/out" <(printf %s "$frames")
    holds "$what: nothing on standard error" test ! -s "$scratch/err"
}

gives 'two messages before their blocks' 0 "$both" --answers "$answers" <"$log"
gives 'the same behind them' 0 "$both" --answers "$answers" < <(blocks && head -c 64 -- "$log")
gives 'the same in another order, which the numbers settle' 0 "$both" --answers "$answers" \
    < <(frame "$long" && blocks && frame abc)
gives 'a message that stands three times' 1 "$both" --answers "$answers" < <(frame abc && frame abc && cat -- "$log")
gives 'a message that is missing' 1 '3 abc' --answers "$answers" < <(frame abc && blocks)
gives 'a message that nobody signed' 1 "$both" --answers "$answers" < <(frame abd && cat -- "$log")
gives 'a torn end' 1 "$both" --answers "$answers" < <(cat -- "$log" && printf 12)
gives 'no answers' 1 '' <"$log"
gives 'an empty log' 0 '' </dev/null
gives 'messages with octets that are no text' 1 '' < <(printf '3 \000\n]')
gives 'real signatures, and what openssl said of them' 0 \
    "$(while IFS= read -r message; do frame "$message"; done <"$root/examples/signed/ten-messages.log")" \
    --answers "$root/examples/signed/signed.answers" <"$root/examples/signed/signed.frames"
run extract --answers "$answers" <"$log"
cp -- "$scratch/out" "$scratch/extract"
gives 'an extract of an extract, which has no block' 1 '' --answers "$answers" <"$scratch/extract"

# Lines are read, and frames are written
gives 'lines' 0 "$both" --lines --answers "$answers" \
    < <(printf 'abc\n%s\n' "$long" && blocks | sed 's/^142 //; s/\]159 /]\n/' && echo)
gives 'lines, the last one without its LF' 1 '' --lines --answers "$answers" \
    < <(printf 'abc\n%s\n' "$long" && blocks | sed 's/^142 //; s/\]159 /]\n/')

# The messages that nobody signed
unsigned=$scratch/unsigned
{ frame abd && head -c 64 -- "$log" && frame $'two\nlines' && blocks && frame x; } >"$unsigned"
gives 'unlisted messages' 1 $'3 abd9 two\nlines1 x' --answers "$answers" --unlisted <"$unsigned"
gives 'the listed ones of the same log' 1 "$both" --answers "$answers" <"$unsigned"
gives 'no unlisted message' 0 '' --answers "$answers" --unlisted <"$log"
gives 'without answers each ordinary message is unlisted' 1 "$both" --unlisted <"$log"
gives 'an unlisted message of a torn log' 1 '3 abd' --answers "$answers" --unlisted \
    < <(frame abd && cat -- "$log" && printf 12)

# The messages at places
gives 'the first message' 0 '3 abd' --place 0 <"$unsigned"
gives 'a message with a line feed' 0 $'9 two\nlines' --place=3 <"$unsigned"
gives 'a block' 0 "$(blocks | head -c 146)" --place 2 <"$log"
gives 'places in any order, some twice' 0 '3 abd3 abc1 x' --place 6 --place 1 --place 0 --place 6 --place 1 <"$unsigned"
gives 'a place with a needless zero and a sign' 0 '3 abc' --place 001 --place +1 <"$unsigned"
gives 'answers are not asked' 0 '3 abd' --answers "$answers" --place 0 <"$unsigned"
gives 'a place of a torn log' 1 '3 abc' --place 0 < <(frame abc && printf 12)
gives 'a place of lines' 0 '1 b' --lines --place 1 < <(printf 'a\nb\nc\n')

# The messages at the places of a file
places=$scratch/places
# at WHAT STATUS FRAMES PLACES ARG..: an extract by a file of these places.
at() {
    local what=$1 wanted=$2 frames=$3
    printf %b "$4" >"$places"
    shift 4
    gives "by a file: $what" "$wanted" "$frames" --places "$places" "$@"
}
at 'one message' 0 '3 abd' '0\n' <"$unsigned"
at 'places in any order, some twice' 0 '3 abd3 abc1 x' '6\n1\n0\n6\n1\n' <"$unsigned"
at 'no place' 0 '' '' <"$unsigned"
at 'no place of a torn log' 1 '' '' < <(frame abc && printf 12)
at 'no place of an empty log' 0 '' '' </dev/null
at 'a place of a torn log' 1 '3 abc' '0\n' < <(frame abc && printf 12)
at 'a place of lines' 0 '1 b' '1\n' --lines < <(printf 'a\nb\nc\n')
at 'places as lines' 0 $'abd\nx\n' '6\n0\n' --lines-out <"$unsigned"
at 'a block, and answers are not asked' 0 "$(blocks | head -c 146)" '2\n' --answers "$answers" --pinned "$answers" <"$log"
gives 'by a pipe' 0 '3 abd' --places <(echo 0) <"$unsigned"

# As lines
gives 'listed messages as lines' 0 "abc"$'\n'"$long"$'\n' --answers "$answers" --lines-out <"$log"
gives 'unlisted messages as lines' 1 $'abd\n' --answers "$answers" --unlisted --lines-out < <(frame abd && cat -- "$log")
gives 'places as lines' 0 $'abd\nx\n' --place 6 --place 0 --lines-out <"$unsigned"
gives 'lines from lines' 0 $'a\nc\r\n' --lines --lines-out --place 0 --place 2 < <(printf 'a\nb\nc\r\n')
gives 'no message as lines' 0 '' --lines-out </dev/null

# The originals of wraps
wrap='<13>1 - h s - wrapped - |'
wraps=$scratch/wraps
{ frame "${wrap}abc" && frame "$wrap$wrap$long" && frame "$wrap" && frame "$wrap"$'two\nlines' && frame "${wrap/ - |/ [a] |}x" && frame x; } >"$wraps"
all=(--place 0 --place 1 --place 2 --place 3 --place 4 --place 5)
gives 'originals' 0 "$(frame abc && frame "$wrap$long" && frame "$wrap" && frame $'two\nlines' && frame "${wrap/ - |/ [a] |}x" && frame x)" \
    "${all[@]}" --unwrap <"$wraps"
gives 'wraps, without the option' 0 "$(<"$wraps")" "${all[@]}" <"$wraps"
gives 'unlisted originals' 1 '3 abd3 abc' --answers "$answers" --unlisted --unwrap < <(frame abd && frame "${wrap}abc" && cat -- "$log")
gives 'listed messages that are no wraps' 0 "$both" --answers "$answers" --unwrap <"$log"
gives 'originals as lines' 0 $'abc\nx\n' --place 0 --place 5 --unwrap --lines-out <"$wraps"
gives 'a wrap of nothing, as it stands' 0 "${#wrap} $wrap" --place 0 --unwrap < <(frame "$wrap")
run inspect --unwrap < <(frame "$wrap")
expect 'a wrap of nothing, inspected' 0 $'wrapped-unparsed 0 M1 0\nend 1' ''
at 'originals' 0 "$(frame abc && frame x)" '5\n0\n' --unwrap <"$wraps"
gives 'originals from lines' 0 $'abc\nx\n' --lines --place 0 --place 1 --unwrap --lines-out < <(printf '%sabc\nx\n' "$wrap")

# Of a log of 40 MB only the messages at the places are held: the kernel gives the program no address space past 16 MiB.
long_log() {
    python3 -c '
import sys
for i in range(200_000):
    sys.stdout.write("197 " + f"{i:197d}")'
}
# shellcheck disable=SC2016 # for the inner shell
long_log | timeout "$patience" sh -c 'ulimit -v 16384 && exec "$@"' - "$program" extract --place 199999 --place 7 \
    >"$scratch/out" 2>"$scratch/err"
status=${PIPESTATUS[1]}
holds 'two places of a long log, in 16 MiB: status 0' test "$status" = 0
holds 'two places of a long log, in 16 MiB: the frames' cmp -- "$scratch/out" <(printf '197 %197d197 %197d' 7 199999)
holds 'two places of a long log, in 16 MiB: nothing on standard error' test ! -s "$scratch/err"

holds 'logs by a seed' python3 -B "$root/tests/extracts.py" "$program"
holds 'wraps by a seed' python3 -B "$root/tests/unwraps.py" "$program"

# Refusals
refused() {
    local what=$1 complaint=$2
    shift 2
    run extract "$@"
    expect "$what" 2 '' "$complaint"
}
refused 'no digit behind a frame' 'ssign: F1 373' --answers "$answers" < <(cat -- "$log" && printf x)
refused 'a block over --max-len' 'ssign: F2 212' --answers "$answers" --max-len 158 <"$log"
refused 'a block past --max-messages' 'ssign: F5 210' --answers "$answers" --max-messages 3 <"$log"
refused 'an empty line' 'ssign: F9 0' --lines < <(echo)
refused 'a place behind the last' 'ssign: E1 7' --place 7 <"$unsigned"
refused 'the lowest of such places' 'ssign: E1 7' --place 9999999 --place 0 --place 8 --place 7 --place 1 <"$unsigned"
refused 'a place of an empty log' 'ssign: E1 0' --place 0 </dev/null
refused 'a place that the whole part of a torn log has not' 'ssign: E1 1' --place 1 < <(frame abc && printf '3 a')
refused 'a bad log before a place' 'ssign: F1 4' --place 7 < <(printf '1 a1xx')
refused 'a place that is missing before a line that is none' 'ssign: E1 7' --place 3 --place 7 --lines-out <"$unsigned"
refused 'a message of two lines' 'ssign: E2 3' --place 6 --place 3 --lines-out <"$unsigned"
refused 'an unlisted message of two lines' 'ssign: E2 3' --answers "$answers" --unlisted --lines-out <"$unsigned"
refused 'a message that is a line feed' 'ssign: E2 0' --place 0 --lines-out < <(printf '1 \n')
refused 'an original of two lines' 'ssign: E2 3' "${all[@]}" --unwrap --lines-out <"$wraps"
refused 'a place past the end before an original of two lines' 'ssign: E1 6' --place 3 --place 6 --unwrap --lines-out <"$wraps"
for place in 10000000 4294967296 '' x 1.5; do
    run extract --place="$place" <"$log"
    expect "the place '$place'" 2 '' 'SOME TEXT'
done
run extract --unlisted --place 0 <"$log"
expect 'unlisted messages and a place' 2 '' "error: the argument '--unlisted' cannot be used with '--place <N>'"$'\n\n'"Usage: ssign extract [OPTIONS] < FILE"$'\n\n'"For more information, try '--help'."
run extract --unlisted --places "$places" <"$log"
expect 'unlisted messages and a file of places' 2 '' "error: the argument '--unlisted' cannot be used with '--places <FILE>'"$'\n\n'"Usage: ssign extract [OPTIONS] < FILE"$'\n\n'"For more information, try '--help'."
run extract --place 0 --places "$places" <"$log"
expect 'a place and a file of places' 2 '' "error: the argument '--place <N>' cannot be used with '--places <FILE>'"$'\n\n'"Usage: ssign extract [OPTIONS] < FILE"$'\n\n'"For more information, try '--help'."
run extract --unlisted --place 0 --places "$places" <"$log"
expect 'all three' 2 '' "error: the argument '--unlisted' cannot be used with '--place <N>'"$'\n\n'"Usage: ssign extract [OPTIONS] < FILE"$'\n\n'"For more information, try '--help'."
run extract --places "$places" --places "$places" <"$log"
expect 'two files of places' 2 '' 'SOME TEXT'
printf '6\n3\n' >"$places"
refused 'by a file: a message of two lines' 'ssign: E2 3' --places "$places" --lines-out <"$unsigned"
printf '9999999\n0\n8\n7\n' >"$places"
refused 'by a file: the lowest place past the last' 'ssign: E1 7' --places "$places" <"$unsigned"
refused 'by a file: a bad log' 'ssign: F1 4' --places "$places" < <(printf '1 a1xx')
printf '0\n10000000\n' >"$places"
refused 'by a file: a bad line, refused before the answers and the log are read' 'ssign: N1 2' --places "$places" --answers / < <(printf x)
refused 'by a file: a bad line, refused after the known payloads' 'ssign: A2' --places "$places" --pinned / < <(printf x)
printf '0\n1' >"$places"
refused 'by a file: a cut line' 'ssign: N3' --places "$places" < <(printf x)
refused 'by a file: no such file' 'ssign: N2' --places "$scratch/no such file" < <(printf x)
refused 'by a file: a folder' 'ssign: N2' --places / < <(printf x)
list_commands extract
for command in "${commands[@]}"; do
    needed=()
    case $command in
    plan | sign) needed=(--payload '- N' --rsid 1) ;;
    explain) needed=(F1) ;;
    esac
    options=(--unlisted --place=0 --lines-out --unwrap --places=/dev/null)
    # an inspection takes wraps off too, and `sign` writes lines
    [[ $command == inspect ]] && unset 'options[3]'
    [[ $command == sign ]] && unset 'options[2]'
    for option in "${options[@]}"; do
        run "$command" "$option" "${needed[@]}" <"$log"
        expect "$command $option" 2 '' 'SOME TEXT'
    done
done
refused 'a folder as standard input' 'ssign: F3' <"$root"
refused 'no such file of answers, told before the log' 'ssign: A2' --answers "$scratch/no such file" < <(printf x)
refused 'a bad line of answers, told before the log' 'ssign: A1 1' --answers <(echo) < <(printf x)
timeout "$patience" "$program" extract --answers "$answers" <"$log" >/dev/full 2>"$scratch/err"
status=$?
: >"$scratch/out"
expect 'a full device' 2 '' 'ssign: W1'

finish
