#!/usr/bin/env bash
# Logs of 100,000 signed messages, ten in a block: a whole one is clean, and in a harmed one the harm is told at its place
# and its number, and nothing else. Number N stands at the place N + (N - 1) / 10, after one block and those before it.
# shellcheck source=tests/lib.sh
. "$(dirname -- "$0")/lib.sh"
need_program

made=$scratch/made
mkdir -- "$made"

# make OPTION..: a log, its answers and the report on it in the folder $made.
make() {
    python3 -B "$root/tests/signed_log.py" 100000 "$made" "$@"
}

# told WHAT STATUS LINE..: the review of the log that was made has that status, and these lines beside those that begin
# with `ok`; all of it is the report that was made with the log.
told() {
    local what=$1 wanted=$2
    shift 2
    run review --answers "$made/answers" <"$made/log"
    holds "$what: status $wanted" test "$status" = "$wanted"
    holds "$what: the lines that aren't ok" cmp -- <(grep -v '^ok ' "$scratch/out") <(printf '%s\n' "$@")
    holds "$what: the report that was made with the log" cmp -- "$scratch/out" "$made/report"
}

joined='session gate signer 17 7 joined'
gap='gap gate signer 17 7 0 0'

make
told 'a whole log' 0 "$joined" 'end 110001'
holds 'the last number' test "$(tail -n 2 "$scratch/out" | head -n 1)" = 'ok gate signer 17 7 0 0 100000 109999'
cp -- "$scratch/out" "$scratch/report"
run extract --answers "$made/answers" <"$made/log"
holds 'an extract: status 0' test "$status" = 0
# the messages at the places of the ok lines, in their order, as frames
listed='
import sys
from review_runs import frame, read_frames
messages, _ = read_frames(open(sys.argv[1], "rb").read())
for line in open(sys.argv[2]):
    if line.startswith("ok "):
        sys.stdout.buffer.write(frame(messages[int(line.split()[-1])]))'
holds 'an extract holds the messages of the ok lines' \
    cmp -- "$scratch/out" <(PYTHONPATH=$root/tests python3 -B -c "$listed" "$made/log" "$scratch/report")
run questions <"$made/log"
holds 'the questions: status 0' test "$status" = 0
holds 'the questions are those of the answers that were made with the log' cmp -- "$scratch/out" <(unanswered <"$made/answers")

# The end of the last block is missing
size=$(stat -c %s -- "$made/log")
last=$(($(tail -c 700 -- "$made/log" | sed 's/.*x\([0-9]* <110>\)/\1/' | wc -c)))
mapfile -t behind < <(seq -f 'unlisted %.0f' 109990 109999)
run review --answers "$made/answers" < <(head -c -10 -- "$made/log")
holds 'a torn end: status 1' test "$status" = 1
holds 'a torn end: the last ten messages are no longer announced' \
    cmp -- <(grep -v '^ok ' "$scratch/out") <(printf '%s\n' "$joined" "${behind[@]}" "torn $((size - last))" 'end 110000')

make --change 50000
told 'a changed message' 1 "$joined" "$gap 50000 lost" 'unlisted 54999' 'end 110001'
make --lose 77777
told 'a lost message' 1 "$joined" "$gap 77777 lost" 'end 110000'
make --double 12345
told 'a message twice' 1 "$joined" 'unlisted 13580' 'end 110002'
make --foreign 99999
told 'a foreign message' 1 "$joined" 'unlisted 109999' 'end 110002'
make --change 1 --lose 100000 --double 50001 --foreign 50000
told 'all of it' 1 "$joined" "$gap 1 lost" "$gap 100000 lost" 'unlisted 1' 'unlisted 55000' 'unlisted 55003' 'end 110002'
make --blocks no
told 'no block' 1 "$(seq -f 'unlisted %.0f' 0 99999)" 'end 100000'

make --lines
run review --lines --answers "$made/answers" <"$made/log"
holds 'lines: status 0' test "$status" = 0
holds 'lines: the report that was made with the log' cmp -- "$scratch/out" "$made/report"

finish
