#!/usr/bin/env bash
# `carry`: what the review of the next log needs of a log, as frames, and its status. Logs by a seed and chains of nights are
# in tests/nights.sh.
# shellcheck source=tests/lib.sh
. "$(dirname -- "$0")/lib.sh"
need_program

log=$root/examples/four-messages.frames
answers=$root/examples/four-messages.answers
long=abcdbcdecdefdefgefghfghighijhijkijkljklmklmnlmnomnopnopq
message() {
    head -c 64 -- "$log"
}
certificate() {
    tail -c +65 -- "$log" | head -c 146
}
signature() {
    tail -c +211 -- "$log"
}

# gives WHAT STATUS FILE ARG..: what is carried over of standard input is what FILE holds.
gives() {
    local what=$1 wanted=$2 file=$3
    shift 3
    run carry "$@"
    holds "$what: status $wanted" test "$status" = "$wanted"
    holds "$what: the frames" cmp -- "$scratch/out" "$file"
    holds "$what: nothing on standard error" test ! -s "$scratch/err"
}

gives 'a clean log: its certificate block' 0 <(certificate) --answers "$answers" <"$log"
gives 'a certificate block that stands three times' 0 <(certificate) --answers "$answers" < <(certificate && cat -- "$log" && certificate)
gives 'a message is missing: the block and the other message' 0 <(frame abc && certificate && signature) --answers "$answers" \
    < <(frame abc && certificate && signature)
gives 'its block stands twice' 0 <(frame abc && certificate && signature && signature) --answers "$answers" \
    < <(frame abc && certificate && signature && signature)
gives 'another message is there' 0 <(frame abd && frame "$long" && certificate && signature) --answers "$answers" \
    < <(frame abd && frame "$long" && certificate && signature)
gives 'a message that nobody signed' 0 <(certificate && frame abd) --answers "$answers" < <(cat -- "$log" && frame abd)
gives 'two equal messages, of which one is signed' 0 <(frame abc && certificate) --answers "$answers" \
    < <(message && frame abc && certificate && signature)
gives 'no certificate block: all that is there' 0 <(message && signature) --answers "$answers" < <(message && signature)
gives 'no answers: all that is there' 0 "$log" <"$log"
gives 'a block that is refused' 0 <(certificate) --answers "$answers" \
    < <(cat -- "$log" && signature | sed 's/GBC="0"/GBC="1"/')
gives 'a spoilt block' 0 <(certificate) --answers "$answers" < <(cat -- "$log" && signature | sed 's/GBC="0"/GBC="x"/')
gives 'a message with a line feed' 0 <(certificate && frame $'two\nlines') --answers "$answers" \
    < <(cat -- "$log" && frame $'two\nlines')
gives 'an empty log' 0 /dev/null </dev/null
signed=$root/examples/signed/signed
gives 'real signatures: both certificate blocks' 0 <("$program" extract --place 0 --place 1 <"$signed.frames") \
    --answers "$signed.answers" <"$signed.frames"

# A log that breaks off: what is whole of it, and another status
gives 'a torn end' 1 <(certificate) --answers "$answers" < <(cat -- "$log" && printf 12)
gives 'a torn block' 1 <(message && certificate) --answers "$answers" < <(head -c 300 -- "$log")
gives 'lines' 0 <(certificate && frame abd) --lines --answers "$answers" \
    < <(printf 'abc\n%s\n' "$long" && certificate | tail -c +5 && echo && signature | tail -c +5 && printf '\nabd\n')
gives 'lines, the last one without its LF' 1 <(certificate) --lines --answers "$answers" \
    < <(printf 'abc\n%s\n' "$long" && certificate | tail -c +5 && echo && signature | tail -c +5 && printf '\nabd')

# Two nights, as docs/user/how-to/archives.md has them: a message comes late
cd -- "$scratch" || exit 1
: >carried
cp -- "$answers" answers
carry_on() {
    cat carried - >night
    "$program" review --answers answers <night >report
    "$program" carry --answers answers <night >carried.new && mv carried.new carried
}
carry_on < <(frame abc && certificate && signature)
holds 'the first night has a gap' grep -qx 'gap h s - 1 0 0 2 lost' report
carry_on < <(frame "$long")
holds 'the second night lists both' test "$(grep -c '^ok ' report)" = 2
holds 'nothing is left but the certificate block' cmp -- carried <(certificate)
carry_on < <(printf '9 abc')
holds 'a night that breaks off leaves what was carried' cmp -- carried <(certificate)
cd -- "$root" || exit 1

# Refusals
refused() {
    local what=$1 complaint=$2
    shift 2
    run carry "$@"
    expect "$what" 2 '' "$complaint"
}
refused 'no digit behind a frame' 'ssign: F1 373' --answers "$answers" < <(cat -- "$log" && printf x)
refused 'a block over --max-len' 'ssign: F2 212' --answers "$answers" --max-len 158 <"$log"
refused 'a block past --max-messages' 'ssign: F5 210' --answers "$answers" --max-messages 3 <"$log"
refused 'an empty line' 'ssign: F9 0' --lines < <(echo)
refused 'a folder as standard input' 'ssign: F3' <"$root"
refused 'no such file of answers, told before the log' 'ssign: A2' --answers "$scratch/no such file" < <(printf x)
refused 'a bad line of answers, told before the log' 'ssign: A1 1' --answers <(echo) < <(printf x)
for option in --json --findings --whole --tally --unlisted --place=0 --lines-out "--counters=$scratch/x" "--pinned=$answers"; do
    run carry "$option" <"$log"
    expect "$option" 2 '' 'SOME TEXT'
done
timeout "$patience" "$program" carry --answers "$answers" <"$log" >/dev/full 2>"$scratch/err"
status=$?
: >"$scratch/out"
expect 'a full device' 2 '' 'ssign: W1'

finish
