#!/usr/bin/env bash
# What the verdict of `ssign-keys verify` claims: logs that were really signed and then damaged so that it could claim more
# than is known; what is shown of long lists; and likely pairs of a missing number and an unlisted message.
# shellcheck source=tests/lib.sh
. "$(dirname -- "$0")/lib.sh"
need_program
keys_program=$root/tools/ssign-keys
need_cryptography
export SSIGN=$program
cd -- "$scratch" || exit 1
mkdir passing made made/keys other
export TMPDIR=$scratch/passing
"$keys_program" make made/keys
"$keys_program" make other
# sign NAME OPTION..: signs the messages of standard input, one a line, into the file NAME.
sign() {
    "$keys_program" sign --key made/keys/private-key.pem --host gate --app signer --rsid 1 --lines "${@:2}" - >"$1"
}
sign made/signed --count 4 <"$root/examples/signed/ten-messages.log"
if python3 -B "$root/tests/hostile_verdicts.py" made "$keys_program" >said 2>&1; then
    tell 'no verdict claims more than is known' ''
else
    tell 'no verdict claims more than is known' "$(sed 's/^/    /' said)"
fi
echo "$name: $(tail -n 1 said)"

# verify ARG..: runs `ssign-keys verify` as `run` does the program.
verify() {
    timeout "$patience" "$keys_program" verify "$@" >out 2>err
    status=$?
}
# says WHAT STATUS LINE..: the last run ended so, complained of nothing, and each LINE stands in its output.
says() {
    local what=$1 wanted=$2 line fault=''
    [[ $status == "$wanted" ]] || fault+="    status $status, and not $wanted"$'\n'
    [[ ! -s err ]] || fault+="    stderr: $(head -c 300 err | cat -v)"$'\n'
    for line in "${@:3}"; do
        grep -Fqx -e "$line" out || fault+="    no line: $line"$'\n'
    done
    [[ -z $fault ]] || fault+="$(head -c 3000 out | cat -v)"
    tell "$what" "$fault"
}
key=(--key made/keys/public-key.pem)

# ---- what ends in a sentence of its own
verify "${key[@]}" made/signed
says 'nothing was done to the log' 0 'Verdict: All 10 announced messages are present and unchanged, and each other stored message is a verified block.'
holds 'the verdict is the last line' grep -q '^Verdict: ' <(tail -n 1 out)
holds 'a short text has it once' test "$(grep -c '^Verdict: ' out)" = 1
seq -f '<13>1 - gate app - - - message %.0f' 11000 | sign long --count 99
python3 -B - "$root" <<'END'
import sys
sys.path.insert(0, sys.argv[1] + "/tests")
from review_runs import frame, read_frames
stored = read_frames(open("long", "rb").read())[0]
blocks = [it for it in stored if b"[ssign" in it]
open("stored", "wb").write(b"".join(frame(it + b"\n" if it in blocks[-1003:] else it) for it in stored))
# each block of 1,003 copies is broken in front of the log that is whole
many = [blocks[-1] + b"\r"] * 1003
open("broken", "wb").write(b"".join(map(frame, [b"<13>1 - - - - - - x"] * 12 + many)))
END
verify "${key[@]}" broken
holds 'a count of four digits has a comma' grep -qF \
    ' 1,003 messages hold "[ssign" but can'\''t be read as blocks: the first at place 12, M8 at its last octet; usually a CR or LF was added when the log was stored. ' out

# ---- a wrong key over a long log: a few lines, the verdict in front of lists and after them
verify --key other/public-key.pem long
holds 'a wrong key: status 1' test "$status" = 1
holds 'a wrong key: a few lines' test "$(wc -l <out)" -le 40
# so many certificate blocks stand in front, then 99 messages and a block in turn; ten messages are shown
front=$("$program" inspect <long | grep -c '^certificate ')
runs="$((front + 10)) to $((front + 98))"
for run in 1 2 3 4 5 6 7 8 9; do
    runs+=", $((front + 100 * run)) to $((front + 100 * run + 98))"
done
holds 'a wrong key: how many follow' grep -qFx "  and 10,990 more, at places $runs and 102 more runs up to $((front + 11110))" out
verify --key other/public-key.pem --json long
holds 'a wrong key: the JSON has each message' test "$(grep -c '^{"line":"unlisted",' out)" = 11000
verify --key other/public-key.pem --raw --findings long
holds 'a wrong key: so has the report' test "$(grep -c '^unlisted ' out)" = 11000
holds 'a wrong key: what a report cannot say stands beside it' cmp err <(printf 'ssign-keys: %s\n' \
    "the key that you gave isn't the one that its signer states (SHA-256 $(openssl pkey -pubin -in made/keys/public-key.pem -outform DER | sha256sum | cut -d ' ' -f 1))" \
    "Nothing in this log is shown to be authentic. Either you gave the wrong key, or the log isn't as it was signed: anybody can write one that states another key.")
python3 -B - "$root" <<'END'
import sys
sys.path.insert(0, sys.argv[1] + "/tests")
from review_runs import frame, read_frames
stored = read_frames(open("long", "rb").read())[0]
# each second message is taken out, so that as many runs of one number are missing
messages = [it for it in stored if b"[ssign" not in it]
gone = set(messages[1::2])
open("halved", "wb").write(b"".join(frame(it) for it in stored if it not in gone))
END
verify "${key[@]}" halved
says 'many runs of missing numbers' 1 '    missing: number 2' '    missing: number 20' \
    '    and 5,490 more runs of missing numbers (5,490 numbers)' '    numbers 1 to 11000: 5,500 listed, 5,500 missing' \
    'Verdict: FINDINGS: of 11,000 announced messages 5,500 are present and unchanged, 5,500 are missing.'
holds 'many runs of missing numbers: the first lines name three' cmp <(sed 6q out) <(printf '%s\n' "$(tail -n 1 out)" 'The longest runs of each kind:' \
    '  missing: number 2' '  missing: number 4' '  missing: number 6' '  and 5,497 more, none of them longer')
holds 'many runs of missing numbers: no eleventh' test "$(grep -c '^    missing: ' out)" = 10

# 12 sessions that the counters name, and of which no block is here: number N has N messages
for rsid in $(seq 12); do counted+=("h gone - $rsid 1" "h gone - $rsid 0 0 $((rsid + 1))"); done
counters_of "${counted[@]}" >counters
verify "${key[@]}" --counters counters made/signed
says 'sessions that are gone' 1 'Session: HOSTNAME h, APP-NAME gone, PROCID -, RSID 12'
holds 'sessions that are gone: the longest stand before the list' cmp <(sed 6q out) <(printf '%s\n' "$(tail -n 1 out)" 'The longest runs of each kind:' \
    '  gone: h gone - 12: 12 messages and 1 signature block of it, by the counters' '  gone: h gone - 11: 11 messages and 1 signature block of it, by the counters' \
    '  gone: h gone - 10: 10 messages and 1 signature block of it, by the counters' '  and 9 more, none of them longer')
holds 'sessions that are gone: what is missing of them is no other kind' test "$(grep -c '^  missing up to' out)" = 0
counters_of "${counted[@]:22}" >counters
verify "${key[@]}" --counters counters made/signed
holds 'one session that is gone: in a short text its list says it' test "$status.$(grep -c '^The longest' out).$(grep -c '^  state: absent' out)" = 1.0.1

# 30 sessions under a stranger's key, of which ten are shown, and one that is clean
for rsid in $(seq 30); do
    "$keys_program" sign --key other/private-key.pem --host gate --app stranger --rsid "$rsid" --lines - <<<'<13>1 - - - - - - x'
done >strangers
cat made/signed strangers >both
verify "${key[@]}" both
says 'many sessions' 1 'And 20 more sessions: untrusted; it states no key that you trust; its signatures were ignored'
holds 'many sessions: ten of them' test "$(grep -c '^  state: untrusted; ' out)" = 10
holds 'many sessions: a long text' test "$(wc -l <out)" -gt 40
holds 'a long text begins with the verdict, and ends with it' cmp <(head -n 1 out) <(tail -n 1 out)
holds 'a long text: it is the verdict' grep -q '^Verdict: FINDINGS: of 10 announced messages 10 are present and unchanged; 30 stored ' <(head -n 1 out)
verify "${key[@]}" --findings both
holds 'findings: the clean session is left out' test "$(grep -c ', APP-NAME signer,' out)" = 0
holds 'findings: the others are there' test "$(grep -c ', APP-NAME stranger,' out)" = 10
holds 'findings: no order, no counts' test "$(grep -c 'rise with their numbers\|^Stored messages' out)" = 0
verify "${key[@]}" --findings made/signed
says 'findings of a clean log' 0 'Verdict: All 10 announced messages are present and unchanged, and each other stored message is a verified block.' \
    "The verdict doesn't cover anything sent after the last signature block in this log."
holds 'findings of a clean log: nothing else' test "$(wc -l <out)" = 2
verify "${key[@]}" --findings --json made/signed
holds 'findings as JSON: no listed message' test "$(grep -c '"line":"ok"' out)" = 0
holds 'findings as JSON: the verdict counts them' grep -q '"listed":10,' out
verify "${key[@]}" --findings --raw made/signed
holds 'findings of the report: no ok line' cmp out <(printf '%s\n' 'session gate signer - 1 joined' "end $(timeout "$patience" "$program" inspect <made/signed | tail -n 1 | cut -d ' ' -f 2)")

# ---- likely pairs
text=$(head -c 1900 /dev/zero | tr '\0' t)
{ seq -f '<13>1 - gate app - - - message %.0f' 4 && printf '<13>1 - gate app - - - %s end\n' "$text" && seq -f '<13>1 - gate app - - - message %.0f' 6 9; } |
    sign long-text --count 9
LC_ALL=C sed 's/t end/t END/' long-text >stored
verify "${key[@]}" stored
place=$(grep -o '^  place [0-9]*' out)
place=${place##* }
says 'a change at the end of a long message is seen' 1 \
    "  missing number 5 of gate signer - 1, SG 0, SPRI 0: after number 4 at place $((place - 1)), before number 6 at place $((place + 1))" \
    "    likely place $place: <13>1 - gate app - - - $text END"
holds 'likely is called likely' grep -q '^Likely pairs ' out
# the place of number 1, and those of 6 and 7, in front of which a signature block stands
one=$("$program" inspect <made/signed | grep -c '^certificate ')
six=$((one + 6)) seven=$((one + 7))
# pairs WHAT EDIT LIKELY..: after an edit of the lines of the signed log, these numbers and places are likely pairs.
pairs() {
    python3 -B "$root/tests/verdicts.py" lines made/signed | sed -n -e '/\[ssign/p' -e '/\[ssign/!{' -e "$2" -e 'p' -e '}' >stored.lines
    verify "${key[@]}" --lines stored.lines
    holds "$1" cmp <(grep -o '^  missing number[^:]*\|^    likely place [0-9]*' out | sed 's/ of gate.*//') <(printf '%s' "${@:3}")
}
pairs 'one message changed' 's/name=mallory/name=gregory/' $'  missing number 6\n' "    likely place $six"$'\n'
pairs 'a message changed and the next taken out' 's/name=mallory/name=gregory/;/became root/d' $'  missing numbers 6 to 7 (2 messages)\n' "    likely place $six"$'\n'
pairs 'two neighbours changed' 's/name=mallory/name=gregory/;s/became root/became toor/' $'  missing number 6\n' "    likely place $six"$'\n' $'  missing number 7\n' "    likely place $seven"$'\n'
pairs 'a message taken out' '/name=mallory/d'
pairs 'the first message changed' '/^<[0-9]*>1 2026-01-15T09:12:44/s/.$/_/' $'  missing number 1\n' "    likely place $one"$'\n'
# number 4 is changed, and the block for 5 to 8 is gone: any of the five unlisted messages may be that of any of the five numbers
python3 -B "$root/tests/verdicts.py" lines made/signed |
    awk '/\[ssign/ { if (!/GBC="1"/) print; next } { if (++count == 4) sub(/.$/, "_"); print }' >stored.lines
verify "${key[@]}" --lines stored.lines
holds 'a missing number beside unannounced ones' grep -Fqx '    missing: number 4' out
holds 'a missing number beside unannounced ones: these' grep -q '^    unannounced: numbers 5 to 8 ' out
holds 'a missing number beside unannounced ones: no pair is likely' test "$(grep -ci likely out)" = 0
python3 -B "$root/tests/verdicts.py" lines made/signed | sed '/\[ssign/!s/$/_/' >stored.lines
verify "${key[@]}" --lines stored.lines
says 'each message changed: no neighbour' 1 '  missing number 1 of gate signer - 1, SG 0, SPRI 0: no other number of this group is listed'
{ cat made/signed && frame '<13>1 - - - - - - behind'; } >stored
verify "${key[@]}" stored
holds 'an unlisted message alone is no pair' test "$(grep -c '^Likely' out)" = 0
holds 'no passing file is left' test -z "$(ls -A -- "$TMPDIR")"
finish
