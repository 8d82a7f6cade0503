#!/usr/bin/env bash
# `ssign-keys verify` of a stranger's log takes steps by the length of the log. Counted are the octets of the questions
# and the answers, those of base64 that are read and written, and the programs that are run. Twice the log takes at most
# three times the time, by the least of three measures where others use the processors too.
# shellcheck source=tests/lib.sh
. "$(dirname -- "$0")/lib.sh"
need_program
keys_program=$root/tools/ssign-keys
need_cryptography
mkdir -- "$scratch/passing"
export TMPDIR=$scratch/passing
cd -- "$scratch" || exit 1

# keys ARG..: runs ssign-keys as `run` does the program.
keys() {
    timeout "$patience" "$keys_program" "$@" >"$scratch/out" 2>"$scratch/err"
    status=$?
}

# a program that counts: the octets of its questions, and those of the answers that it is given
cat >counting <<'S'
#!/usr/bin/env bash
ask='' given='' words=()
for it in "$@"; do
    case $it in
    --ask=*) ask=${it#*=} ;;
    --answers=*) given=${it#*=} ;;
    *) words+=("$it") ;;
    esac
done
[[ $ask ]] || exec "$COUNTED" "$@"
rm -f asked given
mkfifo asked given
"$COUNTED" "${words[@]}" --ask=asked --answers=given <&0 &
tee counted.questions <asked >"$ask"
tee counted.answers <"$given" >given
wait $!
S
export COUNTED=$program
chmod +x counting
mkdir one bin
keys make --ver 0121 one
for it in gpg openssl zstd; do
    printf '#!/bin/sh\necho %s >>%q\nexit 1\n' "$it" "$scratch/called" >"bin/$it"
    chmod +x "bin/$it"
done
python3 -B "$root/tests/asked_once.py" authority one/public-key.pem .
# try KIND COUNTS OPTION..: a log of so many, and one of twice as many, and so on. FILE is that of the certificate.
try() {
    local kind=$1 counts=$2 at number size took=() sizes=()
    shift 2
    for at in $counts; do
        python3 -B "$root/tests/linear_logs.py" "$kind" "$at" leaf.der >log
        size=$(stat -c %s log)
        sizes+=("$size")
        rm -f called counted.*
        PATH=$scratch/bin:$PATH timeout "$patience" python3 -B "$root/tests/counted_base64.py" counted.base64 "$root/tools" verify "$@" \
            --ssign ./counting log >out 2>err
        holds "$kind, $at: status 1" test "$?" = 1
        # a block has its octets and its signature in base64, and its names beside that
        holds "$kind, $at: octets of the questions" test "$(stat -c %s counted.questions)" -lt $((5 * size + 1000))
        holds "$kind, $at: octets of the answers" test "$(stat -c %s counted.answers)" -lt $((2 * size + 1000))
        holds "$kind, $at: no other program" test ! -e called
        # each text is looked at, decoded and spelled again, by functions of the library that call one another
        holds "$kind, $at: octets of base64" test "$(<counted.base64)" -lt $((40 * size + 1000))
        mv log "log.$at"
        took+=("$(taken "$at" "$@")")
    done
    for _ in 1 2; do
        ! is_linear || break
        number=0
        for at in $counts; do
            took[number]=$(least "${took[number]}" "$(taken "$at" "$@")")
            number=$((number + 1))
        done
    done
    holds "$kind: ${took[*]} ms for ${sizes[*]} octets" is_linear
}
# taken COUNT OPTION..: how long a verdict on the log of so many takes, in milliseconds.
taken() {
    milliseconds timeout 100 "$keys_program" verify "${@:2}" --ssign "$program" "log.$1"
}
# is_linear: whether each of the times is at most three times the one before it.
is_linear() {
    local number
    for ((number = 1; number < ${#took[@]}; number++)); do
        ((took[number] < 3 * took[number - 1] + 500)) || return 1
    done
}
# least NUMBER NUMBER: the lesser of the two.
least() {
    echo $(($1 < $2 ? $1 : $2))
}
try long '1000 2000' --key one/public-key.pem
try long '1000 2000 4000' --session-key 'h s - 1' one/public-key.pem --max-payload 5M
try trusted '2000 4000' --session-key 'h s - 1' one/public-key.pem
try sessions '2000 4000' --key one/public-key.pem
try sessions '2000 4000' --session-key 'h s - *' one/public-key.pem
try kinds '1000 2000' --key one/public-key.pem --ca ca.pem
try kinds '1000 2000' --ca ca.pem --at-signing-time
# a payload as long as one can be
python3 -B "$root/tests/linear_logs.py" long 4000 >log
keys verify --key one/public-key.pem --json log
holds 'a payload of 4,000,004 octets: it is said' cmp err <(echo 'ssign-keys: 1 payload has more than 65536 octets, the longest 4000004, and is not trusted: --max-payload looks at longer ones')
holds 'a payload of 4,000,004 octets: why its session is untrusted' \
    grep -q '"state":"untrusted".*"why":"its payload is longer than --max-payload allows"' out
keys verify --session-key 'h s - 1' one/public-key.pem --max-payload 5M log
holds 'a payload that may be so long: nothing is said' test ! -s err
holds 'a payload that may be so long: it is trusted' grep -q '^  state: unaccepted' out

# ---- a session of several chunks of questions has one payload, whichever process checks a chunk
mkdir other
keys make --ver 0121 other
seq -f '<13>1 2026-01-01T00:00:00Z h a - - - message %.0f' 300 >messages
for rsid in 1 2 3 4; do
    folder=one
    ((rsid % 2)) || folder=other
    keys sign --key "$folder/private-key.pem" --rsid "$rsid" --host h --app s --count 1 --lines messages
    cat out
done >several
# the first object of the JSON names the time and the options
keys verify --key one/public-key.pem --key other/public-key.pem --json several
tail -n +2 out >right
holds 'several chunks: status' test "$status" = 0
for jobs in 2 3 7; do
    keys verify --key one/public-key.pem --key other/public-key.pem --json --jobs "$jobs" several
    holds "several chunks, by $jobs processes" cmp right <(tail -n +2 out)
done
keys verify --key one/public-key.pem --json several
tail -n +2 out >right
half=$(($(grep -ao '\[ssign\(-cert\)\? VER=' several | wc -l) / 2))
holds "several chunks under one of two keys: $half blocks are verified, as many aren't" test "$half" -gt 600
holds "several chunks under one of two keys: $half blocks are verified" grep -q "\"verified\":$half,.*\"unverified\":$half," right
for jobs in 2 3 7; do
    keys verify --key one/public-key.pem --json --jobs "$jobs" several
    holds "several chunks under one of two keys, by $jobs processes" cmp right <(tail -n +2 out)
done

# ---- what ssign says of a block counts, and nothing that is only spelled like it: VER, RSID and GBC stand in a header
# or in another element besides
keys sign --key one/private-key.pem --ver 0121 --host 'h[ssign' --app 'VER="0111"' --procid 'GBC="99"' --rsid 7 --count 4 \
    --lines "$root/examples/signed/ten-messages.log"
cp out signed
keys verify --session-key 'h[ssign VER="0111" GBC="99" 7' one/public-key.pem --json signed
holds 'names that look like blocks: all is listed' test "$status" = 0
holds 'names that look like blocks: GBC' grep -q '"last":10,"gbc":2,' out
keys verify --session-key '* * * 8' one/public-key.pem --json signed
holds 'a key of another session: nothing is listed' test "$status" = 1
holds 'no passing file is left' test -z "$(ls -A -- "$TMPDIR")"

finish
