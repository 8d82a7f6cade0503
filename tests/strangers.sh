#!/usr/bin/env bash
# Questions about the log of a stranger: each payload once, payloads that are long, and certificates for each of which
# another program would be run. What `ssign-keys answer` answers of them is what it answers of the plain questions.
# shellcheck source=tests/lib.sh
. "$(dirname -- "$0")/lib.sh"
need_program
export SSIGN=$program
keys_program=$root/tools/ssign-keys
need_cryptography
mkdir -- "$scratch/passing"
export TMPDIR=$scratch/passing
cd -- "$scratch" || exit 1

# keys ARG..: runs ssign-keys as `run` does the program.
keys() {
    timeout "$patience" "$keys_program" "$@" >"$scratch/out" 2>"$scratch/err"
    status=$?
}
# make ARG..: runs asked_once.py.
make() {
    python3 -B "$root/tests/asked_once.py" "$@"
}

# ---- each payload once: a log of six sessions by two keys, with copies of blocks, and one payload in two of them
mkdir one two
keys make --ver 0121 one
keys make --ver 0121 two
ten=$root/examples/signed/ten-messages.log
for it in 'one a 1' 'two b 1' 'one c 1' 'one d 2' 'two e 3' 'one f 1'; do
    read -r key host copies <<<"$it"
    keys sign --key "$key/private-key.pem" --ver 0121 --payload "$(<"$key/payload")" --host "$host" --rsid 1 --count 3 \
        --copies "$copies" --lines "$ten"
    cat out >>log
done
run questions <log
cp out plain
make once <plain >short
holds 'each payload stands once' test "$(grep -c ^payload short)" = 2
holds 'and in the plain questions often' test "$(wc -l <plain)" -gt 40
for jobs in 1 3; do
    for given in 'one/public-key.pem' 'two/public-key.pem' 'one/public-key.pem two/public-key.pem' '* - - 1'; do
        read -r -a words <<<"$given"
        [[ $given != '*'* ]] || words=(--session-key "$given" one/public-key.pem)
        keys answer --jobs "$jobs" "${words[@]}" <plain
        cp out right
        wanted=$status
        keys answer --jobs "$jobs" "${words[@]}" <short
        holds "the answers, by $jobs processes, ${words[0]}" cmp right out
        holds "the status, by $jobs processes, ${words[0]}" test "$status" = "$wanted"
    done
    for ((count = 0; count < 20; count++)); do
        cat plain
    done >many
    keys answer --jobs "$jobs" one/public-key.pem <many
    cp out right
    keys answer --jobs "$jobs" one/public-key.pem < <(make once <many)
    holds "many of them, by $jobs processes" cmp right out
done
holds 'some hold' test -s right
keys answer one/public-key.pem < <(head -c -1 short)
holds 'a last line without LF' test "$(wc -l <out)" -gt 10
keys answer one/public-key.pem < <(head -n 1 short)
expect 'a payload, and no question' 0 '' ''
count=0
while IFS=$'\t' read -r what text said; do
    count=$((count + 1))
    keys answer one/public-key.pem < <(printf '%s\n' "${text//|/$'\n'}")
    expect "wrong: $what" 2 '' "ssign-keys: $said"
done < <(make wrong)
holds 'each wrong text was tried' test "$count" = 32
run questions --once <log
holds 'the program writes them so' cmp short out

# ---- long payloads
long_said() {
    printf 'ssign-keys: 1 payload has more than %s octets, the longest %s, and is not trusted: --max-payload looks at longer ones' "$@"
}
session=(--session-key 'h s - 1' one/public-key.pem)
make long 65536 3 >asked
keys answer "${session[@]}" <asked
holds 'the longest payload: it is trusted' test "$status.$(wc -l <out).$(wc -c <err)" = 0.1.0
make long 65540 3 >asked
keys answer "${session[@]}" <asked
expect 'four octets more' 1 '' "$(long_said 65536 65540)
ssign-keys: 0 of 1 payloads are trusted"
keys answer "${session[@]}" --max-payload 65540 <asked
holds 'four octets more, that may be' test "$status.$(wc -l <out).$(wc -c <err)" = 0.1.0
keys answer "${session[@]}" --max-payload 65539 <asked
expect 'four octets more, that may not be' 1 '' "$(long_said 65539 65540)
ssign-keys: 0 of 1 payloads are trusted"
keys answer "${session[@]}" --max-payload 9 < <(sed 's/^payload 0 .*/payload 0 LSBVIEFBQUE=/' asked)
holds 'a payload of eight octets' test "$status.$(wc -l <out)" = 0.1
for it in '' 0 -1 1x ٣; do
    keys answer "${session[@]}" --max-payload="$it" <asked
    holds "no size '$it': status 2" test "$status" = 2
    holds "no size '$it': nothing is answered" test ! -s out
done
# the longest payload that there is, and 20,000 blocks: once, and in little memory
make long 99999999 20000 >asked
(ulimit -v 700000 && exec timeout "$patience" "$keys_program" answer "${session[@]}" <asked >out 2>err)
status=$?
expect 'a payload of 99,999,999 octets and 20,000 blocks' 1 '' "$(long_said 65536 99999999)
ssign-keys: 0 of 1 payloads are trusted"
rm -f asked

# ---- a payload of another key: nothing is computed with its numbers
holds 'only the numbers of a trusted key are computed with' python3 -B - "$root/tools" one/public-key.pem plain "$program" <<'P'
import argparse, sys
tools, key, asked, program = sys.argv[1:]
sys.path.insert(0, tools)
from ssign_keys import answer, describer, keys, trust
parser = argparse.ArgumentParser()
answer.add_arguments(parser)
given = trust.Trust.from_arguments(parser.parse_args([key]))
used, check, fault = set(), keys.PublicKey.is_signature, keys.key_fault
keys.PublicKey.is_signature = lambda self, *words: used.add(self.numbers) or check(self, *words)
keys.key_fault = lambda *numbers: used.add(keys.Numbers(*numbers)) or fault(*numbers)
with open(asked, "rb") as file, describer.Describer(program) as described:
    held = list(answer.answers(file, given, 1, described))
with open(key, "rb") as file:
    sys.exit(not held or used != {it.numbers for it in keys.read_pem_keys(key, file.read())})
P

# ---- other programs: what they may take in all
holds 'processes and seconds' make budget "$root/tools"
if command -v openssl >/dev/null && make authority one/public-key.pem . 2>said; then
    mkdir bin
    # an openssl that finds each certificate right, and counts
    printf '#!/bin/sh\necho x >>%q\n' "$scratch/called" >bin/openssl
    chmod +x bin/openssl
    make stamps leaf.der 1100 >asked
    for jobs in 1 3; do
        rm -f called
        PATH=$scratch/bin:$PATH keys answer --ca ca.pem --at-signing-time --jobs "$jobs" <asked
        most=$((1000 / jobs * jobs))
        holds "1,100 certificates by $jobs processes: so many processes" test "$(wc -l <called)" -le "$most"
        holds "1,100 certificates by $jobs processes: what wasn't asked isn't trusted" test "$(grep -c ^trust out)" = "$(wc -l <called)"
        holds "1,100 certificates by $jobs processes: it is said" cmp err <(echo "ssign-keys: \
$((1100 - $(wc -l <called))) certificates were not checked, and no payload with one is trusted: openssl may take 1000 processes and 120 seconds for one log")
    done
    # one certificate at one time is asked about once
    rm -f called
    PATH=$scratch/bin:$PATH keys answer --ca ca.pem <asked
    holds 'at one time: one process' test "$(wc -l <called)" = 1
    holds 'at one time: all are trusted' test "$(grep -c ^trust out)" = 1100
else
    skip "no openssl here, or no certificates can be made, so no certificate is asked about"
fi
holds 'no passing file is left' test -z "$(ls -A -- "$TMPDIR")"

finish
