#!/usr/bin/env bash
# What `ssign-keys` makes, seals and answers, against the blocks that RFC 5848 shows, against arithmetic (dsa_model.py),
# against certificates of openssl and keys of gpg, and against questions that are wrong in one thing (key_cases.py); and
# what it says where something is missing.
# shellcheck source=tests/lib.sh
. "$(dirname -- "$0")/lib.sh"
need_program
export SSIGN=$program
signed=$root/examples/signed
timeout=$(command -v timeout)
python=$(python3 -c 'import sys; print(sys.executable)')
cd -- "$scratch" || exit 1

# cases ARG..: runs key_cases.py
cases() {
    "$python" -B "$root/tests/key_cases.py" "$@"
}

# keys ARG..: runs ssign-keys as `run` does the program.
keys() {
    "$timeout" "$patience" "$python" "$root/tools/ssign-keys" "$@" >"$scratch/out" 2>"$scratch/err"
    status=$?
}

# refuses WHAT SENTENCE ARG..: ssign-keys ends with status 2, prints nothing and says this and nothing else.
refuses() {
    keys "${@:3}"
    expect "$1" 2 '' "ssign-keys: $2"
}

mkdir hidden
mkdir hidden/cryptography
echo 'raise ImportError("hidden by a test")' >hidden/cryptography/__init__.py
for command in 'seal nowhere' 'answer nowhere' 'make .'; do
    read -r -a words <<<"$command"
    PYTHONPATH=$scratch/hidden refuses "$command without cryptography" \
        "the Python module cryptography is missing; on Debian and Ubuntu \`apt-get install python3-cryptography\` installs it" \
        "${words[@]}"
done
PYTHONPATH=$scratch/hidden keys --help
expect 'help without cryptography' 0 'SOME TEXT' ''
holds 'the log that is kept is signed, and its answers are right' \
    cases log "$signed/signed.frames" "$signed/signed.answers" "$signed/public-key.pem"
if ! "$python" -c 'import cryptography' 2>/dev/null; then
    skip "no Python module cryptography here, so nothing is made, sealed or answered"
    finish
fi

# Keys
mkdir one long other
keys make one --ver 0111
expect 'a key pair for 0111' 0 '' ''
holds 'its files' cmp <(cd one && ls) <(printf '%s\n' payload private-key.pem public-key.pem)
holds 'the private key is for its owner alone' test "$(stat -c %a one/private-key.pem)" = 600
holds 'the payload' grep -Eqx '[0-9]{4}-[0-9]{2}-[0-9]{2}T[0-9]{2}:[0-9]{2}:[0-9]{2}Z K [A-Za-z0-9+/]+={0,2}' one/payload
holds 'it states the key' cases payload one/payload one/public-key.pem
holds 'the pair is one' cmp one/public-key.pem <(cases public one/private-key.pem)
holds 'its sizes' test "$(cases sizes one/public-key.pem)" = '1024 160'
keys make long
expect 'a key pair' 0 '' ''
holds 'its payload states the key' cases payload long/payload long/public-key.pem
holds 'the sizes of that' test "$(cases sizes long/public-key.pem)" = '2048 256'
mkdir said
keys make said --ver 0121
expect 'a key pair for 0121' 0 '' ''
holds 'that is the one without --ver' test "$(cases sizes said/public-key.pem)" = '2048 256'
keys make other --ver 0111
expect 'another key pair for 0111' 0 '' ''
holds 'the sizes of a key for 0111' test "$(cases sizes other/public-key.pem)" = '1024 160'
refuses 'no folder' "the following arguments are required: DIR (see \`ssign-keys make --help\`)" make
refuses 'another version' \
    "argument --ver: invalid choice: '0211' (choose from '0111', '0121') (see \`ssign-keys make --help\`)" make one --ver 0211
refuses 'a folder that is not there' 'there is no folder nowhere: make it first' make nowhere
refuses 'a folder with a key' 'there is a file one/private-key.pem, which is not overwritten' make one
mkdir half dangling
touch both.pem
refuses 'a file for a folder' 'there is no folder both.pem: make it first' make both.pem
touch half/payload
ln -s nowhere dangling/public-key.pem
refuses 'a folder with a payload' 'there is a file half/payload, which is not overwritten' make half
refuses 'a folder with a link' 'there is a file dangling/public-key.pem, which is not overwritten' make dangling
holds 'nothing was written there' test "$(ls half dangling)" = $'dangling:\npublic-key.pem\n\nhalf:\npayload'

# wanted LETTER COUNT VERSION..: wants blocks of these versions in turn, one after the other in each session.
wanted() {
    "$python" - "$@" <<'END'
import base64, hashlib, sys
letter, count, *versions = sys.argv[1:]
for number in range(int(count)):
    for gbc, version in enumerate(versions):
        digest = (hashlib.sha1 if version == "0111" else hashlib.sha256)(b"%d" % number).digest()
        octets = (f'<110>1 - h {letter}{number} - - [ssign VER="{version}" RSID="1" SG="0" SPRI="0" GBC="{gbc}" FMN="{gbc + 1}" '
                  f'CNT="1" HB="{base64.b64encode(digest).decode()}"]')
        print("want", base64.b64encode(octets.encode()).decode())
END
}

# Seals
wanted a 20 0111 0121 >wants
keys seal one/private-key.pem <wants
holds 'seals: status 0' test "$status" = 0
cp out seals
holds 'seals of both versions are valid, in the spelling of RFC 4880' cases seals wants seals one/public-key.pem 0111 0121
wanted c 20 0121 >wants-0121
keys seal long/private-key.pem <wants-0121
cp out seals-0121
holds 'seals with a longer key are valid too' cases seals wants-0121 seals-0121 long/public-key.pem 0121
keys seal one/private-key.pem </dev/null
expect 'nothing wanted' 0 '' ''
keys seal one/private-key.pem < <(head -c -1 wants)
holds 'a last line without LF' test "$(wc -l <out)" = 40
cases hides one/private-key.pem >hidden-cases
cut -f 3 hidden-cases | cut -d ' ' -f 3 | sed 's/^/want /' >hidden-wants
# of these blocks only those without a MSG or another element are signed, whose header is spelled like one; then by their VER
sealed_alone=0
while IFS= read -r line; do
    keys seal one/private-key.pem <<<"$line"
    text=$(base64 -d <<<"${line#want }" | tr '\0\n' '??')
    if [[ $text =~ ^[^\ ]+\ -\ [^\ ]+\ [^\ ]+\ [^\ ]+\ [^\ ]+\ \[ssign\ [^]]*\]$ ]]; then
        sealed_alone=$((sealed_alone + 1))
        echo "$line" >hidden-want
        cp out hidden-seal
        version=$(grep -o 'VER="0[12]*1"' <<<"$text" | tail -n 1)
        holds "'$text' is signed by its VER" cases seals hidden-want hidden-seal one/public-key.pem "${version//[^0-9]/}"
    else
        holds "'$text' is not signed" test "$status" = 2 -a ! -s out
    fi
done <hidden-wants
holds 'three of them are signed' test "$sealed_alone" = 3

# judge WHAT ARG..: answers the questions of the file `rows` with these arguments, and checks each of them.
judge() {
    local heading=$1 wanted what line said
    local -A held=()
    cut -f 3 rows >asked
    keys answer "${@:2}" <asked
    grep -P '^yes\t' rows | cut -f 3 | answered >right
    holds "$heading: the answers, in their order" cmp right out
    while IFS= read -r line; do
        held[$line]=yes
    done < <(unanswered <out)
    while IFS=$'\t' read -r wanted what line; do
        said=${held[$line]-no}
        [[ $said == "$wanted" ]] && said='' || said="    $said, and not $wanted"
        tell "$heading: $what" "$said"
    done <rows
}

# Answers: the blocks of RFC 5848, signed by somebody else's program
cases rfc "$scratch"
run questions <log
cp out questions
holds 'three questions about them' test "$(wc -l <questions)" = 3
keys answer public-key.pem <questions
expect 'the signatures that RFC 5848 shows are valid' 0 "$(answered <questions)" ''
keys answer one/public-key.pem <questions
expect 'and not with another key' 1 '' 'ssign-keys: 0 of 1 payloads state this key'
keys answer one/public-key.pem other/public-key.pem < <(cat questions questions)
expect 'nor with two others' 1 '' 'ssign-keys: 0 of 2 payloads are trusted'
keys answer one/public-key.pem public-key.pem <questions
expect 'but with one of several' 0 "$(answered <questions)" ''

# What is wrong in one thing
cases wrong one/private-key.pem other/private-key.pem long/private-key.pem >rows
holds 'cases that hold and cases that do not' test "$(grep -c '^yes' rows).$(grep -c '^no' rows)" = "12.92"
judge 'numbers' one/public-key.pem long/public-key.pem
cp hidden-cases rows
judge 'hidden' one/public-key.pem

# questions about what was sealed
payload=$(printf '%s' "$(<one/payload)" | base64 -w 0)
{
    echo "trust? $payload"
    sed "s|^seal|yes? $payload|" seals
} >questions
keys answer one/public-key.pem <questions
expect 'what was sealed is valid' 0 "$(answered <questions)" ''
keys answer other/public-key.pem <questions
expect 'and not with another key' 1 '' 'ssign-keys: 0 of 1 payloads state this key'
sed 'p;p' questions >copies
keys answer one/public-key.pem <copies
expect 'lines that are copies' 0 "$(answered <copies)" ''
keys answer one/public-key.pem </dev/null
expect 'no question' 0 '' ''
keys answer one/public-key.pem < <(head -c -1 questions)
expect 'a last question without LF' 0 "$(answered <questions)" ''

# Many chunks, and processes that share them: an answer here and there is wrong
other_payload=$(printf '%s' "$(<other/payload)" | base64 -w 0)
"$python" - "$other_payload" >many.cases <<'END'
import sys
lines = open("questions").read().splitlines()
count = 0
for turn in range(40):
    for line in lines:
        count += 1
        word, payload, *rest = line.split(" ")
        if count % 97 == 0:
            print("no", " ".join([word, sys.argv[1], *rest]), sep="\t")
        elif rest and count % 89 == 0:
            print("no", " ".join([word, payload, rest[0], "AAAA"]), sep="\t")
        else:
            print("yes", line, sep="\t")
END
cut -f 2 many.cases >many
grep -P '^yes\t' many.cases | cut -f 2 | answered >many.right
for jobs in 1 3; do
    keys answer one/public-key.pem --jobs "$jobs" <many
    holds "many questions by $jobs processes: status" test "$status" = 0
    holds "many questions by $jobs processes" cmp many.right out
    refuses "a wrong line among many, by $jobs processes" 'line 1001: the octets are no block of VER 0111 or 0121' \
        answer one/public-key.pem --jobs "$jobs" < <(head -n 1000 many; echo "yes? $payload S0VZ AAAA"; tail -n 300 many; echo)
    refuses "a line of spaces among many, by $jobs processes" \
        "line 1001 is no line \`trust? PAYLOAD\` or \`yes? PAYLOAD OCTETS SIGNATURE\` of ssign questions" \
        answer one/public-key.pem --jobs "$jobs" < <(head -n 1000 many; echo ' '; tail -n 300 many; echo)
done
for jobs in 0 1025 ''; do
    refuses "jobs '$jobs'" "argument --jobs: '$jobs' isn't a number from 1 to 1024 (see \`ssign-keys answer --help\`)" \
        answer one/public-key.pem "--jobs=$jobs"
done

# What is long is a million octets here, which takes time by its length and not by the square of it.
long() {
    yes "$1" | tr -d '\n' | head -c 1000000
}
no_long() {
    keys answer one/public-key.pem
    expect "$1" "$2" '' "$3"
}
none='ssign-keys: 0 of 1 payloads state this key'
read -r _ octets signature < <(sed -n 1p seals)
no_long 'a long signature' 0 '' < <(printf 'yes? %s %s ' "$payload" "$octets" && head -c 999999 /dev/zero | base64 -w 0)
behind() {
    printf 'yes? %s ' "$payload"
    cat <(base64 -d <<<"$octets") <(printf ' ') - | base64 -w 0
    printf ' %s\n' "$signature"
}
no_long 'a long MSG' 0 '' < <(long '][' | behind)
no_long 'a MSG of octets 0' 0 '' < <(head -c 1000000 /dev/zero | behind)
no_long 'a long payload' 1 "ssign-keys: 1 payload has more than 65536 octets, the longest 1333336, and is not trusted: --max-payload looks at longer ones
$none" < <(printf 'trust? %s\n' "$(cat <(printf -- '- K ') <(head -c 999999 /dev/zero | base64 -w 0) | base64 -w 0)")

# a payload of ten million octets, in each of twenty lines, in little memory
"$python" - "$octets" "$signature" >long-lines <<'END'
import base64, sys
payload = base64.b64encode(b"- K " + b"A" * 9999996).decode()
sys.stdout.write(f"trust? {payload}\n" + f"yes? {payload} {sys.argv[1]} {sys.argv[2]}\n" * 19)
END
(ulimit -v 400000 && exec "$python" "$root/tools/ssign-keys" answer one/public-key.pem --jobs 1 <long-lines >out 2>err)
status=$?
expect 'a payload of ten million octets in twenty lines' 1 '' "ssign-keys: 1 payload has more than 65536 octets, the longest 10000000, \
and is not trusted: --max-payload looks at longer ones
$none"

# ---- Sessions: the types N and U, and keys that are tied to a session

# row WANTED WHAT PAYLOAD PRIVATE VERSION SESSION: a row for `key_cases.py payloads`
row() {
    printf '%s\t%s\t%s\t%s\t%s\t%s\n' "$@"
}
mine=one/private-key.pem
{
    row both 'N in its session' '- N' $mine 0111 'h s - 1'
    row both 'N with a space behind, over SHA-256' '- N ' $mine 0121 'h s - 1'
    row trust 'N by another key' '- N' other/private-key.pem 0111 'h s - 1'
    row trust 'a key in N' "$(sed 's/ K / N /' one/payload)" $mine 0111 'h s - 1'
    row none 'N in a session of another host' '2026-01-15T09:16:30Z N' $mine 0111 'g s - 1'
    row none 'N in a session of another program' '2026-01-15T09:16:31Z N' $mine 0111 'h t - 1'
    row none 'N in a session of another process' '2026-01-15T09:16:32Z N' $mine 0111 'h s 7 1'
    row none 'N in another session' '2026-01-15T09:16:33Z N' $mine 0111 'h s - 12'
    row both 'U in its session' '- U AAAA' $mine 0111 'h s - 1'
    row none 'U in another session' '2026-01-15T09:16:33Z U AAAA' $mine 0111 'h s - 2'
    row both 'K of that session' "$(<one/payload)" $mine 0111 'h s - 1'
    row none 'K of another key in that session' "$(<other/payload)" other/private-key.pem 0111 'h s - 1'
    row both 'K of another key in another session' "- K $(sed 's/.* //' other/payload)" other/private-key.pem 0111 'h s - 2'
    row none 'K of the session, in another session' "- K $(sed 's/.* //' one/payload)" $mine 0111 'h s - 2'
} | grep -v 'a key in N' | cases payloads >rows
judge 'a key of a session' other/public-key.pem --session-key 'h s - 1' one/public-key.pem
{
    row both 'any host' '- N' $mine 0111 'h s - 1'
    row both 'another host' '2026-01-15T09:16:30Z N' $mine 0111 'g s - 1'
    row none 'another program' '2026-01-15T09:16:31Z N' $mine 0111 'h t - 1'
    row both 'the last that names it' '2026-01-15T09:16:32Z N' other/private-key.pem 0111 'x y 7 99'
    row trust 'the first that names it' '2026-01-15T09:16:33Z N' other/private-key.pem 0111 'x s - 1'
    row none 'K by a key for another session' "$(<one/payload)" $mine 0111 'x y z 99'
} | cases payloads >rows
judge 'keys of any session' --session-key '* s - 1' one/public-key.pem --session-key '* y * 99' other/public-key.pem
row none 'a key in N' "$(sed 's/ K / N /' one/payload)" $mine 0111 'h s - 1' | cases payloads >rows
judge 'no payload' --session-key 'h s - 1' one/public-key.pem
row none 'N without a key' '- N' $mine 0111 'h s - 1' | cases payloads >rows
judge 'a key, but none of a session' one/public-key.pem
# a payload that names no key, and whose `trust?` line has its session from the line after it, wherever a chunk ends
{
    row both 'N' '- N' $mine 0111 'h s - 1'
    row both 'N at a time' '2026-01-15T09:16:30Z N' $mine 0111 'h s - 1'
} | cases payloads | cut -f 3 >pair
{
    tail -n 1 pair
    for ((count = 0; count < 100; count++)); do
        cat pair
    done
} >pairs
for jobs in 1 3; do
    keys answer --session-key 'h s - 1' one/public-key.pem --jobs "$jobs" <pairs
    holds "sessions in many chunks, by $jobs processes" cmp <(answered <pairs) out
done
for words in '' 'h s - 1 2' 'h  s 1'; do
    refuses "the session '$words'" "the session '$words' isn't four words HOST APP PROCID RSID with one space between two" \
        answer --session-key "$words" one/public-key.pem
done
refuses 'two keys of a session' "the session 'h s - 1' is given two keys: one/public-key.pem and other/public-key.pem" \
    answer --session-key 'h s - 1' one/public-key.pem --session-key 'h s - 1' other/public-key.pem
cat one/public-key.pem other/public-key.pem >both.pem
refuses 'two keys in the file of a session' "both.pem holds 2 keys, and the session 'h s - 1' has one" \
    answer --session-key 'h s - 1' both.pem
keys answer both.pem <questions
expect 'several keys in a file' 0 "$(answered <questions)" ''

# ---- Keys that can't be used
missing() {
    refuses "$1: a key that is not there" "nowhere can't be read: No such file or directory" "$1" nowhere
    refuses "$1: a folder for a key" "one is a folder: a file with $2 is wanted" "$1" one
}
missing seal 'a DSA private key in PEM'
missing answer 'a DSA public key in PEM'
refuses 'no key in the file' 'wants holds no PEM: a DSA private key in PEM is wanted' seal wants
refuses 'no key in the file to check with' 'wants holds no PEM: a DSA public key in PEM is wanted' answer wants
refuses 'no key' "the following arguments are required: PRIVATE.pem (see \`ssign-keys seal --help\`)" seal
refuses 'no key to check with' \
    'nothing says which key is to be trusted: give a public key, --session-key, --ca, --cert or --trust' answer
refuses 'the public key to sign with' 'one/public-key.pem holds a public key: a DSA private key in PEM is wanted' seal one/public-key.pem
refuses 'the private key to check with' \
    'one/private-key.pem holds a private key: signatures are checked with the public key alone' answer one/private-key.pem
refuses 'the private key of a session' \
    'one/private-key.pem holds a private key: signatures are checked with the public key alone' \
    answer --session-key 'h s - 1' one/private-key.pem
sed '3d' one/private-key.pem >broken-private.pem
keys seal broken-private.pem
holds 'a private key that is broken' grep -q '^ssign-keys: the private key in broken-private.pem can.t be read: ' err
sed '3d' one/public-key.pem >broken-public.pem
keys answer broken-public.pem
holds 'a public key that is broken' grep -q '^ssign-keys: the public key in broken-public.pem can.t be read: ' err
head -c 16777217 /dev/zero >zeros
refuses 'a file that is too long for keys' 'zeros is no file of keys: it has more than 16777216 octets' answer zeros

# ---- What standard input and output can't do
keys answer one/public-key.pem <&-
expect 'no standard input' 2 '' "ssign-keys: standard input is closed"
if [[ -c /dev/full ]]; then
    "$python" "$root/tools/ssign-keys" seal one/private-key.pem <wants >/dev/full 2>err
    status=$?
    holds 'seals to a full disk' test "$status.$(<err)" = "2.ssign-keys: standard output can't be written: No space left on device"
    "$python" "$root/tools/ssign-keys" answer one/public-key.pem <questions >/dev/full 2>err
    status=$?
    holds 'answers to a full disk' test "$status.$(<err)" = "2.ssign-keys: standard output can't be written: No space left on device"
fi
{
    "$python" "$root/tools/ssign-keys" answer one/public-key.pem <many 2>err
    echo $? >ended
} | :
holds 'answers that nobody reads' test "$(<ended).$(<err)" = "2.ssign-keys: standard output can't be written: Broken pipe"
ln -s -- "$root/tools/ssign-keys" linked
"$python" linked seal one/private-key.pem <wants >out
holds 'the program by a link to it' test "$(wc -l <out)" = 40

# ---- Lines that aren't what they must be
# told COMMAND LINE..: what a command says of each of these lines alone, in one process: a line `0`, or the sentence.
told() {
    "$python" -B - "$root/tools" "$@" <<'END'
import argparse, os, sys
sys.path.insert(0, sys.argv[1])
from ssign_keys import answer, seal
from ssign_keys.describer import Describer
from ssign_keys.faults import Fault
from ssign_keys.keys import read_private_key
from ssign_keys.trust import Trust
trust = Trust.from_arguments(argparse.Namespace(keys=["one/public-key.pem"], session_key=[], ca=[], ca_anchor=[], cert=[], at_signing_time=False, max_payload=65536))
key, describer = read_private_key("one/private-key.pem"), Describer(os.environ["SSIGN"])
for line in sys.argv[3:]:
    octets = line.encode() + b"\n"
    try:
        list(seal.seals([octets], key, describer) if sys.argv[2] == "seal" else answer.answers([octets], trust, 1, describer))
        print(0)
    except Fault as fault:
        print(fault)
END
}

# bad COMMAND SENTENCE LINE..: each of these lines is refused so.
bad() {
    local line said
    while IFS= read -r -u 3 said; do
        line=$3
        [[ $said == "$2" ]] && said='' || said="    $said"
        tell "$1: '$line'" "$said"
        set -- "$1" "$2" "${@:4}"
    done 3< <(told "$1" "${@:3}")
    tell "$1: each line was tried" "${*:3}"
}

wrong=" is no line \`want OCTETS\` of ssign plan"
bad seal "line 1$wrong" '' 'want' 'want ' 'want S0V' 'want S0VZ ' ' want S0VZ' 'want  S0VZ' 'Want S0VZ' $'want S0VZ\r' 'want S0V?' 'want =AAA' \
    'want A===' 'want S0VZ S0VZ' 'want S0V=' 'want S0VZS0VZS0U' 'seal S0VZ AAAA'
refuses 'a line that is wanted of nothing' "line 1$wrong" seal one/private-key.pem <<<'want '
refuses 'seal: octets that are no block' "line 1: the octets aren't a block as \`ssign plan\` writes it, so they aren't signed" \
    seal one/private-key.pem <<<'want S0VZ'
refuses 'a wrong line behind good ones' "line 4$wrong" seal one/private-key.pem < <(head -n 3 wants && echo want)
refuses 'a hash that is shorter than q' \
    'line 1: VER 0111 has a hash of 160 bits, and the number q of the key has 256: use --ver 0121, or another key' \
    seal long/private-key.pem < <(head -n 1 wants)
wrong=" is no line \`trust? PAYLOAD\` or \`yes? PAYLOAD OCTETS SIGNATURE\` of ssign questions"
bad answer "line 1$wrong" '' 'trust?' 'trust? ' 'trust? S0V' 'trust? S0VZ ' ' trust? S0VZ' 'trust?  S0VZ' 'Trust? S0VZ' $'trust? S0VZ\r' \
    'trust? S0VZ S0VZ' 'trust? S0V=' 'trust?? S0VZ' 'yes? S0VZ S0VZ' 'yes? S0VZ' 'yes? S0VZ S0VZ AAAA AAAA' 'yes? S0VZ S0VZ AAA' \
    'yes? S0VZ S0VZ ' 'yes? S0VZ S0V= AAAA' 'yes? S0VZ  AAAA' "yes? $payload $octets AAA" 'seal S0VZ AAAA' 'want S0VZ' \
    "trust $payload" "yes $payload $octets $signature" "trust ? $payload" "trust?$payload"
refuses 'a question of nothing' "line 1$wrong" answer one/public-key.pem <<<'trust? '
refuses 'an empty signature' "line 1$wrong" answer one/public-key.pem <<<"yes? $payload $octets "
refuses 'answers as questions' "line 1$wrong" answer one/public-key.pem < <(answered <questions)
refuses 'an answer after questions' "line 42$wrong" answer one/public-key.pem < <(cat questions && answered <questions)
refuses 'a long line of spaces' "line 1$wrong" answer one/public-key.pem < <(long ' ')
refuses 'a long line that is no base64' "line 1$wrong" answer one/public-key.pem < <(printf 'trust? '; long 'A'; echo '!')
refuses 'answer: octets that are no block' 'line 1: the octets are no block of VER 0111 or 0121' \
    answer one/public-key.pem <<<"yes? $payload S0VZ AAAA"
# a `]` in a value without an escape
text=$(base64 -d <<<"$octets")
for it in '[x@1 a="]"]' '[ssign@1 VER="0111" a="\\][ssign VER="]'; do
    refuses "answer: octets that look like a block after $it" 'line 1: the octets are no block of VER 0111 or 0121' \
        answer one/public-key.pem <<<"yes? $payload $(printf '%s' "${text/'[ssign'/"${it}[ssign"}" | base64 -w 0) AAAA"
done
# a program in place of ssign that states its version, and then does something else
told_by() {
    printf '#!/bin/sh\n[ "$1" = describe ] || exec %q "$@"\n%s\n' "$program" "$1" >false-ssign
    chmod +x false-ssign
}
for command in seal answer; do
    key=one/private-key.pem line="want $octets" where='line 1: '
    [[ $command == answer ]] && key=one/public-key.pem line="yes? $payload $octets AAAA" where=
    for it in 'exit 0' 'read -r line' 'read -r line; echo' 'exec </dev/null; sleep 0.1' 'read -r line; echo {'; do
        told_by "$it"
        refuses "$command: an ssign that does '$it'" "${where}ssign describe doesn't answer" \
            $command $key --ssign ./false-ssign <<<"$line"
    done
    for it in '[]' '{}' '{"line":"x"}' '{"line":["none"]}'; do
        told_by "read -r line; echo '$it'"
        refuses "$command: an ssign that answers $it" "${where}ssign describe answers what is no object about signed octets" \
            $command $key --ssign ./false-ssign <<<"$line"
    done
    refuses "$command: no ssign" "${where}the program ./none can't be run: No such file or directory" \
        $command $key --ssign ./none <<<"$line"
done

# ---- Certificates

# issue NAME ISSUER KEY FROM TO [HASH]: a certificate for a key, valid from one time to another, by the key and the
# certificate ISSUER.pem and ISSUER.crt, over SHA-256 or another hash. An issuer of the same name signs its own. NAME that
# begins with `ca` may issue others, and its subject is what stands before a dot in it.
issue() {
    local own=(-cert "$2.crt" -keyfile "$2.pem") extensions=leaf
    [[ $1 == "$2" ]] && own=(-selfsign -keyfile "$3")
    [[ $1 == ca* ]] && extensions=authority
    openssl req -new -key "$3" -subj "/CN=${1%%.*}" -out request.csr 2>>openssl.said
    openssl ca -batch -config authority.conf -extensions "$extensions" "${own[@]}" -startdate "$4" -enddate "$5" -md "${6-sha256}" \
        -in request.csr -out "$1.crt" -notext 2>>openssl.said
    holds "openssl issues the certificate $1" test -s "$1.crt"
}

# certificate NAME [STAMP]: a payload with a certificate.
certificate() {
    printf '%s C %s' "${2--}" "$(openssl x509 -in "$1.crt" -outform DER | base64 -w 0)"
}

# broken PATTERN OCTET: the certificate leaf in base64, with another octet as the last of what matches a pattern.
broken() {
    openssl x509 -in leaf.crt -outform DER | python3 -c 'import base64, re, sys
der = bytearray(sys.stdin.buffer.read())
found = re.search(sys.argv[1].encode(), der, re.DOTALL)
der[found.end() - 1] = int(sys.argv[2])
print(base64.b64encode(der).decode(), end="")' "$@"
}

check_certificates() {
    local always=(20200101000000Z 20900101000000Z) at=2026-01-15T09:16:30Z it
    cat >authority.conf <<'END'
[ca]
default_ca = here
[here]
new_certs_dir = .
database = index.txt
serial = serial
default_md = sha256
policy = any
unique_subject = no
[any]
commonName = supplied
[authority]
basicConstraints = critical, CA:TRUE
keyUsage = critical, keyCertSign, digitalSignature
subjectKeyIdentifier = hash
authorityKeyIdentifier = keyid
[leaf]
basicConstraints = critical, CA:FALSE
subjectAltName = DNS:h
subjectKeyIdentifier = hash
authorityKeyIdentifier = keyid
[req]
distinguished_name = name
[name]
END
    touch index.txt
    echo 01 >serial
    openssl genpkey -algorithm RSA -pkeyopt rsa_keygen_bits:2048 -out rsa.pem 2>/dev/null
    openssl pkey -in rsa.pem -pubout -out rsa-public.pem
    for it in ca ca-other ca-middle leaf stray; do
        openssl genpkey -paramfile <(openssl pkeyparam -in parameters.pem) -out "$it.pem" 2>/dev/null
    done
    cp ca-other.pem ca.impostor.pem
    issue ca ca ca.pem "${always[@]}"
    issue ca.impostor ca.impostor ca-other.pem "${always[@]}"
    issue ca-other ca-other ca-other.pem "${always[@]}"
    issue ca-middle ca ca-middle.pem "${always[@]}"
    issue leaf ca leaf.pem "${always[@]}"
    issue leaf.middle ca-middle leaf.pem "${always[@]}"
    issue leaf.other ca-other leaf.pem "${always[@]}"
    issue leaf.expired ca leaf.pem 20200101000000Z 20210101000000Z
    issue leaf.future ca leaf.pem 20890101000000Z 20900101000000Z
    issue leaf.rsa ca rsa.pem "${always[@]}"
    issue leaf.sha1 ca leaf.pem "${always[@]}" sha1
    issue leaf.long ca long/private-key.pem "${always[@]}"
    issue leaf.bottom leaf leaf.pem "${always[@]}"
    issue leaf.stray ca stray.pem "${always[@]}"
    cat ca-middle.crt ca.crt >chain.crt
    {
        row both 'a certificate' "$(certificate leaf)" leaf.pem 0111 'h s - 1'
        row both 'a certificate at a time' "$(certificate leaf $at)" leaf.pem 0121 'h s - 1'
        row trust 'a signature by another key' "$(certificate leaf 2026-01-15T09:16:31Z)" stray.pem 0111 'h s - 1'
        row both 'a certificate over a q of 256 bits' "$(certificate leaf.long)" long/private-key.pem 0121 'h s - 1'
        row trust 'a q of 256 bits with SHA-1' "$(certificate leaf.long $at)" long/private-key.pem 0111 'h s - 1'
        row both 'the certificate of the authority' "$(certificate ca)" ca.pem 0111 'ca s - 1'
        row none 'a certificate of another authority' "$(certificate leaf.other)" leaf.pem 0111 'h s - 1'
        row none 'another authority itself' "$(certificate ca-other)" ca-other.pem 0111 'h s - 1'
        row none 'another authority of that name' "$(certificate ca.impostor)" ca-other.pem 0111 'h s - 1'
        row none 'a certificate that a leaf issued' "$(certificate leaf.bottom)" leaf.pem 0111 'h s - 1'
        row none 'an authority between that is not given' "$(certificate leaf.middle)" leaf.pem 0111 'h s - 1'
        row none 'a certificate that has expired' "$(certificate leaf.expired)" leaf.pem 0111 'h s - 1'
        row none 'a certificate that had expired at the time' "$(certificate leaf.expired $at)" leaf.pem 0111 'h s - 1'
        row none 'one that had not expired at the time' "$(certificate leaf.expired 2020-12-31T23:59:59Z)" leaf.pem 0111 'h s - 1'
        row none 'one that had, by its offset' "$(certificate leaf.expired 2020-12-31T23:59:59-00:01)" leaf.pem 0111 'h s - 1'
        row none 'a certificate that is not valid yet' "$(certificate leaf.future)" leaf.pem 0111 'h s - 1'
        row none 'one that is valid at the time' "$(certificate leaf.future 2089-07-01T00:00:00.5Z)" leaf.pem 0111 'h s - 1'
        row none 'before the certificate was valid' "$(certificate leaf 2019-12-31T23:59:59Z)" leaf.pem 0111 'h s - 1'
        row none 'a day that there is not' "$(certificate leaf 2026-02-30T00:00:00Z)" leaf.pem 0111 'h s - 1'
        row none 'a certificate for RSA' "$(certificate leaf.rsa)" leaf.pem 0111 'h s - 1'
        row none 'an octet behind the certificate' "- C $({ openssl x509 -in leaf.crt -outform DER; printf '\0'; } | base64 -w 0)" leaf.pem 0111 'h s - 1'
        row none 'a certificate in PEM' "- C $(base64 -w 0 leaf.crt)" leaf.pem 0111 'h s - 1'
        row none 'a certificate signed over SHA-1' "$(certificate leaf.sha1)" leaf.pem 0111 'h s - 1'
        # the version, and the type of a text in a name, at which a library stumbles
        row none 'a certificate of another version' "- C $(broken '\xa0\x03\x02\x01.' 4)" leaf.pem 0111 'h s - 1'
        row none 'a certificate with another type of text' "- C $(broken '\x06\x03\x55\x04\x03.' 6)" leaf.pem 0111 'h s - 1'
        row none 'a certificate in U' "$(certificate leaf | sed 's/ C / U /')" leaf.pem 0111 'h s - 1'
        row none 'a certificate in K' "$(certificate leaf | sed 's/ C / K /')" leaf.pem 0111 'h s - 1'
    } | cases payloads >rows
    judge 'certificates' --ca ca.crt
    {
        row none 'a certificate that has expired' "$(certificate leaf.expired)" leaf.pem 0111 'h s - 1'
        row none 'a certificate that had expired at the time' "$(certificate leaf.expired $at)" leaf.pem 0111 'h s - 1'
        row both 'one that had not expired at the time' "$(certificate leaf.expired 2020-12-31T23:59:59Z)" leaf.pem 0111 'h s - 1'
        row none 'one that had, by its offset' "$(certificate leaf.expired 2020-12-31T23:59:59-00:01)" leaf.pem 0111 'h s - 1'
        row none 'a certificate that is not valid yet' "$(certificate leaf.future)" leaf.pem 0111 'h s - 1'
        row both 'one that is valid at the time' "$(certificate leaf.future 2089-07-01T00:00:00.5Z)" leaf.pem 0111 'h s - 1'
        row none 'before the certificate was valid' "$(certificate leaf 2019-12-31T23:59:59Z)" leaf.pem 0111 'h s - 1'
        row none 'a day that there is not' "$(certificate leaf 2026-02-30T00:00:00Z)" leaf.pem 0111 'h s - 1'
        row both 'a certificate at a time' "$(certificate leaf $at)" leaf.pem 0121 'h s - 1'
        row both 'a certificate without a time' "$(certificate leaf)" leaf.pem 0121 'h s - 1'
    } | cases payloads >rows
    judge 'certificates at the time of the payload' --ca ca.crt --at-signing-time
    {
        row both 'a certificate' "$(certificate leaf)" leaf.pem 0111 'h s - 1'
        row both 'a certificate by an authority between' "$(certificate leaf.middle)" leaf.pem 0111 'h s - 1'
        row none 'another authority' "$(certificate leaf.other)" leaf.pem 0111 'h s - 1'
    } | cases payloads >rows
    judge 'an authority between' --ca chain.crt
    judge 'an authority between in a file of its own' --ca ca.crt --ca ca-middle.crt
    sed -i 's/^yes\(\ta certificate: \)/no\1/' rows
    judge 'an authority between, without the one above, as an anchor' --ca-anchor ca-middle.crt
    refuses 'an authority between, without the one above' \
        "no certificate of --ca is self-issued, so no chain can end: add the root's, or give the file by --ca-anchor" \
        answer --ca ca-middle.crt
    # an authority that this machine trusts is none of --ca, not even where it has the name of one of them
    row none 'a certificate' "$(certificate leaf)" leaf.pem 0111 'h s - 1' | cases payloads >rows
    mkdir machine
    cp ca.crt machine
    openssl rehash machine 2>>openssl.said
    SSL_CERT_FILE=ca.crt SSL_CERT_DIR=machine judge 'what the machine trusts' --ca ca.impostor.crt
    holds 'openssl by itself would trust it' env SSL_CERT_FILE=ca.crt openssl verify leaf.crt
    judge 'a key, but no authority' one/public-key.pem
    {
        row both 'this certificate' "$(certificate leaf.other)" leaf.pem 0111 'h s - 1'
        row none 'this certificate before it was valid' "$(certificate leaf.other 1999-01-15T09:16:30Z)" leaf.pem 0111 'h s - 1'
        row none 'another certificate of that key' "$(certificate leaf)" leaf.pem 0111 'h s - 1'
        row none 'another certificate' "$(certificate leaf.stray)" stray.pem 0111 'h s - 1'
    } | cases payloads >rows
    judge 'a certificate that is given' --cert leaf.other.crt
    cases public leaf.pem >leaf-public.pem
    {
        row both 'the session' "$(certificate leaf)" leaf.pem 0111 'h s - 1'
        row none 'the session, by another certificate' "$(certificate leaf.stray)" stray.pem 0111 'h s - 1'
        row both 'another session' "$(certificate leaf.stray $at)" stray.pem 0111 'h s - 2'
    } | cases payloads >rows
    judge 'a session with a certificate' --ca ca.crt --session-key 'h s - 1' leaf-public.pem

    refuses 'a key of RSA' 'rsa.pem holds a key of RSA: signed syslog has DSA keys alone (RFC 5848, section 4.2.8)' seal rsa.pem
    refuses 'a key of RSA to check with' 'rsa-public.pem holds a key of RSA: signed syslog has DSA keys alone (RFC 5848, section 4.2.8)' \
        answer rsa-public.pem
    openssl pkey -in one/private-key.pem -aes128 -passout pass:secret -out locked.pem
    openssl dsa -in one/private-key.pem -aes128 -passout pass:secret -out locked-dsa.pem 2>/dev/null
    for it in locked.pem locked-dsa.pem; do
        refuses "a key with a passphrase, $it" \
            "$it holds an encrypted private key: a DSA private key in PEM without a passphrase is wanted" seal $it
    done
    refuses 'a certificate for a key' \
        'leaf.crt holds a certificate: a DSA public key in PEM is wanted, or give it with --cert or --ca' answer leaf.crt
    refuses 'no authority' 'one/public-key.pem holds a public key: a certificate in PEM is wanted' answer --ca one/public-key.pem
    refuses 'no certificate' "nowhere can't be read: No such file or directory" answer --cert nowhere
    refuses 'a certificate for RSA' \
        'no certificate in leaf.rsa.crt has a DSA key, as signed syslog wants it (RFC 5848, section 4.2.8)' answer --cert leaf.rsa.crt
    openssl genpkey -genparam -algorithm DSA -pkeyopt dsa_paramgen_bits:1024 -pkeyopt dsa_paramgen_q_bits:224 -out odd.parameters 2>/dev/null &&
        openssl genpkey -paramfile odd.parameters -out odd.pem 2>/dev/null && openssl pkey -in odd.pem -pubout -out odd-public.pem
    refuses 'a hash that is shorter than a q of 224 bits' \
        'line 1: VER 0111 has a hash of 160 bits, and the number q of the key has 224: use --ver 0121, or another key' \
        seal odd.pem < <(head -n 1 wants)
    check_commands_that_fail "$(certificate leaf)" leaf.pem 'h s - 1'
}

# check_commands_that_fail PAYLOAD KEY SESSION: what is said without openssl, and with one that checks nothing.
check_commands_that_fail() {
    local asked
    asked=$(row both 'a certificate' "$1" "$2" 0111 "$3" | cases payloads | cut -f 3)
    mkdir empty broken
    printf '#!/bin/sh\necho no such thing >&2\nexit 1\n' >broken/openssl
    chmod +x broken/openssl
    PATH=$scratch/empty keys answer --ca ca.crt <<<"$asked"
    expect 'no openssl' 2 '' \
        "ssign-keys: line 1: the command openssl is missing; on Debian and Ubuntu \`apt-get install openssl\` installs it"
    PATH=$scratch/broken:$PATH refuses 'an openssl that checks nothing' 'line 1: openssl checks no certificate with ca.crt: no such thing' \
        answer --ca ca.crt <<<"$asked"
}

# ---- OpenPGP keys

# openpgp FILE [STAMP]: a payload with an OpenPGP key.
openpgp() {
    printf '%s P %s' "${2--}" "$(base64 -w 0 <"$1")"
}

check_openpgp() {
    local it file asked
    export GNUPGHOME=$scratch/gnupg
    mkdir -m 700 gnupg
    for it in dsa:dsa2048 stranger:dsa2048 rsa:rsa2048; do
        gpg --batch --quiet --passphrase '' --quick-gen-key "${it%:*}" "${it#*:}" 2>>gpg.said || cat gpg.said
        gpg --export "${it%:*}" >"${it%:*}.gpg"
        gpg --batch --quiet --passphrase '' --export-secret-keys "${it%:*}" >"${it%:*}-secret.gpg" 2>>gpg.said
    done
    # a DSA subkey below a primary key of RSA is none that a payload states
    gpg --batch --quiet --passphrase '' --quick-add-key "$(gpg --with-colons --list-keys rsa 2>>gpg.said | awk -F: '$1 == "fpr" { print $10; exit }')" \
        dsa2048 sign 2>>gpg.said
    gpg --export rsa >rsa-with-dsa.gpg
    gpg --armor --export dsa >dsa.asc
    gpg --armor --export-secret-keys --batch --passphrase '' dsa >dsa-secret.asc 2>>gpg.said
    gpgconf --kill gpg-agent
    cases public dsa-secret.gpg >dsa-public.pem
    "$python" -c '
octets = open("dsa.gpg", "rb").read()
open("bare.gpg", "wb").write(octets[:3 + int.from_bytes(octets[1:3], "big")])
import zlib
deflated = zlib.compressobj(9, zlib.DEFLATED, -15)
packed = b"\x01" + deflated.compress(octets) + deflated.flush()
# a compressed packet (RFC 4880, section 5.6), with five octets of length
open("packed.gpg", "wb").write(b"\xc8\xff" + len(packed).to_bytes(4, "big") + packed)
open("key-and-packed.gpg", "wb").write(octets + open("packed.gpg", "rb").read())'
    {
        row both 'a key' "$(openpgp dsa.gpg)" dsa-secret.gpg 0121 'h s - 1'
        row both 'a key with a time' "$(openpgp dsa.gpg 2026-01-15T09:16:30Z)" dsa-secret.gpg 0121 'h s - 1'
        row both 'a key without a name' "$(openpgp bare.gpg)" dsa-secret.gpg 0121 'h s - 1'
        row trust 'a q of 256 bits with SHA-1' "$(openpgp dsa.gpg 2026-01-15T09:16:31Z)" dsa-secret.gpg 0111 'h s - 1'
        row trust 'a signature by another key' "$(openpgp dsa.gpg 2026-01-15T09:16:32Z)" stranger-secret.gpg 0121 'h s - 1'
        row none 'another key' "$(openpgp stranger.gpg)" stranger-secret.gpg 0121 'h s - 1'
        row none 'a key of RSA' "$(openpgp rsa.gpg)" dsa-secret.gpg 0121 'h s - 1'
        row none 'a key of RSA with a subkey of DSA' "$(openpgp rsa-with-dsa.gpg)" dsa-secret.gpg 0121 'h s - 1'
        row none 'two keys' "$(openpgp <(cat dsa.gpg stranger.gpg))" dsa-secret.gpg 0121 'h s - 1'
        row none 'the private key' "$(openpgp dsa-secret.gpg)" dsa-secret.gpg 0121 'h s - 1'
        row none 'armor' "$(openpgp dsa.asc)" dsa-secret.gpg 0121 'h s - 1'
        row none 'a compressed key' "$(openpgp packed.gpg)" dsa-secret.gpg 0121 'h s - 1'
        row none 'a key, and something compressed' "$(openpgp key-and-packed.gpg)" dsa-secret.gpg 0121 'h s - 1'
        row none 'a key that breaks off' "$(openpgp <(head -c 300 dsa.gpg))" dsa-secret.gpg 0121 'h s - 1'
        row none 'a key in U' "$(openpgp dsa.gpg | sed 's/ P / U /')" dsa-secret.gpg 0121 'h s - 1'
        row none 'no key' '- P S0VZ' dsa-secret.gpg 0121 'h s - 1'
        row both 'the same key in K' "$(cases blob dsa-secret.gpg)" dsa-secret.gpg 0121 'h s - 1'
    } | cases payloads >rows
    for file in dsa-public.pem dsa.gpg dsa.asc; do
        judge "an OpenPGP key by $file" "$file"
    done
    refuses 'a private key of OpenPGP' 'dsa-secret.gpg holds a private key: signatures are checked with the public key alone' \
        answer dsa-secret.gpg
    refuses 'a private key of OpenPGP in armor' \
        'dsa-secret.asc holds a private key: signatures are checked with the public key alone' answer dsa-secret.asc
    refuses 'an OpenPGP key of RSA' \
        'no primary key in rsa-with-dsa.gpg is a DSA key: a DSA public key in PEM, or an OpenPGP key of DSA is wanted' answer rsa-with-dsa.gpg
    head -c 300 dsa.gpg >torn.gpg
    refuses 'an OpenPGP key that breaks off' 'gpg finds no OpenPGP key in torn.gpg' answer torn.gpg
    mkdir -p empty
    PATH=$scratch/empty keys answer dsa.gpg
    expect 'no gpg' 2 '' "ssign-keys: the command gpg is missing; on Debian and Ubuntu \`apt-get install gpg\` installs it"
    asked="trust? $(openpgp dsa.gpg | base64 -w 0)"
    PATH=$scratch/empty keys answer dsa-public.pem <<<"$asked"
    expect 'a payload is read without gpg' 0 "$(answered <<<"$asked")" ''
    holds 'nothing is left in the folder of temporary files' test -z "$(ls temporary)"
}

mkdir temporary
export TMPDIR=$scratch/temporary
if command -v openssl >/dev/null && openssl genpkey -genparam -algorithm DSA -pkeyopt dsa_paramgen_bits:1024 \
    -pkeyopt dsa_paramgen_q_bits:160 -out parameters.pem 2>openssl.said; then
    check_certificates
else
    skip "no openssl here that makes DSA keys, so nothing is done with certificates"
fi
if command -v gpg >/dev/null; then
    check_openpgp
else
    skip "no gpg here, so nothing is done with OpenPGP keys"
fi

finish
