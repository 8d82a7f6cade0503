#!/usr/bin/env bash
# Whose key a verdict rests on: the fingerprints that `ssign-keys verify` prints are those of openssl, and it says why it
# doesn't trust a certificate; a revoked OpenPGP key is refused, and an expired one is named. Which certificates and OpenPGP
# keys are taken: whose_key.py beside this file.
# shellcheck source=tests/lib.sh
. "$(dirname -- "$0")/lib.sh"
need_program
export SSIGN=$program
keys_program=$root/tools/ssign-keys
need_cryptography
need_command openssl
cd -- "$scratch" || exit 1
# keys ARG..: runs ssign-keys as `run` does the program.
keys() {
    timeout "$patience" "$keys_program" "$@" >"$scratch/out" 2>"$scratch/err"
    status=$?
}

# ---- an originator's key, and authorities of openssl
mkdir one
keys make --ver 0111 one
openssl genpkey -algorithm EC -pkeyopt ec_paramgen_curve:P-256 -out ec.pem 2>/dev/null
openssl genpkey -algorithm RSA -pkeyopt rsa_keygen_bits:2048 -out rsa.pem 2>/dev/null
openssl genpkey -algorithm ED25519 -out ed.pem 2>/dev/null
cp one/private-key.pem dsa.pem
cat >ca.conf <<'END'
[ca]
default_ca = here
[here]
new_certs_dir = .
database = index.txt
rand_serial = yes
default_md = sha256
policy = any
unique_subject = no
[any]
commonName = optional
organizationName = optional
[req]
distinguished_name = name
[name]
END
touch index.txt

# issue NAME SUBJECT ISSUER KEY EXTENSIONS [FROM TO [HASH]]: the certificate NAME.crt for a key, by ISSUER.pem and
# ISSUER.crt; an issuer that is NAME signs its own. EXTENSIONS are lines of openssl with `;` between them.
issue() {
    local own=(-cert "$3.crt" -keyfile "$3.pem")
    [[ $1 == "$3" ]] && own=(-selfsign -keyfile "$3.pem")
    { cat ca.conf && printf '[these]\nsubjectKeyIdentifier = hash\nauthorityKeyIdentifier = keyid\n' && tr ';' '\n' <<<"$5"; } >this.conf
    openssl req -new -utf8 -key "$4" -subj "$2" -config ca.conf -out request.csr 2>>openssl.said
    openssl ca -batch -utf8 -config this.conf -extensions these "${own[@]}" -startdate "${6-20200101000000Z}" \
        -enddate "${7-20900101000000Z}" -md "${8-sha256}" -in request.csr -out "$1.crt" -notext 2>>openssl.said
    [[ -s $1.crt ]] || tell "openssl issues $1" "$(tail -n 3 openssl.said)"
}
is_ca='basicConstraints = critical, CA:TRUE; keyUsage = critical, keyCertSign'
for each in ec rsa ed dsa; do
    issue "$each" "/O=Authority/CN=ca of $each" "$each" "$each.pem" "$is_ca"
done

# signed CERTIFICATE HOST [STAMP]: the log of one message, signed by the key for HOST, whose payload has the certificate. VER
# is 0121, or what the variable VER says.
signed() {
    printf '<13>1 - - - - - - one\n' >plain
    "$keys_program" sign --key one/private-key.pem --rsid 1 --host "$2" --app s --lines --ver "${VER-0121}" \
        --payload "${3--} C $(openssl x509 -in "$1.crt" -outform DER | base64 -w 0)" plain >log 2>err ||
        tell "a log with $1" "$(<err)"
}

# taken WHAT ARG..: verify with these options trusts the session of the log.
taken() {
    keys verify "${@:2}" log
    [[ $status == 0 ]] && grep -q '^  key: ' out && tell "$1" '' || tell "$1" "    status $status: $(head -c 700 out) $(head -c 300 err)"
}

# not_taken WHAT WHY ARG..: verify with these options doesn't, and says why in words that begin so.
not_taken() {
    keys verify "${@:3}" log
    [[ $status == 1 ]] && grep -Fq "  why: $2" out && ! grep -q '^  key: ' out && tell "$1" '' ||
        tell "$1" "    status $status: $(head -c 700 out) $(head -c 300 err)"$'\n'"    and not: $2"
}

# is_session FILE NAME=VALUE..: the one session of this JSON has these values; none stands for null. What docs/dev/FORMATS.md says
# of the members is read, and not how they are spelled or in which order they stand.
is_session() {
    python3 -B - "$@" <<'END'
import json, sys
session, = (it for it in map(json.loads, open(sys.argv[1], encoding="utf-8")) if it["line"] == "session")
certificate = session["certificate"] or {}
found = {"key": session["key"], "fingerprint": session["fingerprint"], "time": session["payload_time"], "why": session["why"],
         "weakness": session["weakness"], "subject": certificate.get("subject"), "serial": certificate.get("serial"),
         "authority": " ".join((session["authority"] or {}).values()), "print": certificate.get("fingerprint"), "from": certificate.get("not_before"), "to": certificate.get("not_after")}
for it in sys.argv[2:]:
    name, _, value = it.partition("=")
    assert (found[name] or None) == (value or None), (name, found[name], value)
END
}

# ---- fingerprints are those of openssl
spki=$(openssl pkey -pubin -in one/public-key.pem -outform DER | sha256sum | cut -d ' ' -f 1)
for each in ec rsa ed dsa; do
    issue "leaf-$each" "/O=Originators/CN=$each.example.org" "$each" one/private-key.pem 'subjectAltName = DNS:gate'
    signed "leaf-$each" gate 2026-01-15T09:16:30.25+02:00
    taken "an issuer with a key of $each" --ca "$each.crt"
    holds "$each: the key" grep -Fqx "  key: that of the certificate, SHA-256 $spki" out
    authority=$(sha256sum <"$each.crt" | cut -d ' ' -f 1)
    holds "$each: the file of the authority" grep -Fqx "  authority: $each.crt, a file with the SHA-256 $authority" out
    print=$(openssl x509 -in "leaf-$each.crt" -noout -fingerprint -sha256 | sed 's/.*=//; s/://g' | tr A-F a-f)
    serial=$(openssl x509 -in "leaf-$each.crt" -noout -serial | sed 's/.*=//')
    subject=$(openssl x509 -in "leaf-$each.crt" -noout -subject -nameopt RFC2253 | sed 's/^subject=//')
    holds "$each: the certificate" grep -Fqx "  certificate: $subject, serial number $serial, SHA-256 $print, valid from \
2020-01-01T00:00:00Z to 2090-01-01T00:00:00Z" out
    holds "$each: the time" grep -Fqx '  payload: of 2026-01-15T09:16:30.25+02:00, as its signer states' out
    keys verify --json --ca "$each.crt" log
    holds "$each: as JSON" is_session out "key=$each.crt" "fingerprint=$spki" "subject=$subject" "serial=$serial" "print=$print" \
        "authority=$each.crt $authority" from=2020-01-01T00:00:00Z to=2090-01-01T00:00:00Z time=2026-01-15T09:16:30.25+02:00 why= weakness=
done
signed leaf-rsa gate
# what was checked has the file and the certificate in it, which have different sums
keys verify --details --html authority.html --ca rsa.crt log
anchor=$(openssl x509 -in rsa.crt -noout -fingerprint -sha256 | sed 's/.*=//; s/://g' | tr A-F a-f)
sum=$(sha256sum <rsa.crt | cut -d ' ' -f 1)
holds 'with --details: the file and its certificate' grep -q "^  key: --ca rsa.crt, a file with the SHA-256 $sum; certificate .*, SHA-256 $anchor, " out
holds 'on the page: the file and its certificate' grep -q "key: --ca rsa.crt, a file with the SHA-256 $sum; certificate .*, SHA-256 $anchor, " authority.html
holds 'on the page: the authority of the session' grep -Fq "authority: rsa.crt, a file with the SHA-256 $sum<" authority.html
keys verify --json --ca rsa.crt --cert leaf-rsa.crt log
holds 'as JSON: the file' python3 -B -c 'import json, sys
keys = {it["option"]: it["file_sha256"] for it in json.loads(open("out").readline())["keys"]}
assert keys == {"--ca": sys.argv[1], "--cert": None}, keys' "$sum"
holds 'a certificate of --cert: no authority' is_session out key=leaf-rsa.crt "fingerprint=$spki" authority=
# the weakness of the session is that of its VER alone, and no matter of the certificate
VER=0111 signed leaf-rsa gate
keys verify --json --allow-sha1 --ca rsa.crt log
holds 'a session of VER 0111: its weakness' is_session out 'weakness=rests on SHA-1, for which two texts with one hash can be made' why= \
    "fingerprint=$spki"

# ---- several sessions in one log, each with its own key
mkdir two
keys make two
spki_two=$(openssl pkey -pubin -in two/public-key.pem -outform DER | sha256sum | cut -d ' ' -f 1)
printf '<13>1 - - - - - - one\n' >plain
for each in one:a two:b one:c two:d; do
    "$keys_program" sign --key "${each%:*}/private-key.pem" --rsid 1 --host "${each#*:}" --app s --lines --ver 0121 plain
done >several
# whose FILE: of each session its HOSTNAME and the fingerprint of its key
whose() {
    python3 -B -c 'import json, sys
for it in map(json.loads, open(sys.argv[1])):
    if it["line"] == "session":
        print(it["host"], it["fingerprint"])' "$1"
}
keys verify --json --key one/public-key.pem --key two/public-key.pem several
holds 'four sessions: each key' cmp <(whose out) <(printf '%s\n' "a $spki" "b $spki_two" "c $spki" "d $spki_two")
keys verify --json --key two/public-key.pem several
holds 'four sessions: one key' cmp <(whose out) <(printf '%s\n' 'a None' "b $spki_two" 'c None' "d $spki_two")

# ---- several keys, and a log of one's HOSTNAME that the other one signed: the verdict names the key, and says what that means
"$keys_program" sign --key two/private-key.pem --rsid 1 --host host-of-one --app s --lines --ver 0121 plain >forged
both=(--key one/public-key.pem --key two/public-key.pem)
could='Each of these 2 keys could have signed any session that no --session-key names: one/public-key.pem, two/public-key.pem.'
keys verify "${both[@]}" --html forged.html forged
holds 'two keys: it is no finding' test "$status" = 0
holds 'two keys: the key of the session' grep -Fqx "  key: two/public-key.pem, SHA-256 $spki_two" out
holds 'two keys: the verdict' test "$(tail -n 1 out)" = \
    "Verdict: The one announced message is present and unchanged, and each other stored message is a verified block. $could"
holds 'two keys: the page has the verdict' grep -Fq "$could" forged.html
holds 'two keys: the page has the key' grep -Fq "key: two/public-key.pem, SHA-256 $spki_two" forged.html
# unbound ARG..: what JSON has of keys that could have signed any session
unbound() {
    "$keys_program" verify --json "$@" | tail -n 1 | python3 -B -c 'import json, sys
verdict = json.load(sys.stdin)
print(*verdict["unbound_keys"], "could have signed" in verdict["verdict"])'
}
holds 'two keys: JSON' test "$(unbound "${both[@]}" forged)" = 'one/public-key.pem two/public-key.pem True'
holds 'two keys: one of them twice' test "$(unbound "${both[@]}" --key one/public-key.pem forged)" = 'one/public-key.pem two/public-key.pem True'
holds 'one key' test "$(unbound --key two/public-key.pem forged)" = False
holds 'one key, given twice' test "$(unbound --key two/public-key.pem --key two/public-key.pem forged)" = False
holds 'two keys: the session is bound' test "$(unbound "${both[@]}" --session-key 'host-of-one * * *' two/public-key.pem forged)" = False
holds 'two keys: another session is bound' test "$(unbound "${both[@]}" --session-key 'a * * *' one/public-key.pem several)" = \
    'one/public-key.pem two/public-key.pem True'
mkdir three
keys make three
holds 'two keys: no session is joined' test "$(unbound --key one/public-key.pem --key three/public-key.pem forged)" = False
# a session whose row is folded has its key too
python3 -B - "$root/tools" verify --ssign "$program" "${both[@]}" --html several.html several >out 2>err <<'END'
import sys
sys.path.insert(0, sys.argv.pop(1))
from ssign_keys import cli, page_parts
page_parts.TOP = 1
sys.exit(cli.main(sys.argv[1:]))
END
holds 'a page of four sessions: three are folded' grep -q '<summary>3 more rows</summary>' several.html
holds 'a page of four sessions: each key' test "$(grep -o 'key: [a-z]*/public-key.pem, SHA-256 [0-9a-f]*' several.html | sort | uniq -c | tr -s ' ')" = \
    "$(printf ' 2 key: %s/public-key.pem, SHA-256 %s\n' one "$spki" two "$spki_two")"

# ---- why a certificate isn't trusted
signed leaf-rsa elsewhere
not_taken 'another HOSTNAME' "the certificate isn't for this HOSTNAME: it names gate" --ca rsa.crt
holds 'the state stays' grep -q '^  state: untrusted' out
keys verify --json --ca rsa.crt log
holds 'as JSON' grep -Fq '"key":null,"fingerprint":null,"certificate":null,"payload_time":null,"why":"the certificate' out
taken 'this certificate, for any session' --cert leaf-rsa.crt
taken 'the certificate of a session, by a pipe' --session-key 'elsewhere * * *' <(cat leaf-rsa.crt)
taken 'the key of a session, by a pipe' --session-key 'elsewhere * * *' <(cat one/public-key.pem)
issue old /CN=gate rsa one/private-key.pem 'keyUsage = digitalSignature' 20200101000000Z 20210101000000Z
signed old gate 2020-06-01T00:00:00Z
not_taken 'expired now' 'the certificate expired at 2021-01-01T00:00:00Z: --at-signing-time judges that' --ca rsa.crt
taken 'valid at the time that is stated' --ca rsa.crt --at-signing-time
issue constrained '/CN=gate' rsa one/private-key.pem '1.2.3.4 = critical, ASN1:NULL'
signed constrained gate
not_taken 'an extension that has to be known' 'openssl refuses its certificate: unhandled critical extension' --ca rsa.crt
cp rsa.pem old-ca.pem
issue old-ca '/O=Authority/CN=ca of rsa' old-ca rsa.pem "$is_ca" 20200101000000Z 20210101000000Z
signed leaf-rsa gate
not_taken 'an authority that has expired' 'openssl refuses O=Authority,CN=ca of rsa above its certificate: certificate has expired; if you know' \
    --ca old-ca.crt

# ---- what binds an authority whose certificate stands in the file too: all of it, as `openssl verify -CAfile` says
# bound WHAT WHY ROOT EXTENSIONS LEAF: an authority with these extensions below a root isn't taken to sign for gate.example.org.
bound() {
    cp ed.pem between.pem
    issue between '/CN=between' "$3" between.pem "$is_ca; $4"
    issue leaf-between /CN=gate.example.org between one/private-key.pem "$5"
    cat "$3.crt" between.crt >chain.crt
    signed leaf-between gate.example.org
    not_taken "$1" "$2" --ca chain.crt
    [[ ${6-} ]] || holds "$1: openssl refuses it too" test -n "$(openssl verify -CAfile chain.crt -verify_hostname gate.example.org leaf-between.crt 2>&1 >openssl.said)"
    keys verify --ca-anchor between.crt log
}
# one that permits the dNSName evil.example; the words of openssl for it hold a semicolon
evil="nameConstraints = critical, DER:3012A010300E820C$(printf evil.example | od -An -tx1 | tr -d ' ')"
bound 'a CN beside a dNSName that an authority may name' "the certificate isn't for this HOSTNAME: it names a.evil.example" rsa "$evil" \
    'subjectAltName = DNS:a.evil.example'
bound 'a CN that an authority may not name' 'openssl refuses its certificate: permitted subtree violation' rsa "$evil" 'keyUsage = digitalSignature'
bound 'an authority for servers' "CN=between above its certificate isn't for signing documents or code, by its extendedKeyUsage" rsa \
    'extendedKeyUsage = serverAuth' 'subjectAltName = DNS:gate.example.org' alone
cp rsa.pem short.pem
issue short '/CN=short' short rsa.pem 'basicConstraints = critical, CA:TRUE, pathlen:0; keyUsage = critical, keyCertSign'
bound 'an authority below one with pathlen 0' 'openssl refuses CN=short above its certificate: path length constraint exceeded' short \
    'keyUsage = critical, keyCertSign' 'subjectAltName = DNS:gate.example.org'
holds 'an authority below one with pathlen 0, as an anchor' test "$status" = 0
holds 'an anchor: its file is named' grep -Fqx "  authority: between.crt, a file with the SHA-256 $(sha256sum <between.crt | cut -d ' ' -f 1)" out
bound 'an authority below one that has expired' 'openssl refuses O=Authority,CN=ca of rsa above its certificate: certificate has expired' old-ca \
    'keyUsage = critical, keyCertSign' 'subjectAltName = DNS:gate.example.org'
holds 'an authority below one that has expired, as an anchor' test "$status" = 0
keys verify --ca between.crt log
expect 'an authority without the one above it' 2 '' \
    "ssign-keys: no certificate of --ca is self-issued, so no chain can end: add the root's, or give the file by --ca-anchor"

# what is signed over SHA-1, no openssl can make good: this one finds everything right
mkdir content
printf '#!/bin/sh\nexit 0\n' >content/openssl
chmod 755 content/openssl
issue short /CN=gate rsa one/private-key.pem 'keyUsage = digitalSignature' 20200101000000Z 20900101000000Z sha1
if [[ -s short.crt ]]; then
    signed short gate
    PATH=$scratch/content:$PATH not_taken 'a certificate that is signed over SHA-1' 'its certificate is signed over sha1' --ca rsa.crt
fi
said=$(python3 -B "$root/tests/whose_key.py" "$root/tools" one/private-key.pem 2>&1) && fault='' || fault=$said
tell 'certificates and OpenPGP keys that are taken, and others' "$fault"
echo "$name: $(tail -n 1 <<<"$said")"

# ---- OpenPGP keys of the reviewer
check_gpg() {
    export GNUPGHOME=$scratch/gnupg
    mkdir -m 700 gnupg
    local each
    for each in revoked expired whole; do
        gpg --batch --quiet --passphrase '' --faked-system-time 20200101T000000 \
            --quick-gen-key "$each" dsa2048 sign "$([[ $each == expired ]] && echo 1y || echo never)" 2>>gpg.said
    done
    fingerprint=$(gpg --with-colons --list-keys revoked 2>/dev/null | awk -F: '$1 == "fpr" { print $10; exit }')
    sed 's/^:---/---/' "gnupg/openpgp-revocs.d/$fingerprint.rev" | gpg --batch --quiet --import 2>>gpg.said
    for each in revoked expired whole; do
        gpg --export "$each" >"$each.gpg"
        gpg --armor --export "$each" >"$each.asc"
    done
    # when it expired, as gpg says in the seventh field (doc/DETAILS of GnuPG), and not when it was made, which is the sixth
    local expired made
    IFS=: read -r made expired < <(gpg --with-colons --list-keys expired 2>>gpg.said | awk -F: '$1 == "pub" { print $6 ":" $7; exit }')
    expired=$(date -u -d "@$expired" +%Y-%m-%dT%H:%M:%SZ)
    holds 'gpg says when a key expired' test "$expired" != "$(date -u -d "@$made" +%Y-%m-%dT%H:%M:%SZ)"
    gpgconf --kill gpg-agent
    for each in gpg asc; do
        keys answer "revoked.$each" </dev/null
        expect "a revoked key, $each" 2 '' "ssign-keys: a key in revoked.$each was revoked by its owner, so no signature of it is trusted"
        keys answer "expired.$each" </dev/null
        holds "an expired key, $each: it is named, with its time" grep -Fq "expired at $expired" err
        holds "an expired key, $each: by its file, in one line" test "$(wc -l <err).$(grep -cF "expired.$each" err)" = 1.1
        holds "an expired key, $each: it is used" test "$status" = 0
    done
    # a file with several keys, in each order: one that was revoked has the file refused, and one that expired is named
    for each in 'whole revoked' 'revoked whole' 'expired revoked' 'whole expired revoked'; do
        for it in $each; do
            cat "$it.gpg"
        done >several.gpg
        keys answer several.gpg </dev/null
        holds "the keys $each: status 2, and no answer" test "$status.$(wc -c <out)" = 2.0
        holds "the keys $each: it is said of which file" grep -Eq 'several\.gpg.* revoked ' err
    done
    for each in 'whole expired' 'expired whole'; do
        for it in $each; do
            cat "$it.gpg"
        done >several.gpg
        keys answer several.gpg </dev/null
        holds "the keys $each: they are used, and one is named" test "$status.$(grep -cF "expired at $expired" err).$(wc -l <err)" = 0.1.1
    done
    keys answer --session-key '* * * *' revoked.gpg </dev/null
    expect 'a revoked key of a session' 2 '' "ssign-keys: a key in revoked.gpg was revoked by its owner, so no signature of it is trusted"
    keys answer whole.gpg </dev/null
    expect 'a key that is neither' 0 '' ''
}
if command -v gpg >/dev/null; then
    check_gpg
else
    skip "no gpg here, so no revoked and no expired OpenPGP key is tried"
fi
finish
