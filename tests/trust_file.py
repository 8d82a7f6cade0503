#!/usr/bin/env python3
"""Cases of trust files, each with what has to come of it, written by hand from docs/dev/FORMATS.md, "A trust file".

    trust_file.py TOOLS       in a folder of its own; the program is that of the variable SSIGN

A line for each case: `passed WHAT`, or `failed WHAT: WHY`.
"""
import argparse
import base64
import datetime
import hashlib
import json
import os
import subprocess
import sys
import time

from cryptography import x509
from cryptography.hazmat.primitives import hashes, serialization
from cryptography.hazmat.primitives.asymmetric import rsa
from cryptography.x509.oid import NameOID
from whose_key import Authority, key_use

TOOLS = sys.argv[1]
SSIGN_KEYS = os.path.join(TOOLS, "ssign-keys")
sys.path.insert(0, TOOLS)

from ssign_keys.blocks import Session  # noqa: E402
from ssign_keys.identity import Identity  # noqa: E402
from ssign_keys.trust_file import Seen, matches  # noqa: E402
from ssign_keys.trust_reader import read_trust_file  # noqa: E402

PATIENCE = 120
FORM = "a line is HOSTNAME APP-NAME PROCID KEY, then the limits of the key"
NO_KEY = "it names no key: a file, SHA256: with a fingerprint, or ca= with a file"
TIME = "isn't followed by a time such as 2028-03-01T00:00:00Z or 2028-03-01, in UTC"
DIGITS = "SHA256: isn't followed by the 64 hexadecimal digits of a fingerprint, as `ssign-keys verify` prints it"
OPTIONS = "there are valid-after=, valid-before=, revoked-at= and ca=; a file of such a name begins with ./"
HEX = "ab" * 32


def tell(what, fault):
    """One case, passed where there is no fault."""
    print(f"failed {what}: {fault}" if fault else f"passed {what}")


def compare(what, found, wanted):
    tell(what, "" if found == wanted else f"{found!r}, and not {wanted!r}".replace("\n", " "))


def keys(*words, text=""):
    """A run of ssign-keys: its status, and what it wrote."""
    ended = subprocess.run([SSIGN_KEYS, *words], input=text, capture_output=True, text=True, timeout=PATIENCE, check=False)
    return ended.returncode, ended.stdout, ended.stderr


def put(text, path="trust", mode=0o644):
    with open(path, "wb") as file:
        file.write(text if isinstance(text, bytes) else text.encode())
    os.chmod(path, mode)


# ---- what there is

def fingerprint(path):
    """The SHA-256 of a public key's DER, by the text of its PEM."""
    with open(path, "rb") as file:
        lines = file.read().split(b"\n")
    return hashlib.sha256(base64.b64decode(b"".join(lines[1:-2]))).hexdigest()


def make_keys():
    """Three keys, one of RSA, an authority with a certificate for gate and the first key, and one without an end."""
    for name in ("one", "two", "three"):
        os.mkdir(name)
        if keys("make", name)[0]:
            sys.exit(f"the key {name} can't be made")
    rsa_key = rsa.generate_private_key(65537, 2048).public_key()
    put(rsa_key.public_bytes(serialization.Encoding.PEM, serialization.PublicFormat.SubjectPublicKeyInfo), "rsa.pem")
    os.mkdir("ca")
    root, other = Authority("root", "ca", "root.pem"), Authority("other", "ca", "other.pem")
    with open("one/public-key.pem", "rb") as file:
        key = serialization.load_pem_public_key(file.read())
    subject = x509.Name([x509.NameAttribute(NameOID.COMMON_NAME, "gate")])
    made = root.issue(key, subject, [(x509.SubjectAlternativeName([x509.DNSName("gate")]), False),
                                     (key_use("digital_signature"), True)])
    put(made.public_bytes(serialization.Encoding.PEM), "ca/leaf.pem")
    with open("two/public-key.pem", "rb") as first, open("three/public-key.pem", "rb") as second:
        put(first.read() + second.read(), "both.pem")
    with open("one/public-key.pem", "rb") as file:
        put(file.read(), "open.pem", 0o666)
    assert other.made.subject != root.made.subject and isinstance(made.signature_hash_algorithm, hashes.SHA256)
    return base64.b64encode(made.public_bytes(serialization.Encoding.DER)).decode()


def sign(out, key, *words, text="hello"):
    """A signed log, as frames."""
    status, said, fault = keys("sign", "--key", f"{key}/private-key.pem", "--lines", "--wrap", *words, "-", text=f"{text}\n")
    if status:
        sys.exit(f"{out} can't be signed: {fault}")
    put(said, out)


def payload(key, stamp):
    """The payload of a key, with another time."""
    with open(f"{key}/payload", encoding="ascii") as file:
        return f"{stamp} {file.read().split(' ', 1)[1]}".strip()


# ---- files that are refused: the first line of each is the wrong one, if its sentence isn't whole

ONE = "one/public-key.pem"
BAD = (
    ("a word", "gate", f"it has 1 word, and {FORM}"),
    ("two words", "gate ssign", f"it has 2 words, and {FORM}"),
    ("no key", "gate ssign -", f"it has 3 words, and {FORM}"),
    ("a key for a field", f"gate ssign {ONE}", f"it has 3 words, and {FORM}"),
    ("a comment for the key", f"gate ssign - # {ONE}", f"it has 3 words, and {FORM}"),
    ("a comment for a field", f"gate #app - {ONE}", f"it has 1 word, and {FORM}"),
    ("limits alone", "gate ssign - valid-after=2020-01-01", NO_KEY),
    ("the names of --session-key", f"gate ssign - 7 {ONE}",
     f"it names 2 keys, 7 and {ONE}: a line is one key, and no name of a "
                                                            "file has a space"),
    ("two files", f"gate ssign - {ONE} two/public-key.pem",
     f"it names 2 keys, {ONE} and two/public-key.pem: a line is one key, "
                                                             "and no name of a file has a space"),
    ("a file and a fingerprint", f"gate ssign - {ONE} SHA256:{HEX}", f"it names 2 keys, {ONE} and SHA256:{HEX}: a line is one "
                                                                      "key, and no name of a file has a space"),
    ("a file that isn't there", "gate ssign - none.pem", "none.pem can't be read: No such file or directory"),
    ("a folder for a key", "gate ssign - one", "one is no regular file"),
    ("a FIFO for a key", "gate ssign - fifo", "fifo is no regular file"),
    ("a device for a key", "gate ssign - /dev/zero", "/dev/zero is no regular file"),
    ("a key that everybody may change", "gate ssign - open.pem", "everybody may change open.pem, by its mode 0666: `chmod o-w "
                                                                 "open.pem`, and look at what it says"),
    ("an empty key", "gate ssign - void", "void is empty: a file with a DSA public key in PEM is wanted"),
    ("a key of RSA", "gate ssign - rsa.pem", "rsa.pem holds a key of RSA: signed syslog has DSA keys alone (RFC 5848, section "
                                             "4.2.8)"),
    ("a private key", "gate ssign - one/private-key.pem",
     "one/private-key.pem holds a private key: signatures are checked with "
                                                          "the public key alone"),
    ("two keys in a file", "gate ssign - both.pem", "both.pem holds 2 keys, and a line is one key"),
    ("the trust file itself", "gate ssign - trust", None),
    ("an authority that isn't there", "gate ssign - ca=none.pem", "none.pem can't be read: No such file or directory"),
    ("an authority without a name", "gate ssign - ca=", "the name of a file is empty after ca="),
    ("a key for an authority", f"gate ssign - ca={ONE}", f"{ONE} holds a public key: a certificate in PEM is wanted"),
    ("an authority without an anchor", "gate ssign - ca=ca/leaf.pem",
     "no certificate of ca/leaf.pem is self-issued, so no chain can "
                                                                      "end: add the root's"),
    ("a fingerprint that is cut", f"gate ssign - SHA256:{HEX[:-1]}", DIGITS),
    ("a fingerprint that is long", f"gate ssign - SHA256:{HEX}0", DIGITS),
    ("a fingerprint as SSH prints it", "gate ssign - SHA256:nThbg6kXUpJWGl7E1IGOCspRomTxdCARLviKw6E5SY8", DIGITS),
    ("a fingerprint with colons", "gate ssign - SHA256:" + ":".join(["ab"] * 32), DIGITS),
    ("an empty fingerprint", "gate ssign - SHA256:", DIGITS),
    ("a fingerprint in small letters, cut", f"gate ssign - sha256:{HEX[1:]}", DIGITS),
    ("an option that means another limit", f"gate ssign - {ONE} valid-until=2027-01-01", f"there is no option valid-until=: {OPTIONS}"),
    ("an option that isn't there", f"gate ssign - {ONE} namespaces=file", f"there is no option namespaces=: {OPTIONS}"),
    ("an option that is mistyped", f"gate ssign - {ONE} valid-befor=2028-01-01",
     "there is no option valid-befor=: perhaps valid-before= is meant; a file of such a name begins with ./"),
    ("an option in capitals", f"gate ssign - {ONE} Revoked-At=2028-01-01",
     "there is no option Revoked-At=: perhaps revoked-at= is meant; a file of such a name begins with ./"),
    ("an option twice", f"gate ssign - {ONE} revoked-at=2028-01-01 revoked-at=2028-01-01", "it has revoked-at= twice"),
    ("no time", f"gate ssign - {ONE} revoked-at=", f"revoked-at= {TIME}"),
    ("a time with a word", f"gate ssign - {ONE} valid-after=yesterday", f"valid-after= {TIME}"),
    ("a month 13", f"gate ssign - {ONE} valid-after=2028-13-01", f"valid-after= {TIME}"),
    ("no such day", f"gate ssign - {ONE} valid-after=2027-02-29", f"valid-after= {TIME}"),
    ("a month of one digit", f"gate ssign - {ONE} valid-after=2028-3-01", f"valid-after= {TIME}"),
    ("no zone", f"gate ssign - {ONE} valid-before=2028-03-01T00:00:00", f"valid-before= {TIME}"),
    ("another zone", f"gate ssign - {ONE} valid-before=2028-03-01T00:00:00+01:00", f"valid-before= {TIME}"),
    ("a fraction", f"gate ssign - {ONE} valid-before=2028-03-01T00:00:00.5Z", f"valid-before= {TIME}"),
    ("a second 60", f"gate ssign - {ONE} valid-before=2028-03-01T00:00:60Z", f"valid-before= {TIME}"),
    ("a time as SSH has it", f"gate ssign - {ONE} valid-before=20280301", f"valid-before= {TIME}"),
    ("a time in quotes", f'gate ssign - {ONE} valid-before="2028-03-01"', f"valid-before= {TIME}"),
    ("digits of another script", f"gate ssign - {ONE} valid-before=٢٠٢٨-03-01", f"valid-before= {TIME}"),
    ("over before it begins", f"gate ssign - {ONE} valid-after=2028-03-02 valid-before=2028-03-01",
     "its valid-before isn't after its valid-after, so it trusts nothing"),
    ("over as it begins", f"gate ssign - {ONE} valid-after=2028-03-01 valid-before=2028-03-01T00:00:00Z",
     "its valid-before isn't after its valid-after, so it trusts nothing"),
    ("a HOSTNAME that isn't ASCII", f"tür ssign - {ONE}",
     r"no HOSTNAME can be t\xc3\xbcr, because it has printable ASCII alone"),
    ("an APP-NAME that isn't ASCII", b"gate \xff - " + ONE.encode(),
     r"no APP-NAME can be \xff, because it has printable ASCII alone"),
    ("a HOSTNAME that is too long", f"{'h' * 256} ssign - {ONE}", "no HOSTNAME can be so long: it has at most 255 octets"),
    ("an APP-NAME that is too long", f"gate {'a*' * 49} - {ONE}", "no APP-NAME can be so long: it has at most 48 octets"),
    ("a PROCID that is too long", f"gate ssign {'?' * 129} {ONE}", "no PROCID can be so long: it has at most 128 octets"),
    ("NUL", f"gate ssign - {ONE}\0", r"it has the control character \x00: words stand between spaces or tabs"),
    ("NUL in a comment", "# a\0", r"it has the control character \x00: words stand between spaces or tabs"),
    ("lines that end with CR alone", f"gate ssign - {ONE}\r# x",
     r"it has the control character \x0d: words stand between spaces or tabs"),
    ("two CR", f"gate ssign - {ONE}\r\r", r"it has the control character \x0d: words stand between spaces or tabs"),
    ("an escape", f"gate ssign - \x1b[1m{ONE}", r"it has the control character \x1b: words stand between spaces or tabs"),
    ("a BOM in the second file of two", f"\ufeff\ufeffgate ssign - {ONE}",
     r"no HOSTNAME can be \xef\xbb\xbfgate, because it has "
                                                                           "printable ASCII alone"),
    ("UTF-16", f"gate ssign - {ONE}".encode("utf-16-le"),
     r"it has the control character \x00: words stand between spaces or tabs"),
)
# the second line is the wrong one
LATER = (
    ("other limits", f"gate ssign - {ONE}\ngate ssign - {ONE} revoked-at=2028-01-01", 2),
    ("other limits, the key by its fingerprint", f"gate ssign - {ONE}\ngate ssign - SHA256:%s valid-after=2028-01-01", 2),
    ("other limits, the file by another name", f"gate ssign - {ONE}\n\n# x\ngate ssign - ./{ONE} valid-after=2028-01-01", 4),
    ("other limits, the pattern with two stars", f"gate* ssign - {ONE}\ngate** ssign - {ONE} valid-after=2028-01-01", 2),
    ("other limits of an authority", "* * * ca=ca/root.pem\n* * * ca=./ca/root.pem revoked-at=2028-01-01", 2),
)
WHOLE = (
    ("an empty file", "",
     "ssign-keys: trust names no key: each line is HOSTNAME APP-NAME PROCID KEY, then the limits of the key\n"),
    ("comments alone", "# none\n\n  \t\n",
     "ssign-keys: trust names no key: each line is HOSTNAME APP-NAME PROCID KEY, then the "
                                           "limits of the key\n"),
    ("a last line that is cut", f"gate ssign - {ONE}\nother ssign - {ONE}",
     "ssign-keys: the last line of trust doesn't end with a line feed, so the file may have been cut: look at it, and end the "
     "line\n"),
)


def try_bad(first):
    """Each file that is refused, by the sentence for its line."""
    for what, text, sentence in BAD:
        put((text if isinstance(text, bytes) else text.encode()) + (b"\n\0" if what == "UTF-16" else b"\n"))
        if sentence is None:
            sentence = "trust holds no PEM: a DSA public key in PEM is wanted"
            status, out, err = keys("answer", "--trust", "trust")
            tell(what, "" if status == 2 and err.startswith("ssign-keys: line 1 of trust: trust holds ") else err)
            continue
        compare(what, keys("answer", "--trust", "trust"), (2, "", f"ssign-keys: line 1 of trust: {sentence}\n"))
    for what, text, line in LATER:
        put((text.replace("%s", first)) + "\n")
        wanted = (f"ssign-keys: line {line} of trust: it has the session and the key of line 1, and other limits: keep one of "
                  "the two\n")
        compare(what, keys("answer", "--trust", "trust"), (2, "", wanted))
    for what, text, wanted in WHOLE:
        put(text)
        compare(what, keys("answer", "--trust", "trust"), (2, "", wanted))


# ---- files that are no trust file, and options that don't go together

def refused(what, wanted, *words):
    compare(what, keys("verify", *words, "signed"), (2, "", f"ssign-keys: {wanted}\n"))


def try_files():
    """Kinds of files, modes and options."""
    good = f"gate ssign - {ONE}\n"
    refused("a trust file that isn't there", "the trust file none can't be read: No such file or directory", "--trust", "none")
    refused("a folder", "the trust file one can't be read: it is no regular file", "--trust", "one")
    refused("a FIFO", "the trust file fifo can't be read: it is no regular file", "--trust", "fifo")
    refused("a device", "the trust file /dev/null can't be read: it is no regular file", "--trust", "/dev/null")
    refused("an empty name", "the trust file  can't be read: No such file or directory", "--trust", "")
    put(good, mode=0o666)
    refused("a file that everybody may change",
            "everybody may change trust, by its mode 0666: `chmod o-w trust`, and look at what it "
            "says", "--trust", "trust")
    put(good, mode=0o664)
    compare("a file that a group may change", keys("answer", "--trust", "trust")[0], 0)
    os.symlink("trust", "link")
    os.symlink("nowhere", "dangling")
    os.symlink("fifo", "link-to-fifo")
    compare("a link to a trust file", keys("answer", "--trust", "link")[0], 0)
    refused("a link to nothing", "the trust file dangling can't be read: No such file or directory", "--trust", "dangling")
    refused("a link to a FIFO", "the trust file link-to-fifo can't be read: it is no regular file", "--trust", "link-to-fifo")
    for option, name, words in (("--key", "a public key", [ONE]), ("--session-key", "--session-key", ["a b c 1", ONE]),
                                ("--ca", "--ca", ["ca/root.pem"]), ("--ca-anchor", "--ca-anchor", ["ca/root.pem"]),
                                ("--cert", "--cert", ["ca/leaf.pem"])):
        wanted = f"--trust doesn't go with {name}: write a line for that key into the trust file"
        refused(f"--trust beside {option}", wanted, "--trust", "trust", option, *words)
    refused("--seen alone", "--seen is the time by which a trust file is judged: name that with --trust",
            "--key", ONE, "--seen", "2026-01-01")
    refused("--seen that is no time", f"--seen {TIME}", "--trust", "trust", "--seen", "today")
    status, out, err = keys("verify", "--trust", "trust", "--seen", "9999-01-01", "signed")
    is_so = (status, out) == (2, "") and "--seen says 9999-01-01T00:00:00Z, and it is " in err
    tell("--seen in the future", "" if is_so else err)


# ---- files that are taken

def moment(text):
    return datetime.datetime.fromisoformat(text.replace("Z", "+00:00"))


def try_good(first):
    """What is read of good files: for each line its number, its pattern, and what it names."""
    after, before, at = moment("2028-03-01T00:00:00Z"), moment("2029-03-01T00:00:00Z"), moment("2030-01-02T03:04:05Z")
    with open("ca/root.pem", "rb") as file:
        root = f"ca {hashlib.sha256(file.read()).hexdigest()}"
    none = (None, None, None)
    rows = (
        ("a line", f"gate ssign - {ONE}\n", [(1, "gate ssign -", first, none)]),
        ("tabs and spaces", f"\t gate \t ssign  -\t{ONE} \n", [(1, "gate ssign -", first, none)]),
        ("comments and blank lines", f"# keys\n\n  # more\ngate ssign - {ONE} # mine\n", [(4, "gate ssign -", first, none)]),
        ("a comment of any octets", b"# t\xfcr\ngate ssign - " + ONE.encode() + b"\n", [(2, "gate ssign -", first, none)]),
        ("CRLF", f"# a\r\n\r\ngate ssign - {ONE}\r\n", [(3, "gate ssign -", first, none)]),
        ("a BOM", f"\ufeffgate ssign - {ONE}\n", [(1, "gate ssign -", first, none)]),
        ("a BOM and CRLF", f"\ufeff# a\r\ngate ssign - {ONE}\r\n", [(2, "gate ssign -", first, none)]),
        ("a fingerprint", f"* * * SHA256:{first}\n", [(1, "* * *", first, none)]),
        ("a fingerprint in capitals", f"* * * sha256:{first.upper()}\n", [(1, "* * *", first, none)]),
        ("an authority", "* * * ca=ca/root.pem\n", [(1, "* * *", root, none)]),
        ("limits", f"* * * {ONE} valid-after=2028-03-01 valid-before=2029-03-01T00:00:00Z revoked-at=2030-01-02T03:04:05Z\n",
         [(1, "* * *", first, (after, before, at))]),
        ("limits in front of the key", f"* * * revoked-at=2028-03-01 {ONE}\n", [(1, "* * *", first, (None, None, after))]),
        ("revoked before it begins", f"* * * {ONE} valid-after=2029-03-01 revoked-at=2028-03-01\n",
         [(1, "* * *", first, (before, None, after))]),
        ("the same line twice", f"* * * {ONE}\n* * * {ONE}\n", [(1, "* * *", first, none), (2, "* * *", first, none)]),
        ("several stars", f"g**e ***** - {ONE}\n", [(1, "g*e * -", first, none)]),
        ("the longest fields", f"{'h' * 255}* {'?' * 48} {'p' * 128} {ONE}\n",
         [(1, f"{'h' * 255}* {'?' * 48} {'p' * 128}", first, none)]),
        ("octets that other globs read", f"[a-z] {{a,b}} \\* {ONE}\n", [(1, "[a-z] {a,b} \\*", first, none)]),
        ("a certificate in a file", "* * * ca/leaf.pem\n", [(1, "* * *", first, none)]),
        ("a key of another's line", f"a b c {ONE}\nd e f {ONE} revoked-at=2028-03-01\n",
         [(1, "a b c", first, none), (2, "d e f", first, (None, None, after))]),
    )
    for what, text, wanted in rows:
        put(text)
        found = [(it.number, it.words, it.name, tuple(it.limits)) for it in read_trust_file("trust").lines]
        compare(what, found, wanted)
    put(f"gate ssign - ../{ONE}\n", "ca/trust")
    compare("a file beside the trust file", [it.name for it in read_trust_file("ca/trust").lines], [first])
    put(f"gate ssign - {os.path.abspath(ONE)}\n", "ca/trust")
    compare("an absolute path", [it.name for it in read_trust_file("ca/trust").lines], [first])


# ---- patterns

PATTERNS = (
    ("gate", "gate", True), ("gate", "Gate", False), ("gate", "gate2", False), ("gate", "gat", False), ("*", "gate", True),
    ("*", "*", True), ("gate", "*", False), ("?", "*", True), ("?", "??", False), ("g?te", "gate", True),
    ("g?te", "gte", False),
    ("g*", "g", True), ("*e", "gate", True), ("g*e", "gate", True), ("g*x", "gate", False), ("*a*", "gate", True),
    ("web*.example", "web1.example", True), ("web*.example", "web1.example.org", False), ("[a-z]", "b", False),
    ("[a-z]", "[a-z]", True), ("{a,b}", "a", False), ("a", "[a]", False), ("\\*", "*", False), ("\\*", "\\x", True),
    ("^gate$", "gate", False), ("ga.e", "gate", False), ("-", "-", True), ("*?*?*", "ab", True), ("*?*?*", "a", False),
    ("*ab*ab", "abab", True), ("*ab*ab", "aab", False), ("*ab", "aab", True), ("a*a", "a", False),
    ("*a" * 100 + "b", "a" * 255, False),
)


def try_patterns():
    for pattern, word, wanted in PATTERNS:
        compare(f"the pattern {pattern[:20]} and {word[:20]}", matches(pattern.encode(), word.encode()), wanted)


# ---- limits, at each second

SESSION = Session(b"gate", b"ssign", b"-", b"1")
AT = "2026-03-01T00:00:00Z"
# what the line has, the payload's time, when the log was seen (seconds from AT), the answer
JUDGED = (
    ("revoked, a second before", f"revoked-at={AT}", "-", -1, "trusted"),
    ("revoked, at that second", f"revoked-at={AT}", "-", 0, "revoked"),
    ("revoked, a second after", f"revoked-at={AT}", "-", 1, "revoked"),
    ("revoked, by a date", "revoked-at=2026-03-01", "-", 0, "revoked"),
    ("revoked, by a date, a second before", "revoked-at=2026-03-01", "-", -1, "trusted"),
    ("revoked, and the payload is older", f"revoked-at={AT}", "2020-01-01T00:00:00Z", 5, "revoked"),
    ("not revoked yet, and the payload is younger", f"revoked-at={AT}", "2029-01-01T00:00:00Z", -5, "trusted"),
    ("valid before, a second before", f"valid-before={AT}", "-", -1, "trusted"),
    ("valid before, at that second", f"valid-before={AT}", "-", 0, "trusted"),
    ("valid before, a second after", f"valid-before={AT}", "-", 1, "expired"),
    ("expired, and the payload is older", f"valid-before={AT}", "2020-01-01T00:00:00Z", 1, "expired"),
    ("not expired, and the payload is younger", f"valid-before={AT}", "2029-01-01T00:00:00Z", -1, "trusted"),
    ("valid after, a second before", f"valid-after={AT}", "2026-02-28T23:59:59Z", 5, "early"),
    ("valid after, at that second", f"valid-after={AT}", AT, 5, "trusted"),
    ("valid after, a second after", f"valid-after={AT}", "2026-03-01T00:00:01Z", 5, "trusted"),
    ("valid after, with an offset", f"valid-after={AT}", "2026-03-01T00:30:00+01:00", 5, "early"),
    ("valid after, with an offset, and after", f"valid-after={AT}", "2026-02-28T23:30:00-01:00", 5, "trusted"),
    ("valid after, a part of a second before", f"valid-after={AT}", "2026-02-28T23:59:59.999999Z", 5, "early"),
    ("valid after, and no time", f"valid-after={AT}", "-", 5, "early"),
    ("valid after doesn't look at when the log was seen", f"valid-after={AT}", AT, -5, "trusted"),
    ("revoked is the gravest", f"valid-after=2020-01-01 valid-before=2021-01-01 revoked-at={AT}", "-", 1, "revoked"),
    ("expired is graver than early", f"valid-after=2020-01-01 valid-before={AT}", "-", 1, "expired"),
    ("no limit", "", "-", 0, "trusted"),
)


def try_limits(first):
    """What is answered about a key, as `check` asks."""
    at = int(moment(AT).timestamp())
    for what, limits, stamp, seconds, wanted in JUDGED:
        put(f"gate ssign - {ONE} {limits}\n")
        seen = Seen.at(at + seconds, "as the memory says")
        answer = read_trust_file("trust").judge(SESSION, Identity(ONE, first, None, stamp), seen)
        has_end = "revoked" in limits or "before" in limits
        compare(what, (answer.answer, answer.line, "the memory" in answer.words), (wanted, 1, has_end and wanted != "early"))
    put(f"gate ssign - {ONE}\n* ssign * {ONE} revoked-at={AT}\n")
    file = read_trust_file("trust")
    revoked = file.judge(SESSION, Identity(ONE, first, None, "-"), Seen.at(at, "x"))
    compare("each line that names the session counts", (revoked.answer, revoked.line), ("revoked", 2))
    for what, session, key, wanted in (
            ("another key", SESSION, HEX,
             "no line of trust names for this session the key that its payload states, SHA-256 " + HEX),
            ("another session", SESSION._replace(app=b"cron"), HEX,
             f"no line of trust names this session; its payload states the key "
                                                                    f"SHA-256 {HEX}"),
            ("the key for another session", SESSION._replace(app=b"cron"), first,
             f"line 1 of trust names its key, SHA-256 {first}, for 'gate ssign -' and no line for this session")):
        said = file.judge(session, Identity(ONE, key, None, "-"))
        compare(what, tuple(said), ("untrusted", None, wanted))
    with open("ca/root.pem", "rb") as opened:
        root = hashlib.sha256(opened.read()).hexdigest()
    put(f"gate * * ca=ca/root.pem revoked-at={AT}\n")
    file = read_trust_file("trust")
    for seconds, wanted in ((-1, "trusted"), (0, "revoked")):
        said = file.judge(SESSION, Identity("ca/root.pem", first, None, "-", root), Seen.at(at + seconds, "x"))
        compare(f"an authority, {wanted}", (said.answer, said.line), (wanted, 1))
    said = file.judge(SESSION, Identity("ca/root.pem", first, None, "-", HEX), Seen.at(at - 1, "x"))
    compare("another authority", said.answer, "untrusted")


# ---- logs

def verified(words, log):
    """The status of a verdict, the state of each session, and what the trust file answers about it."""
    status, out, err = keys("verify", "--json", *words, log)
    objects = [json.loads(it) for it in out.splitlines()]
    found = [it for it in objects if it["line"] == "session"]
    return status, [(it["state"], *((it["trust"] or {}).get(one) for one in ("answer", "line"))) for it in found], objects, err


def make_logs(leaf):
    """Logs that are signed by these keys, under these names."""
    web = ("--app", "ssign", "--rsid", "7")
    sign("gate", "one", "--host", "gate", *web)
    sign("door", "two", "--host", "door", *web)
    sign("forged", "two", "--host", "gate", *web, text="forged")
    sign("star", "two", "--host", "*", *web)
    sign("class", "two", "--host", "[a-z]", *web)
    sign("no-key", "one", "--host", "gate", *web, "--payload", "- N")
    sign("certified", "one", "--host", "gate", *web, "--payload", f"- C {leaf}")
    sign("other-host", "one", "--host", "door", *web, "--payload", f"- C {leaf}")
    sign("old", "one", "--host", "gate", *web, "--payload", payload("one", "2026-02-28T23:59:59Z"))
    sign("young", "one", "--host", "gate", *web, "--payload", payload("one", AT))
    for name in ("gate", "door"):
        sign(f"one-{name}", "one", "--host", name, *web, "--payload", payload("one", "-"))
    with open("one-gate", "rb") as first, open("one-door", "rb") as second:
        put(first.read() + second.read(), "one-payload")
    with open("gate", "rb") as first, open("forged", "rb") as second:
        put(first.read() + second.read(), "mixed")
        second.seek(0)
        first.seek(0)
        put(second.read() + first.read(), "mixed-first")
    with open("gate", "rb") as first, open("door", "rb") as second:
        put(first.read() + second.read(), "two-machines")


JOINED, STRANGE = [("joined", "trusted", 1)], [("untrusted", "untrusted", None)]
TWO, THREE = "two/public-key.pem", "three/public-key.pem"
BEFORE = ("--seen", "2026-02-28T23:59:59Z")
# what it is, the trust file, options, the log, the status, and for each session its state, the answer and the line
LOGS = (
    ("the key of the session", f"gate ssign - {ONE}", (), "gate", 0, JOINED),
    ("the session by stars", f"* s* * {ONE}", (), "gate", 0, JOINED),
    ("the key by its fingerprint", "gate ssign - SHA256:%s", (), "gate", 0, JOINED),
    ("another key than that of the session", f"gate ssign - {TWO}", (), "gate", 1, STRANGE),
    ("the key of another session", f"door ssign - {ONE}\ngate ssign - {TWO}", (), "gate", 1, STRANGE),
    ("another HOSTNAME", f"gat ssign - {ONE}", (), "gate", 1, STRANGE),
    ("another PROCID", f"gate ssign 1 {ONE}", (), "gate", 1, STRANGE),
    ("two machines", f"gate * * {ONE}\ndoor * * {TWO}", (), "two-machines", 0,
     [("joined", "trusted", 2), ("joined", "trusted", 1)]),
    ("two machines, the lines crossed", f"gate * * {TWO}\ndoor * * {ONE}", (), "two-machines", 1, STRANGE * 2),
    ("whoever has the key of door signs as gate", f"gate * * {ONE}\ndoor * * {TWO}", (), "forged", 1, STRANGE),
    ("two keys in one log, one of another session", f"gate * * {ONE}\ndoor * * {TWO}", (), "mixed", 1, JOINED),
    ("the same in front", f"gate * * {ONE}\ndoor * * {TWO}", (), "mixed-first", 1, JOINED),
    ("the same, the key by its fingerprint", f"gate * * SHA256:%s\ndoor * * {TWO}", (), "mixed", 1, JOINED),
    ("one payload in two sessions, of which one is named", f"gate * * {ONE}", (), "one-payload", 1,
     [("unaccepted", "untrusted", None), JOINED[0]]),
    ("the second key is revoked", f"gate * * {ONE}\n* * * {TWO} revoked-at={AT}", (), "mixed", 1, JOINED),
    ("the second key has expired", f"gate * * {ONE}\n* * * {TWO} valid-before={AT}", (), "mixed", 1, JOINED),
    ("two keys of one session", f"gate * * {ONE}\n* * * {TWO}", (), "mixed", 1, [("disputed", None, None)]),
    ("a session that is named *", f"gate * * {TWO}", (), "star", 1, STRANGE),
    ("a session that is named *, by ?", f"? * * {TWO}", (), "star", 0, JOINED),
    ("a session that is named [a-z]", f"[a-z] ssign - {TWO}", (), "class", 0, JOINED),
    ("a session that is named [a-z], and b", f"b ssign - {TWO}", (), "class", 1, STRANGE),
    ("revoked, by now", f"gate * * {ONE} revoked-at={AT}", (), "gate", 1, [("untrusted", "revoked", 1)]),
    ("revoked, a second before", f"gate * * {ONE} revoked-at={AT}", BEFORE, "gate", 0, JOINED),
    ("revoked, at that second", f"gate * * {ONE} revoked-at={AT}", ("--seen", AT), "gate", 1, [("untrusted", "revoked", 1)]),
    ("expired, by now", f"gate * * {ONE} valid-before={AT}", (), "gate", 1, [("untrusted", "expired", 1)]),
    ("expired, at that second", f"gate * * {ONE} valid-before={AT}", ("--seen", "2026-03-01"), "gate", 0, JOINED),
    ("early", f"gate * * {ONE} valid-after={AT}", (), "old", 1, [("untrusted", "early", 1)]),
    ("not early", f"gate * * {ONE} valid-after={AT}", (), "young", 0, JOINED),
    ("an old payload of a revoked key", f"gate * * {ONE} revoked-at={AT}", (), "old", 1, [("untrusted", "revoked", 1)]),
    ("a key is changed", f"gate * * {ONE} valid-before=2026-06-01\ngate * * {TWO} valid-after=2026-06-01", (), "forged", 0,
     [("joined", "trusted", 2)]),
    ("a key is changed, and the old one signs",
     f"gate * * {ONE} valid-before=2026-06-01\ngate * * {TWO} valid-after=2026-06-01", (),
     "gate", 1, [("untrusted", "expired", 1)]),
    ("a revoked fingerprint beside its authority", f"gate * * ca=ca/root.pem\n* * * SHA256:%s revoked-at={AT}", (),
     "certified", 1,
     [("untrusted", "revoked", 2)]),
    ("an authority", "gate * * ca=ca/root.pem", (), "certified", 0, JOINED),
    ("another authority", "gate * * ca=ca/other.pem", (), "certified", 1, [("untrusted", "untrusted", 1)]),
    ("an authority by two names, one of them revoked", f"gate * * ca=ca/root.pem\n* * * ca=./ca/root.pem revoked-at={AT}", (),
     "certified", 1, [("untrusted", "revoked", 2)]),
    ("another authority first", "* * * ca=ca/other.pem\ngate * * ca=ca/root.pem", (), "certified", 0,
     [("joined", "trusted", 2)]),
    ("an authority of another session", "door * * ca=ca/root.pem", (), "certified", 1, STRANGE),
    ("a certificate for another HOSTNAME", "* * * ca=ca/root.pem", (), "other-host", 1, [("untrusted", "untrusted", 1)]),
    ("an authority, revoked", f"gate * * ca=ca/root.pem revoked-at={AT}", (), "certified", 1, [("untrusted", "revoked", 1)]),
    ("an authority, before it is revoked", f"gate * * ca=ca/root.pem revoked-at={AT}", BEFORE, "certified", 0, JOINED),
    ("an authority, and a key without a certificate", "gate * * ca=ca/root.pem", (), "gate", 1, STRANGE),
    ("a certificate by its key", f"gate * * {ONE}", (), "certified", 0, JOINED),
    ("a certificate in a file", "gate * * ca/leaf.pem", (), "certified", 0, JOINED),
    ("a payload that states no key", f"gate * * {ONE}", (), "no-key", 0, JOINED),
    ("no key, and another's", f"gate * * {TWO}", (), "no-key", 1, [("unaccepted", None, None)]),
    ("no key, and two lines", f"gate * * {ONE}\n* * * {TWO}", (), "no-key", 1, STRANGE),
    ("no key, and one of two lines is over", f"gate * * {ONE}\n* * * {TWO} valid-before={AT}", (), "no-key", 0, JOINED),
    ("no key, and a fingerprint", "gate * * SHA256:%s", (), "no-key", 1, STRANGE),
    ("a third key", f"* * * {THREE}", (), "gate", 1, STRANGE),
)


def try_logs(first):
    for what, text, words, log, status, sessions in LOGS:
        put(text.replace("%s", first) + "\n")
        found = verified(["--trust", "trust", *words], log)
        compare(what, (found[:2], found[3]), ((status, sessions), found[3] if log == "x" else ""))


def line_of(out, front):
    """The line of an output that begins so."""
    return next((it for it in out.splitlines() if it.startswith(front)), "")


def try_words(first):
    """What a person reads."""
    put(f"# keys\ngate * * {ONE} revoked-at={AT}\n")
    status, out, err = keys("verify", "--trust", "trust", "gate")
    why = line_of(out, "  why: ")
    tell("the sentence about a revoked key", "" if (status, err) == (1, "") and why.startswith(
        f"  why: line 2 of trust: its key is revoked from {AT} on, judged at 20") and why.endswith(
        "Z, the present time; --seen names an earlier time at which you had the log already") else out)
    said = "; 1 session isn't joined: by the trust file 1 is under a revoked key."
    tell("the verdict about a revoked key", "" if said in out else out)
    status, out, err = keys("verify", "--trust", "trust", *BEFORE, "--details", "gate")
    compare("which time was used", line_of(out, "  trust: "),
            "  trust: line 2 of trust: judged at 2026-02-28T23:59:59Z, the time of "
            "--seen")
    compare("what it was checked with", line_of(out, "  key: --trust one/"),
            f"  key: --trust {ONE} for the session gate * *, SHA-256 "
            f"{first}")
    with open("trust", "rb") as file:
        digest = hashlib.sha256(file.read()).hexdigest()
    compare("the trust file by its SHA-256", line_of(out, "  key: --trust trust"),
            f"  key: --trust trust, a file with the SHA-256 {digest}")
    compare("how it is repeated", line_of(out, "  options: "), "  options: --trust trust --seen 2026-02-28T23:59:59Z --details")
    put(f"gate * * {TWO}\n")
    status, out, err = keys("verify", "--trust", "trust", "gate")
    said = f"no key that trust names for it is the one that its signer states (SHA-256 {first})"
    tell("the verdict about another key", "" if said in out else out)
    put(f"gate * * {ONE}\n* * * {TWO}\n")
    status, out, err = keys("verify", "--trust", "trust", "mixed")
    compare("what to do about two keys", line_of(out, "  why: "),
            f"  why: two of your keys signed a payload for it, {ONE} and {TWO}: "
            "end one of them in the trust file")
    status, out, err = keys("verify", "--trust", "trust", "--jobs", "2", "two-machines")
    compare("two processes", (status, err), (0, ""))
    compare("a page", keys("verify", "--trust", "trust", "--html", "page", "gate")[0], 0)
    with open("page", encoding="utf-8") as file:
        tell("the page names the line", "" if "line 1 of trust" in file.read() else "it doesn't")


def try_answers():
    """`answer --trust`: the lines that hold."""
    program = os.environ["SSIGN"]
    with open("two-machines", "rb") as log:
        asked = subprocess.run([program, "questions"], stdin=log, capture_output=True, text=True, check=True).stdout
    put(f"* * * {ONE}\ngate * * {TWO}\n")
    status, out, err = keys("answer", "--trust", "trust", text=asked)
    with open("one/payload", encoding="ascii") as file:
        key = file.read().strip().split(" ")[2]
    kept = [base64.b64decode(it.split(" ")[1]).decode().split(" ")[2] for it in out.splitlines()]
    compare("answer --trust", (status, err, set(kept), out != ""), (0, "", {key}, True))


# ---- payloads of strangers

def try_payloads(leaf):
    """What is answered about payloads that aren't those of a key of DSA."""
    from ssign_keys.trust_by_file import read_trust
    put(f"gate ssign - {ONE}\n* * * ca=ca/root.pem\n")
    trust = read_trust(argparse.Namespace(trust="trust", seen=None, keys=[], session_key=[], ca=[], ca_anchor=[], cert=[],
                                          at_signing_time=False))
    with open("rsa.pem", "rb") as file:
        rsa_blob = base64.b64encode(base64.b64decode(b"".join(file.read().split(b"\n")[1:-2])))
    with open("ca/root.pem", "rb") as file:
        rsa_certificate = base64.b64encode(base64.b64decode(b"".join(file.read().split(b"\n")[1:-2])))
    good = payload("one", "-").encode()
    for what, octets, wanted in (
            ("nothing", b"", "its payload can't be read"), ("no payload", b"hello", "its payload can't be read"),
            ("octets that are none", b"\xff\0" * 50, "its payload can't be read"),
            ("a key of RSA", b"- K " + rsa_blob, "its payload states no DSA key that can be read"),
            ("no numbers", b"- K AAAA", "its payload states no DSA key that can be read"),
            ("numbers of no key", b"- K AAEBAAEBAAEBAAEB", "its payload states numbers that no DSA key has"),
            ("a certificate of RSA", b"- C " + rsa_certificate, "its certificate has no DSA key"),
            ("a certificate that is none", b"- C AAAA", "its payload holds no certificate that can be read"),
            ("OpenPGP that is none", b"- P AAAA", "its payload states no DSA key that can be read"),
            ("an unknown type", b"- X AAAA", "its payload can't be read"),
            ("no such time", good.replace(b"- ", b"2026-13-01T00:00:00Z ", 1), "its payload states a time that there is not"),
            ("too long", b"- K " + b"A" * 70000, "its payload can't be read"), ("the key", good, "")):
        judged = trust.judge(octets, SESSION)
        compare(f"a payload: {what}", (judged.why, judged.trusted is None), (wanted, wanted != ""))
    alone = trust.judge(good, None)
    compare("a payload without a session", (alone.trusted, alone.why), (None, "no block names a session with its payload"))


# ---- cost

def seconds(act, *words):
    """The shortest of three runs, in seconds of the processor."""
    spent = []
    for _ in range(3):
        begun = time.process_time()
        act(*words)
        spent.append(time.process_time() - begun)
    return min(spent)


def judge_all(file, sessions):
    for it in sessions:
        file.judge(it, Identity("", HEX, None, "-"), Seen.at(0, ""))


def try_costs():
    """Twice the lines, or twice the sessions, cost at most three times as much."""
    spent = []
    for count in (10000, 20000):
        put("".join(f"host{it} ssign - SHA256:{it:064x} revoked-at=2028-01-01\n" for it in range(count)))
        spent.append(seconds(read_trust_file, "trust"))
    tell("twice the lines", "" if spent[1] <= 3 * spent[0] else f"{spent}")
    file = read_trust_file("trust")
    sessions = [Session(b"host%d" % it, b"ssign", b"-", b"1") for it in range(20000)]
    spent = [seconds(judge_all, file, sessions[:10000]), seconds(judge_all, file, sessions)]
    tell("twice the sessions, with twice the lines", "" if spent[1] <= 3 * spent[0] else f"{spent}")
    tell("each session has its lines found by its name", "" if spent[1] < 10 else f"{spent}")


def main():
    leaf = make_keys()
    first = fingerprint(ONE)
    os.mkfifo("fifo")
    put("", "void")
    put("", "signed")
    try_bad(first)
    try_files()
    try_good(first)
    try_patterns()
    try_limits(first)
    try_payloads(leaf)
    try_costs()
    make_logs(leaf)
    try_logs(first)
    try_words(first)
    try_answers()


if __name__ == "__main__":
    main()
