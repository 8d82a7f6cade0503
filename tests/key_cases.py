#!/usr/bin/env python3
"""What tests/keys.sh asks ssign-keys, and what has to come of it, by the arithmetic of dsa_model.py.

    key_cases.py log FRAMES ANSWERS KEY          the blocks of the log are signed by the key in the file of PEM, their
                                                 payload states it, and the answers are those of a checker that has it
    key_cases.py seals WANTS SEALS KEY VERSION.. the lines of SEALS are a valid signature for each line of WANTS, whose
                                                 blocks have these versions, over and over
    key_cases.py payload PAYLOAD KEY             the file PAYLOAD states the key
    key_cases.py sizes KEY                       prints how many bits p and q of the key have
    key_cases.py public PRIVATE                  prints the public key of a private key as PEM
    key_cases.py blob PRIVATE                    prints a payload of the type K that states the key
    key_cases.py rfc FOLDER                      writes the blocks that RFC 5848 shows (sections 4.2.9 and 5.3.2.9) as
                                                 FOLDER/log, and the key that the second states, FOLDER/public-key.pem

What follows prints cases: `yes` or `no`, a tab, what is asked, a tab, and a line of `ssign questions`.

    key_cases.py wrong PRIVATE OTHER LONG        signatures and payloads of the first key that are right, and ones that
                                                 are wrong in one thing. LONG is a key whose q has 256 bits
    key_cases.py hides PRIVATE                   blocks whose VER hides among octets that are spelled like one
    key_cases.py payloads                        for each line of standard input, WANTED, WHAT, PAYLOAD, PRIVATE, VERSION
                                                 and SESSION with tabs between them, a `trust?` line and a `yes?` line:
                                                 which of them hold WANTED says by `both`, `trust` or `none`
"""
from __future__ import annotations

import base64
import os
import re
import sys
from typing import Callable, Dict, Iterator, List, Tuple

import dsa_model
from dsa_model import Key, Pair, numbers, spell
from review_model import Log, questions
from review_runs import as_answers, frame, joined, question_text, read_frames

HEAD = "host.example.org syslogd 2138 - "
RFC_PAYLOAD = """2009-05-03T14:00:39.519005+02:00 K BACsLMZ
NCV2NUAwe4RAeAnSQuvv2KS51SnHFAaWJNU2XVDYvW1LjmJgg4vKvQPo3HEOD+2hEkt1z
cXADe03u5pmHoWy5FGiyCbglYxJkUJJrQqlTSS6vID9yhsmEnh07w3pOsxmb4qYo0uWQr
AAenBweVMlBgV3ZA5IMA8xq8l+i8wCgkWJjCjfLar7s+0X3HVrRroyARv8EAIYoxofh9m
N8n821BTTuQnz5hp40d6Z3UudKePu2di5Mx3GFelwnV0Qh5mSs0YkuHJg0mcXyUAoeYry
5X6482fUxbm+gOHVmYSDtBmZEB8PTEt8Os8aedWgKEt/E4dT+Hmod4omECLteLXxtScTM
gDXyC+bSBMjRRCaeWhHrYYdYBACCWMdTc12hRLJTn8LX99kv1I7qwgieyna8GCJv/rEgC
ssS9E1qARM+h19KovIUOhl4VzBw3rK7v8Dlw/CJyYDd5kwSvCwjhO21LiReeS90VPYuZF
RC1B82Sub152zOqIcAWsgd4myCCiZbWBsuJ8P0gtarFIpleNacCc6OV3i2Rg==""".replace("\n", "")
RFC_HASHES = """K6wzcombEvKJ+UTMcn9bPryAeaU= zrkDcIeaDluypaPCY8WWzwHpPok=
zgrWOdpx16ADc7UmckyIFY53icE= XfopJ+S8/hODapiBBCgVQaLqBKg=
J67gKMFl/OauTC20ibbydwIlJC8= M5GziVgB6KPY3ERU1HXdSi2vtdw=
Wxd/lU7uG/ipEYT9xeqnsfohyH0=""".replace("\n", " ")
RFC_LOG = [
    '<110>1 2009-05-03T14:00:39.519307+02:00 ' + HEAD + '[ssign-cert VER="0111" RSID="1" SG="0" SPRI="0" TPBL="587" '
    'INDEX="1" FLEN="587" FRAG="' + RFC_PAYLOAD + '" SIGN="AKAQEUiQptgpd0lKcXbuggGXH/dCdQCgdysrTBLUlbeGAQ4vwrnLOqSL7+c="]',
    '<110>1 2009-05-03T14:00:39.529966+02:00 ' + HEAD + '[ssign VER="0111" RSID="1" SG="0" SPRI="0" GBC="2" FMN="1" '
    'CNT="7" HB="' + RFC_HASHES + '" SIGN="AKBbX4J7QkrwuwdbV7Taujk2lvOf8gCgC62We1QYfnrNHz7FzAvdySuMyfM="]',
]
SHA1_BLOCK = '[ssign VER="0111" RSID="1" SG="0" SPRI="0" GBC="0" FMN="1" CNT="1" HB="qZk+NkcGgWq6PiVxeFDCbJzQ2J0="]'
SHA256_BLOCK = '[ssign-cert VER="0121" RSID="1" SG="0" SPRI="0" TPBL="1" INDEX="1" FLEN="1" FRAG="x"]'
# VER is that of the block's element, wherever else such octets stand.
HIDDEN = [
    ("0111", f'<110>1 - [ssign VER="0121" - - {SHA1_BLOCK}'),
    ("0121", f'<110>1 - [ssign-cert VER="0111" - - {SHA256_BLOCK}'),
    ("0111", f'<110>1 - [ssign VER="0121" RSID="1" - {SHA1_BLOCK}'),
    ("0111", f'<110>1 - h s - - [x[ssign VER="0121" a="b"]{SHA1_BLOCK}'),
    ("0111", f'<110>1 - h s - - [x[ssign VER="0121" RSID="1" a="b"]{SHA1_BLOCK}'),
    ("0121", f'<110>1 - h s - - [ssign@1 VER="0111" a="\\\\\\][ssign-cert VER="]{SHA256_BLOCK}'),
    ("0121", f'<110>1 - h s - - [x@1 a="\\][ssign VER=\\"0111\\" RSID=\\"1\\" "]{SHA256_BLOCK}'),
    ("0111", f'<110>1 - h s - - [[x a="[["][[[ssign VER="0121" a="["]{SHA1_BLOCK}'),
    ("0121", f'<110>1 - [[ [ [[ - [x a="["]{SHA256_BLOCK}'),
    ("0111", f'<110>1 - h s - - {SHA1_BLOCK} ][ssign VER="0121" RSID="1" '),
    ("0121", f'<110>1 - h s - - [x@1 a="\0\nb"]{SHA256_BLOCK}[y@1] ][ssign VER="0111" RSID="1" \0 \n '),
    ("0111", f'<110>1 - {"h" * 255} {"s" * 48} {"p" * 128} {"m" * 32} {SHA1_BLOCK}'),
    ("0121", f'<0>1 2026-01-15T09:16:30.123456+02:00 ]][ ][ "\\ ] {SHA256_BLOCK}'),
]


def want(is_so: bool, what: str) -> None:
    """Ends the run where something isn't so."""
    if not is_so:
        raise SystemExit(f"key_cases.py: {what}")


def base(octets: bytes) -> str:
    """Octets in base64."""
    return base64.b64encode(octets).decode()


def unbase(text: bytes) -> bytes:
    """The octets that a text of strict base64 spells."""
    octets = base64.b64decode(text, validate=True)
    want(base64.b64encode(octets) == text, "a text isn't strict base64")
    return octets


def block(version: str, name: str, session: str = "h s - 1") -> bytes:
    """The octets to be signed of a block, whose MSGID tells it from others."""
    host, app, procid, rsid = session.split(" ")
    digest = dsa_model.HASHES[version.encode()](name.encode()).digest()
    return (f'<110>1 - {host} {app} {procid} {name} [ssign VER="{version}" RSID="{rsid}" SG="0" SPRI="0" GBC="0" FMN="1" '
            f'CNT="1" HB="{base(digest)}"]').encode()


def states(payload: bytes, key: Key) -> bool:
    """Whether a payload (RFC 5848, section 5.2.1) is of the type K and has this key."""
    fields = payload.split(b" ")
    return len(fields) == 3 and fields[1] == b"K" and numbers(unbase(fields[2])) == list(key)


# ---- checks of what ssign-keys writes


def check_payload(path: str, key_file: str) -> None:
    """The file of a payload states a key."""
    with open(path, "rb") as file:
        lines = file.read().split(b"\n")
    want(lines[1:] == [b""] and states(lines[0], dsa_model.read_key(key_file)), "the payload doesn't state the key")


def print_sizes(key_file: str) -> None:
    """How long a key is."""
    p, q, _, _ = dsa_model.read_key(key_file)
    print(p.bit_length(), q.bit_length())


def print_public(key_file: str) -> None:
    """The public key to a private one."""
    sys.stdout.write(dsa_model.pem(read_pair(key_file).key).decode())


def print_blob(key_file: str) -> None:
    """A payload that states a key."""
    print("- K", base(dsa_model.blob(read_pair(key_file).key)))


def check_log(frames: str, answers: str, key_file: str) -> None:
    """The log that is kept is signed, and so are its answers."""
    key = dsa_model.read_key(key_file)
    with open(frames, "rb") as file:
        messages, torn = read_frames(file.read())
    want(torn is None and bool(messages), "the log is torn, or empty")
    asked = question_text(questions(Log(messages)))
    want(len(asked) > 1, "the log asks nothing")
    for _, payload, *rest in (it.encode().split(b" ") for it in asked):
        want(states(unbase(payload), key), "a payload doesn't state the key")
        want(not rest or is_signed(key, *map(unbase, rest)), "a signature isn't valid")
    with open(answers, "rb") as file:
        want(file.read() == as_answers(joined(asked)), "the answers aren't all that is asked")


def is_signed(key: Key, octets: bytes, signature: bytes) -> bool:
    """Whether the signature of a block is valid, whose first element is that of the block."""
    version = re.search(rb'\[ssign(?:-cert)? VER="(\d+)"', octets)
    return version is not None and dsa_model.is_signed(key, octets, version[1], signature)


def check_seals(wants: str, seals: str, key_file: str, *versions: str) -> None:
    """Each wanted signature is there, and valid."""
    key = dsa_model.read_key(key_file)
    with open(wants, "rb") as file:
        wanted = [line.split(b" ") for line in file.read().splitlines()]
    with open(seals, "rb") as file:
        given = [line.split(b" ") for line in file.read().splitlines()]
    want(bool(wanted) and [it[1] for it in wanted] == [it[1] for it in given], "the lines aren't for the same octets")
    for place, (word, octets, signature) in enumerate(given):
        version = versions[place % len(versions)].encode()
        want(word == b"seal" and dsa_model.is_signed(key, unbase(octets), version, unbase(signature)),
             f"the signature of line {place + 1} isn't valid")


def write_rfc(folder: str) -> None:
    """The log and the key of the RFC."""
    with open(os.path.join(folder, "log"), "wb") as file:
        file.write(b"".join(frame(it.encode()) for it in RFC_LOG))
    with open(os.path.join(folder, "public-key.pem"), "wb") as file:
        file.write(dsa_model.pem(Key(*numbers(unbase(RFC_PAYLOAD.split(" ")[2].encode())))))


# ---- cases

Case = Tuple[str, str, str]


def read_pair(path: str) -> Pair:
    """The key pair in a file of PEM, or in one of OpenPGP (RFC 4880, section 5.5.3), whose name ends with gpg."""
    if not path.endswith("gpg"):
        return dsa_model.read_pair(path)
    with open(path, "rb") as file:
        octets = file.read()
    want(octets[0] == 0x95, "no secret key with a length of two octets")
    body = octets[3:3 + int.from_bytes(octets[1:3], "big")]
    want(body[0] == 4 and body[5] == 17, "no DSA key")
    found: List[int] = []
    place = 6
    # p, q, g and y, the octet 0 that says that nothing is encrypted, and x
    while len(found) < 5:
        place += len(found) == 4
        size = (int.from_bytes(body[place:place + 2], "big") + 7) // 8
        found.append(int.from_bytes(body[place + 2:place + 2 + size], "big"))
        place += 2 + size
    p, q, g, y, x = found
    want(pow(g, x, p) == y, "the numbers are no key pair")
    return Pair(Key(p, q, g, y), x)


def signature(pair: Pair, octets: bytes, version: str) -> bytes:
    """A valid signature."""
    return b"".join(map(spell, dsa_model.sign(pair, octets, version.encode())))


def wrong_signatures(pair: Pair, longer: Pair) -> Iterator[Case]:
    """Signatures that are right, and ones that are wrong in one thing."""
    octets, octets_256 = block("0111", "a"), block("0121", "b")
    # counts of bits that are too small are tried where they ask for as many octets; 160 is another count than is needed
    while True:
        r, s = dsa_model.sign(pair, octets, b"0111")
        if all(153 < it.bit_length() < 160 for it in (r, s)):
            break
    key = pair.key
    payload = base(b"- K " + base(dsa_model.blob(key)).encode())
    good = spell(r) + spell(s)
    of_256 = signature(pair, octets_256, "0121")
    short_r = spell(r)
    der = dsa_model.item(0x30, dsa_model.integer(r) + dsa_model.integer(s))

    def case(wanted: str, what: str, text: bytes, sign: bytes) -> Case:
        return wanted, what, f"yes? {payload} {base(text)} {base(sign)}"

    yield case("yes", "a signature over SHA-1", octets, good)
    yield case("yes", "a signature over SHA-256, cut to 160 bits", octets_256, of_256)
    more = [160 - it.bit_length() for it in (r, s)]
    # as the two blocks that RFC 5848 shows; each other count of bits is refused
    yield case("yes", "numbers that are said to have 160 bits", octets, spell(r, more[0]) + spell(s, more[1]))
    yield case("no", "r is said to have 160 bits, and s isn't", octets, spell(r, more[0]) + spell(s))
    for what, too_many in (("a bit more than 160", more[0] + 1), ("160 bits and an octet 0 in front", more[0] + 8),
                           ("an octet 0 in front", 8), ("40 octets 0 in front", 320)):
        yield case("no", f"r is said to have {what}", octets, spell(r, too_many) + spell(s))
        yield case("no", f"r is said to have {what}, and s 160 bits", octets, spell(r, too_many) + spell(s, more[1]))
    yield case("no", "s is said to have an octet 0 in front", octets, spell(r) + spell(s, 8))
    yield case("no", "the signature of another block", octets, of_256)
    yield case("no", "the signature of another block, over the other hash", octets_256, good)
    yield case("no", "other octets", octets.replace(b'RSID="1"', b'RSID="2"'), good)
    yield case("no", "an octet more", octets + b" ", good)
    yield case("no", "a signature over the hash of another version", octets_256, signature(pair, octets_256, "0111"))
    yield case("no", "the two numbers in the other order", octets, spell(s) + spell(r))
    yield case("no", "the spelling of openssl", octets, der)
    yield case("no", "the spelling of openssl, with an octet 0 in front of r", octets,
               dsa_model.item(0x30, dsa_model.item(2, b"\0\0" + r.to_bytes(20, "big")) + dsa_model.integer(s)))
    yield case("no", "the spelling of openssl, and an octet after it", octets, der + b"\0")
    for number, text in enumerate((b"\0", b"\0\0", b"\0\0\0", b"\0\0\0\0")):
        yield case("no", f"{number + 1} octets 0", octets, text)
    yield case("no", "one number", octets, short_r)
    yield case("no", "three numbers", octets, good + spell(1))
    yield case("no", "three numbers, the last of which is 0", octets, good + b"\0\0")
    yield case("no", "an octet behind the numbers", octets, good + b"\0")
    yield case("no", "a number that breaks off", octets, good[:-1])
    yield case("no", "a count of bits that breaks off", octets, short_r + b"\0")
    yield case("no", "r is 0", octets, spell(0) + spell(s))
    yield case("no", "s is 0", octets, spell(r) + spell(0))
    yield case("no", "r is q", octets, spell(key.q) + spell(s))
    yield case("no", "s is q", octets, spell(r) + spell(key.q))
    yield case("no", "q is added to r", octets, spell(r + key.q) + spell(s))
    yield case("no", "q is added to s", octets, spell(r) + spell(s + key.q))
    yield case("no", "s is negated", octets, spell(r) + spell(key.q - s))
    yield case("no", "a count of bits of r that is too small", octets, (r.bit_length() - 1).to_bytes(2, "big") + good[2:])
    yield case("no", "a count of bits of s that is too small", octets, short_r + (s.bit_length() - 1).to_bytes(2, "big")
               + spell(s)[2:])
    yield case("no", "a long number", octets, short_r + spell(int("ff" * 999, 16)))
    yield from longer_key(longer)


def longer_key(longer: Pair) -> Iterator[Case]:
    """A key whose q has 256 bits goes with SHA-256 alone."""
    payload = base(b"- K " + base(dsa_model.blob(longer.key)).encode())
    for wanted, version in (("no", "0111"), ("yes", "0121")):
        octets = block(version, "q")
        yield wanted, f"a q of 256 bits with VER {version}", \
            f"yes? {payload} {base(octets)} {base(signature(longer, octets, version))}"


def wrong_payloads(pair: Pair, other: Pair) -> Iterator[Case]:
    """Payloads that state a key, and ones that don't; each signed by the key that it should state."""
    key = pair.key
    octets = block("0111", "p")
    good = signature(pair, octets, "0111")
    spelled = dsa_model.blob(key)
    text = base(spelled)
    stamp = "2026-01-15T09:16:30Z"
    twin = Key(key.p, key.q, key.g, key.y * key.g % key.p)
    der = base64.b64decode(b"".join(dsa_model.pem(key).split(b"\n")[1:-2]))
    given: List[Tuple[str, str, str]] = [
        ("yes", "a key with a time", f"{stamp} K {text}"),
        ("yes", "a key without a time", f"- K {text}"),
        ("yes", "a key with a fraction of a second and an offset", f"2009-05-03T14:00:39.519005+02:00 K {text}"),
        ("yes", "counts of bits that are greater than needed",
         f"- K {base(b''.join(spell(number, 8) for number in key))}"),
        ("no", "another key", f"{stamp} K {base(dsa_model.blob(other.key))}"),
        ("no", "another key of the same p, q and g", f"{stamp} K {base(dsa_model.blob(twin))}"),
        *(("no", f"the key in a payload of the type {kind}", f"{stamp} {kind} {text}") for kind in "CUPNkXA"),
        ("no", "no key blob", f"{stamp} N"),
        ("no", "the key as openssl has it", f"{stamp} K {base(der)}"),
        ("no", "more than the key", f"{stamp} K {base(spelled + spell(1))}"),
        ("no", "more than the key, by a number 0", f"{stamp} K {base(spelled + spell(0))}"),
        ("no", "less than the key", f"{stamp} K {base(spelled[:-1])}"),
        ("no", "three numbers", f"{stamp} K {base(b''.join(map(spell, key[:3])))}"),
        ("no", "the numbers in another order", f"{stamp} K {base(b''.join(map(spell, (key.q, key.p, key.g, key.y))))}"),
        ("no", "two spaces", f"{stamp}  K {text}"),
        ("no", "a space in front", f" {stamp} K {text}"),
        ("no", "a space behind", f"{stamp} K {text} "),
        ("no", "a line behind", f"{stamp} K {text}\n"),
        ("no", "another payload behind", f"{stamp} K {text}\n- K {text}"),
        ("no", "no time", f"K {text}"),
        ("no", "the key alone", text),
        ("no", "a time that is none", f"yesterday K {text}"),
        ("no", "no base64", f"{stamp} K {text[:-4]}!AAA"),
        ("no", "base64 without its padding", f"{stamp} K {base(spelled + bytes(1 + -len(spelled) % 3)).rstrip('=')[:-1]}"),
    ]
    for wanted, what, payload in given:
        asked = base(payload.encode())
        yield wanted, what, f"trust? {asked}"
        yield wanted, f"{what}, and a signature", f"yes? {asked} {base(octets)} {base(good)}"


def print_wrong(private: str, other: str, longer: str) -> None:
    """The cases of signatures and payloads."""
    pair = read_pair(private)
    print_cases(wrong_signatures(pair, read_pair(longer)))
    print_cases(wrong_payloads(pair, read_pair(other)))


def print_hidden(private: str) -> None:
    """The cases of blocks whose VER hides."""
    pair = read_pair(private)
    payload = base(b"- K " + base(dsa_model.blob(pair.key)).encode())
    for version, text in HIDDEN:
        octets = text.encode()
        good = signature(pair, octets, version)
        yes_line = f"yes? {payload} {base(octets)} {base(good)}"
        print_cases(iter([("yes", f"VER {version} of {text!r}", yes_line)]))


def print_payloads() -> None:
    """The cases that standard input asks for."""
    pairs: Dict[str, Pair] = {}
    for number, line in enumerate(sys.stdin.read().splitlines()):
        wanted, what, payload, private, version, session = line.split("\t")
        want(wanted in ("both", "trust", "none"), f"{wanted} isn't what can be wanted")
        if private not in pairs:
            pairs[private] = read_pair(private)
        octets = block(version, f"n{number}", session)
        asked = base(payload.encode())
        good = base(signature(pairs[private], octets, version))
        print_cases(iter([
            ("no" if wanted == "none" else "yes", f"{what}: payload", f"trust? {asked}"),
            ("yes" if wanted == "both" else "no", f"{what}: signature", f"yes? {asked} {base(octets)} {good}"),
        ]))


def print_cases(cases: Iterator[Case]) -> None:
    """Prints cases, each in a line."""
    for wanted, what, line in cases:
        print(wanted, what.replace("\t", " "), line, sep="\t")


if __name__ == "__main__":
    COMMANDS: Dict[str, Callable[..., None]] = {
        "log": check_log, "seals": check_seals, "payload": check_payload, "sizes": print_sizes, "public": print_public,
        "blob": print_blob,
        "rfc": write_rfc, "wrong": print_wrong, "hides": print_hidden,
        "payloads": print_payloads,
    }
    COMMANDS[sys.argv[1]](*sys.argv[2:])
