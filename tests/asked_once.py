#!/usr/bin/env python3
"""Helps tests/strangers.sh: questions of which each payload is written once, right ones and wrong ones, and long ones.

    asked_once.py once                          the plain questions of standard input, with each payload once
    asked_once.py wrong                         for each wrong text of questions a line: what is wrong, a tab, the text
                                                with LF as `|`, a tab, and what ssign-keys has to say of it
    asked_once.py long OCTETS COUNT             a payload of so many octets, and so many questions about blocks
    asked_once.py stamps CERTIFICATE COUNT      so many payloads with a certificate in DER, each with a time of its own
    asked_once.py authority PUBLIC FOLDER       makes FOLDER/ca.pem, which issued FOLDER/leaf.der for this key
    asked_once.py budget TOOLS                  what commands may take in all, by processes and by seconds
"""
from __future__ import annotations

import base64
import sys
from datetime import datetime, timedelta, timezone
from typing import Any, BinaryIO, Iterator, List

NO_LINE = ("line {} is no line `payload INDEX PAYLOAD`, `trust? INDEX` or `yes? INDEX OCTETS SIGNATURE` of ssign questions --once, "
           "as those above it are")
# what a block has of a message: strict base64 of 32 octets
HASH = base64.b64encode(bytes(32))
NO_QUESTION = "line {} is no line `trust? PAYLOAD` or `yes? PAYLOAD OCTETS SIGNATURE` of ssign questions"


def once(lines: BinaryIO) -> Iterator[bytes]:
    """Questions with each payload once."""
    seen: List[bytes] = []
    for line in lines:
        word, payload, *rest = line.rstrip(b"\n").split(b" ")
        if payload not in seen:
            yield b"payload %d %s\n" % (len(seen), payload)
            seen.append(payload)
        yield b" ".join([word, b"%d" % seen.index(payload), *rest]) + b"\n"


def wrong() -> Iterator[str]:
    """Texts that are wrong in one thing."""
    first = "payload 0 S0VZ"
    for what, text, said in (
        ("another first index", "payload 1 S0VZ", "line 1: the payload has the index 1, and not 0"),
        ("an index twice", f"{first}|payload 0 S0VZ", "line 2: the payload has the index 0, and not 1"),
        ("an index left out", f"{first}|payload 2 S0VZ", "line 2: the payload has the index 2, and not 1"),
        ("a payload that isn't there", f"{first}|trust? 1", "line 2: no payload with the index 1 stands before it"),
        ("a payload that comes later", f"{first}|yes? 1 S0VZ AAAA|payload 1 S0VZ",
         "line 2: no payload with the index 1 stands before it"),
        ("a great index", f"{first}|trust? 9999999999", "line 2: no payload with the index 9999999999 stands before it"),
        ("an index of too many digits", f"{first}|trust? 99999999999", NO_LINE.format(2)),
        ("an index of a million digits", f"{first}|trust? " + "9" * 1000000, NO_LINE.format(2)),
        ("a leading zero", f"{first}|trust? 00", NO_LINE.format(2)),
        ("a sign", f"{first}|trust? -1", NO_LINE.format(2)),
        ("another sign", f"{first}|trust? +0", NO_LINE.format(2)),
        ("another digit", f"{first}|trust? ٠", NO_LINE.format(2)),
        ("no index", f"{first}|trust? ", NO_LINE.format(2)),
        ("a space too many", f"{first}|trust?  0", NO_LINE.format(2)),
        ("a space at the end", f"{first}|trust? 0 ", NO_LINE.format(2)),
        ("a CR", f"{first}|trust? 0\r", NO_LINE.format(2)),
        ("a field too many", f"{first}|trust? 0 S0VZ", NO_LINE.format(2)),
        ("no octets", f"{first}|yes? 0", NO_LINE.format(2)),
        ("no signature", f"{first}|yes? 0 S0VZ", NO_QUESTION.format(2)),
        ("octets that are no base64", f"{first}|yes? 0 S0V AAAA", NO_QUESTION.format(2)),
        ("a signature that is no base64", f"{first}|yes? 0 S0VZ AAA", NO_QUESTION.format(2)),
        ("a payload that is no base64", "payload 0 S0V", NO_QUESTION.format(1)),
        ("an empty payload", "payload 0 ", NO_QUESTION.format(1)),
        ("a payload without a text", "payload 0", NO_LINE.format(1)),
        ("an empty line", f"{first}||trust? 0", NO_LINE.format(2)),
        ("a capital letter", f"{first}|Trust? 0", NO_LINE.format(2)),
        ("the other form", f"{first}|trust? S0VZ", NO_LINE.format(2)),
        ("the other form, of digits", f"{first}|trust? 1234", "line 2: no payload with the index 1234 stands before it"),
        ("this form after the other", f"trust? S0VZ|{first}", NO_QUESTION.format(2)),
        ("the word of an answer", f"{first}|trust 0", NO_LINE.format(2)),
        ("the word of an answer about a block", f"{first}|yes 0 S0VZ AAAA", NO_LINE.format(2)),
        ("JSON", '{"line":"payload","payload_index":0,"payload":"S0VZ"}', NO_QUESTION.format(1)),
    ):
        yield f"{what}\t{text}\t{said}"


def long(octets: int, count: int) -> Iterator[bytes]:
    """A long payload, and questions about blocks."""
    yield b"payload 0 " + base64.b64encode(b"- U " + b"A" * (octets - 4)) + b"\n"
    yield b"trust? 0\n"
    for number in range(count):
        block = b'<110>1 - h s - - [ssign VER="0121" RSID="1" SG="0" SPRI="0" GBC="%d" FMN="1" CNT="1" HB="%b"]' % (number, HASH)
        yield b"yes? 0 " + base64.b64encode(block) + b" AAAA\n"


def stamps(path: str, count: int) -> Iterator[bytes]:
    """Payloads with a certificate at times that differ."""
    with open(path, "rb") as file:
        certificate = base64.b64encode(file.read())
    first = datetime(2026, 1, 1, tzinfo=timezone.utc)
    for number in range(count):
        stamp = (first + timedelta(seconds=number)).strftime("%Y-%m-%dT%H:%M:%SZ").encode()
        yield b"payload %d " % number + base64.b64encode(stamp + b" C " + certificate) + b"\n"
        yield b"trust? %d\n" % number
        block = b'<110>1 - gate s - - [ssign VER="0121" RSID="%d" SG="0" SPRI="0" GBC="0" FMN="1" CNT="1" HB="%b"]' % (number, HASH)
        yield b"yes? %d " % number + base64.b64encode(block) + b" AAAA\n"


def make_authority(public: str, folder: str) -> None:
    """FOLDER/ca.pem, and FOLDER/leaf.der, which that issued for the HOSTNAME gate and a public key."""
    from cryptography import x509
    from cryptography.hazmat.primitives import hashes, serialization
    from cryptography.hazmat.primitives.asymmetric import rsa
    from cryptography.x509.oid import NameOID
    own = rsa.generate_private_key(65537, 2048)
    with open(public, "rb") as file:
        key = serialization.load_pem_public_key(file.read())

    def name(text: str) -> x509.Name:
        return x509.Name([x509.NameAttribute(NameOID.COMMON_NAME, text)])

    def issue(subject: str, its_key: Any, is_authority: bool) -> x509.Certificate:
        builder = x509.CertificateBuilder().subject_name(name(subject)).issuer_name(name("ca")).public_key(its_key)
        builder = builder.serial_number(x509.random_serial_number()).add_extension(
            x509.BasicConstraints(is_authority, None), True)
        uses = {it: it == ("key_cert_sign" if is_authority else "digital_signature") for it in (
            "digital_signature", "content_commitment", "key_encipherment", "data_encipherment", "key_agreement", "key_cert_sign",
            "crl_sign", "encipher_only", "decipher_only")}
        builder = builder.add_extension(x509.KeyUsage(**uses), True).add_extension(
            x509.SubjectKeyIdentifier.from_public_key(its_key), False).add_extension(
            x509.AuthorityKeyIdentifier.from_issuer_public_key(own.public_key()), False)
        return builder.not_valid_before(datetime(2020, 1, 1)).not_valid_after(datetime(2089, 1, 1)).sign(own, hashes.SHA256())

    with open(f"{folder}/ca.pem", "wb") as file:
        file.write(issue("ca", own.public_key(), True).public_bytes(serialization.Encoding.PEM))
    with open(f"{folder}/leaf.der", "wb") as file:
        file.write(issue("gate", key, False).public_bytes(serialization.Encoding.DER))


def check_budget(tools: str) -> None:
    """What commands may take."""
    sys.path.insert(0, tools)
    from ssign_keys import commands
    commands.BUDGET = commands.Budget()
    commands.BUDGET._seconds = 0.5
    asked = 0
    try:
        for _ in range(10):
            commands.ask(["sleep", "0.2"], b"", "coreutils")
            asked += 1
    except commands.Spent:
        pass
    # the third ends with 0.6 seconds, or the second on a machine that is slow
    assert 1 <= asked <= 3, asked
    commands.BUDGET = commands.Budget()
    asked = 0
    try:
        for _ in range(commands.PROCESSES + 1):
            commands.ask(["true"], b"", "coreutils")
            asked += 1
    except commands.Spent:
        pass
    assert asked == commands.PROCESSES, asked
    for jobs, wanted in ((1, 1000), (3, 333), (1000, 1), (1024, 1)):
        budget = commands.Budget()
        budget.share(jobs)
        assert budget._processes == wanted, jobs


def main(command: str, *words: str) -> None:
    """Does one of the commands."""
    out = sys.stdout.buffer
    if command == "once":
        out.writelines(once(sys.stdin.buffer))
    elif command == "wrong":
        out.writelines(it.encode() + b"\n" for it in wrong())
    elif command == "long":
        out.writelines(long(*map(int, words)))
    elif command == "stamps":
        out.writelines(stamps(words[0], int(words[1])))
    elif command == "authority":
        make_authority(*words)
    elif command == "budget":
        check_budget(*words)
    else:
        raise SystemExit(f"asked_once.py: no command {command}")


main(*sys.argv[1:])
