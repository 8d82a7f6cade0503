#!/usr/bin/env python3
"""Which certificates and OpenPGP keys ssign-keys takes for a session, and what it says of the others.

    whose_key.py TOOLS PEM    PEM is the private key of a good pair. Certificates are made by the library, keys of OpenPGP by
                              hand. The last line says how many cases there were.
"""
from __future__ import annotations

import argparse
import base64
import datetime
import ipaddress
import os
import subprocess
import sys
import tempfile
from typing import Any, List, Sequence, Tuple

import dsa_model
from cryptography import x509
from cryptography.hazmat.primitives import hashes, serialization
from cryptography.hazmat.primitives.asymmetric import rsa
from cryptography.x509.oid import ExtendedKeyUsageOID, NameOID

FROM, TO = datetime.datetime(2020, 1, 1), datetime.datetime(2089, 1, 1)
USES = ("digital_signature", "content_commitment", "key_encipherment", "data_encipherment", "key_agreement", "key_cert_sign",
        "crl_sign", "encipher_only", "decipher_only")
failed: List[str] = []
count = 0
asked: List[Sequence[str]] = []


def tell(what: str, said: object, wanted: object) -> None:
    """Counts a case, and keeps what is wrong with it."""
    global count
    count += 1
    if said != wanted:
        failed.append(f"{what}: {str(said)[:300]}, and not {wanted}")


class Authority:
    """One who issues certificates."""

    def __init__(self, name: str, folder: str, file: str) -> None:
        self.key = rsa.generate_private_key(65537, 2048)
        self.name = x509.Name([x509.NameAttribute(NameOID.COMMON_NAME, name)])
        self.path = os.path.join(folder, file)
        self.made = self.issue(self.key.public_key(), self.name, [(x509.BasicConstraints(True, None), True)])
        self.write(self)

    def issue(self, key: Any, subject: x509.Name, extensions: Sequence[Tuple[x509.ExtensionType, bool]],
              dates: Tuple[datetime.datetime, datetime.datetime] = (FROM, TO)) -> x509.Certificate:
        """A certificate, with the identifiers and the keyUsage that RFC 5280 wants of an authority."""
        builder = x509.CertificateBuilder().subject_name(subject).issuer_name(self.name).public_key(key)
        builder = builder.serial_number(x509.random_serial_number()).not_valid_before(dates[0]).not_valid_after(dates[1])
        for extension, is_critical in extensions:
            builder = builder.add_extension(extension, is_critical)
            if isinstance(extension, x509.BasicConstraints) and extension.ca:
                builder = builder.add_extension(key_use("key_cert_sign", "crl_sign"), True)
        builder = builder.add_extension(x509.SubjectKeyIdentifier.from_public_key(key), False)
        return builder.add_extension(x509.AuthorityKeyIdentifier.from_issuer_public_key(self.key.public_key()), False).sign(
            self.key, hashes.SHA256())

    def write(self, *others: Authority) -> None:
        """The file of certificates of some authorities."""
        with open(self.path, "wb") as file:
            file.write(b"".join(it.made.public_bytes(serialization.Encoding.PEM) for it in others))


def key_use(*uses: str) -> x509.KeyUsage:
    """A keyUsage."""
    return x509.KeyUsage(**{it: it in uses for it in USES})


def named(*texts: str, oid: x509.ObjectIdentifier = NameOID.COMMON_NAME) -> x509.Name:
    """A subject."""
    return x509.Name([x509.NameAttribute(oid, it) for it in texts])


def der(certificate: x509.Certificate) -> bytes:
    """The octets of a certificate."""
    return certificate.public_bytes(serialization.Encoding.DER)


def trust(**options: object) -> Any:
    """What ssign-keys makes of these options."""
    from ssign_keys.trust import Trust
    return Trust.from_arguments(argparse.Namespace(
        **{"keys": [], "session_key": [], "ca": [], "ca_anchor": [], "cert": [], "at_signing_time": False, "max_payload": 65536, **options}))


def why(given: Any, certificate: bytes, host: str = "gate", stamp: str = "-") -> str:
    """Why a certificate isn't taken for a HOSTNAME; `taken` where it is."""
    from ssign_keys.blocks import Session
    payload = stamp.encode() + b" C " + base64.b64encode(certificate)
    judged = given.judge(payload, Session(host.encode(), b"s", b"-", b"1"))
    return "taken" if judged.trusted else str(judged.why)


def try_names(key: Any, ca: Authority) -> None:
    """Whom a certificate names: CN, other names, HOSTNAME, and whether that is one of them."""
    dns, address = x509.DNSName, lambda it: x509.IPAddress(ipaddress.ip_address(it))
    given = trust(ca=[ca.path])
    rows: List[Tuple[x509.Name, List[x509.GeneralName], str, bool]] = [
        (named("gate"), [], "gate", True), (named("Gate.Example.ORG"), [], "gATE.example.org", True),
        (named("gate.example.org"), [], "gate", False), (named("gate"), [], "gate.example.org", False),
        (named("gate "), [], "gate", False), (named("gat"), [], "gate", False), (named("a", "gate"), [], "gate", True),
        (named("other"), [dns("GATE.example.org")], "gate.EXAMPLE.org", True),
        (named("other"), [dns("a"), dns("b"), dns("gate")], "gate", True), (named("other"), [dns("a")], "gate", False),
        (named("gate"), [dns("a")], "gate", False), (named("gate"), [address("192.0.2.7")], "gate", True),
        (named("*.example.org"), [], "gate.example.org", False),
        (named("other"), [dns("*.example.org")], "gate.example.org", False), (named("other"), [dns("*")], "gate", False),
        (named("other"), [dns("*.example.org")], "*.example.org", False), (named("*"), [], "*", False),
        (named("other"), [dns(".example.org")], "gate.example.org", False), (named("other"), [dns("gate.")], "gate", False),
        (named("other"), [dns("gate.example.org")], "xgate.example.org", False),
        (named("other"), [address("192.0.2.7")], "192.0.2.7", True), (named("other"), [address("192.0.2.7")], "192.0.2.70", False),
        (named("other"), [address("192.0.2.7")], "3221225991", False), (named("other"), [address("192.0.2.7")], "192.0.2.07", False),
        (named("other"), [address("2001:db8::7")], "2001:DB8:0:0::7", True),
        (named("other"), [address("2001:db8::7")], "2001:db8::8", False), (named("other"), [address("fe80::1")], "fe80::1%1", False),
        (named("other"), [address("::ffff:192.0.2.7")], "192.0.2.7", False), (named("192.0.2.7"), [], "192.0.2.7", False),
        (named("other"), [dns("192.0.2.7")], "192.0.2.7", False),
        (named("other"), [x509.IPAddress(ipaddress.ip_network("192.0.2.0/24"))], "192.0.2.7", False),
        (named("other"), [x509.RFC822Name("gate@example.org")], "gate@example.org", False),
        (named("other"), [x509.UniformResourceIdentifier("syslog://gate")], "gate", False),
        (named("other"), [x509.DirectoryName(named("gate"))], "gate", False),
        (named("other"), [x509.RegisteredID(x509.ObjectIdentifier("1.2.3.4"))], "1.2.3.4", False),
        (named("-"), [dns("-")], "-", False), (named("gate", oid=NameOID.ORGANIZATION_NAME), [], "gate", False),
        (named("gate", oid=NameOID.COMMON_NAME), [], "gate\0", False), (named("\u212aey"), [], "key", False),
        (named("gat\u0435"), [], "gate", False), (x509.Name([]), [dns("gate")], "gate", True),
    ]
    for subject, others, host, is_for in rows:
        # a subject that is empty makes the other names critical (RFC 5280, section 4.2.1.6)
        extensions = [(x509.SubjectAlternativeName(others), not len(list(subject)))] if others else []
        said = why(given, der(ca.issue(key, subject, extensions)), host)
        wanted = "taken" if is_for else "the certificate isn't for this HOSTNAME: it names "
        tell(f"{subject.rfc4514_string()} {others}, HOSTNAME {host}", said if is_for else said[:len(wanted)], wanted)
    hostile = der(ca.issue(key, named("a\x1b[31m\u202eb\\"), []))
    tell("a name that sends commands", why(given, hostile), "the certificate isn't for this HOSTNAME: it names a\\x1b[31m\\xe2\\x80\\xaeb\\x5c")
    many = der(ca.issue(key, named("other"), [(x509.SubjectAlternativeName([dns(f"n{it}") for it in range(2000)]), False)]))
    # a payload after which no block is asked about has no session, so no certificate is for it
    tell("no session", given.judge(b"- C " + base64.b64encode(der(ca.issue(key, named("gate"), []))), None).trusted, None)
    tell("two thousand names", why(given, many), "the certificate isn't for this HOSTNAME: it names n0, n1, n2 and 1997 more")


def try_uses(key: Any, ca: Authority) -> None:
    """What the key of a certificate is for."""
    oid = x509.ObjectIdentifier
    no_documents = "the certificate isn't for signing documents or code, by its extendedKeyUsage"
    no_signatures = "the certificate isn't for signatures, by its keyUsage"
    use = lambda *its: x509.ExtendedKeyUsage(its)
    given = trust(ca=[ca.path])
    rows = [([use(ExtendedKeyUsageOID.CODE_SIGNING)], ""), ([use(oid("1.3.6.1.5.5.7.3.36"))], ""), ([use(oid("2.5.29.37.0"))], ""),
            ([use(oid("1.3.6.1.4.1.311.10.3.12"))], ""), ([use(ExtendedKeyUsageOID.SERVER_AUTH, ExtendedKeyUsageOID.CODE_SIGNING)], ""),
            ([use(ExtendedKeyUsageOID.SERVER_AUTH, ExtendedKeyUsageOID.CLIENT_AUTH)], no_documents),
            ([use(ExtendedKeyUsageOID.EMAIL_PROTECTION)], no_documents), ([use(ExtendedKeyUsageOID.TIME_STAMPING)], no_documents),
            ([use(ExtendedKeyUsageOID.OCSP_SIGNING)], no_documents), ([use(oid("1.3.6.1.5.5.7.3.3.1"))], no_documents),
            *(([key_use(it)], "") for it in USES[:2]), *(([key_use(it)], no_signatures) for it in USES[2:7]),
            ([key_use("digital_signature", "key_encipherment")], ""), ([key_use("key_cert_sign", "crl_sign")], no_signatures),
            ([key_use("key_agreement"), use(ExtendedKeyUsageOID.CODE_SIGNING)], no_signatures),
            ([key_use("digital_signature"), use(ExtendedKeyUsageOID.SERVER_AUTH)], no_documents)]
    for place, (extensions, fault) in enumerate(rows):
        for is_critical in (False, True):
            issued = ca.issue(key, named("gate"), [(it, is_critical) for it in extensions])
            tell(f"use {place}", why(given, der(issued)), fault or "taken")
        path = ca.path + ".leaf"
        with open(path, "wb") as file:
            file.write(issued.public_bytes(serialization.Encoding.PEM))
        tell(f"use {place}, given", said_of(cert=[path]), f"{path} can't be used: {fault}" if fault else "taken")


def said_of(**options: object) -> str:
    """What is said of options."""
    from ssign_keys.faults import Fault
    try:
        trust(**options)
    except Fault as fault:
        return str(fault)
    return "taken"


def try_times(key: Any, ca: Authority) -> None:
    """When a certificate is valid: now, at the payload's time, or both."""
    at = lambda year: datetime.datetime(year, 1, 1)
    past, present, future = ((at(2020), at(2021)), (FROM, TO), (at(2088), at(2089)))
    then, now, later = "2020-06-01T00:00:00Z", "2026-01-01T00:00:00Z", "2088-06-01T00:00:00Z"
    rows = [(past, then, False, True), (past, now, False, False), (past, "-", False, False), (past, later, False, False),
            (past, "2020-12-31T23:59:59.999999Z", False, True), (past, "2021-01-01T00:00:01Z", False, False),
            (past, "2019-12-31T23:00:00-01:00", False, True), (past, "2019-12-31T23:59:59Z", False, False),
            (past, "2021-02-30T00:00:00Z", False, False), (present, then, True, True), (present, now, True, True),
            (present, "-", True, True), (present, "2019-01-01T00:00:00Z", False, False), (present, "0001-01-01T00:00:00+23:59", False, False),
            (present, "9999-12-31T23:59:59-23:59", False, False), (present, "0000-01-01T00:00:00Z", False, False),
            (future, "-", False, False), (future, later, False, True), (future, now, False, False)]
    for dates, stamp, is_now, is_then in rows:
        issued = ca.issue(key, named("gate"), [], dates)
        path = ca.path + ".leaf"
        with open(path, "wb") as file:
            file.write(issued.public_bytes(serialization.Encoding.PEM))
        for options in ({"ca": [ca.path]}, {"cert": [path]}, {"session_key": [("gate * * *", path)]}):
            for is_at_signing_time, wanted in ((False, is_now), (True, is_then)):
                said = why(trust(at_signing_time=is_at_signing_time, **options), der(issued), "gate", stamp)
                tell(f"{dates}, {stamp}, {is_at_signing_time}, {list(options)}: {said}", said == "taken", wanted)


def try_issuers(key: Any, public: str, folder: str, ca: Authority) -> None:
    """Authorities of one name, and strangers, whose certificates cost no process."""
    impostor, stranger = (Authority(name, folder, f"{name}-2.crt") for name in ("ca", "stranger"))
    leaf = der(ca.issue(key, named("gate"), []))
    no_key = "no key of --ca signed its certificate, though a certificate of --ca has the name of the issuer"
    for order in ((ca, impostor), (impostor, ca)):
        both = Authority("both", folder, "both.crt")
        both.write(*order)
        tell("two of one name in a file", why(trust(ca=[both.path]), leaf), "taken")
        tell("two files", why(trust(ca=[it.path for it in order]), leaf), "taken")
    del asked[:]
    tell("the other of that name", why(trust(ca=[impostor.path]), leaf), no_key)
    tell("a stranger", why(trust(ca=[stranger.path]), leaf), "no certificate of --ca has the name of its certificate's issuer")
    given = trust(ca=[ca.path])
    for place in range(1, 200):
        broken = bytearray(leaf)
        broken[-place] ^= 1 << place % 8
        tell(f"octet {place} from the end", why(given, bytes(broken)) != "taken", True)
    tell("no process for any of these", asked, [])
    for _ in range(5):
        tell("a certificate that is taken", why(given, leaf), "taken")
    tell("one process for it, asked five times", len(asked), 1)
    elsewhere = der(ca.issue(key, named("elsewhere"), []))
    tell("the key, for its session", why(trust(ca=[ca.path], session_key=[("gate * * *", public)]), elsewhere), "taken")
    tell("the key, for another session", why(trust(ca=[ca.path], session_key=[("g * * *", public)]), elsewhere)[:45],
         "the certificate isn't for this HOSTNAME: it n")


def try_chains(key: Any, folder: str) -> None:
    """Authorities above one another, ones that have expired, and an openssl that says nothing."""
    from ssign_keys import authorities
    from ssign_keys.faults import Fault
    is_ca = [(x509.BasicConstraints(True, None), True)]
    root, middle, other = (Authority(it, folder, f"{it}.crt") for it in ("root", "middle", "other"))
    middle.made = root.issue(middle.key.public_key(), middle.name, is_ca)
    leaf = der(middle.issue(key, named("gate"), []))
    both, apart = Authority("both", folder, "above.crt"), "no certificate of --ca has the name of its certificate's issuer"
    for order in ((root, middle), (middle, root)):
        both.write(*order)
        tell("an authority, and the one above it", why(trust(ca=[both.path]), leaf), "taken")
    middle.write(middle)
    tell("an authority that is no root, alone", said_of(ca=[middle.path]), "no certificate of --ca is self-issued, so no chain can "
         "end: add the root's, or give the file by --ca-anchor")
    tell("an authority that is no root, beside another", why(trust(ca=[middle.path, other.path]), leaf), "no certificate of --ca has "
         "the name of the issuer of CN=middle, which is above its certificate: add that, or give CN=middle by --ca-anchor")
    tell("an anchor that is no root", why(trust(ca_anchor=[middle.path]), leaf), "taken")
    tell("an authority in a file of its own", why(trust(ca=[middle.path, root.path]), leaf), "taken")
    given = trust(ca=[middle.path, root.path], ca_anchor=[middle.path]).given
    tell("what was given", [(it.option, it.file) for it in given],
         [("--ca", middle.path), ("--ca", root.path), ("--ca-anchor", middle.path)])
    tell("the one above it alone", why(trust(ca=[root.path]), leaf), apart)
    # an intermediate authority that may issue nothing, as its own certificate says
    end = Authority("end", folder, "end.crt")
    end.made = root.issue(end.key.public_key(), end.name, [(x509.BasicConstraints(False, None), True)])
    end.write(end, root)
    tell("an issuer that is no authority", why(trust(ca=[end.path]), der(end.issue(key, named("gate"), []))) != "taken", True)
    # one key in two certificates, of which one has expired: whichever is looked at first
    old = Authority("other", folder, "old.crt")
    old.key, old.made = other.key, other.issue(other.key.public_key(), other.name, is_ca, (FROM, datetime.datetime(2021, 1, 1)))
    old.write(old)
    leaf = der(other.issue(key, named("gate"), []))
    tell("an authority that has expired", why(trust(ca=[old.path]), leaf) != "taken", True)
    for paths in ((old.path, other.path), (other.path, old.path)):
        tell("an authority that has expired, and its successor", why(trust(ca=list(paths)), leaf), "taken")
    # at the time that each payload states: what was found at another one doesn't count
    stamps = ("2020-06-01T00:00:00Z", True), ("2026-01-01T00:00:00Z", False)
    for order in (stamps, stamps[::-1], stamps + stamps):
        given = trust(ca=[old.path], at_signing_time=True)
        for stamp, is_taken in order:
            tell(f"an authority at {stamp}", why(given, leaf, "gate", stamp) == "taken", is_taken)
    kept = authorities.ask
    for status, said in ((2, b""), (2, b"stdin: OK")):
        authorities.ask = lambda words, *_: subprocess.CompletedProcess(words, status, said, said)
        tell(f"an openssl that ends with {status} and says {said!r}", why(trust(ca=[other.path]), leaf) != "taken", True)
    for status, said in ((-9, b""), (-9, b"OK"), (1, b""), (1, b"stdin: OK")):
        authorities.ask = lambda words, *_: subprocess.CompletedProcess(words, status, said, said)
        try:
            found = why(trust(ca=[other.path]), leaf)
        except Fault as fault:
            found = str(fault)
        tell(f"an openssl that ends with {status} and says {said!r}", found.startswith("openssl checks no certificate with "), True)
    authorities.ask = kept
    tell("and one that is content", why(trust(ca=[other.path]), leaf), "taken")


def packets(key: dsa_model.Key) -> List[Tuple[bool, str, bytes]]:
    """OpenPGP keys (RFC 4880, sections 4.2 and 5.5.2) by hand, and whether each states the key."""
    numbers = dsa_model.blob(key)
    body = b"\x04\x60\x00\x00\x00\x11" + numbers
    p, q, g, y = (dsa_model.spell(it) for it in key)

    def old(text: bytes) -> bytes:
        return b"\x99" + len(text).to_bytes(2, "big") + text

    def new(text: bytes, tag: int = 6) -> bytes:
        size = len(text)
        return bytes([0xC0 | tag]) + (bytes([size]) if size < 192 else bytes([(size - 192 >> 8) + 192, size - 192 & 255])) + text

    user, head = new(b"somebody", 13), body[:6]
    return [
        (True, "the key", old(body)), (True, "a packet of the new form", new(body)), (True, "a name", old(body) + user),
        (True, "four octets of length", b"\x9a" + len(body).to_bytes(4, "big") + body),
        (True, "five octets of length", b"\xc6\xff" + len(body).to_bytes(4, "big") + body),
        (True, "a subkey", old(body) + new(body, 14)), (True, "21 signatures that nobody reads", old(body) + user + 21 * new(b"\4" * 2000, 2)),
        (False, "version 2", old(b"\x02" + body[1:])), (False, "version 3", old(b"\x03\x60\0\0\0\0\0\x11" + numbers)),
        (False, "version 5", old(b"\x05" + body[1:])), (False, "version 3 with the fields of version 4", old(b"\x03" + body[1:])), (False, "no octet", b""), (False, "one octet", b"\x99"),
        *((False, f"algorithm {it}", old(body[:5] + bytes([it]) + numbers)) for it in (0, 1, 16, 18, 19, 22, 255)),
        (False, "five numbers", old(body + dsa_model.spell(1))), (False, "three numbers", old(head + p + q + g)),
        (False, "an octet after the numbers", old(body + b"\0")), (False, "an octet less", old(body[:-1])),
        (False, "a number 0 after the numbers", old(body + b"\0\0")), (False, "no number", old(head)),
        (False, "a count that is too great for y", old(head + p + q + g + dsa_model.spell(key.y, 1))),
        (False, "an octet 0 in front of q", old(head + p + dsa_model.spell(key.q, 8) + g + y)),
        (False, "another order", old(head + q + p + g + y)), (False, "two keys", old(body) + old(body)),
        (False, "a subkey alone", new(body, 14)), (False, "a private key", new(body + b"\0" + dsa_model.spell(5), 5)),
        (False, "a name first", user + old(body)), (False, "something compressed after it", old(body) + new(b"\x01abc", 8)),
        (False, "a packet in pieces", b"\xc6\xe9" + body), (False, "no stated length", b"\x9b" + body),
        (False, "a length beyond the end", b"\x99\xff\xff" + body), (False, "octets after it", old(body) + b"\0"),
        (False, "no packet", b"\x19" + old(body)[1:]), (False, "armor", b"-----BEGIN PGP PUBLIC KEY BLOCK-----\n\n"),
    ]


def try_openpgp(key: dsa_model.Key, public: str) -> None:
    """Payloads of the type P, for which no process is run."""
    from ssign_keys.blocks import Session
    given = trust(keys=[public])
    del asked[:]
    for is_key, what, octets in packets(key):
        judged = given.judge(b"- P " + (base64.b64encode(octets) or b"AA=="), Session(b"h", b"s", b"-", b"1"))
        tell(f"OpenPGP, {what}", judged.trusted is not None, is_key)
    tell("no process for OpenPGP keys", asked, [])


def main(tools: str, pem: str) -> None:
    """Tries all."""
    sys.path.insert(0, tools)
    from ssign_keys import authorities, commands, openpgp

    def ask(words: Sequence[str], question: bytes, package: str) -> Any:
        asked.append(words)
        return commands.ask(words, question, package)

    authorities.ask = openpgp.ask = ask
    with open(pem, "rb") as file:
        key = serialization.load_pem_private_key(file.read(), None).public_key()
    with tempfile.TemporaryDirectory() as folder:
        public = os.path.join(folder, "public.pem")
        pair = dsa_model.read_pair(pem)
        with open(public, "wb") as file:
            file.write(dsa_model.pem(pair.key))
        ca = Authority("ca", folder, "ca.crt")
        try_names(key, ca)
        try_uses(key, ca)
        try_times(key, ca)
        try_issuers(key, public, folder, ca)
        try_chains(key, folder)
        try_openpgp(pair.key, public)
    if failed:
        raise SystemExit("\n".join(failed))
    print(f"{count} certificates and OpenPGP keys were tried")


if __name__ == "__main__":
    main(*sys.argv[1:])
