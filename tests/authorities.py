#!/usr/bin/env python3
"""A table of chains of certificates: what `ssign-keys` takes by --ca and --ca-anchor, beside what `openssl verify` takes.

    authorities.py TOOLS PEM           PEM is the private key of a good pair. The last line says how many chains there were.
    authorities.py TOOLS PEM --table   prints the table, with each difference and its reason

openssl gives the expected value: it checks the same files, with `-verify_hostname` or `-verify_ip`. If a row has a reason, the two
have to differ. Chains of --ca-anchor are compared with `-partial_chain -trusted`.
"""
from __future__ import annotations

import argparse
import base64
import datetime
import ipaddress
import os
import re
import subprocess
import sys
import tempfile
from dataclasses import dataclass, replace
from typing import Any, List, Optional, Sequence, Tuple

from cryptography import x509
from cryptography.hazmat.primitives import hashes, serialization
from cryptography.hazmat.primitives.asymmetric import ec
from cryptography.x509.oid import ExtendedKeyUsageOID, NameOID

from dsa_model import integer, item

FROM, TO = datetime.datetime(2020, 1, 1), datetime.datetime(2089, 1, 1)
PAST, FUTURE = (FROM, datetime.datetime(2021, 1, 1)), (datetime.datetime(2088, 1, 1), TO)
HOST = "gate.example.org"
OID = x509.ObjectIdentifier
DOCUMENTS, SERVER, CODE, ANY = OID("1.3.6.1.5.5.7.3.36"), ExtendedKeyUsageOID.SERVER_AUTH, ExtendedKeyUsageOID.CODE_SIGNING, \
    OID("2.5.29.37.0")
USES = ("digital_signature", "content_commitment", "key_encipherment", "data_encipherment", "key_agreement", "key_cert_sign",
        "crl_sign", "encipher_only", "decipher_only")
WILDCARD = "by a wildcard each host of a domain could sign for all"
STRICT = "RFC 5280 wants it of a conforming authority, and -x509_strict refuses the chain"
NO_USE = "openssl has no purpose for signing logs, and so doesn't look at this extendedKeyUsage or keyUsage"
ONE_LABEL = "openssl compares nameConstraints with no CN of one label, so such a CN would escape them"
SHA1 = "for SHA-1 two certificates with one hash can be made, and openssl wants -auth_level 1 to refuse it"


@dataclass
class Made:
    """A certificate, and the key that it is for."""

    key: Any
    certificate: x509.Certificate

    @property
    def pem(self) -> bytes:
        return self.certificate.public_bytes(serialization.Encoding.PEM)

    @property
    def der(self) -> bytes:
        return self.certificate.public_bytes(serialization.Encoding.DER)


@dataclass
class Row:
    """A chain: what is tried, the certificate, the files of --ca in one, the HOSTNAME."""

    what: str
    leaf: Made
    held: Sequence[Made]
    host: str = HOST
    why: str = ""
    """Why ssign-keys says something else than openssl; empty where it doesn't."""
    anchors: Sequence[Made] = ()
    """What --ca-anchor holds."""
    is_strict: bool = False
    """Whether -x509_strict is the reason."""
    alone: Optional[Made] = None
    """The root with which openssl takes a chain that it refuses with all of the file."""


def named(*texts: str, kind: Any = None) -> x509.Name:
    """A subject of these CN."""
    return x509.Name([x509.NameAttribute(NameOID.COMMON_NAME, it, *([kind] if kind else [])) for it in texts])


def dns(*names: str) -> x509.SubjectAlternativeName:
    """dNSNames."""
    return x509.SubjectAlternativeName([x509.DNSName(it) for it in names])


def addresses(*names: str) -> x509.SubjectAlternativeName:
    """iPAddresses."""
    return x509.SubjectAlternativeName([x509.IPAddress(ipaddress.ip_address(it)) for it in names])


def permits(*names: str) -> x509.NameConstraints:
    """nameConstraints that permit these domains alone."""
    return x509.NameConstraints([x509.DNSName(it) for it in names], None)


def excludes(*names: str) -> x509.NameConstraints:
    """nameConstraints that exclude these domains."""
    return x509.NameConstraints(None, [x509.DNSName(it) for it in names])


def key_usage(*uses: str) -> x509.KeyUsage:
    """keyUsage."""
    return x509.KeyUsage(**{it: it in uses for it in USES})


def extended(*uses: x509.ObjectIdentifier) -> x509.ExtendedKeyUsage:
    """extendedKeyUsage."""
    return x509.ExtendedKeyUsage(list(uses))


UNKNOWN = x509.UnrecognizedExtension(OID("1.2.3.4"), b"\x05\0")


def made(subject: Any, issuer: Optional[Made], key: Any, is_authority: bool, more: Sequence[Any] = (), *, pathlen: Optional[int] = None,
         without: str = "", dates: Tuple[datetime.datetime, datetime.datetime] = (FROM, TO), is_weak: bool = False,
         uses: Sequence[str] = (), soft: bool = False, issuer_name: Optional[x509.Name] = None, identified: Any = None) -> Made:
    """A certificate as RFC 5280 wants it, but for what is asked otherwise: `without` has the letters of basicConstraints (b), keyUsage (u),
    subjectKeyIdentifier (s) and authorityKeyIdentifier (a). An extension is critical but for those and names beside a subject."""
    subject = named(subject) if isinstance(subject, str) else subject
    signer = issuer.key if issuer else key
    builder = x509.CertificateBuilder().subject_name(subject).public_key(key.public_key()).serial_number(x509.random_serial_number())
    builder = builder.issuer_name(issuer_name or (issuer.certificate.subject if issuer else subject))
    builder = builder.not_valid_before(dates[0]).not_valid_after(dates[1])
    if "b" not in without:
        builder = builder.add_extension(x509.BasicConstraints(is_authority, pathlen), not soft)
    if "u" not in without:
        builder = builder.add_extension(key_usage(*(uses or (("key_cert_sign", "crl_sign") if is_authority else ("digital_signature",)))), True)
    if "s" not in without:
        builder = builder.add_extension(identified or x509.SubjectKeyIdentifier.from_public_key(key.public_key()), False)
    if issuer and "a" not in without:
        held = [it.value for it in issuer.certificate.extensions if isinstance(it.value, x509.SubjectKeyIdentifier)]
        identifier = x509.AuthorityKeyIdentifier.from_issuer_subject_key_identifier(held[0]) if held else \
            x509.AuthorityKeyIdentifier.from_issuer_public_key(signer.public_key())
        builder = builder.add_extension(identifier, False)
    for it in more:
        builder = builder.add_extension(it, it is UNKNOWN or isinstance(it, x509.NameConstraints) or not list(subject))
    signed = builder.sign(signer, hashes.SHA256())
    return Made(key, over_sha1(signed, signer) if is_weak else signed)


def pieces(octets: bytes) -> List[bytes]:
    """The values in these octets, with their tags and lengths."""
    found, at = [], 0
    while at < len(octets):
        size, start = octets[at + 1], at + 2
        if size > 127:
            size, start = int.from_bytes(octets[start:start + size - 128], "big"), start + size - 128
        found.append(octets[at:start + size])
        at = start + size
    return found


def over_sha1(certificate: x509.Certificate, signer: Any) -> x509.Certificate:
    """The same certificate, signed over SHA-1 (ecdsa-with-SHA1, RFC 3279, section 2.2.3). The library makes no such one."""
    body = certificate.tbs_certificate_bytes
    algorithm = item(0x30, bytes.fromhex("06072a8648ce3d0401"))
    version, serial, _, *rest = pieces(body[len(body) - sum(map(len, pieces(body[4:]))):])
    body = item(0x30, b"".join([version, serial, algorithm, *rest]))
    signature = signer.sign(body, ec.ECDSA(hashes.SHA1()))
    return x509.load_der_x509_certificate(item(0x30, body + algorithm + item(3, b"\0" + signature)))


def first_version(subject: str, issuer: Optional[Made], key: Any) -> Made:
    """A certificate of version 1 (RFC 5280, section 4.1), which has no extensions."""
    octets = lambda it: it.public_bytes(serialization.Encoding.DER)
    name = named(subject).public_bytes()
    algorithm = item(0x30, bytes.fromhex("06082a8648ce3d040302"))
    spki = key.public_key().public_bytes(serialization.Encoding.DER, serialization.PublicFormat.SubjectPublicKeyInfo)
    dates = item(0x30, item(0x17, b"200101000000Z") + item(0x18, b"20890101000000Z"))
    body = item(0x30, integer(77) + algorithm + (issuer.certificate.subject.public_bytes() if issuer else name) + dates + name + spki)
    signature = (issuer.key if issuer else key).sign(body, ec.ECDSA(hashes.SHA256()))
    return Made(key, x509.load_der_x509_certificate(item(0x30, body + algorithm + item(3, b"\0" + signature))))


def rows(own: Any) -> List[Row]:
    """The table. `own` is the key of the originator."""
    fresh = lambda: ec.generate_private_key(ec.SECP256R1())
    a, b, c = fresh(), fresh(), fresh()
    authority = lambda name, issuer, key, *more, **how: made(name, issuer, key, True, more, **how)
    leaf = lambda issuer, *more, name="gate", **how: made(name, issuer, own, False, more, **how)
    root = authority("root", None, a)
    sub = authority("sub", root, b)
    good = dns(HOST)
    mine, own_root = leaf(root, good), leaf(None, good)
    printable = named("root", kind=x509.name._ASN1Type.PrintableString)
    found = [
        # ---- names
        Row("a dNSName", leaf(root, good), [root]),
        Row("a dNSName in other letters", leaf(root, dns("GATE.Example.org")), [root]),
        Row("a CN of three labels", leaf(root, name=HOST), [root]),
        Row("a CN of one label", leaf(root), [root], "gate"),
        Row("a CN beside another dNSName", leaf(root, dns("a.example.org"), name=HOST), [root]),
        Row("a CN beside that dNSName", leaf(root, good, name=HOST), [root]),
        Row("the last of three dNSNames", leaf(root, dns("a", "b", HOST)), [root]),
        Row("a wildcard", leaf(root, dns("*.example.org")), [root], why=WILDCARD),
        Row("a wildcard in a CN", leaf(root, name="*.example.org"), [root], why=WILDCARD),
        Row("a wildcard in a label", leaf(root, dns("g*.example.org")), [root], why=WILDCARD),
        Row("another host", leaf(root, dns("a.example.org")), [root]),
        Row("a host below", leaf(root, good), [root], "a." + HOST),
        Row("a domain above", leaf(root, good), [root], "example.org"),
        Row("a HOSTNAME that begins with a dot", leaf(root, good), [root], ".example.org",
            "openssl takes that for each host of the domain, and a HOSTNAME is one host"),
        Row("a HOSTNAME that begins with a hyphen", leaf(root, name="-partial_chain"), [root], "-partial_chain"),
        Row("an iPAddress", leaf(root, addresses("192.0.2.7")), [root], "192.0.2.7"),
        Row("another iPAddress", leaf(root, addresses("192.0.2.7")), [root], "192.0.2.8"),
        Row("an iPAddress of version 6, spelled otherwise", leaf(root, addresses("2001:db8::7")), [root], "2001:DB8:0::7"),
        Row("an address in a CN", leaf(root, name="192.0.2.7"), [root], "192.0.2.7"),
        Row("an address in a dNSName", leaf(root, dns("192.0.2.7")), [root], "192.0.2.7"),
        Row("a CN beside an iPAddress", leaf(root, addresses("192.0.2.7"), name=HOST), [root]),
        Row("a CN beside a mail address", leaf(root, x509.SubjectAlternativeName([x509.RFC822Name("a@b.example")]), name=HOST), [root]),
        Row("the second of two CN", leaf(root, name=named("a", HOST)), [root]),
        Row("an empty subject", leaf(root, good, name=x509.Name([])), [root]),
        # ---- chains
        Row("a sub-CA in the file", leaf(sub, good), [root, sub]),
        Row("a sub-CA that isn't there", leaf(sub, good), [root]),
        Row("a sub-CA without its root", leaf(sub, good), [sub]),
        Row("a sub-CA beside another root", leaf(sub, good), [authority("other", None, c), sub]),
        Row("another root of that name", leaf(root, good), [authority("root", None, c)]),
        Row("two roots of one name", leaf(root, good), [authority("root", None, c), root]),
        Row("two roots of one name, the other way", leaf(root, good), [root, authority("root", None, c)]),
        Row("the leaf itself, without its root", mine, [mine]),
        Row("the leaf itself, and its root", mine, [mine, root]),
        Row("a leaf below a leaf", leaf(leaf(root, good), good, name="below"), [root]),
        Row("a certificate that signed itself, in the file", own_root, [own_root]),
        Row("a certificate that signed itself, and isn't there", own_root, [root]),
        Row("a name in letters of another type", leaf(root, good, issuer_name=printable), [root],
            why="the name of the issuer has to be the same in each octet, which is stricter than RFC 5280, section 7.1"),
    ]
    # ---- what binds an authority
    for what, host, above, name, names, why in (
            ("permits the host, by dNSName", HOST, permits("example.org"), "gate", [good], ""),
            ("permits another domain, by dNSName", HOST, permits("evil.example"), "gate", [good], ""),
            ("permits another domain, and a CN beside a dNSName of it", HOST, permits("evil.example"), HOST, [dns("a.evil.example")], ""),
            ("permits another domain, and a CN alone", HOST, permits("evil.example"), HOST, [], ""),
            ("permits another domain, and a CN of one label", "gate", permits("evil.example"), "gate", [], ONE_LABEL),
            ("permits another domain, and a CN with a slash", "gate/a.example.org", permits("evil.example"), "gate/a.example.org", [], ONE_LABEL),
            ("permits the domain, and a CN alone", HOST, permits("example.org"), HOST, [], ""),
            ("excludes the domain, by dNSName", HOST, excludes("example.org"), "gate", [good], ""),
            ("excludes the domain, and a CN alone", HOST, excludes("example.org"), HOST, [], ""),
            ("excludes another domain", HOST, excludes("evil.example"), "gate", [good], ""),
            ("excludes another domain, and a CN of one label", "gate", excludes("evil.example"), "gate", [], ONE_LABEL),
            ("permits other addresses", "192.0.2.7", x509.NameConstraints([x509.IPAddress(ipaddress.ip_network("10.0.0.0/8"))], None), "gate",
             [addresses("192.0.2.7")], ""),
            ("permits another subject", HOST, x509.NameConstraints([x509.DirectoryName(named("other"))], None), "gate", [good], ""),
            ("permits the subject, and a CN of one label", "gate", x509.NameConstraints([x509.DirectoryName(named("gate"))], None), "gate", [], "")):
        bound = authority("sub", root, b, above)
        found.append(Row(f"a sub-CA that {what}", leaf(bound, *names, name=name), [root, bound], host, why))
        bound = authority("root", None, a, above)
        if "permits" not in what or "subject" not in what:
            found.append(Row(f"a root that {what}", leaf(bound, *names, name=name), [bound], host, why))
    short, zero = authority("root", None, a, pathlen=0), authority("sub", root, b, pathlen=0)
    below = authority("below", zero, c)
    one = authority("root", None, a, pathlen=1)
    bound = authority("root", None, a, permits("evil.example"))
    found += [
        Row("a root with pathlen 0 above a sub-CA", leaf(sub, good), [short, authority("sub", short, b)]),
        Row("a root with pathlen 0 above a leaf", leaf(short, good), [short]),
        Row("a sub-CA with pathlen 0 above another", leaf(below, good), [root, zero, below]),
        Row("a root with pathlen 1 above a sub-CA", leaf(sub, good), [one, authority("sub", one, b)]),
        Row("a root that permits another domain, above a sub-CA", leaf(sub, good), [bound, authority("sub", bound, b)]),
    ]
    # ---- times
    for what, dates in (("has expired", PAST), ("isn't valid yet", FUTURE)):
        old = authority("root", None, a, dates=dates)
        middle = authority("sub", root, b, dates=dates)
        found += [Row(f"a root that {what}", leaf(old, good), [old]),
                  Row(f"a root that {what}, above a sub-CA", leaf(sub, good), [old, authority("sub", old, b)]),
                  Row(f"a sub-CA that {what}", leaf(middle, good), [root, middle]),
                  Row(f"a sub-CA that {what}, and its successor", leaf(middle, good), [root, middle, sub]),
                  Row(f"a leaf that {what}", leaf(root, good, dates=dates), [root])]
    # ---- what an authority is, and what it may do
    for what, how, why in (
            ("keyUsage without keyCertSign", {"uses": ["digital_signature"]}, ""),
            ("no keyUsage", {"without": "u"}, STRICT), ("no subjectKeyIdentifier", {"without": "s"}, STRICT),
            ("basicConstraints that aren't critical", {"soft": True}, STRICT)):
        middle, top = authority("sub", root, b, **how), authority("root", None, a, **how)
        found += [Row(f"a sub-CA with {what}", leaf(middle, good), [root, middle], why=why, is_strict=bool(why)),
                  Row(f"a root with {what}", leaf(top, good), [top], why=why, is_strict=bool(why))]
    for word, above, below_it, why in (
            ("for servers", [SERVER], [], NO_USE), ("for code", [CODE], [], ""), ("for code, above a leaf for it", [CODE], [CODE], ""),
            ("for documents, above a leaf for code", [DOCUMENTS], [CODE], NO_USE), ("for any use, above a leaf for code", [ANY], [CODE], ""),
            ("for servers, above a leaf for any use", [SERVER], [ANY], NO_USE),
            ("for servers and code, above a leaf for code and documents", [SERVER, CODE], [CODE, DOCUMENTS], "")):
        names = [good, *([extended(*below_it)] if below_it else [])]
        middle, top = authority("sub", root, b, extended(*above)), authority("root", None, a, extended(*above))
        found += [Row(f"a sub-CA {word}", leaf(middle, *names), [root, middle], why=why),
                  Row(f"a root {word}", leaf(top, *names), [top], why=why)]
    code, documents = authority("root", None, a, extended(CODE)), authority("sub", root, b, extended(DOCUMENTS))
    bare = authority("root", None, a, without="b")
    plain, version = made("sub", root, b, False, uses=["digital_signature", "key_cert_sign"]), first_version("root", None, a)
    middle, old, unknown = authority("sub", root, b, without="b"), first_version("sub", root, b), authority("sub", root, b, UNKNOWN)
    found += [
        Row("a root for code above a sub-CA for documents", leaf(documents, good), [code, documents], why=NO_USE),
        Row("a sub-CA for servers, and one for any use with its key", leaf(sub, good), [root, authority("sub", root, b, extended(SERVER)), sub]),
        Row("a sub-CA that is none, by its basicConstraints", leaf(plain, good), [root, plain]),
        Row("a sub-CA with no basicConstraints", leaf(middle, good), [root, middle]),
        Row("a root with no basicConstraints", leaf(bare, good), [bare], why=STRICT, is_strict=True),
        Row("a root of version 1", leaf(version, good, without="a"), [version], why=STRICT, is_strict=True),
        Row("a sub-CA of version 1", leaf(old, good, without="a"), [root, old]),
        Row("a leaf for servers", leaf(root, good, extended(SERVER)), [root], why=NO_USE),
        Row("a leaf for code", leaf(root, good, extended(CODE)), [root]),
        Row("a leaf for encryption", leaf(root, good, uses=["key_encipherment"]), [root], why=NO_USE),
        Row("a leaf with an extension that has to be known", leaf(root, good, UNKNOWN), [root]),
        Row("a sub-CA with an extension that has to be known", leaf(unknown, good), [root, unknown]),
        Row("a leaf without authorityKeyIdentifier", leaf(root, good, without="a"), [root], why=STRICT, is_strict=True),
        Row("a leaf without subjectKeyIdentifier", leaf(root, good, without="s"), [root]),
    ]
    # ---- signatures
    weak = authority("sub", root, b, is_weak=True)
    top = authority("root", None, a, is_weak=True)
    other = authority("sub", authority("root", None, c), b)
    found += [
        Row("a leaf that is signed over SHA-1", leaf(root, good, is_weak=True), [root], why=SHA1),
        Row("a sub-CA that is signed over SHA-1", leaf(weak, good), [root, weak], why=SHA1),
        Row("a root that signed itself over SHA-1", leaf(top, good), [top]),
        Row("a sub-CA that another root of that name signed", leaf(other, good), [root, other]),
    ]
    # ---- authorities that others signed too
    second = authority("second", None, b)
    cross = authority("second", root, b)
    late = authority("second", root, b, dates=PAST)
    twin = authority("root", None, c, identified=x509.SubjectKeyIdentifier.from_public_key(a.public_key()))
    found += [
        Row("a cross certificate", leaf(second, good), [root, cross]),
        Row("a cross certificate, and that root itself", leaf(second, good), [root, cross, second]),
        Row("a cross certificate that has expired, and that root itself", leaf(second, good), [root, late, second]),
        Row("a cross certificate without its root", leaf(second, good), [cross]),
        Row("two roots with one name and one identifier", leaf(root, good), [twin, root], alone=root,
            why="openssl takes the first root of that name alone, whose key signed nothing here, and with the other alone the chain holds"),
        Row("two roots with one name and one identifier, the other way", leaf(root, good), [root, twin]),
    ]
    # ---- anchors that issued themselves or not
    bound, none = authority("sub", root, b, permits("evil.example")), authority("sub", root, b, extended(SERVER))
    found += [
        Row("--ca-anchor: a sub-CA without its root", leaf(sub, good), [], anchors=[sub]),
        Row("--ca-anchor: a sub-CA, and its root that has expired", leaf(sub, good), [authority("root", None, a, dates=PAST)], anchors=[sub]),
        Row("--ca-anchor: a root", leaf(sub, good), [sub], anchors=[root]),
        Row("--ca-anchor: the leaf itself", mine, [], anchors=[mine]),
        Row("--ca-anchor: a sub-CA that permits another domain", leaf(bound, good), [], anchors=[bound]),
        Row("--ca-anchor: a sub-CA that permits another domain, and a CN of one label", leaf(bound), [], "gate", ONE_LABEL, [bound]),
        Row("--ca-anchor: a sub-CA for servers", leaf(none, good), [], why=NO_USE, anchors=[none]),
        Row("--ca-anchor: a sub-CA that has expired", leaf(late, good), [], anchors=[late]),
        Row("--ca-anchor: the CA above, and the one between isn't there", leaf(below, good), [], anchors=[root]),
    ]
    return found


def openssl(folder: str, row: Row, *words: str) -> bool:
    """Whether openssl takes a chain."""
    host = ["-verify_hostname", row.host]
    try:
        host = ["-verify_ip", str(ipaddress.ip_address(row.host))]
    except ValueError:
        pass
    paths = []
    for name, these in (("leaf", [row.leaf]), ("held", row.held), ("anchors", row.anchors)):
        paths.append(os.path.join(folder, name))
        with open(paths[-1], "wb") as file:
            file.write(b"".join(it.pem for it in these))
    given = ["-CAfile", paths[1], "-no-CApath"] if not row.anchors else \
        ["-partial_chain", "-trusted", paths[2], *(["-untrusted", paths[1]] if row.held else [])]
    # the options that 1.1.1 hasn't are about what a machine trusts, and its own folder of certificates is named besides
    done = subprocess.run(["openssl", "verify", *words, *host, *given, paths[0]], capture_output=True, timeout=20,
                          env={**os.environ, "SSL_CERT_FILE": os.devnull, "SSL_CERT_DIR": os.devnull})
    assert done.returncode in (0, 2), done
    return done.returncode == 0


def ours(folder: str, row: Row) -> str:
    """Why ssign-keys doesn't take a chain; empty where it does."""
    from ssign_keys.blocks import Session
    from ssign_keys.faults import Fault
    from ssign_keys.trust import Trust
    options = {"ca": [os.path.join(folder, "held")] if row.held else [], "ca_anchor": [os.path.join(folder, "anchors")] if row.anchors else []}
    try:
        given = Trust.from_arguments(argparse.Namespace(keys=[], session_key=[], cert=[], at_signing_time=False, max_payload=65536, **options))
    except Fault as fault:
        return str(fault)
    judged = given.judge(b"- C " + base64.b64encode(row.leaf.der), Session(row.host.encode(), b"s", b"-", b"1"))
    return "" if judged.trusted else str(judged.why) or "no reason"


def main(tools: str, pem: str, *words: str) -> None:
    """Compares each row."""
    sys.path.insert(0, tools)
    from ssign_keys.commands import BUDGET
    with open(pem, "rb") as file:
        key = serialization.load_pem_private_key(file.read(), None)
    said = subprocess.run(["openssl", "version"], stdout=subprocess.PIPE, check=True).stdout.decode()
    version = tuple(map(int, re.findall(r"\d+", said)[:2]))
    failed, counts = [], {"both take": 0, "both refuse": 0, "ssign-keys alone refuses": 0, "ssign-keys alone takes": 0}
    with tempfile.TemporaryDirectory() as folder:
        table = rows(key)
        for row in table:
            BUDGET.renew()
            theirs, why = openssl(folder, row), ours(folder, row)
            # what -x509_strict looks at has grown with the versions
            if row.is_strict and version < (3, 0):
                continue
            if words:
                print(f"{row.what}: {'taken' if theirs else 'refused'} by openssl, {'refused' if why else 'taken'} here"
                      f"{f' because {row.why}' if row.why else ''}{f' ({why})' if why else ''}")
            if row.alone is not None:
                # openssl refuses what is taken here, because it looks at one of two roots
                theirs = not theirs and openssl(folder, replace(row, held=[row.alone], alone=None), "-x509_strict")
                counts["ssign-keys alone takes"] += 1
                if why or not theirs:
                    failed.append(f"{row.what}: {why or 'openssl says otherwise'}")
                continue
            if (theirs, not why) != ((True, False) if row.why else (theirs, theirs)):
                failed.append(f"{row.what}: openssl {'takes' if theirs else 'refuses'} it, and here: {why or 'taken'}")
            if row.is_strict and openssl(folder, row, "-x509_strict"):
                failed.append(f"{row.what}: -x509_strict takes it")
            counts["both take" if theirs and not why else "ssign-keys alone refuses" if theirs else "both refuse"] += 1
    if failed:
        raise SystemExit("\n".join([*failed, f"{len(failed)} of {len(table)} chains are judged otherwise"]))
    print(f"{len(table)} chains, {', '.join(f'{number} {what}' for what, number in counts.items())}, as {said.strip()} is asked")


if __name__ == "__main__":
    main(*sys.argv[1:])
