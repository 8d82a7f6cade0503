"""What a file holds that was given in place of a key or a certificate, in words, so that a mix-up is seen at once."""
from __future__ import annotations

import re
from typing import Callable, Tuple

BEGIN = re.compile(rb"-----BEGIN ([A-Z0-9. ]+)-----")
# What a part of PEM is, by its label (RFC 7468, and what openssl and OpenSSH write besides).
LABELS = {
    b"OPENSSH PRIVATE KEY": "a private key of SSH", b"ENCRYPTED PRIVATE KEY": "an encrypted private key",
    b"PRIVATE KEY": "a private key", b"DSA PRIVATE KEY": "a private key", b"RSA PRIVATE KEY": "a private key of RSA",
    b"EC PRIVATE KEY": "a private key of elliptic curves", b"PUBLIC KEY": "a public key",
    b"RSA PUBLIC KEY": "a public key of RSA", b"CERTIFICATE": "a certificate", b"X509 CERTIFICATE": "a certificate",
    b"TRUSTED CERTIFICATE": "a certificate of openssl's own form", b"CERTIFICATE REQUEST": "a request for a certificate",
    b"NEW CERTIFICATE REQUEST": "a request for a certificate", b"X509 CRL": "a list of revoked certificates",
    b"PKCS7": "a bundle of PKCS #7", b"CMS": "a bundle of CMS", b"DSA PARAMETERS": "parameters of DSA without a key",
    b"EC PARAMETERS": "parameters of elliptic curves without a key", b"DH PARAMETERS": "parameters of Diffie-Hellman",
    b"X9.42 DH PARAMETERS": "parameters of Diffie-Hellman", b"PGP PUBLIC KEY BLOCK": "an OpenPGP key",
    b"PGP PRIVATE KEY BLOCK": "a private OpenPGP key", b"PGP MESSAGE": "a message of OpenPGP",
    b"PGP SIGNATURE": "a signature of OpenPGP",
}
SSH = re.compile(rb"(?:[^\n]* )?(?:ssh-(?:dss|rsa|ed25519)|ecdsa-sha2-[a-z0-9-]+|sk-[a-z0-9@.-]+) AAAA"
                 rb"|---- BEGIN SSH2 PUBLIC KEY ----")
# empty lines and comments in front of the keys of OpenSSH (sshd(8), "AUTHORIZED_KEYS FILE FORMAT")
COMMENTS = re.compile(rb"\A(?:(?:#[^\n]*)?\r?\n)+")
PRINTABLE_KEY = re.compile(rb"PuTTY-User-Key-File-[23]: ")
# The version 3 of PKCS #12 (RFC 7292, section 4), and the OID of its contents, 1.2.840.113549.1.7.1.
PKCS12 = re.compile(rb"\x30.{1,5}?\x02\x01\x03\x30.{1,5}?\x06\x09\x2a\x86\x48\x86\xf7\x0d\x01\x07", re.DOTALL)
PAYLOAD = re.compile(rb"(?:-|[0-9]{4}-[^ \n]+) (?:[CKPU] [A-Za-z0-9+/]+=*|N ?)\r?\n?")
LOG = re.compile(rb"(?:[1-9][0-9]{0,7} )?<[0-9]{1,3}>1 ")


def what_is(text: bytes) -> str:
    """What a file holds, with its article."""
    if not text:
        return "nothing"
    label = BEGIN.search(text)
    if label:
        if b"\nProc-Type: 4,ENCRYPTED" in text:
            return "an encrypted private key"
        return LABELS.get(label[1], "PEM of another kind")
    if SSH.match(COMMENTS.sub(b"", text)):
        return "a public key of SSH"
    if PRINTABLE_KEY.match(text):
        return "a private key of PuTTY"
    if PAYLOAD.fullmatch(text):
        return "a payload and no file of a key"
    if LOG.match(text):
        return "a log"
    return what_is_binary(text)


def what_is_binary(text: bytes) -> str:
    """What octets are that aren't text."""
    # loaded here, because that takes half of the time of a start
    from cryptography import x509
    from cryptography.hazmat.primitives import serialization
    readers: Tuple[Tuple[str, Callable[[bytes], object]], ...] = (
        ("a certificate in DER", x509.load_der_x509_certificate),
        ("a public key in DER", serialization.load_der_public_key),
        ("a private key in DER", lambda it: serialization.load_der_private_key(it, None)),
        ("a request for a certificate in DER", x509.load_der_x509_csr),
    )
    if PKCS12.match(text):
        return "a bundle of PKCS #12"
    for what, reader in readers:
        try:
            reader(text)
        except TypeError:
            return "an encrypted private key in DER"
        except Exception:
            # the library raises what it likes over octets that it can't read
            continue
        return what
    return "other octets than PEM" if text[:1] >= b"\x80" else "no PEM"


# How the library's classes of keys begin, in its older and newer versions.
ALGORITHMS = {"RSA": "RSA", "EC": "ECDSA", "Elliptic": "ECDSA", "DH": "Diffie-Hellman", "DSA": "DSA"}


def algorithm_of(key: object) -> str:
    """What a key of the library is that isn't one of DSA."""
    name = type(key).__name__.lstrip("_")
    found = re.match("Ed[0-9]+|X[0-9]+", name)
    return found[0] if found else next((what for front, what in ALGORITHMS.items() if name.startswith(front)), "another kind")
