"""Certificates with DSA keys (RFC 5280, section 4.1; RFC 3279, section 2.3.2), made by arithmetic, whatever their numbers are."""
from __future__ import annotations

import base64
import secrets
from typing import Optional, Sequence

import dsa_model
from dsa_model import Key, Pair, integer, item

# dsa-with-sha256 (RFC 5758, section 3.1), commonName, basicConstraints and subjectAltName
SIGNED = item(0x30, bytes.fromhex("0609608648016503040302"))
COMMON_NAME, CONSTRAINTS, ALTERNATIVE = (bytes.fromhex(it) for it in ("0603550403", "0603551d13", "0603551d11"))
# keyUsage, subjectKeyIdentifier and authorityKeyIdentifier
USAGE, OWN, ISSUER = (bytes.fromhex(it) for it in ("0603551d0f", "0603551d0e", "0603551d23"))


def name(text: str) -> bytes:
    """A name that has a CN alone."""
    return item(0x30, item(0x31, item(0x30, COMMON_NAME + item(0x0C, text.encode()))))


def extension(oid: bytes, value: bytes, is_critical: bool = False) -> bytes:
    """An extension."""
    return item(0x30, oid + (item(1, b"\xff") if is_critical else b"") + item(0x04, value))


def certificate(subject: str, key: Key, issuer: str, signer: Pair, hosts: Sequence[str] = (), is_authority: bool = False,
                serial: Optional[int] = None) -> bytes:
    """A certificate in DER, valid from 2020 to 2090, for a key, over SHA-256 by the key of its issuer."""
    p, q, g, y = key
    spki = item(0x30, item(0x30, dsa_model.DSA + item(0x30, integer(p) + integer(q) + integer(g))) + item(3, b"\0" + integer(y)))
    extensions = extension(CONSTRAINTS, item(0x30, item(1, b"\xff") if is_authority else b""), True)
    # digitalSignature, or keyCertSign too; an identifier is made of a name here, because no two keys have one name
    extensions += extension(USAGE, item(3, b"\x02\x84" if is_authority else b"\x07\x80"), True)
    extensions += extension(OWN, item(0x04, subject.encode())) + extension(ISSUER, item(0x30, item(0x80, issuer.encode())))
    if hosts:
        extensions += extension(ALTERNATIVE, item(0x30, b"".join(item(0x82, it.encode()) for it in hosts)))
    dates = item(0x30, item(0x18, b"20200101000000Z") + item(0x18, b"20900101000000Z"))
    body = item(0x30, item(0xA0, integer(2)) + integer(serial or secrets.randbits(60) + 1) + SIGNED + name(issuer) + dates
                + name(subject) + spki + item(0xA3, item(0x30, extensions)))
    r, s = dsa_model.sign(signer, body, b"0121")
    return item(0x30, body + SIGNED + item(3, b"\0" + item(0x30, integer(r) + integer(s))))


def pem(der: bytes) -> bytes:
    """A certificate in PEM."""
    text = base64.b64encode(der)
    lines = [text[place:place + 64] for place in range(0, len(text), 64)]
    return b"\n".join([b"-----BEGIN CERTIFICATE-----", *lines, b"-----END CERTIFICATE-----", b""])
