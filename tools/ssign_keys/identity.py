"""Whose key it is: what an auditor compares with what he has by another way."""
from __future__ import annotations

from typing import Any, Dict, List, NamedTuple, Optional

from .words import shown_name, shown_text


class CertificateFacts(NamedTuple):
    """What a certificate says of itself, and its fingerprint."""

    subject: str
    """As RFC 4514 spells it."""
    serial: str
    """In hexadecimal digits, as openssl prints it."""
    fingerprint: str
    """The SHA-256 of its DER, in hexadecimal digits."""
    not_before: str
    not_after: str


class Identity(NamedTuple):
    """The key that signed a session's blocks."""

    file: str
    """The file that it was given in, as the command line spells it; for a chain the file with its anchor."""
    fingerprint: str
    """The SHA-256 of its SubjectPublicKeyInfo in DER, in hexadecimal digits."""
    certificate: Optional[CertificateFacts]
    stamp: str
    """The payload's time, which the signer states: a TIMESTAMP or `-`."""
    authority: str = ""
    """The SHA-256 of the file, if it is that of an authority; empty for a key or a certificate that was given."""


class ByLine(NamedTuple):
    """What a trust file answers about a key."""

    answer: str
    """`trusted`, `untrusted`, `revoked`, `expired` or `early`."""
    line: Optional[int]
    """The number of the line that counts; None where no line names the key for the session."""
    words: str
    """A sentence without its full stop: which line it is, and by which time it was judged."""


class Finding(NamedTuple):
    """What was found about the key of a session: whose it is, or else why none is trusted."""

    identity: Optional[Identity]
    why: str
    """A sentence without its full stop; empty where there is nothing to say."""
    other_key: str = ""
    """The fingerprint of the key that the payload states, if the reviewer gave others for the session, and this isn't one of them.
    Anybody can state any key."""
    by_line: Optional[ByLine] = None
    """The same as the trust file answers it, where one is given."""


UNKNOWN = Finding(None, "")


def identity_lines(finding: Finding) -> List[str]:
    """The lines below a session for a person."""
    lines = []
    if finding.identity is not None:
        file, fingerprint, certificate, stamp, authority = finding.identity
        lines.append(f"key: that of the certificate, SHA-256 {fingerprint}" if authority else
                     f"key: {shown_name(file)}, SHA-256 {fingerprint}")
        if certificate is not None:
            lines.append(f"certificate: {certificate_words(certificate)}")
        if authority:
            lines.append(f"authority: {file_words(file, authority)}")
        if finding.by_line is not None:
            lines.append(f"trust: {finding.by_line.words}")
        lines.append("payload: states no time" if stamp == "-" else f"payload: of {stamp}, as its signer states")
    if finding.why:
        lines.append(f"why: {finding.why}")
    return lines


def identity_fields(finding: Finding) -> Dict[str, object]:
    """The members of a session's object of JSON."""
    identity = finding.identity
    facts = certificate_fields(identity.certificate if identity else None)
    return {
        "key": shown_name(identity.file) if identity else None, "fingerprint": identity.fingerprint if identity else None,
        "certificate": facts, "payload_time": identity.stamp if identity else None, "why": finding.why or None,
        "authority": {"file": shown_name(identity.file), "sha256": identity.authority} if identity and identity.authority else None,
        "other_key": finding.other_key or None, "trust": finding.by_line and finding.by_line._asdict(),
    }


def file_words(file: str, sha256: str) -> str:
    """The file of an authority, whose SHA-256 isn't that of a key or a certificate."""
    return f"{shown_name(file)}, a file with the SHA-256 {sha256}"


def certificate_fields(certificate: Optional[CertificateFacts]) -> Optional[Dict[str, object]]:
    """A certificate as JSON has it."""
    return None if certificate is None else {**certificate._asdict(), "subject": shown_text(certificate.subject)}


def certificate_words(certificate: CertificateFacts) -> str:
    """A certificate in a line for a person."""
    return (f"{shown_text(certificate.subject)}, serial number {certificate.serial}, SHA-256 {certificate.fingerprint}, "
            f"valid from {certificate.not_before} to {certificate.not_after}")


def note_of(finding: Finding) -> List[object]:
    """A finding as JSON holds it, for `finding_of`."""
    identity, by_line = finding.identity, finding.by_line and list(finding.by_line)
    if identity is None:
        return [None, finding.why, finding.other_key, by_line]
    certificate = identity.certificate and list(identity.certificate)
    return [[identity.file, identity.fingerprint, certificate, identity.stamp, identity.authority], finding.why, finding.other_key,
            by_line]


def finding_of(note: Any) -> Finding:
    """The finding of which `note_of` made this."""
    identity, why, other_key, line = note
    by_line = line and ByLine(*line)
    if identity is None:
        return Finding(None, why, other_key, by_line)
    file, fingerprint, certificate, stamp, authority = identity
    return Finding(Identity(file, fingerprint, certificate and CertificateFacts(*certificate), stamp, authority), why, other_key,
                   by_line)
