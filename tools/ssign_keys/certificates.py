"""Certificates (RFC 5280): what one says of its key, of whom it names, and of what its key is for."""
from __future__ import annotations

import hashlib
from datetime import datetime, timezone
from ipaddress import IPv4Address, IPv6Address, ip_address
from typing import FrozenSet, List, NamedTuple, Optional, Tuple, Union

from .faults import Fault
from .files import pem_parts, read_file
from .identity import CertificateFacts
from .kinds import what_is
from .keys import NO_KEY, Numbers, PublicKey, numbers_of, one_line
from .words import shown_text

from cryptography import x509
from cryptography.hazmat.primitives.asymmetric import dsa
from cryptography.hazmat.primitives.serialization import Encoding
from cryptography.x509.oid import NameOID

Address = Union[IPv4Address, IPv6Address]
# A key for one of these signs logs: codeSigning (RFC 5280, section 4.2.1.12), documentSigning (RFC 9336), and the document
# signing of Microsoft, which is older. One for TIME_STAMPING signs time stamps, and one for ANY_USE whatever there is.
SIGNING = frozenset(("1.3.6.1.5.5.7.3.3", "1.3.6.1.5.5.7.3.36", "1.3.6.1.4.1.311.10.3.12"))
TIME_STAMPING = frozenset(("1.3.6.1.5.5.7.3.8",))
ANY_USE = "2.5.29.37.0"
NO_SIGNING = "isn't for signing documents or code, by its extendedKeyUsage"
# How much of its names a sentence holds.
SHOWN_NAMES = 3
SHOWN_LETTERS = 200


class Names(NamedTuple):
    """Whom a certificate is for."""

    texts: Tuple[str, ...]
    """The dNSNames, or the values of CN where there is none."""
    addresses: Tuple[Address, ...]
    are_common: bool
    """Whether the texts are values of CN."""

    def has(self, host: bytes) -> bool:
        """Whether a HOSTNAME (RFC 5424, section 6.2.4) is one of them: an address by its value, and another one as a text
        without regard to the case of ASCII letters. A name with an asterisk is for whole domains, and so for no host, and one
        with NUL is nobody's."""
        if host == b"-" or b"*" in host or b"\0" in host:
            return False
        address, wanted = address_of(host), host.lower()
        if address is not None:
            return address in self.addresses
        return any(it.encode("utf-8", "surrogatepass").lower() == wanted for it in self.texts)

    def __str__(self) -> str:
        """Some of them, for a sentence."""
        found = [*self.texts, *map(str, self.addresses)]
        more = f" and {len(found) - SHOWN_NAMES} more" if len(found) > SHOWN_NAMES else ""
        return f"{shortened(', '.join(found[:SHOWN_NAMES]))}{more}" if found else "nobody"


class Certificate(NamedTuple):
    """A certificate, as far as it is used."""

    der: bytes
    numbers: Optional[Numbers]
    """The numbers of its key; None where that is none of DSA."""
    subject: bytes
    issuer: bytes
    names: Names
    not_before: datetime
    not_after: datetime
    uses: FrozenSet[str]
    """For which of SIGNING and TIME_STAMPING its key is, or may be the key of what it issues."""
    binds_hosts: bool
    """Whether its nameConstraints say which host names it may issue certificates for."""
    usage_fault: Optional[str]
    """Why its key is none for signing logs, or None."""
    facts: CertificateFacts

    def date_fault(self, moment: datetime) -> Optional[str]:
        """Why it isn't valid at a time, or None."""
        if moment < self.not_before:
            return f"the certificate isn't valid before {spelled(self.not_before)}"
        if moment > self.not_after:
            return f"the certificate expired at {spelled(self.not_after)}"
        return None

    @property
    def is_self_issued(self) -> bool:
        """Whether its subject and its issuer are the same (RFC 5280, section 6.1)."""
        return self.subject == self.issuer

    @property
    def name(self) -> str:
        """Its subject, for a sentence."""
        return shortened(self.facts.subject) or f"the certificate with the serial number {self.facts.serial}"


def shortened(text: str) -> str:
    """A text of a certificate, for a sentence."""
    whole = shown_text(text)
    return whole if len(whole) <= SHOWN_LETTERS else f"{shown_text(text, SHOWN_LETTERS)} .."


def address_of(host: bytes) -> Optional[Address]:
    """The address that a HOSTNAME spells."""
    try:
        return ip_address(host.decode("ascii"))
    except ValueError:
        return None


def spelled(moment: datetime) -> str:
    """A time as RFC 5424 spells it."""
    return moment.isoformat().replace("+00:00", "Z")


def loaded(der: bytes) -> x509.Certificate:
    """The certificate of the library. Raises whatever the library likes."""
    return x509.load_der_x509_certificate(der)


def read_certificate(der: bytes) -> Optional[Certificate]:
    """The certificate that has these octets in DER and no other, or None where they are none."""
    try:
        found = certificate(loaded(der))
    except Exception:
        # the library raises what it likes over octets of a stranger, KeyError too
        return None
    return found if found.der == der else None


def certificate(found: x509.Certificate) -> Certificate:
    """What is used of a certificate. Raises where it can't be read."""
    der = found.public_bytes(Encoding.DER)
    start, end = validity(found)
    facts = CertificateFacts(found.subject.rfc4514_string(), serial_of(found), hashlib.sha256(der).hexdigest(),
                             spelled(start), spelled(end))
    return Certificate(der, stated_key(found), found.subject.public_bytes(), found.issuer.public_bytes(), names_of(found),
                       start, end, uses_of(found), binds_hosts(found), usage_fault(found), facts)


def stated_key(found: x509.Certificate) -> Optional[Numbers]:
    """The numbers of the key of a certificate, which aren't checked here."""
    try:
        key = found.public_key()
    except NO_KEY:
        return None
    return numbers_of(key) if isinstance(key, dsa.DSAPublicKey) else None


def validity(found: x509.Certificate) -> Tuple[datetime, datetime]:
    """From when to when a certificate is valid; older versions of the library leave out that this is UTC."""
    start, end = (getattr(found, f"not_valid_{name}_utc", None) or getattr(found, f"not_valid_{name}").replace(
        tzinfo=timezone.utc) for name in ("before", "after"))
    return start, end


def serial_of(found: x509.Certificate) -> str:
    """The serial number in hexadecimal digits, two for each octet."""
    digits = f"{abs(found.serial_number):X}"
    return "-" * (found.serial_number < 0) + digits.rjust(len(digits) + len(digits) % 2, "0")


def names_of(found: x509.Certificate) -> Names:
    """Whom a certificate names."""
    common = [it.value for it in found.subject.get_attributes_for_oid(NameOID.COMMON_NAME) if isinstance(it.value, str)]
    hosts: List[str] = []
    addresses: List[Address] = []
    for extension in found.extensions:
        if isinstance(extension.value, x509.SubjectAlternativeName):
            hosts += extension.value.get_values_for_type(x509.DNSName)
            addresses += [it for it in extension.value.get_values_for_type(x509.IPAddress)
                          if isinstance(it, (IPv4Address, IPv6Address))]
    return Names(tuple(hosts or common), tuple(addresses), not hosts)


def uses_of(found: x509.Certificate) -> FrozenSet[str]:
    """For which of SIGNING and TIME_STAMPING a certificate is (RFC 5280, section 4.2.1.12): all, where nothing says so."""
    for extension in found.extensions:
        if isinstance(extension.value, x509.ExtendedKeyUsage):
            named = {it.dotted_string for it in extension.value}
            return SIGNING | TIME_STAMPING if ANY_USE in named else (SIGNING | TIME_STAMPING) & named
    return SIGNING | TIME_STAMPING


def binds_hosts(found: x509.Certificate) -> bool:
    """Whether nameConstraints (RFC 5280, section 4.2.1.10) permit or exclude dNSNames."""
    return any(isinstance(it, x509.DNSName) for extension in found.extensions if isinstance(extension.value, x509.NameConstraints)
               for it in (*(extension.value.permitted_subtrees or ()), *(extension.value.excluded_subtrees or ())))


def usage_fault(found: x509.Certificate) -> Optional[str]:
    """Why the key of a certificate is none for signing logs (RFC 5280, sections 4.2.1.3 and 4.2.1.12)."""
    for extension in found.extensions:
        value = extension.value
        if isinstance(value, x509.KeyUsage) and not (value.digital_signature or value.content_commitment):
            return "the certificate isn't for signatures, by its keyUsage"
    return None if SIGNING & uses_of(found) else f"the certificate {NO_SIGNING}"


def read_certificates(path: str, text: bytes) -> List[Certificate]:
    """The certificates in a text of PEM, at least one."""
    parts = pem_parts(text, "CERTIFICATE")
    if not parts and b"-----BEGIN CERTIFICATE-----" in text:
        raise Fault(f"{path} breaks off in a certificate: its line -----END CERTIFICATE----- is missing")
    if not parts:
        raise Fault(f"{path} holds {what_is(text)}: a certificate in PEM is wanted")
    try:
        return [certificate(x509.load_pem_x509_certificate(part)) for part in parts]
    except Exception as fault:
        raise Fault(f"a certificate in {path} can't be read: {one_line(fault)}") from fault


class Signer(NamedTuple):
    """A certificate whose key the reviewer trusts."""

    certificate: Certificate
    key: PublicKey


def read_signers(path: str) -> List[Signer]:
    """The certificates with a DSA key in a file of --cert, at least one."""
    return signers_in(path, read_file(path, "a certificate"))


def signers_in(path: str, text: bytes) -> List[Signer]:
    """The certificates with a DSA key in the text of a file."""
    signers = [Signer(it, key_of(it, path)) for it in read_certificates(path, text) if it.numbers]
    if not signers:
        raise Fault(f"no certificate in {path} has a DSA key, as signed syslog wants it (RFC 5848, section 4.2.8)")
    for it in signers:
        if it.certificate.usage_fault:
            raise Fault(f"{path} can't be used: {it.certificate.usage_fault}")
    return signers


def key_of(found: Certificate, path: str) -> PublicKey:
    """The key of a certificate that the reviewer gave."""
    assert found.numbers is not None
    try:
        return PublicKey(found.numbers)
    except NO_KEY as fault:
        raise Fault(f"the key of a certificate in {path} can't be used: {one_line(fault)}") from fault
