"""Authorities: whether one of --ca or --ca-anchor issued a certificate for a host. A stranger's costs no process."""
from __future__ import annotations

import hashlib
import re
import tempfile
from datetime import datetime
from typing import Dict, List, NamedTuple, Optional, Sequence, Set, Tuple

from .certificates import NO_SIGNING, SIGNING, Certificate, address_of, key_of, loaded, read_certificates, shortened
from .commands import Spent, ask
from .faults import Fault
from .files import read_file, reason

from cryptography import x509
from cryptography.hazmat.primitives.asymmetric import dsa, ec, ed448, ed25519, padding, rsa
from cryptography.hazmat.primitives.serialization import Encoding

# A shorter hash, as MD5 or SHA-1, is one for which other texts with the same hash can be made.
SHORTEST_HASH = 28
# The option whose certificates are anchors, self-issued or not.
ANCHOR = "--ca-anchor"
ELSE = "if you know the session's key by another way, use --session-key"
# How openssl reports a certificate: its subject, and in the next line its depth in the chain and what is wrong.
LOOKUP = re.compile(r"^(?:(.*)\n)?error \d+ at (\d+) depth lookup: *(.*)$", re.MULTILINE)
# Of a CN, openssl takes such a one alone for a host name that nameConstraints bind: labels with a dot between two.
DOMAIN = re.compile(rb"[0-9A-Za-z_]+(-+[0-9A-Za-z_]+)*(\.[0-9A-Za-z_]+(-+[0-9A-Za-z_]+)*)+")


class Authority(NamedTuple):
    """A file of --ca, or of --ca-anchor: where it is, its certificates by their subjects, and its SHA-256."""

    option: str
    path: str
    certificates: Dict[bytes, List[Certificate]]
    sha256: str

    def is_anchor(self, found: Certificate) -> bool:
        """Whether a chain may end with a certificate of this file: with each of --ca-anchor, and each self-issued one."""
        return self.option == ANCHOR or found.is_self_issued

    def has_anchor(self, found: Certificate) -> bool:
        """Whether this is a certificate of the file with which a chain may end."""
        return self.is_anchor(found) and any(it.der == found.der for it in self.certificates.get(found.subject, []))


class Chain(NamedTuple):
    """The certificates that lead to another: those of a file with which a chain may end, and others between."""

    authority: Authority
    anchors: List[Certificate]
    helpers: List[Certificate]


def read_authority(path: str, option: str = "--ca") -> Authority:
    """A file of --ca or --ca-anchor. Raises Fault where one of its keys is of DSA and can't be used."""
    text = read_file(path, "a certificate")
    found = read_certificates(path, text)
    by_subject: Dict[bytes, List[Certificate]] = {}
    for it in found:
        if it.numbers:
            key_of(it, path)
        by_subject.setdefault(it.subject, []).append(it)
    return Authority(option, path, by_subject, hashlib.sha256(text).hexdigest())


def is_signed_by(leaf: x509.Certificate, issuer: x509.Certificate) -> bool:
    """Whether the key of one certificate signed another, over a hash that is long enough."""
    try:
        hashed = leaf.signature_hash_algorithm
        if hashed is not None and hashed.digest_size < SHORTEST_HASH:
            return False
        if hasattr(leaf, "verify_directly_issued_by"):
            leaf.verify_directly_issued_by(issuer)
        else:
            check_signature(leaf, issuer)
    except Exception:
        # the library raises what it likes over octets of a stranger
        return False
    return True


def check_signature(leaf: x509.Certificate, issuer: x509.Certificate) -> None:
    """What older versions of the library leave to their user. Raises where the signature isn't valid."""
    key, hashed = issuer.public_key(), leaf.signature_hash_algorithm
    if isinstance(key, (ed25519.Ed25519PublicKey, ed448.Ed448PublicKey)):
        key.verify(leaf.signature, leaf.tbs_certificate_bytes)
        return
    if hashed is None:
        raise ValueError("no hash")
    if isinstance(key, rsa.RSAPublicKey):
        key.verify(leaf.signature, leaf.tbs_certificate_bytes, padding.PKCS1v15(), hashed)
    elif isinstance(key, ec.EllipticCurvePublicKey):
        key.verify(leaf.signature, leaf.tbs_certificate_bytes, ec.ECDSA(hashed))
    elif isinstance(key, dsa.DSAPublicKey):
        key.verify(leaf.signature, leaf.tbs_certificate_bytes, hashed)
    else:
        raise ValueError("no key that checks certificates")


def issuers(leaf: Certificate, authorities: Sequence[Authority]) -> List[Certificate]:
    """The certificates of authorities whose key signed this one: of all that have the name of its issuer."""
    candidates = [it for authority in authorities for it in authority.certificates.get(leaf.issuer, [])]
    found = loaded(leaf.der) if candidates else None
    return [it for it in candidates if found is not None and is_signed_by(found, loaded(it.der))]


def lineage(leaf: Certificate, authorities: Sequence[Authority]) -> List[Certificate]:
    """The certificates of authorities from which valid signatures lead to this one. No other is above the last of them."""
    found: List[Certificate] = []
    seen: Set[bytes] = set()
    waiting = [leaf]
    while waiting:
        for it in issuers(waiting.pop(), authorities):
            if it.der not in seen:
                seen.add(it.der)
                found.append(it)
                waiting.append(it)
    return found


def chains(leaf: Certificate, authorities: Sequence[Authority]) -> Tuple[List[Chain], str]:
    """The chains that lead to a certificate, one for each file with an anchor, or why there is none. No other program is
    asked."""
    above = lineage(leaf, authorities)
    helpers = [it for it in above if not it.is_self_issued]
    found: List[Chain] = []
    for authority in authorities:
        anchors = [it for it in {it.der: it for it in (leaf, *above)}.values() if authority.has_anchor(it)]
        if anchors:
            found.append(Chain(authority, anchors, [it for it in helpers if it not in anchors]))
    if found:
        return found, ""
    top = above[-1] if above else leaf
    if any(top.issuer in it.certificates for it in authorities):
        return [], signature_fault(top, f"{top.name} above its certificate" if above else "its certificate")
    if above:
        return [], (f"no certificate of --ca has the name of the issuer of {top.name}, which is above its certificate: add that, "
                    f"or give {top.name} by {ANCHOR}")
    return [], "no certificate of --ca has the name of its certificate's issuer"


def signature_fault(leaf: Certificate, what: str) -> str:
    """Why no certificate of its issuer's name has signed a certificate, which a sentence calls so."""
    try:
        hashed = loaded(leaf.der).signature_hash_algorithm
    except Exception:
        hashed = None
    if hashed is not None and hashed.digest_size < SHORTEST_HASH:
        return f"{what} is signed over {hashed.name}, for which two texts with one hash can be made"
    return f"no key of --ca signed {what}, though a certificate of --ca has the name of the issuer"


def chain_fault(leaf: Certificate, chain: Chain, host: bytes, moment: datetime) -> Optional[str]:
    """Why a chain makes a certificate none for a HOSTNAME that it names, at a time; or None."""
    why = f"no chain of certificates with one use leads to its certificate; {ELSE}"
    for it in selections(leaf, chain, host):
        fault = openssl_fault(leaf, it, host, moment)
        if fault is None:
            return None
        why = fault
    return left_out(leaf, chain, host) or why


def is_free(leaf: Certificate, host: bytes) -> bool:
    """Whether a HOSTNAME is a CN that openssl compares with no nameConstraints."""
    return leaf.names.are_common and address_of(host) is None and not DOMAIN.fullmatch(host)


def selections(leaf: Certificate, chain: Chain, host: bytes) -> List[Chain]:
    """What openssl gets of a chain: for each use of the leaf's key, the certificates that have this use too.

    openssl looks at extendedKeyUsage of an authority for a few uses alone, and none of them is that of a log.
    """
    found: List[Chain] = []
    for use in sorted(leaf.uses & SIGNING):
        anchors, helpers = ([it for it in these if use in it.uses and not (it.binds_hosts and is_free(leaf, host))]
                            for these in (chain.anchors, chain.helpers))
        each = Chain(chain.authority, anchors, helpers)
        if anchors and each not in found:
            found.append(each)
    return found


def left_out(leaf: Certificate, chain: Chain, host: bytes) -> Optional[str]:
    """Why a certificate of a chain issues none for this use and HOSTNAME, or None where each may."""
    for it in (*chain.helpers, *chain.anchors):
        if not leaf.uses & it.uses & SIGNING:
            return f"{it.name} above its certificate {NO_SIGNING}; {ELSE}"
        if it.binds_hosts and is_free(leaf, host):
            return (f"{it.name} above its certificate has nameConstraints, which openssl compares with no such CN: the "
                    "certificate needs the HOSTNAME as a dNSName")
    return None


def openssl_fault(leaf: Certificate, chain: Chain, host: bytes, moment: datetime) -> Optional[str]:
    """What openssl, which knows RFC 5280, section 6, has against a chain, or None.

    `-trusted` takes these anchors alone, and nothing that this machine trusts besides.
    """
    address = address_of(host)
    # level 1 leaves out signatures by MD5 and SHA-1, for which others with the same hash can be made
    words = ["openssl", "verify", "-x509_strict", "-auth_level", "1", "-attime", str(int(moment.timestamp())),
             "-nameopt", "RFC2253",
             *(["-verify_hostname", host.decode("ascii", "surrogateescape")] if address is None else ["-verify_ip", str(address)]),
             *(["-partial_chain"] if chain.authority.option == ANCHOR else [])]
    try:
        with tempfile.NamedTemporaryFile(suffix=".pem") as anchors, tempfile.NamedTemporaryFile(suffix=".pem") as helpers:
            for file, these in ((anchors, chain.anchors), (helpers, chain.helpers)):
                file.write(b"".join(pem_of(it) for it in these))
                file.flush()
            words += ["-trusted", anchors.name, *(["-untrusted", helpers.name] if chain.helpers else [])]
            said = ask(words, pem_of(leaf), "openssl")
    except OSError as fault:
        raise Fault(f"a passing file can't be written: {reason(fault)}; TMPDIR names the folder for it") from fault
    except Spent as fault:
        return f"its certificate wasn't checked: {fault}"
    text = said.stderr.decode(errors="replace").strip()
    if said.returncode not in (0, 2):
        raise Fault(f"openssl checks no certificate with {chain.authority.path}: {text}")
    if said.returncode == 0:
        return None
    lookup = LOOKUP.search(text)
    if lookup is None:
        return "openssl refuses its certificate, and names no reason"
    what = "its certificate" if lookup[2] == "0" else f"{shortened(lookup[1] or '') or 'one without a name'} above its certificate"
    return f"openssl refuses {what}: {shortened(lookup[3])}; {ELSE}"


def pem_of(it: Certificate) -> bytes:
    """A certificate in PEM."""
    return loaded(it.der).public_bytes(Encoding.PEM)
