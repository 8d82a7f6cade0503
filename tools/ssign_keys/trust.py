"""Whom the reviewer trusts: what the options say, asked about payloads and signatures."""
from __future__ import annotations

import argparse
from datetime import datetime, timezone
from typing import TYPE_CHECKING, Dict, Iterable, List, NamedTuple, Optional, Sequence, Tuple

from . import openpgp
from .blocks import Session
from .faults import Fault
from .files import read_file
from .identity import UNKNOWN, ByLine, CertificateFacts, Finding, Identity
from .keys import NO_KEY, PUBLIC_KEY, Numbers, PublicKey, one_line, read_pem_keys, stated_fingerprint
from .payload_types import CERTIFICATE
from .payloads import Payload, bare_numbers, moment_of, read_payload
from .sizes import LONGEST_PAYLOAD, add_max_payload

if TYPE_CHECKING:
    from .authorities import Authority, Chain
    from .certificates import Certificate

# The module of certificates is loaded where one is looked at, because that takes half of the time of a start.
ANY = b"*"
UNREAD = "its payload can't be read"
NO_STATED_KEY = "its payload states no key that is known here, and no --session-key names the session"
# So many answers about certificates that an authority has signed are kept.
MOST_KEPT = 10000


class Trusted(NamedTuple):
    """The key of a session, and whose it is."""

    name: str
    """The file that it was given in, as the command line spells it; for a chain the file with its anchor."""
    key: PublicKey
    certificate: Optional[Certificate]
    """The certificate that says so, where one does."""
    authority: str = ""
    """The SHA-256 of the file, if its authority issued the certificate."""


class Judged(NamedTuple):
    """What comes of a payload in a session."""

    trusted: Optional[Trusted]
    why: str
    """Why no key is trusted; empty where one is."""
    finding: Finding = UNKNOWN
    """The same for a report."""
    by_line: Optional[ByLine] = None
    """The same as a trust file answers it."""


class Given(NamedTuple):
    """A key, or a certificate of an authority, that the reviewer gave."""

    option: str
    file: str
    session: Optional[str]
    """The words of a --session-key."""
    fingerprint: Optional[str]
    """The SHA-256 of the key's SubjectPublicKeyInfo in DER; None for an authority."""
    certificate: Optional[CertificateFacts]
    file_sha256: Optional[str] = None
    """The SHA-256 of the file of an authority; None for a key."""


class SessionKey(NamedTuple):
    """A --session-key."""

    pattern: Session
    """A session, in which `*` stands for any word."""
    trusted: Trusted

    def is_for(self, session: Session) -> bool:
        """Whether this is the key of a session."""
        return all(wanted in (ANY, word) for wanted, word in zip(self.pattern, session))


class Issued(NamedTuple):
    """A certificate for which nothing but an authority vouches."""

    certificate: Certificate
    chains: Sequence[Chain]
    moment: datetime
    """When it has to be valid."""


class Stated(NamedTuple):
    """What a payload says of its key."""

    payload: Payload
    numbers: Optional[Numbers]
    """The key's numbers; None where it has none that are known here."""
    trusted: Optional[Trusted]
    """The key, where --key or --cert trusts the payload."""
    why: str
    """Why it isn't trusted; empty where it is."""
    issued: Optional[Issued] = None
    """The certificate, where it is trusted in those sessions alone for whose HOSTNAME an authority issued it."""


def add_arguments(parser: argparse.ArgumentParser) -> None:
    """Says how a reviewer names keys but for --key: --session-key, --ca, --ca-anchor and --cert.

    `keys` of the parsed arguments is where the public keys belong: a list of file names.
    """
    parser.add_argument("--session-key", nargs=2, action="append", default=[], metavar=("SESSION", "PUBLIC.pem"),
                        help="the key of a session, which is named HOST APP PROCID RSID as in a report; * is any word. "
                             "The first that names a session counts, and no other key is trusted for it")
    parser.add_argument("--ca", action="append", default=[], metavar="CA.pem",
                        help="trust a payload with a certificate that a chain to a self-issued one of these makes one for the "
                             "HOSTNAME of its session; all others in the file may stand between")
    parser.add_argument("--ca-anchor", action="append", default=[], metavar="CA.pem",
                        help="the same, but each certificate in the file may end a chain, and what is above it isn't asked")
    parser.add_argument("--cert", action="append", default=[], metavar="CERT.pem",
                        help="trust a payload with this certificate")
    parser.add_argument("--trust", metavar="FILE", help="the trust file, in place of all options that name keys: a line says which "
                        "key may sign for which sessions, and until when")
    parser.add_argument("--seen", metavar="TIME", help="when you had the log already, as 2028-03-01T00:00:00Z or 2028-03-01: the "
                        "trust file's limits are judged then, and not now")
    add_max_payload(parser)
    parser.add_argument("--at-signing-time", action="store_true", help="judge whether a certificate has expired at the "
                        "payload's time, which its signer states, and not now")


def read_public_keys(path: str) -> List[PublicKey]:
    """The keys in a file: public keys in PEM, or OpenPGP keys."""
    return public_keys_in(path, read_file(path, PUBLIC_KEY))


def public_keys_in(path: str, text: bytes) -> List[PublicKey]:
    """The keys in the text of a file."""
    if openpgp.is_openpgp(text):
        return openpgp.read_openpgp_keys(path, text)
    return read_pem_keys(path, text)


def read_session_keys(path: str) -> List[Trusted]:
    """The keys in a file of --session-key, which may also be one of certificates."""
    text = read_file(path, PUBLIC_KEY)
    if not openpgp.is_openpgp(text) and b"-----BEGIN CERTIFICATE-----" in text and b"-----BEGIN PUBLIC KEY-----" not in text:
        from . import certificates
        return [Trusted(path, it.key, it.certificate) for it in certificates.signers_in(path, text)]
    return [Trusted(path, it, None) for it in public_keys_in(path, text)]


def read_session_key(words: str, path: str) -> SessionKey:
    """What an option --session-key says."""
    parts = words.encode("utf-8", "surrogateescape").split(b" ")
    if len(parts) != 4 or not all(parts):
        raise Fault(f"the session '{words}' isn't four words HOST APP PROCID RSID with one space between two")
    keys = read_session_keys(path)
    if len(keys) != 1:
        raise Fault(f"{path} holds {len(keys)} keys, and the session '{words}' has one")
    return SessionKey(Session(*parts), keys[0])


def read_certificates(arguments: argparse.Namespace) -> Tuple[Dict[bytes, Trusted], List[Authority]]:
    """What the options --cert, --ca and --ca-anchor say. Raises Fault where there are authorities, and no anchor."""
    signers: Dict[bytes, Trusted] = {}
    if not (arguments.cert or arguments.ca or arguments.ca_anchor):
        return signers, []
    from . import authorities, certificates
    for path in arguments.cert:
        for it in certificates.read_signers(path):
            signers.setdefault(it.certificate.der, Trusted(path, it.key, it.certificate))
    found = [*(authorities.read_authority(path, "--ca") for path in arguments.ca),
             *(authorities.read_authority(path, authorities.ANCHOR) for path in arguments.ca_anchor)]
    if found and not any(it.is_anchor(certificate) for it in found for these in it.certificates.values() for certificate in these):
        raise Fault(f"no certificate of --ca is self-issued, so no chain can end: add the root's, or give the file by "
                    f"{authorities.ANCHOR}")
    return signers, found


class Trust:
    """The keys, sessions and certificates that the reviewer gave. It can be handed to another process."""

    def __init__(self, keys: Dict[Numbers, Trusted], session_keys: Sequence[SessionKey],
                 authorities: Sequence[Authority], signers: Dict[bytes, Trusted], is_at_signing_time: bool,
                 longest: int = LONGEST_PAYLOAD) -> None:
        """Keys by their numbers, and signers by their certificates. Payloads of so many octets are looked at."""
        self._keys = keys
        self._session_keys = session_keys
        self._authorities = authorities
        self._signers = signers
        self._is_at_signing_time = is_at_signing_time
        self.longest = longest
        # the keys that may sign in any session that --session-key doesn't name, each once, and the files that they came in
        of_any: Dict[Numbers, Trusted] = {}
        for it in [*keys.values(), *signers.values()]:
            of_any.setdefault(it.key.numbers, it)
        self._any_session = [it.key for it in of_any.values()]
        self._any_files = [it.name for it in of_any.values()]
        self._now = datetime.now(timezone.utc).replace(microsecond=0)
        # each key and certificate, in the order of the options; whoever makes trust of something else leaves it empty
        self.given: List[Given] = []
        # what was asked last, because questions about one payload stand together
        self._last_payload: Optional[bytes] = None
        self._last_stated: Optional[Stated] = None
        self._last_judged: Optional[Tuple[Stated, Optional[Session], Judged]] = None
        # what was found of certificates, each at a time and for a HOSTNAME
        self._kept: Dict[Tuple[bytes, datetime, bytes, Tuple[str, ...]], Judged] = {}

    @classmethod
    def from_arguments(cls, arguments: argparse.Namespace) -> Trust:
        """What the options `keys`, `session_key`, `ca`, `ca_anchor`, `cert` and `at_signing_time` give. Raises Fault where one is
        wrong.

        A caller without --max-payload looks at payloads of the usual length.
        """
        if getattr(arguments, "trust", None) is not None or getattr(arguments, "seen", None) is not None:
            from .trust_by_file import read_trust
            return read_trust(arguments)
        keys: Dict[Numbers, Trusted] = {}
        given: List[Given] = []
        for path in arguments.keys:
            for key in read_public_keys(path):
                keys.setdefault(key.numbers, Trusted(path, key, None))
                given.append(Given("--key", path, None, key.fingerprint, None))
        session_keys = [read_session_key(words, path) for words, path in arguments.session_key]
        patterns: Dict[Session, SessionKey] = {}
        for it in session_keys:
            first = patterns.setdefault(it.pattern, it)
            if first.trusted.key.numbers != it.trusted.key.numbers:
                raise Fault(f"the session '{it.pattern}' is given two keys: {first.trusted.name} and {it.trusted.name}")
        signers, authorities = read_certificates(arguments)
        if not (keys or session_keys or signers or authorities):
            raise Fault("nothing says which key is to be trusted: give a public key, --session-key, --ca, --cert or --trust")
        trust = cls(keys, session_keys, authorities, signers, arguments.at_signing_time,
                    getattr(arguments, "max_payload", LONGEST_PAYLOAD))
        given += [given_key("--session-key", it.trusted, str(it.pattern)) for it in session_keys]
        given += [given_key("--cert", it, None) for it in signers.values()]
        given += [Given(it.option, it.path, None, None, certificate.facts, it.sha256) for it in authorities
                  for found in it.certificates.values() for certificate in found]
        trust.given = given
        return trust

    @property
    def patterns(self) -> List[SessionKey]:
        """What --session-key gave."""
        return list(self._session_keys)

    @property
    def has_one_key(self) -> bool:
        """Whether the reviewer trusts one key by its file, and nothing else."""
        return len(self._keys) == 1 and not (self._session_keys or self._authorities or self._signers)

    @property
    def given_words(self) -> str:
        """How a sentence begins that a key isn't one that the reviewer gave for a session."""
        if len({it.numbers for it in (*self._any_session, *(it.trusted.key for it in self._session_keys))}) == 1:
            return "the key that you gave isn't"
        return "no key that you gave for it is" if self._session_keys else "none of the keys that you gave is"

    @property
    def has_authorities(self) -> bool:
        """Whether a certificate is trusted that isn't given by itself."""
        return bool(self._authorities)

    @property
    def unfound_words(self) -> str:
        """How a sentence ends that not all fragments are looked at in which such a certificate may stand."""
        return "certificate that --ca would trust may not be found: --cert names it"

    def keys_for(self, session: Session) -> List[PublicKey]:
        """The keys that the reviewer gave for a session, each once. Those of certificates that an authority issued aren't among
        them."""
        given = next((it.trusted for it in self._session_keys if it.is_for(session)), None)
        return [given.key] if given else self._any_session

    def unbound_files(self, sessions: Iterable[Session]) -> List[str]:
        """The file of each key that could have signed any session, if there are several, and one of these sessions isn't named
        by --session-key."""
        is_open = any(not any(it.is_for(session) for it in self._session_keys) for session in sessions)
        return self._any_files if is_open and len(self._any_files) > 1 else []

    def judge(self, payload: bytes, session: Optional[Session]) -> Judged:
        """The key that is trusted for a session with this payload, or why there is none.

        Without a session, what is trusted of the payload in every session.
        """
        stated = self._stated(payload)
        if not stated:
            return Judged(None, UNREAD, Finding(None, UNREAD))
        last = self._last_judged
        if last is None or last[0] is not stated or last[1] != session:
            trusted, why, _, by_line = self._judge_stated(stated, session)
            identity = identity_of(trusted, stated.payload.stamp) if trusted else None
            other = "" if trusted else self._other_key(stated, session)
            last = self._last_judged = stated, session, Judged(trusted, why, Finding(identity, why, other, by_line), by_line)
        return last[2]

    def _other_key(self, stated: Stated, session: Optional[Session]) -> str:
        """The fingerprint of the key that a payload states, if the reviewer gave others for the session, and none is this one.

        A certificate may be refused for more than its key if authorities are trusted.
        """
        given = next((it.trusted.key for it in self._session_keys if session and it.is_for(session)), None)
        keys = [given] if given else self._any_session
        if not keys or stated.numbers is None or any(it.numbers == stated.numbers for it in keys):
            return ""
        is_for_authorities = given is None and self._authorities and stated.payload.type == CERTIFICATE
        return "" if is_for_authorities else stated_fingerprint(stated.numbers) or ""

    def signer_of(self, payload: bytes, session: Session, version: bytes, octets: bytes, signature: bytes) -> Optional[Finding]:
        """Whose key is trusted for the session of a block with this VER, where this is its signature of the octets."""
        judged = self.judge(payload, session)
        return judged.finding if judged.trusted and judged.trusted.key.is_signature(octets, version, signature) else None

    def _judge_stated(self, stated: Stated, session: Optional[Session]) -> Judged:
        """What comes of what a payload states in a session."""
        given = next((it.trusted for it in self._session_keys if session and it.is_for(session)), None)
        if not stated.payload.type.states_key:
            return self._in_time(given, stated.payload) if given else Judged(None, NO_STATED_KEY)
        if given:
            if given.key.numbers != stated.numbers:
                return Judged(None, f"its payload states another key than {given.name}, which --session-key gives it")
            return self._in_time(given, stated.payload)
        if stated.issued is None:
            return Judged(stated.trusted, stated.why)
        names = stated.issued.certificate.names
        if session is None or not names.has(session.host):
            return Judged(None, f"the certificate isn't for this HOSTNAME: it names {names}")
        return self._judge_issued(stated.issued, session.host)

    def _in_time(self, trusted: Trusted, payload: Payload) -> Judged:
        """A key that the reviewer gave, where its certificate, if it has one, is valid at the time that counts."""
        why = self._date_fault(trusted.certificate, payload) if trusted.certificate else None
        return Judged(None, why) if why else Judged(trusted, "")

    def _date_fault(self, certificate: Certificate, payload: Payload) -> Optional[str]:
        """Why a certificate isn't valid now or at the payload's time, or None."""
        try:
            stated = moment_of(payload.stamp)
        except ValueError:
            return "its payload states a time that there is not"
        if stated is not None:
            fault = certificate.date_fault(stated)
            if fault or self._is_at_signing_time:
                return fault and f"{fault}, and the payload states the time {payload.stamp}"
        fault = certificate.date_fault(self._now)
        if fault and stated is not None and self._now > certificate.not_after:
            return f"{fault}: --at-signing-time judges that at the payload's time, which its signer states"
        return fault

    def _stated(self, payload: bytes) -> Optional[Stated]:
        """What a payload states, or None where it is no payload."""
        if payload != self._last_payload:
            read = read_payload(payload, self.longest)
            self._last_stated = self._state(read) if read else None
            self._last_payload = payload
        return self._last_stated

    def _state(self, payload: Payload) -> Stated:
        """What a payload states that was read."""
        if payload.type == CERTIFICATE:
            return self._state_certificate(payload)
        numbers = bare_numbers(payload)
        trusted = self._keys.get(numbers) if numbers else None
        return Stated(payload, numbers, trusted, "" if trusted else unknown_key(numbers))

    def _state_certificate(self, payload: Payload) -> Stated:
        """What a payload with a certificate states."""
        from . import certificates
        found = certificates.read_certificate(payload.blob)
        if not found:
            return Stated(payload, None, None, "its payload holds no certificate that can be read")
        if not found.numbers:
            return Stated(payload, None, None, "its certificate has no DSA key")
        given = self._signers.get(found.der)
        if given:
            judged = self._in_time(given, payload)
            return Stated(payload, found.numbers, judged.trusted, judged.why)
        if not self._authorities:
            return Stated(payload, found.numbers, None, "neither --cert nor --ca trusts its certificate")
        from . import authorities
        chains, why = authorities.chains(found, self._authorities)
        why = why or found.usage_fault or self._date_fault(found, payload) or ""
        if why:
            return Stated(payload, found.numbers, None, why)
        moment = (moment_of(payload.stamp) if self._is_at_signing_time else None) or self._now
        return Stated(payload, found.numbers, None, "", Issued(found, chains, moment))

    def _judge_issued(self, issued: Issued, host: bytes) -> Judged:
        """The key of a certificate for a HOSTNAME that it names, where a chain holds. openssl is asked once for each HOSTNAME."""
        asked = issued.certificate.der, issued.moment, host.lower(), tuple(it.authority.path for it in issued.chains)
        if asked not in self._kept:
            if len(self._kept) >= MOST_KEPT:
                self._kept.clear()
            self._kept[asked] = self._judge_chains(issued, host)
        return self._kept[asked]

    def _judge_chains(self, issued: Issued, host: bytes) -> Judged:
        """The key of a certificate for a HOSTNAME, where one of its chains holds."""
        from . import authorities
        found, why = issued.certificate, ""
        for chain in issued.chains:
            why = authorities.chain_fault(found, chain, host, issued.moment) or ""
            if not why:
                break
        if why or not found.numbers:
            return Judged(None, why)
        try:
            return Judged(Trusted(chain.authority.path, PublicKey(found.numbers), found, chain.authority.sha256), "")
        except NO_KEY as fault:
            return Judged(None, f"the key of its certificate can't be used: {one_line(fault)}")


def given_key(option: str, trusted: Trusted, session: Optional[str]) -> Given:
    """A key that the reviewer gave, for one session or for all."""
    facts = trusted.certificate.facts if trusted.certificate else None
    return Given(option, trusted.name, session, trusted.key.fingerprint, facts)


def identity_of(trusted: Trusted, stamp: str) -> Identity:
    """Whose key it is that a payload with this time states."""
    facts = trusted.certificate.facts if trusted.certificate else None
    return Identity(trusted.name, trusted.key.fingerprint, facts, stamp, trusted.authority)


def unknown_key(numbers: Optional[Numbers]) -> str:
    """Why a payload isn't trusted that states a key, or none that is known."""
    if not numbers:
        return "its payload states no DSA key that can be read"
    fingerprint = stated_fingerprint(numbers)
    whose = f", SHA-256 {fingerprint}" if fingerprint else ""
    return f"its payload states a key that you didn't give{whose}"
