"""Whom the reviewer trusts by a trust file: the key that signed chooses among the lines that name the session."""
from __future__ import annotations

import argparse
from dataclasses import dataclass
from datetime import datetime
from typing import Dict, List, Optional, Sequence, Union

from .blocks import Session
from .faults import Fault
from .identity import ByLine
from .keys import NO_KEY, Numbers, PublicKey, one_line, stated_fingerprint
from .payload_types import CERTIFICATE
from .payloads import Payload, moment_of
from .sizes import LONGEST_PAYLOAD
from .trust import Given, Issued, Judged, Stated, Trust, Trusted
from .trust_file import EXPIRED, MOMENT_WORDS, REVOKED, TRUSTED, UNTRUSTED, Line, Seen, TrustFile, read_moment, spelled
from .trust_reader import read_trust_file
from .words import shown_name

NO_SESSION = "no block names a session with its payload"
NO_NUMBERS = "its payload states numbers that no DSA key has"
NO_TIME = "its payload states a time that there is not"


@dataclass(frozen=True)
class Options:
    """What the options say of a trust file."""

    path: str
    seen: Optional[str]
    """The value of --seen."""
    is_at_signing_time: bool
    longest: int


class FileTrust(Trust):
    """The keys and authorities of a trust file, each for the sessions that its lines name."""

    def __init__(self, file: TrustFile, seen: Seen, is_at_signing_time: bool, longest: int) -> None:
        """Certificates are judged at the time at which the log was seen, too."""
        super().__init__({}, [], file.authorities, {}, is_at_signing_time, longest)
        self._file = file
        self._seen = seen
        self._now = seen.moment
        # the keys of which a fingerprint alone is given, as payloads state them
        self._stated_keys: Dict[Numbers, Union[PublicKey, str]] = {}
        self.given = given_of(file)

    @property
    def given_words(self) -> str:
        """How a sentence begins that a key isn't one that a line names for a session."""
        return f"no key that {shown_name(self._file.path)} names for it is"

    @property
    def has_authorities(self) -> bool:
        """Whether a key is trusted that isn't given by itself, but by a certificate or a fingerprint."""
        return any(it.trusted is None for it in self._file.lines)

    @property
    def unfound_words(self) -> str:
        """How a sentence ends that not all fragments are looked at in which such a key may stand."""
        return f"key that {shown_name(self._file.path)} names by ca= or SHA256: may not be found: name its file"

    def keys_for(self, session: Session) -> List[PublicKey]:
        """The keys in files that may sign a session, if their time isn't over, each once."""
        found = {}
        for fingerprint, lines in by_key(self._file.lines_for(session)).items():
            trusted = next((it.trusted for it in lines if it.trusted), None)
            if trusted and all(it.limits.answer(None, self._seen)[0] not in (REVOKED, EXPIRED) for it in lines):
                found[fingerprint] = trusted.key
        return list(found.values())

    def _judge_stated(self, stated: Stated, session: Optional[Session]) -> Judged:
        """What comes of what a payload states in a session."""
        if session is None:
            return refused(ByLine(UNTRUSTED, None, NO_SESSION))
        try:
            moment = moment_of(stated.payload.stamp)
        except ValueError:
            return refused(ByLine(UNTRUSTED, None, NO_TIME))
        if not stated.payload.type.states_key:
            return self._judge_unstated(stated.payload, moment, session)
        if stated.numbers is None:
            return refused(ByLine(UNTRUSTED, None, stated.why))
        fingerprint = stated_fingerprint(stated.numbers)
        if fingerprint is None:
            return refused(ByLine(UNTRUSTED, None, NO_NUMBERS))
        lines = self._file.key_lines(fingerprint, session)
        if lines:
            return self._judge_lines(lines, stated.payload, stated.numbers, moment)
        lines = self._file.key_lines("", session) if stated.payload.type == CERTIFICATE else []
        if lines:
            return self._judge_authorities(lines, stated, moment, session)
        return refused(self._file.unnamed(fingerprint, session))

    def _judge_lines(self, lines: Sequence[Line], payload: Payload, numbers: Optional[Numbers],
                     moment: Optional[datetime]) -> Judged:
        """What comes of lines that name the key for the session. With no numbers, one of them has the key."""
        by_line = self._file.answer(lines, moment, self._seen)
        if by_line.answer != TRUSTED:
            return refused(by_line)
        given = [it.trusted for it in lines if it.trusted]
        if not given and numbers:
            key = self._stated_key(numbers)
            if isinstance(key, str):
                return refused(ByLine(UNTRUSTED, by_line.line, f"{by_line.words}: the key can't be used: {key}"))
            given = [Trusted(self._file.path, key, None)]
        why = next(filter(None, (self._in_time(it, payload).why for it in given)), "")
        if why:
            return refused(ByLine(UNTRUSTED, by_line.line, f"{by_line.words}: {why}"))
        return Judged(given[0], "", by_line=by_line)

    def _stated_key(self, numbers: Numbers) -> Union[PublicKey, str]:
        """The key with these numbers, whose fingerprint a line names, or why it is none."""
        if numbers not in self._stated_keys:
            try:
                self._stated_keys[numbers] = PublicKey(numbers)
            except NO_KEY as fault:
                self._stated_keys[numbers] = one_line(fault)
        return self._stated_keys[numbers]

    def _judge_unstated(self, payload: Payload, moment: Optional[datetime], session: Session) -> Judged:
        """What comes of a payload that states no key: it has to be clear which one is meant."""
        keys = {it: lines for it, lines in by_key(self._file.lines_for(session)).items() if any(one.trusted for one in lines)}
        judged = [self._judge_lines(lines, payload, None, moment) for lines in keys.values()]
        found = [it for it in judged if it.trusted]
        if len(found) > 1:
            numbers = ", ".join(str(it.by_line.line) for it in found if it.by_line)
            return refused(ByLine(UNTRUSTED, None,
                                  f"its payload states no key, and several lines of {shown_name(self._file.path)} may be "
                                                   f"meant, {numbers}: end all but one of them"))
        if found or judged:
            return (found or judged)[0]
        return refused(ByLine(UNTRUSTED, None,
                              f"its payload states no key, and no line of {shown_name(self._file.path)} has a file with "
                                               "the key of this session"))

    def _judge_authorities(self, lines: Sequence[Line], stated: Stated, moment: Optional[datetime], session: Session) -> Judged:
        """What comes of a certificate in a session for which lines name authorities. Each that issued it has to trust it."""
        issued = stated.issued
        if issued is None:
            return refused(self._by(lines[0], stated.why))
        names = issued.certificate.names
        if not names.has(session.host):
            return refused(self._by(lines[0], f"the certificate isn't for this HOSTNAME: it names {names}"))
        named = {it.authority.path for it in lines if it.authority}
        chains = [it for it in issued.chains if it.authority.path in named]
        issuers = {it.authority.path for it in chains}
        issuing = [it for it in lines if it.authority and it.authority.path in issuers]
        if not issuing:
            return refused(self._by(lines[0], "its authority didn't issue the certificate"))
        by_line = self._file.answer(issuing, moment, self._seen)
        if by_line.answer != TRUSTED:
            return refused(by_line)
        judged = self._judge_issued(issued._replace(chains=chains), session.host)
        return judged._replace(by_line=by_line) if judged.trusted else refused(self._by(issuing[0], judged.why))

    def _by(self, line: Line, why: str) -> ByLine:
        """Why a line doesn't trust a certificate."""
        return ByLine(UNTRUSTED, line.number, f"line {line.number} of {shown_name(self._file.path)}: {why}")

    def _other_key(self, stated: Stated, session: Optional[Session]) -> str:
        """The fingerprint of the key that a payload states, if lines name others for the session, and none is this one."""
        fingerprint = stated.numbers and stated_fingerprint(stated.numbers)
        lines = self._file.lines_for(session) if session and fingerprint else []
        is_named = any(it.fingerprint == fingerprint or it.authority and stated.payload.type == CERTIFICATE for it in lines)
        return (fingerprint or "") if lines and not is_named else ""


def refused(by_line: ByLine) -> Judged:
    """What comes of a payload that isn't trusted."""
    return Judged(None, by_line.words, by_line=by_line)


def by_key(lines: Sequence[Line]) -> Dict[str, List[Line]]:
    """Lines by the keys that they name, without those of authorities."""
    found: Dict[str, List[Line]] = {}
    for it in lines:
        if it.fingerprint:
            found.setdefault(it.fingerprint, []).append(it)
    return found


def given_of(file: TrustFile) -> List[Given]:
    """What was checked with: the trust file, each of its lines, and each certificate of an authority."""
    found = [Given("--trust", file.path, None, None, None, file.sha256)]
    for it in file.lines:
        facts = it.trusted.certificate.facts if it.trusted and it.trusted.certificate else None
        name = it.authority.path if it.authority else it.trusted.name if it.trusted else file.path
        found.append(Given("--trust", name, it.words, it.fingerprint or None, facts, it.authority and it.authority.sha256))
    return found + [Given("--trust", it.path, None, None, certificate.facts, it.sha256) for it in file.authorities
                    for these in it.certificates.values() for certificate in these]


def read_seen(text: Optional[str]) -> Seen:
    """What --seen says."""
    now = Seen.now()
    if text is None:
        return now
    moment = read_moment(text)
    if moment is None:
        raise Fault(f"--seen isn't followed by a time such as {MOMENT_WORDS}")
    if moment > now.moment:
        raise Fault(f"--seen says {spelled(moment)}, and it is {spelled(now.moment)} now: give a time that is over")
    return Seen(moment, "the time of --seen")


def read_options(arguments: argparse.Namespace) -> Options:
    """What the options `trust` and `seen` are given, beside which no other may name a key."""
    if arguments.trust is None:
        raise Fault("--seen is the time by which a trust file is judged: name that with --trust")
    others = (("a public key", arguments.keys), ("--session-key", arguments.session_key), ("--ca", arguments.ca),
              ("--ca-anchor", arguments.ca_anchor), ("--cert", arguments.cert))
    given = [name for name, values in others if values]
    if given:
        raise Fault(f"--trust doesn't go with {' and '.join(given)}: write a line for that key into the trust file")
    return Options(arguments.trust, getattr(arguments, "seen", None), arguments.at_signing_time,
                   getattr(arguments, "max_payload", LONGEST_PAYLOAD))


def read_trust(arguments: argparse.Namespace) -> FileTrust:
    """What a trust file gives. Raises Fault where it, or an option, is wrong."""
    options = read_options(arguments)
    return FileTrust(read_trust_file(options.path), read_seen(options.seen), options.is_at_signing_time, options.longest)
