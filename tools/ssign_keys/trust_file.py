"""The trust file: which key may sign for which sessions, and until when (docs/dev/FORMATS.md, "A trust file")."""
from __future__ import annotations

import re
from datetime import datetime, timezone
from typing import TYPE_CHECKING, Dict, List, NamedTuple, Optional, Sequence, Tuple

from .blocks import Session
from .identity import ByLine, Identity
from .payloads import moment_of
from .trust import Trusted
from .words import shown_name

if TYPE_CHECKING:
    from .authorities import Authority

STAR, ANY_ONE = b"*?"
MOMENT = re.compile(r"[0-9]{4}-[0-9]{2}-[0-9]{2}(?:T[0-9]{2}:[0-9]{2}:[0-9]{2}Z)?")
MOMENT_WORDS = "2028-03-01T00:00:00Z or 2028-03-01, in UTC"
# what a trust file answers about a key: from the gravest on
REVOKED, EXPIRED, EARLY, UNTRUSTED, TRUSTED = "revoked", "expired", "early", "untrusted", "trusted"


class Seen(NamedTuple):
    """When somebody is known to have had a log first."""

    moment: datetime
    how: str
    """What says so, as the end of a sentence."""
    hint: str = ""
    """What to do where that is too late."""

    @classmethod
    def at(cls, seconds: float, how: str) -> Seen:
        """At so many seconds since 1970."""
        return cls(datetime.fromtimestamp(int(seconds), timezone.utc), how)

    @classmethod
    def now(cls) -> Seen:
        """Where nothing else is known."""
        return cls(datetime.now(timezone.utc).replace(microsecond=0), "the present time",
                   "; --seen names an earlier time at which you had the log already")

    def __str__(self) -> str:
        """For a sentence."""
        return f"{spelled(self.moment)}, {self.how}"


class Limits(NamedTuple):
    """How long a key may sign."""

    valid_after: Optional[datetime] = None
    valid_before: Optional[datetime] = None
    revoked_at: Optional[datetime] = None

    @property
    def has_end(self) -> bool:
        """Whether it depends on when a log was seen."""
        return self.valid_before is not None or self.revoked_at is not None

    def answer(self, stated: Optional[datetime], seen: Seen) -> Tuple[str, str]:
        """The answer about a key whose payload states a time or none, and what is said of it."""
        if self.revoked_at is not None and seen.moment >= self.revoked_at:
            return REVOKED, f"its key is revoked from {spelled(self.revoked_at)} on, judged at {seen}{seen.hint}"
        if self.valid_before is not None and seen.moment > self.valid_before:
            return EXPIRED, f"its key is valid up to {spelled(self.valid_before)}, judged at {seen}{seen.hint}"
        if self.valid_after is not None and (stated is None or stated < self.valid_after):
            judged = "and its payload states no time" if stated is None else f"judged at {spelled(stated)}, the payload's time"
            return EARLY, f"its key is valid from {spelled(self.valid_after)} on, {judged}"
        return TRUSTED, f"judged at {seen}" if self.has_end else ""


class Line(NamedTuple):
    """A line that names a key, or an authority, for sessions."""

    number: int
    pattern: Tuple[bytes, bytes, bytes]
    fingerprint: str
    """The SHA-256 of the key's SubjectPublicKeyInfo in hexadecimal digits; empty for an authority."""
    trusted: Optional[Trusted]
    """The key, where the line names its file."""
    authority: Optional[Authority]
    limits: Limits

    @property
    def name(self) -> str:
        """What it names, in one word for a key however it is written."""
        return self.fingerprint or (f"ca {self.authority.sha256}" if self.authority else "")

    @property
    def words(self) -> str:
        """Its pattern, as it is written."""
        return b" ".join(self.pattern).decode("ascii")

    def is_for(self, session: Session) -> bool:
        """Whether its pattern names a session, whatever its RSID is."""
        return all(map(matches, self.pattern, session))


class TrustFile:
    """A trust file that was read. It can be handed to another process."""

    def __init__(self, path: str, sha256: str, lines: Sequence[Line]) -> None:
        """Has each line found by what it names, and by the HOSTNAME if that has no wildcard."""
        self.path = path
        self.sha256 = sha256
        self.lines = list(lines)
        self.authorities = list({it.authority.path: it.authority for it in lines if it.authority}.values())
        self._by_key: Dict[Tuple[str, bytes], List[Line]] = {}
        self._by_host: Dict[bytes, List[Line]] = {}
        for it in lines:
            host = exact(it.pattern[0])
            self._by_key.setdefault((it.fingerprint, host), []).append(it)
            self._by_host.setdefault(host, []).append(it)
        self._named = {it.fingerprint: it for it in reversed(lines)}

    def lines_for(self, session: Session) -> List[Line]:
        """The lines whose pattern names a session."""
        return [it for host in (session.host, b"") for it in self._by_host.get(host, ()) if it.is_for(session)]

    def key_lines(self, fingerprint: str, session: Session) -> List[Line]:
        """Those of them that name this key. Those of all authorities have the fingerprint "". """
        return [it for host in (session.host, b"") for it in self._by_key.get((fingerprint, host), ()) if it.is_for(session)]

    def judge(self, session: Session, identity: Identity, seen: Optional[Seen] = None) -> ByLine:
        """What it answers about whoever signed a session, in a log that was seen then, or now."""
        lines = self.key_lines(identity.fingerprint, session)
        if not lines and identity.authority:
            lines = [it for it in self.key_lines("", session) if it.authority and it.authority.sha256 == identity.authority]
        if not lines:
            return self.unnamed(identity.fingerprint, session)
        try:
            stated = moment_of(identity.stamp)
        except ValueError:
            stated = None
        return self.answer(lines, stated, seen or Seen.now())

    def answer(self, lines: Sequence[Line], stated: Optional[datetime], seen: Seen) -> ByLine:
        """What lines about one key answer together: each has to trust it, so the gravest counts."""
        answers = [(it, *it.limits.answer(stated, seen)) for it in lines]
        line, word, said = min(answers, key=lambda it: ((REVOKED, EXPIRED, EARLY, TRUSTED).index(it[1]), it[0].number))
        where = f"line {line.number} of {shown_name(self.path)}"
        return ByLine(word, line.number, f"{where}: {said}" if said else where)

    def unnamed(self, fingerprint: str, session: Session) -> ByLine:
        """What it answers about a key that no line names for a session."""
        file, key = shown_name(self.path), f"SHA-256 {fingerprint}"
        named = self._named.get(fingerprint)
        if named is not None:
            said = f"line {named.number} of {file} names its key, {key}, for '{named.words}' and no line for this session"
        elif self.lines_for(session):
            said = f"no line of {file} names for this session the key that its payload states, {key}"
        else:
            said = f"no line of {file} names this session; its payload states the key {key}"
        return ByLine(UNTRUSTED, None, said)


def spelled(moment: datetime) -> str:
    """A time in UTC as the trust file spells it."""
    return moment.strftime("%Y-%m-%dT%H:%M:%SZ").rjust(20, "0")


def read_moment(text: str) -> Optional[datetime]:
    """The time that a text spells, in UTC, or None where it spells none."""
    if not MOMENT.fullmatch(text):
        return None
    try:
        found = datetime.strptime(text, "%Y-%m-%dT%H:%M:%SZ" if "T" in text else "%Y-%m-%d")
    except ValueError:
        return None
    return found.replace(tzinfo=timezone.utc)


def exact(pattern: bytes) -> bytes:
    """The one word that a pattern names, or nothing where it has a wildcard."""
    return b"" if b"*" in pattern or b"?" in pattern else pattern


def matches(pattern: bytes, word: bytes) -> bool:
    """Whether a pattern names a word. No octet of the word has a meaning of its own. It takes no more steps than the product of
    the two lengths, which a line and a header limit."""
    place = at = 0
    star, start = -1, 0
    while at < len(word):
        if place < len(pattern) and pattern[place] == STAR:
            star, start, place = place, at, place + 1
        elif place < len(pattern) and pattern[place] in (ANY_ONE, word[at]):
            place, at = place + 1, at + 1
        elif star >= 0:
            start += 1
            place, at = star + 1, start
        else:
            return False
    return not pattern[place:].strip(b"*")
