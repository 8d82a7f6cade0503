"""What valid blocks vouch for besides hashes: whose key signed them, and how far the counter GBC of each group went.

A report names neither. Both are kept while the questions of a review are answered, a session after the other, and are
read again beside the report, in which the sessions stand in the same order.
"""
from __future__ import annotations

import json
from dataclasses import dataclass, field, replace
from typing import AbstractSet, BinaryIO, Callable, Dict, Iterable, Iterator, List, Optional, Set, Tuple

from .answer import Answered
from .blocks import Session
from .encoding import decode
from .fragments import Fragment, covers
from .identity import Finding, Identity, finding_of, note_of
from .words import shown_name
from .workplace import put

GroupName = Tuple[int, int]
# of the place of a block among those that were asked about: its fragment, if it is a certificate block of a disputed session
FragmentAt = Callable[[int], Optional[Fragment]]
UNSIGNED = Finding(None, "no whole payload was found in it that one of your keys signed")


@dataclass
class BlockFacts:
    """Of one session: whose its key is, or why none is trusted, and what its signature blocks say that are validly signed."""

    finding: Finding
    greatest: Dict[GroupName, int] = field(default_factory=dict)
    """The greatest GBC of each group."""
    versions: Set[str] = field(default_factory=set)
    """Each VER."""
    extents: Set[Tuple[int, int]] = field(default_factory=set)
    """Of its payload, the index and the length of each fragment that is validly signed."""
    length: int = 0
    """How many octets its payload has; 0 where no fragment of it is validly signed."""

    @property
    def claims(self) -> bool:
        """Whether validly signed fragments have all of the payload."""
        return self.length > 0 and covers(self.extents, self.length)

    def add(self, it: Answered, fragment_at: FragmentAt) -> None:
        """Takes a validly signed block into account. A certificate block that doesn't agree with the payload vouches for nothing."""
        about = it.about
        assert about is not None
        if about.gbc is not None:
            self.versions.add(about.version.decode("ascii"))
            self.greatest[about.group] = max(about.gbc, self.greatest.get(about.group, 0))
            return
        fragment = fragment_at(about.place)
        joined = decode(it.line.split(b" ")[1]) or b"" if fragment is not None else b""
        if fragment is not None and fragment.agrees(joined):
            self.extents.add((fragment.begin, len(fragment.text)))
            self.length = len(joined)


def noted(answered: Iterable[Answered], notes: BinaryIO, fragment_at: FragmentAt) -> Iterator[Answered]:
    """Gives on what was answered, and keeps what the blocks of each session vouch for.

    Where several payloads are asked about in a session, what counts is said under the first that claims it. These were searched,
    so the fragments of their blocks are known.
    """
    session: Optional[Session] = None
    # under the first payload, or under the one that claims the session, and under the present one
    kept: Optional[BlockFacts] = None
    facts: Optional[BlockFacts] = None
    for it in answered:
        if it.session != session or it.about is None:
            kept, facts = better(kept, facts), None
            if it.session != session:
                put_note(notes, session, kept)
                session, kept = it.session, None
        if (it.about is not None) == bool(it.line):
            facts = facts or BlockFacts(it.finding)
            if it.about is not None:
                facts.add(it, fragment_at)
        yield it
    put_note(notes, session, better(kept, facts))


def better(kept: Optional[BlockFacts], facts: Optional[BlockFacts]) -> Optional[BlockFacts]:
    """Which facts of a session count. If two payloads claim it, it is disputed, and none of their keys is its key."""
    if kept is None:
        return facts
    if facts is None or not facts.claims:
        return kept
    if not kept.claims:
        return facts
    one, other = kept.finding.identity, facts.finding.identity
    if one is None or other is None:
        return kept
    act = "--session-key says which is its key" if kept.finding.by_line is None else "end one of them in the trust file"
    return replace(kept, finding=Finding(None, two_payloads(one, other, act)))


def two_payloads(one: Identity, other: Identity, act: str) -> str:
    """Why no key is that of a session for which two payloads are validly signed, and what to do about two keys."""
    if one.fingerprint == other.fingerprint:
        return (f"the key {shown_name(one.file)} signed two payloads for it, {stamp_words(one.stamp)} and "
                f"{stamp_words(other.stamp)}: its RSID was used twice")
    return (f"two of your keys signed a payload for it, {shown_name(one.file)} and {shown_name(other.file)}: {act}")


def stamp_words(stamp: str) -> str:
    """The time that a payload states."""
    return "one without a time" if stamp == "-" else f"one of {stamp}"


def put_note(notes: BinaryIO, session: Optional[Session], facts: Optional[BlockFacts]) -> None:
    """Keeps a line of JSON, where there is something to keep."""
    if session is None or facts is None:
        return
    groups = [[*group, gbc] for group, gbc in facts.greatest.items()]
    names = [it.decode("latin-1") for it in session]
    put(notes, json.dumps([names, note_of(facts.finding), groups, sorted(facts.versions)]).encode("ascii") + b"\n")


class Notes:
    """Reads again what was kept, beside the sessions of a report."""

    def __init__(self, path: str, unsigned: AbstractSet[Session] = frozenset()) -> None:
        """Of the unsigned sessions it is known that they are disputed, and that no payload of them is validly signed."""
        self._notes = open(path, "rb")
        self._unsigned = unsigned
        self._next = self._read()

    def of(self, session: Session) -> Optional[BlockFacts]:
        """What is known of this session's key and blocks, or None where nothing is. Asked for in the order of a report."""
        facts: Optional[BlockFacts] = None
        if self._next is not None and self._next[0] == session:
            facts = self._next[1]
            self._next = self._read()
        return replace(facts or BlockFacts(UNSIGNED), finding=UNSIGNED) if session in self._unsigned else facts

    def _read(self) -> Optional[Tuple[Session, BlockFacts]]:
        line = self._notes.readline()
        if not line:
            return None
        names, note, groups, versions = json.loads(line)
        host, app, procid, rsid = (str(it).encode("latin-1") for it in names)
        rows: List[List[int]] = groups
        return Session(host, app, procid, rsid), BlockFacts(finding_of(note), {(sg, spri): gbc for sg, spri, gbc in rows},
                                                   set(versions))
