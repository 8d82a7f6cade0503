"""Finds the payloads that a reviewer's keys vouch for, so that strangers can't dispute a session.

Anybody can write certificate blocks into a log, and blocks that contradict each other leave a session without a key. ssign
is given, as known beforehand, each payload that such a session's blocks spell, as far as a key that the reviewer trusts
signed them. It decides by itself which of them claims a session. What is in a block, ssign reports.
"""
from __future__ import annotations

import base64
import bisect
import json
from array import array
from typing import Any, BinaryIO, Dict, FrozenSet, Iterator, List, Mapping, NamedTuple, Optional, Sequence, Set, Tuple

from .answer import answers
from .asked import YES
from .blocks import Session, session_of
from .claims import is_among
from .fragments import Fragment, Joiner
from .json_text import compact
from .keys import PublicKey
from .payloads import state_key
from .runs import Runs
from .trust import Trust, Trusted
from .words import grouped
from .workplace import finish, put

# Of one session, so many different fragments are kept that nobody is known to have signed. More can be there only if strangers,
# or the holder of a key, wrote them.
MOST_FRAGMENTS = 2000
# So many steps are taken to join the signed fragments of a session, and all those together that nobody is known to have signed.
# Of these, each session has so many steps at least.
MOST_STEPS, FEWEST_STEPS = 300000, 2000
# so many payloads are offered for one session
MOST_TEXTS = 16
INSPECT = ["inspect", "--findings", "--json"]
SIGNATURE, CERTIFICATE = b'{"line":"signature"', b'{"line":"certificate"'
# stands in the object of a certificate block alone whose place was named
FRAGMENT = b'"fragment":'


class Signed:
    """The fragments that are validly signed, by the rising places of their blocks. Anybody may repeat one, so each takes little
    room."""

    def __init__(self) -> None:
        """None yet."""
        self.places = array("I")
        self._which = array("I")
        self._numbers: Dict[Fragment, int] = {}
        self._fragments: List[Fragment] = []

    def add(self, place: int, fragment: Fragment) -> None:
        """Takes one."""
        self.places.append(place)
        self._which.append(self._numbers.setdefault(fragment, len(self._numbers)))
        if len(self._fragments) < len(self._numbers):
            self._fragments.append(fragment)

    def at(self, place: int) -> Optional[Fragment]:
        """The one at a place."""
        at = bisect.bisect_left(self.places, place)
        is_there = at < len(self.places) and self.places[at] == place
        return self._fragments[self._which[at]] if is_there else None


class Known(NamedTuple):
    """What ssign is given as known beforehand."""

    words: List[str]
    """The option of `ssign questions`, `review` and `counters`, or none."""
    sentences: List[str]
    """What is to be said of what couldn't be looked for, or be given."""
    unsigned: FrozenSet[Session] = frozenset()
    """The disputed sessions of which no validly signed payload was found."""
    asked: Sequence[int] = ()
    """The places of the blocks that ssign has to ask about."""
    signed: Optional[Signed] = None
    """The validly signed ones of the disputed sessions."""

    def fragment_at(self, at: int) -> Optional[Fragment]:
        """The fragment of one of the blocks that are asked about, if it is one of these."""
        return None if self.signed is None else self.signed.at(self.asked[at])


class Block(NamedTuple):
    """A certificate block of a disputed session."""

    place: int
    session: Session
    fragment: Fragment
    fields: Dict[str, Any]
    """All that ssign reports of it."""


class Search:
    """Looks for such payloads in a log."""

    def __init__(self, runs: Runs, disputed: Set[Session]) -> None:
        """Certificate blocks of the disputed sessions contradict each other."""
        self._runs = runs
        self._disputed = disputed
        self._sentences: List[str] = []
        # the sessions of which not all was looked at
        self._cut: Set[Session] = set()
        # the places of all blocks, and of the certificate blocks of these sessions
        self._blocks, self._certificates = array("I"), array("I")
        # of these the validly signed ones
        self._signed = Signed()

    def run(self, trust: Trust, jobs: int) -> Known:
        """What to give to ssign."""
        if not self._disputed:
            return Known([], [])
        self._name_blocks()
        path = self._runs.places_file("certificate-places", self._certificates)
        with self._runs.output("certificates", [*INSPECT, f"--facts={path}"]) as inspected:
            keys = {session: trust.keys_for(session) for session in self._disputed}
            if trust.has_authorities:
                self._add_certified(inspected, keys, trust)
            texts, signed = self._signed_texts(inspected, keys, trust, jobs)
            unsigned = frozenset(self._disputed - signed - self._cut)
            if not texts:
                return Known([], self._sentences, unsigned)
            with self._runs.workplace.new_file("pinned") as file:
                for text in texts:
                    put(file, b"trust %s\n" % base64.b64encode(text))
                finish(file)
            words = [f"--pinned={self._runs.workplace.path('pinned')}"]
            return Known(words, self._sentences, unsigned, self._asked_about(inspected), self._signed)

    # ---- blocks

    def _name_blocks(self) -> None:
        """Learns where blocks stand."""
        with self._runs.output("blocks", INSPECT) as inspected:
            for line in inspected:
                if line.startswith((SIGNATURE, CERTIFICATE)):
                    it = json.loads(line)
                    self._blocks.append(it["place"])
                    if it["line"] == "certificate" and session_of(it) in self._disputed:
                        self._certificates.append(it["place"])

    def _each(self, inspected: BinaryIO) -> Iterator[Block]:
        """The certificate blocks of the disputed sessions."""
        inspected.seek(0)
        for line in inspected:
            if FRAGMENT in line and line.startswith(CERTIFICATE):
                it = json.loads(line)
                yield Block(it["place"], session_of(it), Fragment(it["total"], it["index"], base64.b64decode(it["fragment"])), it)

    def _asked_about(self, inspected: BinaryIO) -> "array[int]":
        """The places of all blocks, but for the certificate blocks of disputed sessions that none of their keys signed.

        Such a block speaks for no payload. Strangers may have written many that hold the octets of each payload that is offered,
        and ssign would ask about each of them, and each other block of their session, once for each of these payloads.
        """
        cut = array("I", (it.place for it in self._each(inspected) if it.session in self._cut) if self._cut else ())
        return array("I", (it for it in self._blocks if not is_among(self._certificates, it) or is_among(self._signed.places, it)
                           or is_among(cut, it)))

    # ---- keys

    def _add_certified(self, inspected: BinaryIO, keys: Dict[Session, List[PublicKey]], trust: Trust) -> None:
        """Adds the keys of certificates that an authority issued, as fragments spell them that nobody is known to have
        signed."""
        pieces: Dict[Session, Dict[Fragment, None]] = {session: {} for session in keys}
        for it in self._each(inspected):
            if it.fragment.total > trust.longest:
                continue
            of_session = pieces[it.session]
            if len(of_session) < MOST_FRAGMENTS:
                of_session[it.fragment] = None
            elif it.fragment not in of_session:
                self._cut.add(it.session)
        left = MOST_STEPS
        # those with many fragments come last, so that they take no steps from others
        for session, found_pieces in sorted(pieces.items(), key=lambda it: (len(it[1]), it[0])):
            joiner = Joiner(max(left, FEWEST_STEPS))
            for text in joiner.texts(found_pieces):
                trusted = trust.judge(text, session).trusted
                if trusted is not None and all(it.numbers != trusted.key.numbers for it in keys[session]):
                    keys[session] = [*keys[session], trusted.key]
            left -= joiner.steps
            if joiner.is_cut:
                self._cut.add(session)
        if self._cut:
            self._sentences.append(f"{grouped(len(self._cut), 'session has', 'sessions have')} more fragments than are looked at, so a "
                                   f"{trust.unfound_words}")

    # ---- payloads

    def _signed_texts(self, inspected: BinaryIO, keys: Dict[Session, List[PublicKey]], trust: Trust,
                      jobs: int) -> Tuple[List[bytes], Set[Session]]:
        """The payloads that validly signed fragments of these sessions spell under these keys, if they are trusted there, and the
        sessions that have one."""
        pieces = self._signed_pieces(inspected, keys, jobs)
        texts: Dict[bytes, None] = {}
        signed: Set[Session] = set()
        for (session, _), found in pieces.items():
            trusted, joiner = 0, Joiner(MOST_STEPS)
            for text in joiner.texts(found):
                if trusted < MOST_TEXTS and trust.judge(text, session).trusted is not None:
                    trusted += 1
                    texts[text] = None
                    signed.add(session)
            if joiner.is_cut:
                self._cut.add(session)
        return list(texts), signed

    def _signed_pieces(self, inspected: BinaryIO, keys: Dict[Session, List[PublicKey]],
                       jobs: int) -> Dict[Tuple[Session, int], Dict[Fragment, None]]:
        """The fragments that are validly signed, by their sessions and by the number of their key.

        They are asked about as ssign asks about blocks, under payloads that state no time.
        """
        every = list({key.numbers: key for of_session in keys.values() for key in of_session}.values())
        stated = [base64.b64encode(state_key(it, "-")) for it in every]
        trust = Trust({key.numbers: Trusted("", key, None) for key in every}, [], [], {}, False)
        numbers = {key.numbers: number for number, key in enumerate(every)}
        of_sessions = {session: [numbers[it.numbers] for it in of_session] for session, of_session in keys.items()}
        # the places of what is valid, which rise, and the numbers of the keys
        places, signers = array("I"), array("I")
        with answers(self._questions(inspected, stated, of_sessions), trust, jobs) as answered:
            for answer in answered:
                if answer.about is not None:
                    places.append(answer.about.place)
                    signers.append(stated.index(answer.line.split(b" ", 2)[1]))
        pieces: Dict[Tuple[Session, int], Dict[Fragment, None]] = {}
        for it in self._each(inspected):
            span = range(bisect.bisect_left(places, it.place), bisect.bisect_right(places, it.place))
            for at in span:
                pieces.setdefault((it.session, signers[at]), {})[it.fragment] = None
            if span:
                self._signed.add(it.place, it.fragment)
        return pieces

    def _questions(self, inspected: BinaryIO, stated: Sequence[bytes],
                   of_sessions: Mapping[Session, Sequence[int]]) -> Iterator[bytes]:
        """The questions about the certificate blocks, under each key of their session, as objects of ssign."""
        for payload in stated:
            yield line_of({"line": "payload", "payload": payload.decode("ascii")})
        for it in self._each(inspected):
            for number in of_sessions[it.session]:
                yield line_of({"line": YES.decode("ascii"), "payload_index": number, "octets": it.fields["signed"],
                               **{key: it.fields[key] for key in ABOUT}})


# what a question about a block has of what an inspection reports
ABOUT = ("signature", "place", "host", "app", "procid", "rsid", "sg", "spri", "ver")


def line_of(fields: Dict[str, object]) -> bytes:
    """A line with an object."""
    return compact(fields).encode("ascii") + b"\n"
