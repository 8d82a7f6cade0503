"""Checks questions about keys and signatures, a chunk at a time."""
from __future__ import annotations

from dataclasses import dataclass, field
from typing import List, NamedTuple, Optional, Sequence

from .blocks import Session
from .commands import BUDGET
from .encoding import decode
from .faults import Fault
from .identity import Finding
from .signatures import LONGEST_TEXT
from .trust import Trust

TOO_LONG = Finding(None, "its payload is longer than --max-payload allows")


class Question(NamedTuple):
    """A line of `ssign questions`, but for its payload."""

    line_number: int
    payload: int
    """Which of the chunk's payloads."""
    is_block: bool
    """Whether it is a `yes?` line."""
    rest: bytes
    """What stands after the payload of a `yes?` line: OCTETS SIGNATURE."""
    session: Optional[Session]
    """That of the block; of a `trust?` line None where it doesn't state it."""
    version: bytes
    """VER of the block."""


class ChunkPayload(NamedTuple):
    """A payload of a chunk. One may have a hundred megabytes, and its questions any number of chunks."""

    number: int
    """Rises by one with each payload that isn't the one before it, whatever chunk it is in."""
    text: Optional[bytes]
    """In base64; None for one that isn't looked at, and for one that whoever checks the chunk has kept."""


@dataclass
class Chunk:
    """Questions that are checked together."""

    payloads: List[ChunkPayload] = field(default_factory=list)
    questions: List[Question] = field(default_factory=list)
    fault: Optional[str] = None
    """What is wrong with the line after the last question; None where that isn't known to be wrong."""


class Held(NamedTuple):
    """What is known of a question that holds, or of a `trust?` line that doesn't."""

    session: Optional[Session]
    finding: Finding
    """Whose key it is, or why none is trusted."""

    @property
    def is_so(self) -> bool:
        """Whether the question holds."""
        return self.finding.identity is not None


class Checked(NamedTuple):
    """The answers to a chunk, up to the first question that is none."""

    held: List[Optional[Held]]
    """None for a question that doesn't hold, where nothing is to be said of that."""
    fault: Optional[str]
    """What is wrong with the question after the last answer; None where all are answered."""
    unasked: int
    """How often no command was asked, since what commands may take was used up."""


class Checker:
    """Checks chunks, one after the other. The last payload is kept, because the next chunk may go on with it."""

    def __init__(self, trust: Trust) -> None:
        """No payload yet."""
        self._trust = trust
        self._number = 0
        self._payload: Optional[bytes] = None
        self._held: Optional[Held] = None

    def check(self, chunk: Chunk) -> Checked:
        """Checks each question of a chunk."""
        held: List[Optional[Held]] = []
        unasked = BUDGET.refused
        payloads = [self._octets(it) for it in chunk.payloads]
        try:
            for place, question in enumerate(chunk.questions):
                payload = payloads[question.payload]
                if question.is_block:
                    held.append(self._shared(check_block(self._trust, question, payload)))
                else:
                    held.append(check_payload(self._trust, question, payload, chunk.questions[place + 1:place + 2]))
        except Fault as fault:
            return Checked(held, str(fault), BUDGET.refused - unasked)
        return Checked(held, chunk.fault, BUDGET.refused - unasked)

    def _shared(self, held: Optional[Held]) -> Optional[Held]:
        """The object before it if that is equal, because many refer to one object in less than many objects take."""
        last = self._held
        if held is None or last is not None and held.finding is last.finding and held.session == last.session:
            return held and last
        self._held = held
        return held

    def _octets(self, payload: ChunkPayload) -> Optional[bytes]:
        """The octets of a payload. Those of the last one are there, and are the same object."""
        if payload.number != self._number:
            self._number, self._payload = payload.number, payload.text and decode(payload.text)
        return self._payload


def check_block(trust: Trust, question: Question, payload: Optional[bytes]) -> Optional[Held]:
    """Whether a `yes?` line holds. Raises Fault where that can't be found out."""
    session = question.session
    text, _, spelled = question.rest.partition(b" ")
    octets, signature = (decode(text), decode(spelled)) if payload and len(spelled) <= LONGEST_TEXT else (None, None)
    if not payload or not octets or not signature or session is None:
        return None
    try:
        signer = trust.signer_of(payload, session, question.version, octets, signature)
    except Fault as fault:
        raise Fault(f"line {question.line_number}: {fault}") from fault
    return Held(session, signer) if signer else None


def check_payload(trust: Trust, question: Question, payload: Optional[bytes],
                  following: Sequence[Question]) -> Optional[Held]:
    """Whether a `trust?` line holds: for the session of the block that is asked about after it."""
    session = question.session
    if session is None and following and following[0].is_block and following[0].payload == question.payload:
        session = following[0].session
    if not payload:
        return Held(session, TOO_LONG) if session else None
    try:
        return Held(session, trust.judge(payload, session).finding)
    except Fault as fault:
        raise Fault(f"line {question.line_number}: {fault}") from fault
