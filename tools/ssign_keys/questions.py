"""Reads the lines of `ssign questions` into chunks, in which each payload stands once and equal neighbours are one."""
from __future__ import annotations

from typing import Iterable, Iterator, List, NamedTuple, Optional, Tuple

from .asked import Asked, Form, Objects, Once, PayloadText, Plain
from .checking import Chunk, ChunkPayload, Question
from .describer import Describer
from .faults import Fault

# A chunk takes no more than this, but for one line more.
CHUNK_LINES = 64
CHUNK_OCTETS = 256 * 1024


class Line(NamedTuple):
    """A line of a chunk."""

    asked: Asked
    question: int
    """Which of the chunk's questions it asks."""

    @property
    def text(self) -> bytes:
        """The line of an answers file for it, with its LF. It has a payload that is looked at."""
        payload = self.asked.payload.text or b""
        return b"yes %s %s\n" % (payload, self.asked.rest) if self.asked.is_block else b"trust %s\n" % payload


class Reader:
    """Takes lines one by one. What is remembered is the last question, and each payload that is stated once."""

    def __init__(self, most: int, describer: Optional[Describer]) -> None:
        """No line yet. Payloads of so many octets at most are looked at.

        Without a describer, the lines are objects of ssign itself.
        """
        self._most = most
        self._describer = describer
        self._form: Optional[Form] = None
        self._line_number = 0
        self._last: Optional[Asked] = None
        self._lines: List[Line] = []
        self._chunk = Chunk()
        # of the chunk, but for a payload that an earlier chunk had
        self._octets = 0
        # how many payloads were read that weren't the one before
        self._payloads = 0
        # how many payloads are too long, and the greatest length of these
        self.long_payloads = 0
        self.longest = 0

    def chunks(self, lines: Iterable[bytes]) -> Iterator[Tuple[List[Line], Chunk]]:
        """The lines in chunks. None ends with a `trust?` line where the block after it has the same payload.

        At a line that is no question the chunk before it is given first, so that the first wrong line is the one reported.
        """
        for line in lines:
            self._line_number += 1
            try:
                asked = self._read(line)
            except Fault as fault:
                self._chunk.fault = str(fault)
                break
            if asked is None:
                continue
            if self._is_full() and not (self._ends_with_trust() and asked.is_block and self._has_last(asked.payload)):
                yield self._take()
            self._add(asked)
        if self._lines or self._chunk.fault:
            yield self._take()

    def _read(self, line: bytes) -> Optional[Asked]:
        """The question of a line. The first line says in which form all are."""
        if self._form is None:
            self._form = self._form_of(line)
        return self._form.read(line, self._line_number)

    def _form_of(self, line: bytes) -> Form:
        """The form of all lines, by the first one."""
        if self._describer is None:
            return Objects(self._most)
        if line.startswith(b"payload "):
            return Once(self._most, self._describer)
        return Plain(self._most, self._describer)

    def _is_full(self) -> bool:
        """Whether another line belongs to the next chunk."""
        return len(self._lines) >= CHUNK_LINES or self._octets >= CHUNK_OCTETS

    def _ends_with_trust(self) -> bool:
        """Whether the last line is a `trust?` line."""
        return not self._lines[-1].asked.is_block

    def _has_last(self, payload: PayloadText) -> bool:
        """Whether a payload is that of the last question."""
        return self._last is not None and self._last.payload is payload

    def _add(self, asked: Asked) -> None:
        """Puts a question into the chunk."""
        payload = asked.payload
        is_new = not self._has_last(payload)
        if payload.text is None and not payload.is_counted:
            payload.is_counted = True
            self.long_payloads += 1
            self.longest = max(self.longest, payload.length)
        if is_new:
            self._payloads += 1
            self._octets += len(payload.text or b"")
        if is_new or not self._chunk.payloads:
            self._chunk.payloads.append(ChunkPayload(self._payloads, payload.text))
        if is_new or not self._lines or not is_same(asked, self._last):
            self._chunk.questions.append(
                Question(self._line_number, len(self._chunk.payloads) - 1, asked.is_block, asked.rest, asked.session,
                         asked.version))
        # what is asked about a payload that isn't looked at is no line of an answers file
        kept = asked if payload.text is not None else asked._replace(rest=b"")
        self._lines.append(Line(kept, len(self._chunk.questions) - 1))
        self._octets += len(asked.rest)
        self._last = asked

    def _take(self) -> Tuple[List[Line], Chunk]:
        """The chunk, in whose place there is an empty one."""
        taken = self._lines, self._chunk
        self._lines, self._chunk, self._octets = [], Chunk(), 0
        return taken


def is_same(one: Asked, other: Optional[Asked]) -> bool:
    """Whether two neighbours about one payload ask the same."""
    return other is not None and one.is_block == other.is_block and one.rest == other.rest
