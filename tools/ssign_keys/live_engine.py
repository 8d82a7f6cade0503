"""Has ssign judge, wrap, number and sign one batch of messages at a time (`ssign-keys live`).

What is numbered, hashed and written into a block is all from ssign. Here its blocks are only told from its messages, and
compared with what was sealed.
"""
from __future__ import annotations

import os
import subprocess
from typing import Dict, List, NamedTuple, Sequence, Tuple

from .blocks import Session
from .counters_file import lines_of
from .encoding import decode
from .faults import Fault
from .frames import frame_at
from .programs import MISTAKE, REFUSAL, Refused
from .session_file import KEPT, Ends, Ongoing, read_ends
from .set_aside import BLOCKS
from .words import shown_name

# the longest message that ssign reads
LONGEST = 1048576
PIECE = 1 << 24
WANT = b"want "
# a signature for a wrap, whose block nobody sees
MADE_UP = b"AAAA"
WRAPPED = "wrapped-"


class Trouble(Exception):
    """What may be over soon: it is reported, and tried again."""


class Odd(NamedTuple):
    """A message that can't be signed as it is."""

    is_block: bool
    """Whether a review would take it for a block."""
    session: Tuple[str, ...]
    """The session that it names as a block; nothing where it is none that is whole."""


class Engine:
    """The program ssign, whose runs over one batch are short."""

    def __init__(self, program: str) -> None:
        """The path of the program."""
        self._program = program

    # ---- what ssign says

    def odd(self, messages: Sequence[bytes], of_wraps: bool) -> Dict[int, Odd]:
        """The places of the messages that can't be signed as they are. With `of_wraps` those too that have the form of a
        wrap, because each of them gets a wrap of its own."""
        found: Dict[int, Odd] = {}
        words = ["inspect", "--findings", *(["--unwrap"] if of_wraps else [])]
        for line in self._ask(words, framed(messages), []).decode("ascii").splitlines():
            word, *fields = line.split(" ")
            if word.startswith(WRAPPED):
                found[int(fields[0])] = Odd(False, ())
            elif word == "unparsed" or word in BLOCKS:
                session = tuple(fields[1:5]) if word in BLOCKS and word != "spoilt" else ()
                found[int(fields[0])] = Odd(word in BLOCKS, session)
            elif word != "end":
                raise Fault(f"ssign inspect wrote a line that isn't known here: {word}")
        return found

    def wraps(self, session: Ongoing, messages: Sequence[bytes], stamp: str) -> List[bytes]:
        """The wraps of these messages. Raises Refused with O11 and a place where one would be too long."""
        words = [*words_of(session, stamp), "--wrap"]
        log = framed(messages)
        wants = wants_of(self._ask(["plan", *words], log, []))
        blocks = {block_of(it, MADE_UP) for it in wants}
        signed = self._ask(["sign", *words, "--answers=@0"], log, [answers_of(wants, [MADE_UP] * len(wants))])
        wraps = [it for it in messages_of(signed) if it not in blocks]
        ends = [b" wrapped - |" + it for it in messages]
        if len(wraps) != len(ends) or not all(wrap.endswith(end) for wrap, end in zip(wraps, ends)):
            raise own_mistake("wraps that don't hold the messages")
        return wraps

    def check_wraps(self, wraps: Sequence[bytes]) -> None:
        """Raises Fault where one of these is no wrap of a text that is no message."""
        if wraps:
            said = self._ask(["inspect", "--findings", "--unwrap"], framed(wraps), []).decode("ascii").splitlines()
            if sum(it.startswith(f"{WRAPPED}unparsed ") for it in said) != len(wraps):
                raise Fault("this is a mistake of ssign-keys: it made a wrap that ssign doesn't take for one, so nothing is signed")

    def ahead(self, session: Ongoing, start: Ends, log: bytes, stamp: str) -> Ends:
        """The counters with which the messages of these frames are all signed."""
        said = self._ask(["plan", "--ahead", *words_of(session, stamp), "--resume=@0"], log, [start.file(session.session)])
        try:
            ends = read_ends(lines_of(said), session.session)
        except ValueError as fault:
            raise own_mistake(f"no counters of the session: {fault}") from fault
        if not start.is_before(ends):
            raise own_mistake("counters that go back")
        return ends

    def wants(self, session: Ongoing, start: Ends, log: bytes, stamp: str) -> List[bytes]:
        """What has to be signed for the messages of these frames."""
        return wants_of(self._ask(["plan", *words_of(session, stamp), "--resume=@0"], log, [start.file(session.session)]))

    def blocks(self, session: Ongoing, start: Ends, log: bytes, stamp: str, wants: Sequence[bytes],
               signatures: Sequence[bytes]) -> List[bytes]:
        """The signature blocks of the messages of these frames, with the signatures, in base64, of what was wanted."""
        signed = self._ask(["sign", *words_of(session, stamp), "--resume=@0", "--answers=@1"], log,
                           [start.file(session.session), answers_of(wants, signatures)])
        return blocks_among(signed, log, wants, signatures)

    def certificate_wants(self, session: Ongoing, stamp: str) -> List[bytes]:
        """What has to be signed for the certificate blocks."""
        wants = wants_of(self._ask(["plan", *words_of(session, stamp)], b"", []))
        if not wants:
            raise own_mistake("a session without a certificate block")
        return wants

    def certificates(self, session: Ongoing, stamp: str, wants: Sequence[bytes], signatures: Sequence[bytes]) -> List[bytes]:
        """The certificate blocks."""
        signed = self._ask(["sign", *words_of(session, stamp), "--answers=@0"], b"", [answers_of(wants, signatures)])
        return blocks_among(signed, b"", wants, signatures)

    # ---- its runs

    def _ask(self, words: List[str], log: bytes, files: List[bytes]) -> bytes:
        """What ssign writes for a log, with files that stand for `@0` and `@1` in its words. Raises Refused or Trouble.

        The log, the files and what it writes are in memory: so a full disk doesn't matter to them, and nobody waits at a pipe.
        The run has no terminal, so ^C doesn't end it.
        """
        numbers: List[int] = []
        try:
            for octets in (*files, log, b""):
                numbers.append(memory_file(octets))
            words = [named(it, numbers) for it in words]
            ran = subprocess.run([self._program, *words, f"--max-len={LONGEST}"], stdin=numbers[-2], stdout=numbers[-1],
                                 stderr=subprocess.PIPE, pass_fds=numbers[:-2], start_new_session=True, check=False)
            written = octets_of(numbers[-1])
        except OSError as fault:
            raise Trouble(f"the program {shown_name(self._program)} can't be run: {fault.strerror}") from fault
        finally:
            for number in numbers:
                os.close(number)
        # an inspection that finds something has status 1
        if ran.returncode == 0 or ran.returncode == 1 and words[0] == "inspect":
            return written
        said = ran.stderr.decode("utf-8", "backslashreplace")
        if ran.returncode != 2:
            raise Trouble(f"ssign {words[0]} ended with the status {ran.returncode}{': ' if said else ''}{said.strip()[:200]}")
        raise refusal_of(said)


def refusal_of(said: str) -> Refused:
    """What ssign refused with."""
    refusal = REFUSAL.fullmatch(said)
    if refusal is not None:
        return Refused(refusal[1], None if refusal[2] is None else int(refusal[2]))
    first = said.splitlines()[0] if said else ""
    return Refused(None, None, first[len(MISTAKE):] if first.startswith(MISTAKE) else first)


def memory_file(octets: bytes) -> int:
    """A file in memory with these octets."""
    number = os.memfd_create("live")
    left = memoryview(octets)
    while left:
        left = left[os.write(number, left):]
    os.lseek(number, 0, os.SEEK_SET)
    return number


def octets_of(number: int) -> bytes:
    """All octets of a file in memory."""
    pieces: List[bytes] = []
    at = 0
    while True:
        piece = os.pread(number, PIECE, at)
        if not piece:
            return b"".join(pieces)
        pieces.append(piece)
        at += len(piece)


def named(word: str, numbers: List[int]) -> str:
    """A word with the names of these files in it."""
    name, _, value = word.partition("=")
    return f"{name}=/dev/fd/{numbers[int(value[1:])]}" if value in ("@0", "@1") else word


def words_of(session: Ongoing, stamp: str) -> List[str]:
    """The options of `plan` and `sign` for a session."""
    return [*(f"--{it}={session.options[it]}" for it in KEPT), f"--stamp={stamp}"]


def framed(messages: Sequence[bytes]) -> bytes:
    """Messages as frames."""
    return b"".join(b"%d %s" % (len(it), it) for it in messages)


def messages_of(frames: bytes) -> List[bytes]:
    """The messages of frames that ssign wrote."""
    found, end = split_frames(frames)
    if end != len(frames):
        raise own_mistake("no whole frames")
    return found


def split_frames(octets: bytes) -> Tuple[List[bytes], int]:
    """The messages of the whole frames at the front, and where these end."""
    found: List[bytes] = []
    at = 0
    while at < len(octets):
        start, length = frame_at(octets, at)
        if not length or start + length > len(octets) or length > LONGEST:
            break
        found.append(octets[start:start + length])
        at = start + length
    return found, at


def wants_of(plan: bytes) -> List[bytes]:
    """What has to be signed, in base64, by the lines of a plan."""
    lines = plan.splitlines()
    if not all(it.startswith(WANT) for it in lines):
        raise own_mistake("a plan with another line than `want`")
    return [it[len(WANT):] for it in lines]


def answers_of(wants: Sequence[bytes], signatures: Sequence[bytes]) -> bytes:
    """An answers file with these signatures."""
    return b"".join(b"seal %s %s\n" % it for it in zip(wants, signatures))


def block_of(want: bytes, signature: bytes) -> bytes:
    """The block for which this was wanted, with its signature (docs/dev/FORMATS.md, "What is signed")."""
    octets = decode(want) or b""
    return b'%s SIGN="%s"]' % (octets[:-1], signature)


def blocks_among(signed: bytes, log: bytes, wants: Sequence[bytes], signatures: Sequence[bytes]) -> List[bytes]:
    """The blocks of a signed log. They have to be those that were sealed, in their order, each perhaps several times, and the
    rest the log octet for octet. What isn't a block isn't looked at one by one: that would cost more than all the rest."""
    blocks: List[bytes] = []
    rest: List[bytes] = []
    at = 0
    for want, signature in zip(wants, signatures):
        block = block_of(want, signature)
        frame = framed([block])
        found = signed.find(frame, at)
        if found < 0:
            raise own_mistake("another signed log than the one that was planned")
        rest.append(signed[at:found])
        at = found
        while signed.startswith(frame, at):
            blocks.append(block)
            at += len(frame)
    if b"".join([*rest, signed[at:]]) != log:
        raise own_mistake("another signed log than the one that was planned")
    return blocks


def own_mistake(what: str) -> Fault:
    """What is said of something that ssign can't have written."""
    return Fault(f"this is a mistake of ssign-keys: ssign wrote {what}, so nothing is signed")


def is_of(odd: Odd, session: Session) -> bool:
    """Whether a message is a block of an originator with these names."""
    return tuple(it.encode("ascii") for it in odd.session[:3]) == tuple(session)[:3]
