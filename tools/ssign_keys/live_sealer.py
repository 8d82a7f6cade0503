"""Who signs for `ssign-keys live`: a key here, or a command that reaches the machine with the key."""
from __future__ import annotations

import base64
import os
import select
import shlex
import signal
import subprocess
import time
from typing import List, Optional, Protocol, Sequence

from .describer import Describer
from .encoding import decode
from .faults import Fault
from .keys import PrivateKey, PublicKey
from .live_engine import Trouble, own_mistake
from .ongoing import Room
from .seal import read_written, seals

# how long the command may take for one signature, in seconds
PATIENCE = 10.0
# no answer is longer: a block in base64, and its signature
LONGEST = 1 << 22
PIECE = 1 << 16


class Sealer(Protocol):
    """Signs what `ssign plan` wants to have signed. One question is asked at a time."""

    public: PublicKey
    is_far: bool
    """Whether another machine learns what is signed before the answer is here."""

    def ask(self, wants: Sequence[bytes], room: Room, are_certificates: bool) -> None:
        """Asks for the signatures of all these, which are in base64. Raises Trouble where that can't be done now."""

    def poll(self) -> Optional[List[bytes]]:
        """The signatures, in base64, once all are here and valid; None before. Raises Trouble where none will come."""

    def number(self) -> Optional[int]:
        """The descriptor that can be read once there is more to poll; None where there is none."""

    def deadline(self) -> Optional[float]:
        """Until when an answer has to come, by `time.monotonic`; None where none is waited for."""

    def close(self) -> None:
        """Ends whatever was started."""


class KeySealer:
    """A private key. It answers at once."""

    is_far = False

    def __init__(self, key: PrivateKey, describer: Describer) -> None:
        """The key, and who says what is in a block."""
        self._key = key
        self._describer = describer
        self.public = key.public
        self._answer: Optional[List[bytes]] = None

    def ask(self, wants: Sequence[bytes], room: Room, are_certificates: bool) -> None:
        """Signs. Whatever isn't a block of the session between its counters is refused."""
        check = room.check_certificate if are_certificates else room.check
        lines = list(seals((b"want %s" % it for it in wants), self._key, self._describer, check))
        room.check_spans()
        self._answer = [it[:-1].rpartition(b" ")[2] for it in lines]

    def poll(self) -> Optional[List[bytes]]:
        """The signatures, each of which `PrivateKey.sign` has checked."""
        answer, self._answer = self._answer, None
        return answer

    def number(self) -> Optional[int]:
        """None: there is nothing to wait for."""
        return None

    def deadline(self) -> Optional[float]:
        """None: there is nothing to wait for."""
        return None

    def close(self) -> None:
        """Nothing was started."""


def check_wants(wants: Sequence[bytes], room: Room, are_certificates: bool, describer: Describer) -> None:
    """Refuses to have anything signed but blocks of the session between its counters."""
    for line, want in enumerate(wants, 1):
        octets = decode(want)
        if octets is None:
            raise own_mistake("a plan with what is no block")
        block = read_written(want, describer)
        (room.check_certificate if are_certificates else room.check)(block, octets, line)
    room.check_spans()


class CommandSealer:
    """A command that reads lines `want OCTETS` and answers each of them at once, as `ssign-keys seal --each` does."""

    is_far = True

    def __init__(self, command: str, public: PublicKey, describer: Describer) -> None:
        """The words of the command, as a shell reads them, the key whose signatures it makes, and who says what is in a block."""
        self._describer = describer
        try:
            self._words = shlex.split(command)
        except ValueError as fault:
            raise Fault(f"--seal-command: a shell can't read it: {fault}") from fault
        if not self._words:
            raise Fault("--seal-command is empty")
        self.public = public
        self._child: Optional[subprocess.Popen[bytes]] = None
        self._wants: List[bytes] = []
        self._signatures: List[bytes] = []
        self._held = b""
        self._until: Optional[float] = None

    def ask(self, wants: Sequence[bytes], room: Room, are_certificates: bool) -> None:
        """Asks for the first signature, and starts the command where it doesn't run."""
        check_wants(wants, room, are_certificates, self._describer)
        self._wants, self._signatures, self._held = list(wants), [], b""
        if self._child is None or self._child.poll() is not None:
            self.close()
            self._start()
        self._send()

    def _start(self) -> None:
        """Starts the command. What it says on standard error goes where that of this process goes."""
        try:
            self._child = subprocess.Popen(self._words, stdin=subprocess.PIPE, stdout=subprocess.PIPE, start_new_session=True)
        except OSError as fault:
            raise Trouble(f"the seal command {self._words[0]} can't be run: {fault.strerror}") from fault

    def _send(self) -> None:
        """Asks for the next signature. One question alone is under way, so neither side waits for the other to read."""
        if len(self._signatures) == len(self._wants):
            self._until = None
            return
        assert self._child is not None and self._child.stdin is not None
        self._until = time.monotonic() + PATIENCE
        line = b"want %s\n" % self._wants[len(self._signatures)]
        number = self._child.stdin.fileno()
        os.set_blocking(number, False)
        while line:
            _, writable, _ = select.select([], [number], [], max(0.0, self._until - time.monotonic()))
            if not writable:
                raise self._failed("takes nothing")
            try:
                line = line[os.write(number, line[:select.PIPE_BUF]):]
            except BlockingIOError:
                continue
            except OSError as fault:
                raise self._failed(self._ending()) from fault

    def poll(self) -> Optional[List[bytes]]:
        """Takes what the command said, and asks for the next signature."""
        if self._child is None or self._child.stdout is None:
            raise Trouble("the seal command doesn't run")
        if self._until is None:
            return self._signatures
        number = self._child.stdout.fileno()
        while select.select([number], [], [], 0)[0]:
            piece = os.read(number, PIECE)
            if not piece:
                raise self._failed(self._ending())
            self._held += piece
            line, end, rest = self._held.partition(b"\n")
            if not end:
                if len(line) > LONGEST:
                    raise self._failed("answered no line")
                continue
            if rest:
                raise self._failed("answered what it wasn't asked")
            self._held = b""
            self._take(line)
            self._send()
            if self._until is None:
                return self._signatures
        if time.monotonic() > self._until:
            raise self._failed(f"didn't answer for {PATIENCE:g} seconds")
        return None

    def _take(self, line: bytes) -> None:
        """Takes an answer. No signature that isn't valid under the public key is let through."""
        want = self._wants[len(self._signatures)]
        word, _, rest = line.partition(b" ")
        octets, _, signature = rest.partition(b" ")
        made, text = decode(signature), decode(want)
        if word != b"seal" or octets != want or made is None or text is None:
            raise self._failed("answered something else than the `seal` line of what it was asked")
        fault = self.public.signature_fault(text, read_written(want, self._describer).version, made)
        if fault is not None:
            raise self._failed(f"gave a signature that {fault}")
        self._signatures.append(base64.b64encode(made))

    def _ending(self) -> str:
        """How the command ended, which nobody asked it to."""
        assert self._child is not None
        try:
            return f"ended with the status {self._child.wait(1)}"
        except subprocess.TimeoutExpired:
            return "closed its output"

    def _failed(self, what: str) -> Trouble:
        """What is said of a command that failed. It is ended, and started anew for the next question."""
        self.close()
        return Trouble(f"the seal command {self._words[0]} {what}")

    def number(self) -> Optional[int]:
        """Its standard output, while an answer is waited for."""
        if self._until is None or self._child is None or self._child.stdout is None:
            return None
        return self._child.stdout.fileno()

    def deadline(self) -> Optional[float]:
        """When it has taken too long."""
        return self._until

    def close(self) -> None:
        """Ends the command and what it started."""
        child, self._child, self._until = self._child, None, None
        if child is None:
            return
        for stream in (child.stdin, child.stdout):
            if stream is not None:
                try:
                    stream.close()
                except OSError:
                    pass
        if child.poll() is None:
            try:
                os.killpg(child.pid, signal.SIGTERM)
                child.wait(1)
            except (OSError, subprocess.TimeoutExpired):
                try:
                    os.killpg(child.pid, signal.SIGKILL)
                except OSError:
                    pass
                child.wait()
