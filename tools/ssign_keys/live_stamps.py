"""Has `ssign-keys live` get a time stamp of the counters of each ended file, and sign which one it is.

`ssign-keys stamp` does it, as a child: so a time stamp service that hangs or fails keeps no message from being signed. An
answer that was checked waits as NAME.counters.tsr.new, and is NAME.counters.tsr once the message about it is on the disk.
"""
from __future__ import annotations

import argparse
import contextlib
import hashlib
import os
import re
import signal
import subprocess
import sys
import time
from dataclasses import dataclass
from typing import IO, List, Optional

from .der import Bad
from .faults import Fault
from .files import reason
from .live_disk import STATE
from .live_log import Live, heading
from .numbers import number
from .stamped import ENDING, MOST_SECONDS, SECONDS, add_authorities
from .words import shown_text

COUNTERS = ".counters"
PASSING = ".new"
WAITING = re.compile(r".+\.counters\.tsr\.new")
# the child ends by itself after --tsa-seconds; so many seconds later it is asked to end, and killed after so many more
PATIENCE, LAST_PATIENCE = 60.0, 2.0
# how much of what it says is read at once, kept and shown
PIECE, LONGEST_SAID, LONGEST_WHY = 1 << 16, 1 << 12, 300
# how often it is looked at, in seconds
PAUSE = 0.5
# how this tool is started, whatever started this process; nothing is loaded from the present folder
FOLDER = os.path.dirname(os.path.dirname(os.path.realpath(__file__)))
START = ("import sys; sys.path = [sys.argv.pop(1), *(it for it in sys.path if it)]; from ssign_keys.__main__ import start; "
         "start()")


def add_arguments(parser: argparse.ArgumentParser) -> None:
    """Says how a time stamp service is given."""
    service = parser.add_mutually_exclusive_group()
    service.add_argument("--stamp-command", metavar="COMMAND", help="get a time stamp of the counters of each ended file by this "
                         "command of the shell, which reads the request from standard input and prints the answer; its SHA-256 is "
                         "signed as a message")
    service.add_argument("--tsa", metavar="URL", help="the same, by the time stamp service at this address, by http or https")
    add_authorities(parser)
    parser.add_argument("--tsa-seconds", type=number(1, MOST_SECONDS), default=SECONDS, metavar="N", help="wait so many seconds "
                        f"for an answer of it (default: {SECONDS})")


def words_of(arguments: argparse.Namespace) -> List[str]:
    """The options of `ssign-keys stamp`; none where no stamp is wanted. Raises Fault where they don't go together."""
    has_authority = arguments.tsa_ca or arguments.tsa_ca_anchor
    if arguments.stamp_command is None and arguments.tsa is None:
        if has_authority:
            raise Fault("--tsa-ca is the authority of a time stamp service: name the service with --stamp-command or --tsa")
        return []
    if not has_authority:
        raise Fault("a time stamp needs the authority of its service: --tsa-ca CA.pem")
    # these take half of the time of a start, so they are loaded where a time stamp is wanted
    from .rfc3161 import read_authorities
    from .tsa import read_url
    read_authorities(arguments.tsa_ca, arguments.tsa_ca_anchor)
    if arguments.tsa is not None:
        read_url(arguments.tsa)
        words = [f"--tsa={arguments.tsa}"]
    else:
        words = [f"--tsa-command={arguments.stamp_command}"]
    return [*words, *(f"--tsa-ca={it}" for it in arguments.tsa_ca), *(f"--tsa-ca-anchor={it}" for it in arguments.tsa_ca_anchor),
            f"--tsa-seconds={arguments.tsa_seconds}"]


@dataclass
class Child:
    """A time stamp that is being got."""

    process: subprocess.Popen[bytes]
    errors: IO[bytes]
    until: float
    said: bytes = b""
    """The end of what it wrote to standard error."""

    def drain(self) -> None:
        """Takes what it wrote, because it waits where the pipe is full. Of a command that writes without end, not all is taken."""
        with contextlib.suppress(OSError, ValueError):
            self.said = (self.said + (self.errors.read(PIECE) or b""))[-LONGEST_SAID:]


class Stamps:
    """The time stamps of a run. Without options there are none."""

    def __init__(self, live: Live, words: List[str], seconds: int) -> None:
        """`words` are the options of `ssign-keys stamp`, which waits so many seconds."""
        self._live = live
        self._words = words
        self._seconds = seconds
        self._child: Optional[Child] = None

    def begin(self) -> None:
        """Has the counters of the file that was ended last stamped. What an earlier child left is signed first."""
        ended, self._live.ended = self._live.ended, None
        if not self._words:
            return
        self.poll()
        self._sign_all()
        if ended is None:
            return
        if self._child is not None:
            self._tell(f"the time stamp service hasn't answered yet, so the counters of {ended.name} get none of their own")
            return
        name = ended.name[:-len(".frames")] + COUNTERS
        self._live.replace(name, ended.counters)
        self._start(name)

    def _start(self, name: str) -> None:
        """Starts the child. It has a session of its own, so that a signal of the terminal is for this process alone."""
        disk = self._live.disk
        path = disk.path(STATE, name)
        words = [sys.executable, *["-B"] * sys.dont_write_bytecode, "-c", START, FOLDER, "stamp", os.path.abspath(path),
                 f"--out={os.path.abspath(path) + ENDING + PASSING}", *self._words]
        try:
            process = subprocess.Popen(words, stdin=subprocess.DEVNULL, stdout=subprocess.DEVNULL, stderr=subprocess.PIPE,
                                       start_new_session=True)
        except OSError as fault:
            self._tell(f"`ssign-keys stamp` can't be run: {reason(fault)}")
            return
        assert process.stderr is not None
        os.set_blocking(process.stderr.fileno(), False)
        self._child = Child(process, process.stderr, time.monotonic() + self._seconds + PATIENCE)

    def pause(self) -> Optional[float]:
        """After how many seconds it is to be looked at again; None where nothing is under way."""
        return None if self._child is None else PAUSE

    def poll(self) -> None:
        """Looks whether the child has ended. A time stamp that it got is signed."""
        child = self._child
        if child is None:
            return
        has_ended = child.process.poll() is not None
        child.drain()
        if not has_ended and time.monotonic() < child.until:
            return
        if not has_ended:
            self._end(child, LAST_PATIENCE)
            self._tell(f"`ssign-keys stamp` didn't end within {self._seconds + PATIENCE:g} seconds")
            return
        self._child = None
        child.errors.close()
        if child.process.returncode:
            lines = child.said.decode("utf-8", "backslashreplace").strip().splitlines()
            why = lines[-1] if lines else f"`ssign-keys stamp` ended with the status {child.process.returncode}"
            self._tell(why.replace("ssign-keys: ", "", 1).replace("--tsa-command", "--stamp-command"))
        self._sign_all()

    def _tell(self, why: str) -> None:
        """Reports that a time stamp wasn't got."""
        self._live.outside.tell("stamp", f"no time stamp: {shown_text(why[:LONGEST_WHY])}. Messages are signed all the same; it is "
                                "tried again at the next file")

    def _sign_all(self) -> None:
        """Signs a message about each time stamp that has none, and gives the stamp its name after that."""
        live, disk = self._live, self._live.disk
        waiting = [it for it in disk.names(STATE) if WAITING.fullmatch(it)]
        for passing in waiting:
            name = passing[:-len(PASSING)]
            octets = disk.read(STATE, passing, 0, disk.size(STATE, passing) or 0)
            counters = name[:-len(ENDING)]
            size = disk.size(STATE, counters)
            of = b"" if size is None else disk.read(STATE, counters, 0, size)
            try:
                live.take([self._message(name, octets, of)])
            except Bad as fault:
                self._tell(f"{passing} is no time stamp of {counters}: {fault}")
                name = f"bad-{passing}"
            else:
                live.sync()
            self._rename(passing, name)

    def _rename(self, name: str, other: str) -> None:
        """Gives a file of the state another name."""
        disk = self._live.disk
        self._live.patiently(lambda: disk.rename(STATE, name, other))
        disk.sync_folder(STATE)

    def _message(self, name: str, octets: bytes, counters: bytes) -> bytes:
        """What is signed about a time stamp. Raises Bad where it isn't one of these counters."""
        from .rfc3161 import read_answer
        stamp, sha256 = read_answer(octets), hashlib.sha256(counters).hexdigest()
        if stamp.imprint != sha256:
            raise Bad("it is of another file")
        return (f"{heading(self._live.session, self._live.outside.stamp(), 'stamp')} {name} has the SHA-256 "
                f"{hashlib.sha256(octets).hexdigest()}, the time {stamp.time}, and is of counters with the SHA-256 "
                f"{sha256}").encode("ascii")

    def close(self) -> None:
        """Ends the child. A time stamp that it got by then is signed about by the next start."""
        child = self._child
        if child is not None:
            self._end(child, LAST_PATIENCE)

    def _end(self, child: Child, seconds: float) -> None:
        """Ends a child with what it started, which it ends itself where it is asked to."""
        self._child = None
        process = child.process
        for number_of, patience in ((signal.SIGTERM, seconds), (signal.SIGKILL, None)):
            if process.poll() is not None:
                break
            with contextlib.suppress(OSError):
                os.killpg(process.pid, number_of)
            with contextlib.suppress(subprocess.TimeoutExpired):
                process.wait(patience)
        child.errors.close()
