"""The clocks of `ssign-keys live`, its signals, and whoever reads what it reports: standard error, a file, and systemd."""
from __future__ import annotations

import contextlib
import json
import os
import select
import signal
import socket
import time
from types import FrameType
from typing import Dict, List, Optional, Sequence

from .faults import Fault
from .payloads import present_stamp
from .store import open_anew
from .workplace import notify

# a line of each kind is written once in so many seconds
QUIET = 60.0
# how long is waited for room on the disk after the process was asked to end, in seconds
GRACE = 10.0
# how often the file of --status is replaced, and how long is waited at most between two looks at the clock
STATUS_PAUSE, LONGEST_WAIT = 1.0, 5.0


class World:
    """The clocks, signals and readers of a process. Used with `with`, which has signals be noticed."""

    SIGNALS = (signal.SIGTERM, signal.SIGINT, signal.SIGHUP)

    def __init__(self, status: Optional[str] = None) -> None:
        """`status` is the path of the file of --status."""
        self.is_ending = False
        self.is_turning = False
        self._ending_since = 0.0
        self._told: Dict[str, float] = {}
        self._held: Dict[str, int] = {}
        self._status = status
        self._status_at = 0.0
        self._shown: Dict[str, object] = {}
        self._systemd = Systemd()

    def __enter__(self) -> World:
        """Has signals be noticed."""
        self._read, self._write = os.pipe()
        for it in (self._read, self._write):
            os.set_blocking(it, False)
        self._wakeup = signal.set_wakeup_fd(self._write, warn_on_full_buffer=False)
        self._before = {it: signal.signal(it, self._noticed) for it in self.SIGNALS}
        return self

    def __exit__(self, *why: object) -> None:
        """Has signals be as they were."""
        self._systemd.say("STOPPING=1")
        for it, before in self._before.items():
            signal.signal(it, before)
        signal.set_wakeup_fd(self._wakeup)
        os.close(self._read)
        os.close(self._write)

    def _noticed(self, number: int, frame: Optional[FrameType]) -> None:
        """Remembers a signal."""
        if number == signal.SIGHUP:
            self.is_turning = True
        elif not self.is_ending:
            self.is_ending, self._ending_since = True, time.monotonic()

    # ---- clocks

    def now(self) -> float:
        """The seconds of a clock that is never set."""
        return time.monotonic()

    def time(self) -> float:
        """The seconds since 1970, by a clock that may be set."""
        return time.time()

    def stamp(self) -> str:
        """The present time as a TIMESTAMP."""
        return present_stamp()

    def day(self) -> str:
        """The present day of UTC."""
        return present_stamp()[:10]

    # ---- waiting

    def wait(self, seconds: float) -> None:
        """Waits. Raises Fault where the process has to end meanwhile."""
        end = self.now() + seconds
        while True:
            left = end - self.now()
            if self.is_ending and self.now() > self._ending_since + GRACE:
                raise Fault("it was asked to end, and what was read last can't be stored or signed. What wasn't confirmed has to "
                            "come again; the next start goes on from what is on the disk")
            if left <= 0:
                return
            self.select([], left if not self.is_ending else min(left, 1.0))

    def select(self, numbers: Sequence[int], seconds: float) -> List[int]:
        """Which of these descriptors can be read, after so many seconds at most, or earlier where a signal came."""
        self._systemd.beat()
        seconds = max(0.0, min(seconds, LONGEST_WAIT, self._systemd.pause))
        readable, _, _ = select.select([*numbers, self._read], [], [], seconds)
        with contextlib.suppress(BlockingIOError):
            if self._read in readable:
                os.read(self._read, 1 << 12)
        return [it for it in numbers if it in readable]

    # ---- reports

    def tell(self, kind: str, sentence: str) -> None:
        """Writes a line to standard error, at most once a minute of each kind."""
        last = self._told.get(kind)
        if last is not None and self.now() < last + QUIET:
            self._held[kind] = self._held.get(kind, 0) + 1
            return
        held = self._held.pop(kind, 0)
        self._told[kind] = self.now()
        notify(f"ssign-keys: {sentence}{f' (reported once for {held + 1} times)' if held else ''}")

    def ready(self) -> None:
        """Says that messages can be taken."""
        self._systemd.say("READY=1")

    def show(self, facts: Dict[str, object], sentence: str, is_last: bool = False) -> Optional[float]:
        """Replaces the file of --status, and has systemd show a sentence; at most once a second. Gives when it is to be called
        again, where something changed that isn't shown yet."""
        is_same = facts == self._shown
        if not is_last and self.now() < self._status_at + STATUS_PAUSE:
            return None if is_same else self._status_at + STATUS_PAUSE
        self._status_at, self._shown = self.now(), facts
        self._systemd.say(f"STATUS={sentence}")
        if self._status is None:
            return None
        passing = f"{self._status}.new"
        try:
            with open_anew(passing) as file:
                file.write(json.dumps({"time": self.stamp(), **facts}).encode("ascii") + b"\n")
            os.replace(passing, self._status)
        except OSError as fault:
            with contextlib.suppress(OSError):
                os.unlink(passing)
            self.tell("status", f"the file of --status can't be written: {fault.strerror}")
        return None


class Systemd:
    """The manager that started this process, where it did (sd_notify(3))."""

    def __init__(self) -> None:
        """As NOTIFY_SOCKET and WATCHDOG_USEC say. A child that is started doesn't get them."""
        self._path = os.environ.pop("NOTIFY_SOCKET", "")
        usec, process = os.environ.pop("WATCHDOG_USEC", ""), os.environ.pop("WATCHDOG_PID", "")
        is_watched = bool(self._path) and usec.isdigit() and process in ("", str(os.getpid()))
        # it has to hear from this process in that time; half of it is usual
        self.pause = int(usec) / 2e6 if is_watched and int(usec) else LONGEST_WAIT
        self._is_watched = is_watched
        self._beaten = -LONGEST_WAIT

    def say(self, text: str) -> None:
        """Sends a text. That nobody takes it is no fault of the run."""
        if not self._path:
            return
        address = "\0" + self._path[1:] if self._path.startswith("@") else self._path
        with contextlib.suppress(OSError), socket.socket(socket.AF_UNIX, socket.SOCK_DGRAM) as to:
            to.setblocking(False)
            to.sendto(text.encode("utf-8", "backslashreplace"), address)

    def beat(self) -> None:
        """Says that this process goes on, as often as it has to."""
        now = time.monotonic()
        if self._is_watched and now >= self._beaten + self.pause / 2:
            self._beaten = now
            self.say("WATCHDOG=1")
