"""Processes that are forked: each does its work with the code that this process has read, and shares nothing else with it."""
from __future__ import annotations

import os
import signal
from types import FrameType
from typing import Callable, Mapping, NoReturn, Optional, Union

# what is done at a signal
Handler = Union[Callable[[int, Optional[FrameType]], object], int, None]
FAILED = 2


class Forked:
    """A process that was forked. It is asked and ended as one of `subprocess` is."""

    def __init__(self, pid: int) -> None:
        """It runs."""
        self.pid = pid
        self.returncode: Optional[int] = None
        """Its status, or the number of the signal that ended it, below 0; None where it wasn't seen to end."""

    def poll(self) -> Optional[int]:
        """Its status, if it has ended."""
        return self._look(os.WNOHANG)

    def wait(self) -> int:
        """Its status, once it has ended."""
        status = self._look(0)
        assert status is not None
        return status

    def _look(self, how: int) -> Optional[int]:
        if self.returncode is None:
            pid, status = os.waitpid(self.pid, how)
            if pid:
                self.returncode = -os.WTERMSIG(status) if os.WIFSIGNALED(status) else os.WEXITSTATUS(status)
        return self.returncode

    def terminate(self) -> None:
        """Asks it to end."""
        self._signal(signal.SIGTERM)

    def kill(self) -> None:
        """Ends it."""
        self._signal(signal.SIGKILL)

    def _signal(self, number: int) -> None:
        # once it was waited for, its number may be another's
        if self.poll() is None:
            os.kill(self.pid, number)


def work_apart(work: Callable[[], int], stdout: int, stderr: int, signals: Mapping[signal.Signals, Handler]) -> NoReturn:
    """What a process does that was just forked: it has no input, writes to these files, and ends with the status of its work.

    `signals` has what is to be done at some signals, as it was before this process had other handlers.
    """
    status = FAILED
    try:
        for number, handler in signals.items():
            signal.signal(number, handler)
        nothing = os.open(os.devnull, os.O_RDONLY)
        for source, standard in ((nothing, 0), (stdout, 1), (stderr, 2)):
            os.dup2(source, standard)
        status = work()
    finally:
        # nothing of what the other process has begun is ended here
        os._exit(status)
