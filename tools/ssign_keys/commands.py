"""Commands of other packages, which are run for one short question each, and how long any of them may be silent."""
from __future__ import annotations

import contextlib
import os
import subprocess
import time
from typing import Iterator, Sequence

from .faults import Fault


class Missing(Fault):
    """A command isn't here."""


class Spent(Fault):
    """What commands may take in one run is used up."""


class Late(Spent):
    """A command came to no end in time."""

    def __init__(self, command: str) -> None:
        """The command, as it was called."""
        super().__init__(f"the command {command} came to no end in {PATIENCE:g} seconds")


# A question that takes longer has no answer: a log may hold what a command chokes on.
PATIENCE = 20
# What the questions of one run may take in all, in processes and in seconds: a log may have any number of them.
PROCESSES = 1000
SECONDS = 120


class Budget:
    """What is left of what commands may take. A process that shares the work has its part of it."""

    def __init__(self) -> None:
        """All of it."""
        self.renew()

    def renew(self) -> None:
        """Gives all of it again, where a process goes on to another log."""
        self._processes = PROCESSES
        self._seconds = float(SECONDS)
        # how many questions weren't asked
        self.refused = 0

    def share(self, jobs: int) -> None:
        """Leaves the part of one of so many processes that share the work, which has one question at least."""
        self._processes = max(1, self._processes // jobs)
        self._seconds /= jobs

    @contextlib.contextmanager
    def spend(self, command: str) -> Iterator[None]:
        """Takes a process from it, and the time that the block takes. Raises Spent where nothing is left."""
        if self._processes <= 0 or self._seconds <= 0:
            self.refused += 1
            raise Spent(f"{command} isn't run again: it took {PROCESSES} processes or {SECONDS} seconds for this log")
        self._processes -= 1
        began = time.monotonic()
        try:
            yield
        finally:
            self._seconds -= time.monotonic() - began


BUDGET = Budget()


def ask(words: Sequence[str], question: bytes, package: str) -> subprocess.CompletedProcess[bytes]:
    """Runs a command on these octets.

    Raises Missing where the command isn't here, Late where it came to no end in time, and Spent where no more may be asked.
    `package` is the one that has it on Debian and Ubuntu.
    """
    environment = {**os.environ, "LC_ALL": "C"}
    try:
        with BUDGET.spend(words[0]):
            return subprocess.run(words, input=question, capture_output=True, timeout=PATIENCE, env=environment)
    except subprocess.TimeoutExpired as fault:
        raise Late(words[0]) from fault
    except FileNotFoundError as fault:
        raise Missing(f"the command {words[0]} is missing; on Debian and Ubuntu `apt-get install {package}` installs it") \
            from fault
    except OSError as fault:
        raise Fault(f"the command {words[0]} can't be run: {fault.strerror}") from fault
