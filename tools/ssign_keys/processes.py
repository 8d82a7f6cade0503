"""Shares chunks of questions among processes, where there is more than one chunk."""
from __future__ import annotations

import signal
from collections import deque
from dataclasses import dataclass
from types import FrameType
from typing import TYPE_CHECKING, Deque, Iterable, Iterator, List, Optional, Sequence, Tuple, TypeVar

from .checking import Checked, Checker, Chunk
from .commands import BUDGET
from .faults import Fault
from .trust import Trust

if TYPE_CHECKING:
    from multiprocessing.connection import Connection
    from multiprocessing.process import BaseProcess

Kept = TypeVar("Kept")


@dataclass
class Worker:
    """A process that checks a chunk at a time."""

    process: BaseProcess
    connection: Connection
    last_payload: int = 0
    """The number of the last payload that it was handed, which it has kept."""


def work(trust: Trust, jobs: int, connection: Connection, foreign: Sequence[Connection]) -> None:
    """What one of so many processes does until the other end is closed."""
    def stop(number: int, frame: Optional[FrameType]) -> None:
        raise SystemExit(0)

    # Who asks ends this process; whatever passing files there are go with it.
    signal.signal(signal.SIGINT, signal.SIG_IGN)
    signal.signal(signal.SIGTERM, stop)
    signal.signal(signal.SIGHUP, stop)
    BUDGET.share(jobs)
    checker = Checker(trust)
    # A copy that stays open here would hide the end of the process that asks.
    for it in foreign:
        it.close()
    try:
        while True:
            connection.send(checker.check(connection.recv()))
    except (EOFError, OSError):
        pass


class Workers:
    """Processes that answer chunks in their order, each of them one at a time."""

    def __init__(self, trust: Trust, jobs: int) -> None:
        """Starts no process yet."""
        self._trust = trust
        self._checker = Checker(trust)
        self._jobs = jobs
        self._workers: List[Worker] = []

    def check(self, chunks: Iterable[Tuple[Kept, Chunk]]) -> Iterator[Tuple[Kept, Checked]]:
        """The answers to each chunk, with what is kept here of it. A lone chunk is answered in this process."""
        waiting: Deque[Tuple[Worker, Kept]] = deque()
        for (kept, chunk), is_alone in told_alone(chunks):
            if self._jobs == 1 or is_alone:
                yield kept, self._checker.check(chunk)
                continue
            if len(waiting) == self._jobs:
                worker, answered = waiting.popleft()
                yield answered, receive(worker)
            else:
                worker = self._start()
            send(worker, chunk)
            waiting.append((worker, kept))
        while waiting:
            worker, answered = waiting.popleft()
            yield answered, receive(worker)

    def _start(self) -> Worker:
        """One process more."""
        # the module is loaded where it is needed: one process needs none of it
        import multiprocessing
        ours, theirs = multiprocessing.Pipe()
        foreign = [*(it.connection for it in self._workers), ours]
        process = multiprocessing.Process(target=work, args=(self._trust, self._jobs, theirs, foreign), daemon=True)
        process.start()
        theirs.close()
        worker = Worker(process, ours)
        self._workers.append(worker)
        return worker

    def close(self) -> None:
        """Ends the processes, also those that are still at work."""
        for worker in self._workers:
            worker.connection.close()
            worker.process.terminate()
        for worker in self._workers:
            worker.process.join()
        self._workers.clear()


def told_alone(items: Iterable[Kept]) -> Iterator[Tuple[Kept, bool]]:
    """Each item, and whether no other stands before or after it."""
    remaining = iter(items)
    last = next(remaining, None)
    is_first = True
    while last is not None:
        following = next(remaining, None)
        yield last, is_first and following is None
        is_first = False
        last = following


def send(worker: Worker, chunk: Chunk) -> None:
    """Hands a chunk to a process that has nothing to do. A payload that it has isn't handed over again."""
    payloads = chunk.payloads
    if payloads and payloads[0].number == worker.last_payload:
        payloads[0] = payloads[0]._replace(text=None)
    if payloads:
        worker.last_payload = payloads[-1].number
    try:
        worker.connection.send(chunk)
    except OSError as fault:
        raise Fault("a process that checks signatures has ended") from fault


def receive(worker: Worker) -> Checked:
    """What a process answers to its chunk."""
    try:
        checked: Checked = worker.connection.recv()
    except (EOFError, OSError) as fault:
        raise Fault("a process that checks signatures has ended") from fault
    return checked
