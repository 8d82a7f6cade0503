#!/usr/bin/env python3
"""Each writer of ssign-keys and ssign-archive, on an output that can't take all of it. See tests/writers.sh.

    full_outputs.py FOLDER TOOLS    FOLDER has a key, a signed log and what the commands need; TOOLS has the two tools

The outputs: a full device, a closed descriptor, a pipe that nobody reads any more, and one that takes some octets and then
no more, as a disk does that gets full. Each is tried with PYTHONUNBUFFERED and without. The status is always 2, and one
sentence says so: a text that was cut must not look like a whole one.
"""
from __future__ import annotations

import fcntl
import os
import subprocess
import sys
from concurrent.futures import ThreadPoolExecutor
from typing import Callable, Dict, Iterator, List, NamedTuple, Tuple

SENTENCE = b": standard output "
# the least that a pipe of Linux holds
HOLDS = 4096


class Writer(NamedTuple):
    """A command, what it reads, and whether its output is longer than the shortest pipe."""

    words: List[str]
    reads: str
    is_long: bool


def writers(tools: str) -> Iterator[Writer]:
    """All commands that write, their helps and their versions."""
    keys, archive = os.path.join(tools, "ssign-keys"), os.path.join(tools, "archive")
    verify = [keys, "verify", "--key", "keys/public-key.pem"]
    for tool in (keys, archive):
        yield Writer([tool, "--help"], "/dev/null", False)
        yield Writer([tool, "--version"], "/dev/null", False)
    yield Writer([keys, "verify", "--help"], "/dev/null", False)
    yield Writer([archive, "split", "--help"], "/dev/null", False)
    yield Writer([*verify, "long"], "/dev/null", False)
    yield Writer([*verify, "--raw", "long"], "/dev/null", True)
    yield Writer([*verify, "--json", "long"], "/dev/null", True)
    yield Writer([keys, "sign", "--key", "keys/private-key.pem", "--rsid", "1", "--lines", "messages"], "/dev/null", True)
    yield Writer([keys, "answer", "keys/public-key.pem"], "questions", True)
    yield Writer([archive, "join", "archive/gate"], "/dev/null", True)
    yield Writer([archive, "split", "--by", "host", "long", "{}"], "/dev/null", False)


def full_device() -> int:
    """A device that is full."""
    return os.open("/dev/full", os.O_WRONLY)


def closed_pipe() -> int:
    """A pipe that nobody reads any more."""
    ours, theirs = os.pipe()
    os.close(ours)
    return theirs


class Tried(NamedTuple):
    """How a run ended: its status, its complaint, and what arrived, where that was kept."""

    status: int
    complaint: bytes
    arrived: bytes


class Bench:
    """Runs writers in a folder."""

    def __init__(self, folder: str) -> None:
        self._folder = folder

    def run(self, writer: Writer, number: int, is_unbuffered: bool, out: int) -> Tuple[int, bytes]:
        """The status and the complaint of a run that writes to a descriptor, or to none where that is -1."""
        environment: Dict[str, str] = {**os.environ, **({"PYTHONUNBUFFERED": "1"} if is_unbuffered else {})}
        words = [it.replace("{}", f"made-{number}") for it in writer.words]
        close: Callable[[], None] = lambda: os.close(1)
        with open(os.path.join(self._folder, writer.reads), "rb") as log:
            said = subprocess.run(words, stdin=log, stdout=None if out < 0 else out, stderr=subprocess.PIPE, timeout=120,
                                  cwd=self._folder, env=environment, check=False, preexec_fn=close if out < 0 else None)
        return said.returncode, said.stderr

    def tried(self, writer: Writer, number: int, kind: str, is_unbuffered: bool) -> Tried:
        """A run on one kind of output."""
        if kind == "closed":
            return Tried(*self.run(writer, number, is_unbuffered, -1), b"")
        if kind == "filling":
            return self.filled(writer, number, is_unbuffered)
        out = full_device() if kind == "full" else closed_pipe()
        try:
            return Tried(*self.run(writer, number, is_unbuffered, out), b"")
        finally:
            os.close(out)

    def filled(self, writer: Writer, number: int, is_unbuffered: bool) -> Tried:
        """A run on a pipe that takes a page, and then says that it can't take more."""
        ours, theirs = os.pipe()
        try:
            fcntl.fcntl(theirs, 1031, HOLDS)
            os.set_blocking(theirs, False)
            status, complaint = self.run(writer, number, is_unbuffered, theirs)
            return Tried(status, complaint, os.read(ours, 2 * HOLDS))
        finally:
            os.close(theirs)
            os.close(ours)


def fault_of(writer: Writer, kind: str, tried: Tried) -> str:
    """What is wrong with how a run ended, or nothing."""
    if tried.status != 2:
        return f"status {tried.status}"
    by_ssign = writer.words[1] == "sign" and kind != "closed"
    if not by_ssign and (SENTENCE not in tried.complaint or tried.complaint.count(b"\n") != 1):
        return f"it says {tried.complaint[-300:]!r}"
    if by_ssign and not tried.complaint.count(b"\n") >= 1:
        return "nothing is said"
    return ""


def main(folder: str, tools: str) -> None:
    """Tries each writer on each output, by two runs at a time, and prints what was tried."""
    bench = Bench(folder)
    cases = [(writer, kind, is_unbuffered) for writer in writers(tools) for kind in ("full", "closed", "pipe", "filling")
             for is_unbuffered in (False, True) if kind != "filling" or writer.is_long]
    failed = 0
    with ThreadPoolExecutor(2) as pool:
        runs = pool.map(lambda it: bench.tried(it[1][0], it[0], it[1][1], it[1][2]), enumerate(cases))
        for (writer, kind, is_unbuffered), tried in zip(cases, runs):
            fault = fault_of(writer, kind, tried)
            if fault:
                failed += 1
                how = "PYTHONUNBUFFERED, " if is_unbuffered else ""
                print(f"{' '.join(map(os.path.basename, writer.words[:3]))}, {how}{kind}: FAILED: {fault}")
    print(f"{len(list(writers(tools)))} writers, {len(cases)} runs")
    sys.exit(failed > 0)


if __name__ == "__main__":
    main(*sys.argv[1:])
