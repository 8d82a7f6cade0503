"""Runs commands over a log and measures them, for the scripts beside this file, which put this folder into PYTHONPATH."""
import base64
import os
import subprocess
import sys
import tempfile
from typing import Dict, List, NamedTuple, TypeVar

# It reports the most memory: what Python itself reports of a child has at least the memory of Python, which started it.
TIME = "/usr/bin/time"
Name = TypeVar("Name")


class Took(NamedTuple):
    """What a run took."""

    seconds: float
    """Of the processors."""
    peak: int
    """The most octets of memory."""


class Command(NamedTuple):
    """A command that reads a file on standard input, and writes another."""

    words: List[str]
    source: str
    output: str = os.devnull


def once(command: Command) -> Took:
    """What one run takes. A status other than 0 and 1 ends the script."""
    with open(command.source, "rb") as source, open(command.output, "wb") as output, tempfile.NamedTemporaryFile() as peaks, \
            tempfile.TemporaryFile() as complaints:
        child = subprocess.Popen([TIME, "-o", peaks.name, "-f", "%M", *command.words], stdin=source, stdout=output,
                                 stderr=complaints)
        _, status, usage = os.wait4(child.pid, 0)
        code = os.waitstatus_to_exitcode(status)
        if code not in (0, 1):
            complaints.seek(0)
            sys.exit(f"{' '.join(command.words)} ended with the status {code}: {complaints.read().decode(errors='replace')}")
        # in front of it stands a line if the status is 1
        peak = int(peaks.read().split()[-1]) * 1024
    return Took(usage.ru_utime + usage.ru_stime, peak)


def best_by_turns(commands: Dict[Name, Command], rounds: int = 3) -> Dict[Name, Took]:
    """The best of each command, which are run in turn: so other work on the machine meets all of them."""
    taken = [{name: once(command) for name, command in commands.items()} for _ in range(rounds)]
    return {name: Took(min(it[name].seconds for it in taken), min(it[name].peak for it in taken)) for name in commands}


def put_seals(wants: str, seals: str) -> None:
    """Writes a `seal` line for each line of a plan, with 46 octets as of a DSA signature with a q of 160 bits."""
    sign = base64.b64encode(bytes(46))
    with open(wants, "rb") as source, open(seals, "wb") as sink:
        for line in source:
            sink.write(b"seal " + line.split()[1] + b" " + sign + b"\n")
