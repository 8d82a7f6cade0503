"""Runs the program ssign: hands on its words, passes on what it refuses, and waits for its end."""
from __future__ import annotations

import argparse
import functools
import os
import re
import select
import shutil
import signal
import subprocess
from typing import BinaryIO, Callable, Dict, Iterable, Iterator, List, Optional, Sequence, Union

from . import VERSION
from .commands import PATIENCE
from .faults import Fault
from .progress import Progress
from .words import shown_front, shown_name
from .workplace import Workplace, finish, notify, put

# `ssign: F1 0`, the line of a refusal
REFUSAL = re.compile(r"ssign: ([A-Z][0-9]{1,2})(?: ([0-9]+))?\s*")
# what is said of a wrong word of the command line: its front, its last line, and how many lines of it are held
MISTAKE = "error: "
MORE = "For more information, try"
HELD = 100
PAUSE = 0.2
# so much is shown of the version that a program states
LONGEST = 200
# a line of questions may have as many octets as a payload of the greatest length in base64, and more
PIECE = 1 << 20


class Refused(Exception):
    """ssign refused. `code` and `where` are what it said, and `mistake` what it said of a word; None where it said else."""

    def __init__(self, code: Optional[str], where: Optional[int], mistake: Optional[str] = None) -> None:
        super().__init__(code, where, mistake)
        self.code = code
        self.where = where
        self.mistake = mistake


def add_program_argument(parser: argparse.ArgumentParser) -> None:
    """Says how another ssign than the usual one is named."""
    parser.add_argument("--ssign", metavar="PROGRAM", help="the program ssign (default: the variable SSIGN, else the "
                        "ssign that came with ssign-keys, else ssign in PATH)")


# where ssign stands, as seen from this package: in the repository, and where both are installed
BESIDE = (os.path.join("..", "..", "ssign"), os.path.join("..", "..", "..", "bin", "ssign"))


def find_program(arguments: argparse.Namespace) -> str:
    """The ssign to run. One of another version is refused, because each of the two reads what the other writes.

    If it states no version, it is no ssign, or can't be run: that is found where it is run next.
    """
    program = arguments.ssign or os.environ.get("SSIGN") or usual_program()
    if not program:
        raise Fault("there is no program ssign here: name it with --ssign, or with the variable SSIGN")
    version = said(program, "--version")
    if version is not None and version != f"ssign {VERSION}":
        front, _ = shown_front(os.fsencode(version), LONGEST, LONGEST)
        raise Fault(f"the program {shown_name(program)} is {front}, and it has to be ssign {VERSION}: name that with --ssign")
    return str(program)


@functools.lru_cache(maxsize=None)
def said(program: str, word: str) -> Optional[str]:
    """What a program prints for a word: its one line, or None where that isn't what it does."""
    try:
        done = subprocess.run([program, word], stdin=subprocess.DEVNULL, stdout=subprocess.PIPE,
                              stderr=subprocess.DEVNULL, timeout=PATIENCE, check=False)
    except (OSError, ValueError, subprocess.SubprocessError):
        return None
    line = done.stdout.rstrip(b"\n")
    if done.returncode != 0 or not line or b"\n" in line:
        return None
    return os.fsdecode(line)


def usual_program() -> Optional[str]:
    """The ssign that is run where nobody names one: the one beside the tool, or else the one of PATH."""
    package = os.path.dirname(os.path.realpath(__file__))
    beside = (os.path.normpath(os.path.join(package, name)) for name in BESIDE)
    return next((it for it in beside if os.path.isfile(it)), None) or shutil.which("ssign")


class Run:
    """A run of ssign that was begun. What it says on standard error is passed on as it comes, but for its refusal."""

    def __init__(self, program: str, words: Sequence[str], workplace: Workplace, progress: Progress,
                 log: Union[BinaryIO, int], out: Union[BinaryIO, int]) -> None:
        """Where the output goes to subprocess.PIPE, it is read with `lines`; where the log comes from there, `feed` it."""
        self.name = f"ssign {words[0]}"
        self._progress = progress
        self._workplace = workplace
        self._said = workplace.new_file("said")
        self._passed = 0
        self._rest = b""
        self._held: List[str] = []
        try:
            self.child = workplace.start([program, *words], log, out, self._said)
        except (OSError, ValueError) as error:
            why = error.strerror if isinstance(error, OSError) else str(error)
            raise Fault(f"the program {shown_name(program)} can't be run: {why}") from error

    def feed(self, pieces: Iterable[bytes]) -> None:
        """Writes the log. Where the run ends before the log does, its own words say why."""
        assert self.child.stdin is not None
        try:
            with self.child.stdin as log:
                for piece in pieces:
                    log.write(piece)
        except BrokenPipeError:
            pass

    def lines(self, tick: Callable[[], None]) -> Iterator[bytes]:
        """The lines of its output, each with its LF. Raises Refused after the last, where that is how it ended."""
        assert self.child.stdout is not None
        with self.child.stdout as out:
            while not select.select([out], [], [], PAUSE)[0]:
                self._workplace.go_on()
                self._pass_on()
                tick()
            for line in out:
                # a line without its LF was broken off with the run, whose status is looked at below
                if line.endswith(b"\n"):
                    yield line
        self.end(tick)

    def moments(self, reads: Sequence[int] = (), writes: Sequence[int] = ()) -> Iterator[None]:
        """Comes once for each moment that it goes on and none of these descriptors is ready. What it says is passed on.

        `wait` of a Popen with a timeout only looks now and then, so it would notice the end late.
        """
        try:
            ends = [os.pidfd_open(self.child.pid)]
        except (AttributeError, OSError):
            # an old Linux, or as many files are open as may be
            ends = []
        try:
            while not any(select.select([*ends, *reads], writes, [], PAUSE)) and self.child.poll() is None:
                self._workplace.go_on()
                self._pass_on()
                yield
        finally:
            for it in ends:
                os.close(it)

    def end(self, tick: Callable[[], None]) -> int:
        """Waits for the end, and gives the status, 0 or 1. Raises Refused or Fault where the run didn't succeed."""
        for _ in self.moments():
            tick()
        status = self.child.wait()
        self._pass_on(is_end=True)
        if status == 2 and not self._passed:
            # whether it had no room for its words
            put(self._said, b"\n")
            finish(self._said)
        self._said.close()
        if status == 2:
            raise self._refusal()
        for line in self._held:
            notify(line)
        if status in (0, 1):
            return status
        if status < 0:
            raise Fault(f"{self.name} was ended by the signal {signal_name(-status)}{HINTS.get(-status, '')}")
        raise Fault(f"{self.name} ended with the status {status}, which ssign never gives")

    def _refusal(self) -> Refused:
        """What it refused with, by what was held back. What isn't known here is passed on."""
        first = self._held[0] if self._held else ""
        refusal = REFUSAL.fullmatch(first)
        if refusal is not None:
            return Refused(refusal[1], None if refusal[2] is None else int(refusal[2]))
        if first.startswith(MISTAKE) and any(line.startswith(MORE) for line in self._held):
            return Refused(None, None, first[len(MISTAKE):])
        for line in self._held:
            notify(line)
        if not self._passed:
            raise Fault(f"{self.name} ended with the status 2, and didn't say why")
        return Refused(None, None)

    def _pass_on(self, is_end: bool = False) -> None:
        """Passes on the lines that it said meanwhile. A refusal and what follows are held back."""
        while True:
            said = os.pread(self._said.fileno(), PIECE, self._passed)
            self._passed += len(said)
            *lines, self._rest = (self._rest + said).split(b"\n")
            if is_end and not said and self._rest:
                lines, self._rest = [self._rest], b""
            for octets in lines:
                self._take(octets.decode("utf-8", "backslashreplace"))
            if not said:
                return

    def _take(self, line: str) -> None:
        """Holds a line back, or passes it on."""
        if self._held or line.startswith(MISTAKE) or REFUSAL.fullmatch(line):
            if len(self._held) < HELD:
                self._held.append(line)
            return
        self._progress.clear()
        notify(line)


HINTS: Dict[int, str] = {
    signal.SIGKILL: ", as where memory runs out",
    signal.SIGXFSZ: ", since a file got longer than `ulimit -f` allows",
}


def signal_name(number: int) -> str:
    """The name of a signal, as SIGKILL."""
    try:
        return signal.Signals(number).name
    except ValueError:
        return str(number)


def handed_on(arguments: argparse.Namespace, names: Sequence[str]) -> List[str]:
    """The options of ssign that were given, as its words: in the form `--name=value`, so that any value is one."""
    words = []
    for name in names:
        for value in getattr(arguments, name.replace("-", "_")) or []:
            words.append(f"--{name}={value}")
    return words


LIMITS = ("max-len", "max-messages")


def add_log_arguments(parser: argparse.ArgumentParser) -> None:
    """Says how a log is read, in the words of ssign, which checks their values."""
    parser.add_argument("--lines", action="store_true", help="the log is one message a line, not octet-counted frames")
    add_limit_arguments(parser)


def add_limit_arguments(parser: argparse._ActionsContainer) -> None:
    """Says how much of a log is read."""
    parser.add_argument("--max-len", action="append", metavar="N", help="the longest message, in octets: 1 to 1048576 "
                        "(default: 65536)")
    parser.add_argument("--max-messages", action="append", metavar="N", help="the most messages: 1 to 10000000 "
                        "(default: 10000000)")


def log_words(arguments: argparse.Namespace, are_lines: Optional[bool] = None) -> List[str]:
    """The words for ssign that say how a log is read: as the options say, but for a form that is known otherwise."""
    is_of_lines = arguments.lines if are_lines is None else are_lines
    return (["--lines"] if is_of_lines else []) + handed_on(arguments, LIMITS)
