"""Standard input and output of a command that says nothing before it has succeeded."""
from __future__ import annotations

import os
import sys
import tempfile
from types import TracebackType
from typing import BinaryIO, Iterator, Optional, Type, cast

from .faults import Fault
from .files import reason
from .output import file_pieces, write_out
from .workplace import notify

# What is held in memory; more goes to a temporary file.
HELD = 16 * 1024 * 1024


def say_waiting() -> None:
    """Reports that a run waits for what is typed, because it looks like one that hangs."""
    if os.isatty(0):
        notify("ssign-keys: standard input is a terminal: this waits for what you type, up to Ctrl-D at the front of a line")


def input_lines() -> Iterator[bytes]:
    """The lines of standard input, each with its LF but perhaps the last."""
    if sys.stdin is None:
        raise Fault("standard input is closed")
    say_waiting()
    try:
        with open(0, "rb", closefd=False) as stream:
            yield from stream
    except OSError as fault:
        raise Fault(f"standard input can't be read: {reason(fault)}") from fault


def short_lines(most: int) -> Iterator[bytes]:
    """The lines of standard input, of which a longer one comes in pieces of so many octets. Each comes once it is there."""
    if sys.stdin is None:
        raise Fault("standard input is closed")
    say_waiting()
    try:
        with open(0, "rb", closefd=False) as stream:
            yield from iter(lambda: stream.readline(most), b"")
    except OSError as fault:
        raise Fault(f"standard input can't be read: {reason(fault)}") from fault


class Output:
    """What goes to standard output at the end of a run that has succeeded."""

    def __init__(self) -> None:
        """Nothing yet."""
        self._held = cast(BinaryIO, tempfile.SpooledTemporaryFile(HELD))

    def __enter__(self) -> Output:
        """Itself."""
        return self

    def __exit__(self, kind: Optional[Type[BaseException]], fault: Optional[BaseException],
                 trace: Optional[TracebackType]) -> None:
        """Drops what is held."""
        self._held.close()

    def add(self, octets: bytes) -> None:
        """Holds more octets."""
        try:
            self._held.write(octets)
        except OSError as fault:
            raise Fault(f"no temporary file can be written in {tempfile.gettempdir()}: {reason(fault)}") from fault

    def release(self) -> None:
        """Writes all that is held to standard output."""
        write_out(file_pieces(self._held))
