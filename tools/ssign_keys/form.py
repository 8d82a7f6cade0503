"""Tells whether a log is octet-counted frames or one message a line, by the first octets of what was given.

A frame begins with its length, that is with a digit from 1 to 9 (RFC 6587, section 3.4.1), and a message of RFC 5424
with `<`. So a log that begins with `<` is no log of frames, and is read as lines. One that begins with another line of text
is read as lines too, and a line on standard error says so. Every other one is read as frames.
"""
from __future__ import annotations

import argparse
import os
from typing import BinaryIO, NamedTuple, Optional, Sequence, Tuple

from .faults import Fault
from .likely import FRONT, looks_lined
from .words import shown_name
from .workplace import notify

FIRST_OF_LINES = b"<"


class Form(NamedTuple):
    """How a log is read, and what speaks against it."""

    are_lines: bool
    odd: Optional[Tuple[str, str]] = None
    """The names of two logs that begin differently: of one that is read in its form, and of the first that isn't."""

    def refuse_odd(self) -> None:
        """Refuses logs of two forms, because all are read as one log."""
        if self.odd is None:
            return
        lines, other = (shown_name(it) for it in (self.odd if self.are_lines else self.odd[::-1]))
        raise Fault(f"{lines}: this is one message a line, and {other} isn't: check logs of two forms one by one, or name "
                    "the form of all with --lines or --frames")


def add_arguments(parser: argparse._ActionsContainer) -> None:
    """Says how the form of a log is named."""
    parser.add_argument("--lines", action="store_true", help="the log is one message a line (default where it begins with "
                        "<, or with a line of text)")
    parser.add_argument("--frames", action="store_true", help="the log is octet-counted frames (default where it doesn't)")


def named_form(arguments: argparse.Namespace) -> Optional[bool]:
    """Whether the options say that the log is lines, or None where they say nothing."""
    if arguments.lines and arguments.frames:
        raise Fault("--lines and --frames exclude each other: a log has one form")
    return True if arguments.lines else False if arguments.frames else None


def form_of(file: BinaryIO, starts: Sequence[Tuple[str, int]], named: Optional[bool]) -> Form:
    """The form of logs that stand in a file one after the other: each with its name, and where it begins.

    A log without an octet has every form.
    """
    if named is not None:
        return Form(named)
    size = os.fstat(file.fileno()).st_size
    ends = [start for _, start in starts[1:]] + [size]
    told = [(name, are_lines_by(name, os.pread(file.fileno(), min(FRONT, end - start), start)))
            for (name, start), end in zip(starts, ends) if start < end]
    if not told:
        return Form(False)
    first, are_lines = told[0]
    other = next((name for name, is_line in told if is_line != are_lines), None)
    return Form(are_lines, None if other is None else (first, other))


def are_lines_by(name: str, front: bytes) -> bool:
    """Whether a log is lines, by its first octets. What they don't make certain is reported."""
    if front.startswith(FIRST_OF_LINES):
        return True
    is_guess = looks_lined(front)
    if is_guess:
        what = "standard input" if name == "-" else shown_name(name)
        notify(f"ssign-keys: {what}: it is read as one message a line, as it begins with a line of text; --frames reads octet counts")
    return is_guess
