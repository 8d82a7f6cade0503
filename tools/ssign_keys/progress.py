"""Tells a person at a terminal how far a long run is, in one line that goes when it is done."""
from __future__ import annotations

import os
import sys
import time

# who waits for less wonders about nothing
PATIENCE = 2.0
PAUSE = 0.2


class Progress:
    """One line on standard error, where that is a terminal and the run takes longer than a moment."""

    def __init__(self) -> None:
        try:
            self.is_terminal = os.isatty(2)
        except OSError:
            self.is_terminal = False
        self._next = time.monotonic() + PATIENCE
        self._is_shown = False

    def show(self, phase: str, done: int, whole: int, unit: str) -> None:
        """Says how far a phase is, unless that was said a moment ago. The whole is 0 where nobody knows it yet."""
        if not self.is_terminal:
            return
        now = time.monotonic()
        if now < self._next:
            return
        self._next = now + PAUSE
        share = f", {min(100 * done // whole, 100)} %" if whole else ""
        self._write(f"\r\x1b[K{phase}: {done} {unit}{share}")
        self._is_shown = True

    def clear(self) -> None:
        """Takes the line away, so that something else can be written."""
        if self._is_shown:
            self._is_shown = False
            self._write("\r\x1b[K")

    @staticmethod
    def _write(text: str) -> None:
        try:
            sys.stderr.write(text)
            sys.stderr.flush()
        except (OSError, ValueError, AttributeError):
            # a terminal that went away is no fault of the run
            pass
