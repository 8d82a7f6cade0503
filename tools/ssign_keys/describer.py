"""Asks `ssign describe` what signed octets say, in one run that is kept (docs/dev/FORMATS.md, "What signed octets say")."""
from __future__ import annotations

import json
import subprocess
from types import TracebackType
from typing import Any, Dict, Optional, Type

from .faults import Fault
from .files import reason
from .words import shown_name


class Describer:
    """A run that begins with the first question. With `with`, no process is left."""

    def __init__(self, program: str) -> None:
        """Nothing runs yet."""
        self._program = program
        self._child: Optional[subprocess.Popen[bytes]] = None

    def __enter__(self) -> Describer:
        """Itself."""
        return self

    def __exit__(self, kind: Optional[Type[BaseException]], fault: Optional[BaseException],
                 trace: Optional[TracebackType]) -> None:
        """Ends it."""
        if self._child is not None:
            self._child.kill()
            self._child.communicate()

    def describe(self, octets: bytes) -> Dict[str, Any]:
        """The object about octets, which are given in strict base64. Raises Fault where there is no answer."""
        child = self._child or self._start()
        assert child.stdin is not None and child.stdout is not None
        try:
            child.stdin.write(b"want %s\n" % octets)
            child.stdin.flush()
            fields = json.loads(child.stdout.readline())
        except (OSError, ValueError) as fault:
            raise Fault("ssign describe doesn't answer") from fault
        if not isinstance(fields, dict) or fields.get("line") not in ("signature", "certificate", "none"):
            raise Fault("ssign describe answers what is no object about signed octets")
        return fields

    def _start(self) -> subprocess.Popen[bytes]:
        """Starts it. What it prints on standard error goes where that of this process goes."""
        try:
            self._child = subprocess.Popen([self._program, "describe"], stdin=subprocess.PIPE, stdout=subprocess.PIPE)
        except (OSError, ValueError) as fault:
            why = reason(fault) if isinstance(fault, OSError) else str(fault)
            raise Fault(f"the program {shown_name(self._program)} can't be run: {why}") from fault
        return self._child
