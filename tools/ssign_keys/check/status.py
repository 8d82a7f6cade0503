"""The status file: what the last check came to, in JSON, for whoever watches that checks run."""
from __future__ import annotations

import json
from typing import Any, Dict, Optional

from ..faults import Fault
from ..files import open_regular
from ..store import replace
from ..words import shown_name
from .options import utc

FORMAT = 1
# a status file with a line for each of a million findings
LONGEST = 1 << 28


def read_status(path: str) -> Optional[Dict[str, Any]]:
    """What stands in a status file; None where it isn't there, or can't be read as one."""
    try:
        with open(open_regular(path), "rb") as file:
            fields = json.loads(file.read(LONGEST))
    except (OSError, ValueError, RecursionError):
        return None
    is_one = isinstance(fields, dict) and isinstance(fields.get("memory"), str) and isinstance(fields.get("time"), str)
    return fields if is_one else None


def write_status(path: str, fields: Dict[str, Any], now: int, before: Optional[Dict[str, Any]], mark: str) -> None:
    """Replaces a status file. The time of the last clean check stays where this one isn't clean."""
    clean = utc(now) if fields["status"] == 0 else before.get("last_clean") if before else None
    text = json.dumps({"format": FORMAT, "time": utc(now), "last_clean": clean, "memory": mark, **fields}, indent=1)
    try:
        replace(path, text.encode("ascii") + b"\n", 0o644)
    except Fault as fault:
        raise Fault(f"the status file {shown_name(path)} can't be written: {fault}") from fault
