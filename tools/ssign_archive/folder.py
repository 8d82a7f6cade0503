"""The logs of a folder, in the order of their names."""
from __future__ import annotations

import os
import stat
from dataclasses import dataclass
from typing import List

from ssign_keys.faults import Fault
from ssign_keys.files import reason
from ssign_keys.words import shown_name

# beside a folder lie, under its name and this ending, the places that its messages had before a split
PLACES = ".places"


@dataclass(frozen=True)
class Stored:
    """A file as it lies in its folder. Two that are equal are taken for the same file."""

    name: str
    size: int
    mtime_ns: int
    ctime_ns: int
    """When the system saw it changed last, which no writer can set."""


def stored_of(path: str, seen: os.stat_result) -> Stored:
    """The file at this path, with the facts that the system gives."""
    return Stored(os.path.basename(path), seen.st_size, seen.st_mtime_ns, seen.st_ctime_ns)


def look(path: str) -> Stored:
    """The file at this path. Raises Fault where it can't be read as a log."""
    try:
        seen = os.stat(path)
    except OSError as fault:
        raise Fault(f"{shown_name(path)} can't be read: {reason(fault)}") from fault
    if not stat.S_ISREG(seen.st_mode):
        raise Fault(f"{shown_name(path)} is no regular file")
    return stored_of(path, seen)


def files_of(folder: str) -> List[Stored]:
    """The logs in a folder, in the order of their names. Raises Fault where it, or one of them, can't be read."""
    try:
        names = [it for it in os.listdir(folder) if not it.startswith(".")]
    except OSError as fault:
        raise Fault(f"the folder {shown_name(folder)} can't be read: {reason(fault)}") from fault
    folders = {it for it in names if os.path.isdir(os.path.join(folder, it))}
    logs = [it for it in names if it not in folders and not (it.endswith(PLACES) and it[:-len(PLACES)] in folders)]
    return [look(os.path.join(folder, name)) for name in sorted(logs, key=os.fsencode)]
