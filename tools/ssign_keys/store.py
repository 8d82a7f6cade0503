"""Files that are written whole, on the disk too: a new one in the same folder gets the name once all of it stands there."""
from __future__ import annotations

import contextlib
import os
from typing import BinaryIO

from .faults import Fault
from .files import reason
from .words import shown_name


def replace(path: str, octets: bytes, mode: int = 0o666) -> None:
    """Replaces a file as a whole, on the disk too: it is read as it was before, or as it is now."""
    part = path + ".new"
    try:
        # a folder that can't have its names put on the disk gets no new one
        folder = open_folder(os.path.dirname(path) or ".")
        try:
            with open_anew(part, mode) as file:
                file.write(octets)
                file.flush()
                os.fsync(file.fileno())
            os.replace(part, path)
            os.fsync(folder)
        finally:
            os.close(folder)
    except OSError as fault:
        with contextlib.suppress(OSError):
            os.unlink(part)
        raise Fault(f"{shown_name(fault.filename2 or fault.filename or path)} can't be written: {reason(fault)}") from fault


def open_anew(path: str, mode: int = 0o666) -> BinaryIO:
    """Opens a passing file that nobody else has: what a run left there that was killed, or whatever has the name, goes."""
    flags = os.O_WRONLY | os.O_CREAT | os.O_EXCL | os.O_NOFOLLOW | os.O_CLOEXEC
    try:
        number = os.open(path, flags, mode)
    except FileExistsError:
        os.unlink(path)
        number = os.open(path, flags, mode)
    return os.fdopen(number, "wb")


def open_folder(folder: str) -> int:
    """Opens a folder."""
    return os.open(folder, os.O_RDONLY | os.O_DIRECTORY | os.O_CLOEXEC)


def sync_folder(folder: str) -> None:
    """Has the names in a folder stand on the disk."""
    number = open_folder(folder)
    try:
        os.fsync(number)
    finally:
        os.close(number)
