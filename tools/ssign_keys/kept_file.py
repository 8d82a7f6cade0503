"""A file that an option names: it stands under its name whole, or not at all, and stays only where the run succeeds."""
from __future__ import annotations

import contextlib
import errno
import os
import secrets
import shutil
from types import TracebackType
from typing import BinaryIO, Optional, Type

from .faults import Fault
from .files import reason
from .words import shown_name

# what link(2) says on a file system without hard links, such as FAT
NO_LINKS = (errno.EPERM, errno.ENOSYS, errno.ENOTSUP, errno.EOPNOTSUPP, errno.EMLINK)


class KeptFile:
    """Keeps a file while the block of `with` lasts, and for good where that ends without a fault.

    Nothing is overwritten, and no link is followed: each file is made anew (O_EXCL), and named by link(2), which fails
    where the name is taken, however short a time before.
    """

    def __init__(self, option: str, what: str, wanted: Optional[str]) -> None:
        """The option, what it keeps, as `the answers`, and where that is wanted; None where it isn't."""
        self._option = option
        self._what = what
        self._wanted = wanted
        self._part: Optional[str] = None
        # open as long as the run lasts, so that no other file gets its number meanwhile
        self._made: Optional[BinaryIO] = None

    def __enter__(self) -> KeptFile:
        """Itself."""
        return self

    def __exit__(self, kind: Optional[Type[BaseException]], fault: Optional[BaseException],
                 trace: Optional[TracebackType]) -> None:
        """Removes what was kept of a run that failed."""
        try:
            self._remove_part()
            if kind is not None and self._is_ours():
                os.unlink(self._wanted or "")
        except OSError:
            # the fault of the run is the one to be told
            pass
        finally:
            self._close()

    def check(self) -> None:
        """Refuses a name that is taken, and a folder that can't be written to, before anything is done."""
        if self._wanted is None:
            return
        if not self._wanted:
            raise Fault(f"{self._option} has an empty name")
        if os.path.lexists(self._wanted):
            raise self._taken()
        folder = os.path.dirname(self._wanted) or "."
        if not os.path.isdir(folder):
            raise Fault(f"{self._what} can't be kept in {shown_name(self._wanted)}: there is no folder {shown_name(folder)}")
        if not os.access(folder, os.W_OK | os.X_OK):
            raise Fault(f"{self._what} can't be kept in {shown_name(self._wanted)}: {os.strerror(errno.EACCES)}")

    def keep(self, path: str) -> None:
        """Copies a finished file to where it is wanted."""
        if self._wanted is None:
            return
        self._part = os.path.join(os.path.dirname(self._wanted), f".ssign-keys-{secrets.token_hex(8)}")
        try:
            self._copy(path, self._part)
            try:
                os.link(self._part, self._wanted)
            except OSError as fault:
                if fault.errno not in NO_LINKS:
                    raise
                self._copy(path, self._wanted)
            self._remove_part()
        except FileExistsError as fault:
            raise self._taken() from fault
        except OSError as fault:
            raise Fault(f"{self._what} can't be kept in {shown_name(self._wanted)}: {reason(fault)}") from fault

    def _copy(self, finished: str, path: str) -> None:
        """Copies a file to one that isn't there yet."""
        made = open(path, "xb")
        self._close()
        self._made = made
        with open(finished, "rb") as source:
            shutil.copyfileobj(source, made)
        made.flush()

    def _is_ours(self) -> bool:
        """Whether the file that stands where it is wanted is the one that was made here."""
        if self._wanted is None or self._made is None:
            return False
        return os.path.samestat(os.lstat(self._wanted), os.fstat(self._made.fileno()))

    def _remove_part(self) -> None:
        """Removes the name that the file had at first."""
        part, self._part = self._part, None
        if part is not None:
            with contextlib.suppress(FileNotFoundError):
                os.unlink(part)

    def _close(self) -> None:
        """Closes the file that was made."""
        made, self._made = self._made, None
        if made is not None:
            # what it couldn't write it has complained of before
            with contextlib.suppress(OSError):
                made.close()

    def _taken(self) -> Fault:
        """What is said of a name that is taken."""
        return Fault(f"the file {shown_name(self._wanted or '')} is there already, and isn't overwritten")
