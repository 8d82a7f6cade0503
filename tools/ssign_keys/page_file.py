"""The file of a page: it stands under its name whole, or not at all, and takes the place of nothing but an older page."""
from __future__ import annotations

import contextlib
import os
import secrets
import shutil
import stat
from types import TracebackType
from typing import Optional, Sequence, Tuple, Type

from .faults import Fault
from .files import open_regular, reason
from .kept_file import NO_LINKS
from .words import shown_name

OPTION = "--html"


class PageFile:
    """Keeps a page while the block of `with` lasts: `prepare` has it on the disk, under another name, and `name` names it.

    So whoever reads the file sees the older page or this one. A file that isn't a page is refused, and so is an input.
    """

    def __init__(self, wanted: Optional[str], front: bytes) -> None:
        """Where it is wanted, or None; and what each page begins with."""
        self._wanted = wanted
        self._front = front
        self._older: Optional[Tuple[int, int]] = None
        self._part: Optional[str] = None

    def __enter__(self) -> PageFile:
        """Itself."""
        return self

    def __exit__(self, kind: Optional[Type[BaseException]], fault: Optional[BaseException],
                 trace: Optional[TracebackType]) -> None:
        """Removes what wasn't named."""
        with contextlib.suppress(OSError):
            self._remove_part()

    def check(self, inputs: Sequence[str]) -> None:
        """Refuses a name that is one of the inputs, or of a file that is no page, before anything is done."""
        wanted = self._wanted
        if wanted is None:
            return
        if wanted in ("", "-"):
            raise Fault(f"{OPTION} has an empty name" if not wanted else
                        f"{OPTION} -: the page stands in a file of its own, beside the usual output")
        self._refuse_inputs(wanted, inputs)
        folder = os.path.dirname(wanted) or "."
        if not os.path.isdir(folder):
            raise Fault(f"the page can't be kept in {shown_name(wanted)}: there is no folder {shown_name(folder)}")
        if not os.access(folder, os.W_OK | os.X_OK):
            raise Fault(f"the page can't be kept in {shown_name(wanted)}: Permission denied")
        if os.path.lexists(wanted):
            self._older = self._older_page(wanted)

    @staticmethod
    def _refuse_inputs(wanted: str, inputs: Sequence[str]) -> None:
        for it in inputs:
            with contextlib.suppress(OSError, ValueError):
                if os.path.samefile(wanted, it):
                    raise Fault(f"{OPTION} {shown_name(wanted)}: this is an input of the check, and isn't overwritten")

    def _older_page(self, wanted: str) -> Tuple[int, int]:
        """Which file it is that stands there, where that is a page."""
        try:
            seen = os.lstat(wanted)
            if stat.S_ISREG(seen.st_mode):
                with open(open_regular(wanted), "rb") as file:
                    if file.read(len(self._front)) == self._front:
                        return seen.st_dev, seen.st_ino
        except OSError as fault:
            raise Fault(f"the file {shown_name(wanted)} can't be read: {reason(fault)}") from fault
        raise Fault(f"the file {shown_name(wanted)} is there already, and is no page of {OPTION}, so it isn't overwritten")

    def prepare(self, path: str) -> None:
        """Copies a finished page into the folder where it is wanted, and onto the disk."""
        if self._wanted is None:
            return
        self._part = os.path.join(os.path.dirname(self._wanted), f".ssign-keys-{secrets.token_hex(8)}")
        try:
            copy_synced(path, self._part)
        except OSError as fault:
            raise self._unkept(fault) from fault

    def name(self) -> None:
        """Gives the page its name."""
        if self._wanted is None or self._part is None:
            return
        try:
            if self._older is not None:
                seen = os.lstat(self._wanted)
                if (seen.st_dev, seen.st_ino) != self._older:
                    raise Fault(f"another file took the place of {shown_name(self._wanted)} meanwhile, and isn't overwritten")
                os.replace(self._part, self._wanted)
                self._part = None
            else:
                name_new(self._part, self._wanted)
            self._remove_part()
            # with the rest of its module it is loaded where a page is written
            from .store import sync_folder
            sync_folder(os.path.dirname(self._wanted) or ".")
        except FileExistsError as fault:
            raise Fault(f"the file {shown_name(self._wanted)} is there already, and isn't overwritten") from fault
        except OSError as fault:
            raise self._unkept(fault) from fault

    def _unkept(self, fault: OSError) -> Fault:
        return Fault(f"the page can't be kept in {shown_name(self._wanted or '')}: {reason(fault)}")

    def _remove_part(self) -> None:
        part, self._part = self._part, None
        if part is not None:
            with contextlib.suppress(FileNotFoundError):
                os.unlink(part)


def copy_synced(finished: str, path: str) -> None:
    """Copies a file to one that isn't there yet, and has it on the disk."""
    with open(path, "xb") as made, open(finished, "rb") as source:
        shutil.copyfileobj(source, made)
        made.flush()
        os.fsync(made.fileno())


def name_new(part: str, wanted: str) -> None:
    """Names a file where no file has the name, however short a time before. Raises FileExistsError where one has it."""
    try:
        os.link(part, wanted)
    except OSError as fault:
        if fault.errno not in NO_LINKS:
            raise
        # without hard links, the name is taken by an empty file, which the finished one then replaces
        open(wanted, "xb").close()
        os.replace(part, wanted)
