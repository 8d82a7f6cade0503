"""The folder of `ssign-keys sign --state`: the session that goes on, and how far each session went.

A file is replaced as a whole: it is on the disk under a passing name, then it gets its name, then the name is on the disk.
"""
from __future__ import annotations

import errno
import fcntl
import os
import re
import time
from types import TracebackType
from typing import Optional, Type

from .counters_file import lines_of
from .faults import Fault
from .files import open_lock, open_regular, reason
from .live_state import FILES
from .session_file import MOST_RSID, START, Ends, Ongoing, read_ends, read_ongoing
from .store import replace, sync_folder
from .words import shown_name

SESSION = "session"
COUNTERS = "counters-"
# no payload comes near to it
LONGEST = 1 << 28
NEW = "--new-session begins another"


class SessionState:
    """A folder of state, which no other run uses while this one does. Used with `with`."""

    def __init__(self, folder: str, is_new: bool) -> None:
        """The folder, and whether this run begins a session."""
        if not folder:
            raise Fault("--state has an empty name")
        self.name = shown_name(folder)
        self._folder = folder
        self._is_new = is_new
        self.ongoing: Optional[Ongoing] = None
        # the session in the folder, though it may be too old to go on
        self.before: Optional[Ongoing] = None

    def __enter__(self) -> SessionState:
        """Locks the folder, and reads the session that goes on."""
        self._make_folder()
        self._lock = self._open_lock()
        try:
            self.ongoing = self.look()
            if self.ongoing is None and not self._is_new:
                raise Fault(f"the state {self.name} has no session: begin one with --new-session")
        except BaseException:
            os.close(self._lock)
            raise
        return self

    def __exit__(self, kind: Optional[Type[BaseException]], fault: Optional[BaseException],
                 trace: Optional[TracebackType]) -> None:
        """Lets the folder go."""
        os.close(self._lock)

    def path(self, name: str) -> str:
        """The path of a file of the folder."""
        return os.path.join(self._folder, name)

    def _make_folder(self) -> None:
        """Makes the folder, where a session is begun."""
        if os.path.isdir(self._folder):
            return
        if not self._is_new:
            raise Fault(f"there is no folder {self.name}, which --state names: begin a session in it with --new-session")
        try:
            os.mkdir(self._folder, 0o750)
            sync_folder(os.path.dirname(os.path.abspath(self._folder)))
        except OSError as fault:
            if not isinstance(fault, FileExistsError):
                raise Fault(f"the folder {self.name} can't be made: {reason(fault)}") from fault
            # unless another run has made it meanwhile
            if not os.path.isdir(self._folder):
                raise Fault(f"{self.name}, which --state names, is no folder") from fault

    def _open_lock(self) -> int:
        """A lock, which ends with this process. Its file stays, because another run may wait to lock it."""
        try:
            lock = open_lock(self.path("lock"))
        except OSError as fault:
            why = f"{shown_name(self.path('lock'))} is a link" if fault.errno == errno.ELOOP else reason(fault)
            raise Fault(f"the state {self.name} can't be locked: {why}") from fault
        try:
            fcntl.flock(lock, fcntl.LOCK_EX | fcntl.LOCK_NB)
        except OSError as fault:
            os.close(lock)
            why = "another run uses it" if fault.errno in (errno.EACCES, errno.EAGAIN) else reason(fault)
            raise Fault(f"the state {self.name} can't be locked: {why}") from fault
        return lock

    # ---- what stands there

    def look(self) -> Optional[Ongoing]:
        """The session that goes on, or None where the folder has none. Raises Fault where it can't be used.

        An old one doesn't go on: where a session is begun, it is as if it weren't there.
        """
        ongoing = self.before = self._read()
        further = None if ongoing is None else self._further(ongoing)
        if further is None:
            return ongoing
        if not self._is_new:
            raise Fault(f"the session {shown_name(self.path(SESSION))} is older than {further} beside it, as where an old copy was "
                        f"put back, so it would give numbers again: {NEW}")
        return None

    def _read(self) -> Optional[Ongoing]:
        """The session in the file, or None where there is no such file."""
        try:
            text = read_plain(self.path(SESSION))
            if text is None:
                self._refuse_live()
            return None if text is None else read_ongoing(text)
        except PermissionError as fault:
            raise Fault(f"the session {shown_name(self.path(SESSION))} can't be read: {reason(fault)}") from fault
        except OSError as fault:
            raise self._unreadable(f"can't be read: {reason(fault)}") from fault
        except ValueError as fault:
            raise self._unreadable(f"isn't as it was written: {fault}") from fault

    def _refuse_live(self) -> None:
        """Refuses a folder of `live`, which would refuse it for ever once a session of this kind is begun there."""
        if any(os.path.lexists(self.path(it)) for it in FILES):
            raise Fault("the folder of --state is one of `ssign-keys live`: name another one")

    def _unreadable(self, what: str) -> Fault:
        """What is said of a session that can't be used."""
        return Fault(f"the session {shown_name(self.path(SESSION))} {what}. Nobody knows which numbers were given, so none is "
                     "given: move this file away, and begin another session with --new-session")

    def _further(self, ongoing: Ongoing) -> Optional[str]:
        """The name of a counters file that goes further than the session does, which is always saved before."""
        rsid = self.last_counted()
        if rsid < ongoing.rsid:
            return None
        name = f"{COUNTERS}{rsid}"
        return name if rsid > ongoing.rsid or not self._counted(name, ongoing).is_before(ongoing.ends) else None

    def _counted(self, name: str, ongoing: Ongoing) -> Ends:
        """How far a counters file of the session goes: nowhere where it isn't as it was written."""
        path = self.path(name)
        try:
            text = read_plain(path)
            return START if text is None else read_ends(lines_of(text), ongoing.session)
        except OSError as fault:
            raise Fault(f"the counters {shown_name(path)} can't be read: {reason(fault)}") from fault
        except ValueError:
            return START

    def last_counted(self) -> int:
        """The greatest RSID of which there is a counters file; -1 where there is none."""
        try:
            names = os.listdir(self._folder)
        except OSError as fault:
            raise Fault(f"the folder {self.name} can't be read: {reason(fault)}") from fault
        return max((int(it[1]) for it in (re.fullmatch(COUNTERS + "([0-9]{1,10})", name) for name in names) if it), default=-1)

    def last_rsid(self) -> int:
        """The greatest RSID of the sessions that the folder knows of; -1 where there is none."""
        return max(self.last_counted(), -1 if self.ongoing is None else self.ongoing.rsid)

    def next_rsid(self) -> int:
        """The RSID of a session that begins: the present time in seconds since 1970, and more than that of any before."""
        rsid = max(self.last_rsid() + 1, int(time.time()))
        if rsid > MOST_RSID:
            raise Fault(f"the state {self.name} has a session with the greatest RSID that there is: begin with other names, "
                        "by --app, in another folder")
        return rsid

    # ---- what is put there

    def save(self, ongoing: Ongoing) -> None:
        """Has the folder hold this session, on the disk, and its counters for a review once it has certificate blocks.

        The counters of a session that ends stand there before the next one does.
        """
        text = ongoing.spell()
        if len(text) > LONGEST:
            raise Fault("the certificate blocks of the session are too long to be kept: give a greater --frag, fewer --copies, or "
                        "a shorter --payload")
        if self.ongoing is not None and self.ongoing.rsid != ongoing.rsid:
            self._save_counters(self.ongoing)
        replace(self.path(SESSION), text)
        self.ongoing = ongoing
        self._save_counters(ongoing)

    def _save_counters(self, ongoing: Ongoing) -> None:
        """Has the counters stand in a file of their own. Of a session without certificate blocks nothing was written."""
        if ongoing.certificates:
            replace(self.path(f"{COUNTERS}{ongoing.rsid}"), ongoing.ends.file(ongoing.session))


def read_plain(path: str) -> Optional[bytes]:
    """What stands in a regular file; None where there is no such file. Raises OSError where it is something else, or too long."""
    try:
        number = open_regular(path)
    except FileNotFoundError:
        return None
    with open(number, "rb") as file:
        text = file.read(LONGEST + 1)
    if len(text) > LONGEST:
        raise OSError(errno.EFBIG, "it is too long")
    return text
