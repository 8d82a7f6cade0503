"""The state file of `ssign-keys seal`: what was sealed, from run to run (docs/dev/FORMATS.md, "What was sealed").

It is written before a seal is given out. So a run that is killed at any moment has given out nothing that the next run
doesn't know.
"""
from __future__ import annotations

import errno
import fcntl
import hashlib
import os
import re
import stat
from types import TracebackType
from typing import BinaryIO, Iterator, Optional, Type

from .blocks import Session
from .faults import Fault
from .files import open_lock, open_regular, reason
from .sealed import Record, Sessions
from .words import shown_name

HEADING = b"ssign-keys sealed 1 %s\n"
NUMBER = rb"(0|[1-9][0-9]{0,9})"
SESSION = re.compile(rb"session ([!-~]{1,255}) ([!-~]{1,48}) ([!-~]{1,128}) %s\n" % NUMBER)
DIGEST = rb"([0-9a-f]{64})"
SIGNATURE = re.compile(rb"signature ([0-3]) ([0-9]{1,3}) %s %s %s %s\n" % (NUMBER, NUMBER, NUMBER, DIGEST))
CERTIFICATE = re.compile(rb"certificate %s %s %s %s\n" % (NUMBER, NUMBER, NUMBER, DIGEST))
# no line is longer
LONGEST = 600


class Busy(Fault):
    """Another run uses the file."""


class State:
    """A state file, which no other run uses while this one does. Used with `with`."""

    heading = HEADING
    # with which option of `seal` such a file goes
    mode = ""

    def __init__(self, path: str, key: str, is_new: bool) -> None:
        """The file, the fingerprint of the key whose seals it is about, and whether it is begun by this run."""
        self._name = shown_name(path)
        # the file that is replaced is the one that a link leads to
        self._path = os.path.realpath(path)
        self._key = key.encode()
        self._is_new = is_new
        self.sessions: Sessions = Sessions(is_ordered=True)
        # the SHA-256 in its last line, as it was read or written last
        self._sum = ""

    def __enter__(self) -> State:
        """Locks and reads the file."""
        self._open()
        try:
            if not self._is_new:
                self._read()
        except BaseException:
            os.close(self._lock)
            raise
        return self

    def _open(self) -> None:
        """Locks the file, and sees that it can be used."""
        if not self._name:
            raise Fault("--state has an empty name")
        # what can't be used gets no file beside it
        self._look()
        self._lock = self._open_lock()
        try:
            self._mode = self._look()
        except BaseException:
            os.close(self._lock)
            raise

    def __exit__(self, kind: Optional[Type[BaseException]], fault: Optional[BaseException],
                 trace: Optional[TracebackType]) -> None:
        """Gives the file free."""
        os.close(self._lock)

    def _open_lock(self) -> int:
        """A lock, which ends with this process. Its file stays, because another run may wait to lock it."""
        try:
            lock = open_lock(f"{self._path}.lock")
        except OSError as fault:
            raise Fault(f"the state file {self._name} can't be locked by {self._name}.lock: {reason(fault)}") from fault
        try:
            fcntl.flock(lock, fcntl.LOCK_EX | fcntl.LOCK_NB)
        except OSError as fault:
            os.close(lock)
            if fault.errno in (errno.EACCES, errno.EAGAIN):
                raise Busy(f"the state file {self._name} can't be locked: another run uses it") from fault
            raise Fault(f"the state file {self._name} can't be locked: {reason(fault)}") from fault
        return lock

    def _look(self) -> int:
        """Who may do what with the file. Raises Fault where it is there, or isn't, against what was said."""
        try:
            seen = os.lstat(self._path)
        except FileNotFoundError as fault:
            if self._is_new:
                return 0o600
            raise Fault(f"there is no state file {self._name}: put the one back that was there, or begin one with "
                        "--new-state where none was") from fault
        except OSError as fault:
            raise Fault(f"the state file {self._name} can't be read: {reason(fault)}") from fault
        if self._is_new:
            raise Fault(f"there is a state file {self._name} already: leave out --new-state")
        if not stat.S_ISREG(seen.st_mode) or seen.st_nlink != 1:
            raise Fault(f"the state file {self._name} has to be a plain file with one name")
        return stat.S_IMODE(seen.st_mode)

    # ---- reading

    def _read(self) -> None:
        """Takes what stands in the file."""
        try:
            with open(open_regular(self._path), "rb") as file:
                self._read_lines(file)
        except OSError as fault:
            raise Fault(f"the state file {self._name} can't be read: {reason(fault)}") from fault
        try:
            self.sessions.check_spans()
        except Fault as fault:
            raise Fault(f"the state file {self._name} is damaged: {fault}") from fault

    def _read_lines(self, file: BinaryIO) -> None:
        """Takes each line. The last one has the hash of those before it, so that no part of the file can be missing."""
        hashed = hashlib.sha256()
        session: Optional[Session] = None
        ended = False
        for number, line in enumerate(iter(lambda: file.readline(LONGEST), b""), 1):
            if ended:
                raise self._damaged(number)
            if number == 1:
                self._check_heading(line)
            elif line == b"end %s\n" % hashed.hexdigest().encode():
                ended, self._sum = True, hashed.hexdigest()
            elif line.startswith(b"session "):
                session = self._session(line, number)
            else:
                self._take(session, line, number)
            hashed.update(line)
        if not ended:
            raise Fault(f"the state file {self._name} is damaged: its end is missing")

    def _check_heading(self, line: bytes) -> None:
        """Refuses another file, and one of another key."""
        start = self.heading[:self.heading.index(b"%s")]
        if not line.startswith(start):
            raise Fault(f"{self._name} is no state file of ssign-keys seal{self.mode}")
        if line != self.heading % self._key:
            raise Fault(f"the state file {self._name} is that of another key")

    def _session(self, line: bytes, number: int) -> Session:
        """The session that a line names."""
        found = SESSION.fullmatch(line)
        if found is None:
            raise self._damaged(number)
        return Session(found[1], found[2], found[3], found[4])

    def _take(self, session: Optional[Session], line: bytes, number: int) -> None:
        """Takes the line of a block."""
        try:
            is_taken = session is not None and self._take_line(session, line)
        except Fault as fault:
            raise Fault(f"the state file {self._name} is damaged: line {number}: {fault}") from fault
        if not is_taken:
            raise self._damaged(number)

    def _take_line(self, session: Session, line: bytes) -> bool:
        """Takes a line of a session, or says that it is none."""
        record = read_record(line)
        if record is not None:
            self.sessions.take(session, record)
        return record is not None

    def _damaged(self, number: int) -> Fault:
        """What is said of a line that is none."""
        return Fault(f"the state file {self._name} is damaged at line {number}")

    # ---- writing

    def write(self) -> None:
        """Has the whole file replaced by what was sealed up to now, which stands on the disk afterwards."""
        passing = f"{self._path}.new"
        try:
            remove(passing)
            number = os.open(passing, os.O_WRONLY | os.O_CREAT | os.O_EXCL | os.O_CLOEXEC, 0o600)
            try:
                with os.fdopen(number, "wb") as file:
                    self._write_lines(file)
                    file.flush()
                    os.fchmod(file.fileno(), self._mode)
                    os.fsync(file.fileno())
                os.rename(passing, self._path)
            except BaseException:
                remove(passing)
                raise
            keep_names(os.path.dirname(self._path))
        except OSError as fault:
            raise Fault(f"the state file {self._name} can't be written: {reason(fault)}") from fault

    def _write_lines(self, file: BinaryIO) -> None:
        """Writes each line."""
        hashed = hashlib.sha256()
        for line in self._lines():
            file.write(line)
            hashed.update(line)
        self._sum = hashed.hexdigest()
        file.write(b"end %s\n" % self._sum.encode())

    def _lines(self) -> Iterator[bytes]:
        """The lines but for the last."""
        yield self.heading % self._key
        for session, sealed in self.sessions:
            yield b"session %s\n" % b" ".join(session)
            if sealed.stamp:
                yield b"stamp %s\n" % sealed.stamp
            for it in sealed.records.values():
                yield spell_record(it)


def spell_record(record: Record) -> bytes:
    """The line of a block."""
    word = b"signature %d %d" % record.group if record.is_signature else b"certificate"
    return b"%s %d %d %d %s\n" % (word, record.number, record.first, record.last, record.digest.hex().encode())


def read_record(line: bytes) -> Optional[Record]:
    """The block that a line is about, or None where it is no such line."""
    found = SIGNATURE.fullmatch(line)
    group = (int(found[1]), int(found[2])) if found else ()
    found = found or CERTIFICATE.fullmatch(line)
    if found is None:
        return None
    *_, total, first, last, digest = found.groups()
    record = Record(group, int(first), int(last), int(total), bytes.fromhex(digest.decode()), 0)
    return record if 1 <= record.first <= record.last else None


def remove(path: str) -> None:
    """Removes a file that may not be there, as one that a run left that was killed."""
    try:
        os.unlink(path)
    except FileNotFoundError:
        pass


def keep_names(folder: str) -> None:
    """Has the names in a folder stand on the disk."""
    number = os.open(folder, os.O_RDONLY | os.O_DIRECTORY)
    try:
        os.fsync(number)
    finally:
        os.close(number)
