"""Appends an entry to a manifest: under a lock, whole or not at all, and on the disk before the run says so."""
from __future__ import annotations

import dataclasses
import fcntl
import os
import time
from types import TracebackType
from typing import Optional, Type

from .faults import Fault
from .files import reason
from .manifest_form import Copied, Entry, Manifest, Mark, open_manifest, read_entries
from .words import shown_name

# how long another run may hold the manifest, in seconds
PATIENCE = 60.0
PAUSE = 0.05


class Appending:
    """A manifest that is open and locked, with what stands in it."""

    def __init__(self, path: str, kept: Optional[Mark]) -> None:
        """The mark that was kept apart is the last entry's, or the one before where that entry was appended already."""
        self._path = path
        self._kept = kept
        self._file = open_manifest(path, os.O_RDWR | os.O_APPEND)
        try:
            self._lock()
            self.manifest = read_entries(path, self._file)
            self._check(self.manifest)
        except BaseException:
            self._file.close()
            raise

    def __enter__(self) -> Appending:
        """Itself."""
        return self

    def __exit__(self, kind: Optional[Type[BaseException]], fault: Optional[BaseException],
                 trace: Optional[TracebackType]) -> None:
        """Lets the manifest go."""
        self._file.close()

    def _lock(self) -> None:
        """Waits until nobody else appends."""
        end = time.monotonic() + PATIENCE
        while True:
            try:
                fcntl.flock(self._file, fcntl.LOCK_EX | fcntl.LOCK_NB)
                break
            except OSError as fault:
                if time.monotonic() > end:
                    raise Fault(f"another run holds the manifest {shown_name(self._path)}") from fault
                time.sleep(PAUSE)
        try:
            is_same = os.path.samestat(os.stat(self._path), os.fstat(self._file.fileno()))
        except OSError:
            is_same = False
        if not is_same:
            raise Fault(f"another file took the place of the manifest {shown_name(self._path)} meanwhile")

    def _check(self, manifest: Manifest) -> None:
        """Refuses to go on after something that is wrong."""
        name = shown_name(self._path)
        if manifest.torn is not None:
            raise Fault(f"the manifest {name} breaks off in its line {manifest.torn}, as where a run was ended "
                        "while it wrote: "
                        f"look at that line, take it away (`head -n {manifest.torn - 1}`), and add its log again")
        if manifest.broken:
            raise Fault(f"the line {manifest.broken[0]} of the manifest {name} doesn't follow the line before: a line was "
                        "changed, put in or taken out")

    def is_kept(self) -> bool:
        """Whether the mark that was kept apart is that of the last line, or of one after which copies alone stand."""
        if self._kept is None or self._kept == self.manifest.last:
            return True
        number, given = self._kept
        lines = self.manifest.lines
        if not 0 < number <= len(lines) or lines[number - 1].sum != given:
            return False
        return all(isinstance(it, Copied) for it in lines[number:])

    def append(self, entry: Entry) -> Entry:
        """Appends an entry, which gets its number and the hash of the line before, and gives it.

        Where its log is the last entry already, nothing is appended: a run that was ended before it said so is run again.
        """
        entries = self.manifest.entries
        if entries:
            last = entries[-1]
            again = dataclasses.replace(entry, number=last.number, previous=last.previous, signed=last.signed)
            if again == last and (self.is_kept() or self._kept == Mark(last.number - 1, last.previous)):
                return last
        self._refuse_other_end()
        self._refuse_twice(entry)
        entry = dataclasses.replace(entry, number=self.manifest.last.number + 1, previous=self.manifest.last.sum)
        self._write(entry.line())
        return entry

    def append_copy(self, copy: Copied) -> Copied:
        """Appends that a log was copied, and gives the line; where that stands there already, the line that says it."""
        for _, it, _ in self.manifest.copies:
            if (it.name, it.sha256, it.to) == (copy.name, copy.sha256, copy.to):
                return it
        self._refuse_other_end()
        copy = dataclasses.replace(copy, number=self.manifest.last.number + 1, previous=self.manifest.last.sum)
        self._write(copy.line())
        return copy

    def _refuse_other_end(self) -> None:
        """Refuses a manifest that doesn't end with the entry that was kept apart."""
        if not self.is_kept():
            number, given = self.manifest.last
            raise Fault(f"the manifest {shown_name(self._path)} ends with the entry {number}:{given}, and not with the one that "
                        "--last names: its end was cut, or entries were added")

    def _refuse_twice(self, entry: Entry) -> None:
        """Refuses a log, or a session, that has an entry. A session may have more than one where its numbers go on."""
        for it in self.manifest.entries:
            is_again = it.session == entry.session and not entry.goes_on(it)
            what = "log" if it.name == entry.name else "session" if is_again else ""
            what = what or ("file" if it.sha256 == entry.sha256 and not entry.is_like(it) else "")
            if what:
                raise Fault(f"the entry {it.number} of the manifest {shown_name(self._path)} has this {what} already")
            if it.session[:3] == entry.session[:3] and int(it.session.rsid) > int(entry.session.rsid):
                raise Fault(f"the entry {it.number} of the manifest {shown_name(self._path)} has the RSID "
                            f"{it.session.rsid.decode('ascii')}, and a later log has a greater one")
            if it.session == entry.session and entry.left_out is not None and not it.ends.is_before(entry.left_out.before):
                raise Fault(f"the entry {it.number} of the manifest {shown_name(self._path)} goes further than the first counters of "
                            "--left-out")

    def _write(self, line: bytes) -> None:
        """Has the line stand at the end, on the disk; or has the file as it was."""
        number = self._file.fileno()
        size = os.fstat(number).st_size
        try:
            try:
                at = 0
                while at < len(line):
                    at += os.write(number, line[at:])
                os.fsync(number)
            except BaseException:
                os.ftruncate(number, size)
                raise
        except OSError as fault:
            raise Fault(f"the manifest {shown_name(self._path)} can't be written: {reason(fault)}; it has no new "
                        "entry") from fault
