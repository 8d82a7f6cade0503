"""What lies in a folder: signed files with their links, the newest of them, and logs."""
from __future__ import annotations

import bisect
import contextlib
import errno
import fcntl
import os
import stat
from dataclasses import dataclass, field
from typing import Dict, Iterator, List, NamedTuple, Optional, Sequence, Set

from ..faults import Fault
from ..files import reason
from ..store import open_folder
from ..words import shown_name
from ..workplace import Workplace
from .link import Before, Link, Log
from .names import NEW, PACKED, SIGNED, bare, few, is_log, is_signed
from .reading import First, digests, first_of, open_in, plain_pieces

# what stands between a name and what logrotate adds to it
BETWEEN = "-._"


class Busy(Exception):
    """Another run works in the folder."""


class Signed(NamedTuple):
    """A signed file."""

    name: str
    first: First

    @property
    def link(self) -> Link:
        """What its first message says."""
        return self.first.link


class Whole(NamedTuple):
    """So many first octets of a log, and their SHA-256."""

    end: int
    sha256: str


@dataclass(eq=False)
class Signing:
    """What the link of a signed file says about its log."""

    log: Log
    front: Optional[Signing]
    """Where the file has late lines: what was signed before them."""
    is_last: bool = True
    """False where late lines of the log were signed after it."""

    @property
    def whole(self) -> Whole:
        """The octets of the log up to its end."""
        return Whole(self.log.end, self.log.sha256)

    def all_fronts(self) -> Iterator[Signing]:
        """This one, and those before late lines."""
        found: Optional[Signing] = self
        while found is not None:
            yield found
            found = found.front


@dataclass
class Known:
    """What the links of a folder say about logs."""

    last: Dict[str, Signing] = field(default_factory=dict)
    """The last one of a name."""
    signings: Dict[Whole, List[Signing]] = field(default_factory=dict)
    """Those of such octets."""
    parts: Dict[str, int] = field(default_factory=dict)
    """How many files a log of a name has."""
    unread: Set[str] = field(default_factory=set)
    """The names of logs with a signed file in which no link can be read."""

    def add(self, log: Optional[Log]) -> None:
        """Takes in what a link says. The links have to come in the order of their sessions."""
        if log is None:
            return
        is_late = 0 < log.start < log.end
        front = next((it for it in self.candidates(log.name) if it.log.end == log.start), None) if is_late else None
        if front is not None:
            front.is_last = False
        signing = self.last[log.name] = Signing(log, front)
        self.signings.setdefault(signing.whole, []).append(signing)
        self.parts[log.name] = self.parts.get(log.name, 0) + 1

    def candidates(self, name: str) -> List[Signing]:
        """What may stand at the front of a log: the last one of its name, and of each name that it may have had."""
        stem, extension = os.path.splitext(name)
        fronts = [name[:it] for it in range(1, len(name)) if name[it] in BETWEEN]
        names = [name, *fronts, *(it + extension for it in fronts if len(it) < len(stem))]
        return [self.last[it] for it in dict.fromkeys(names) if it in self.last and self.last[it].log.end > 0]


class Folder:
    """A folder that no other run of this kind works in. Used with `with`."""

    def __init__(self, path: str) -> None:
        """Not locked yet."""
        self.name = shown_name(path)
        self._path = path
        self.reserved: Set[str] = set()
        """The names of files that others name as the one before."""

    def __enter__(self) -> Folder:
        """Locks it. Raises Busy where another run has it."""
        try:
            self.number = open_folder(self._path)
        except OSError as fault:
            raise Fault(f"the folder {self.name} can't be opened: {reason(fault)}") from fault
        try:
            fcntl.flock(self.number, fcntl.LOCK_EX | fcntl.LOCK_NB)
            if not os.access(self._path, os.W_OK | os.X_OK):
                is_fixed = os.fstatvfs(self.number).f_flag & os.ST_RDONLY
                why = os.strerror(errno.EROFS if is_fixed else errno.EACCES)
                raise Fault(f"the folder {self.name} can't be written to: {why}")
        except (Fault, OSError) as fault:
            os.close(self.number)
            if isinstance(fault, BlockingIOError):
                raise Busy from fault
            why = str(fault) if isinstance(fault, Fault) else f"the folder {self.name} can't be locked: {reason(fault)}"
            raise Fault(why) from fault
        return self

    def __exit__(self, *why: object) -> None:
        """Lets it go."""
        os.close(self.number)

    def read(self) -> None:
        """Reads which files are there."""
        self.entries: Dict[str, os.stat_result] = {}
        with os.scandir(self.number) as found:
            for it in found:
                # logrotate may rename it meanwhile
                with contextlib.suppress(FileNotFoundError):
                    self.entries[it.name] = it.stat(follow_symlinks=False)

    def stat(self, name: str) -> Optional[os.stat_result]:
        """A file as it is now; None where it is gone."""
        try:
            return os.stat(name, dir_fd=self.number, follow_symlinks=False)
        except FileNotFoundError:
            return None

    def remove(self, name: str) -> None:
        """Removes a file, if it is there. A folder stays."""
        with contextlib.suppress(FileNotFoundError, IsADirectoryError):
            os.unlink(name, dir_fd=self.number)

    def is_taken(self, name: str) -> bool:
        """Whether a signed file has a name, compressed or not, or has to have it, because another one names it."""
        return name in self.reserved or any(self.stat(name + it) is not None for it in ("", *PACKED))

    def drafts(self) -> List[str]:
        """Passing files, which a run before left."""
        return sorted(it for it in self.entries if it.startswith(".") and it.endswith(NEW))

    def frames(self) -> List[str]:
        """The names of signed files."""
        return sorted(filter(is_signed, self.entries))

    def logs(self, globs: Sequence[str]) -> List[str]:
        """The names of logs, the one first that was changed first. A folder is none."""
        found = [it for it, seen in self.entries.items() if is_log(it, globs) and not stat.S_ISDIR(seen.st_mode)]
        return sorted(found, key=lambda it: (self.entries[it].st_mtime_ns, it))


def gaps_of(files: Sequence[Signed]) -> List[Before]:
    """The files that others name and that aren't here, but for those that are older than all that are here."""
    here = {it.link.rsid for it in files}
    oldest = min(here, default=0)
    named = [it.link.before for it in files if it.link.before is not None]
    return [it for it in named if it.rsid not in here and it.rsid > oldest]


class Chain:
    """The signed files of a folder, as their links say how they hang together."""

    def __init__(self, folder: Folder, workplace: Workplace) -> None:
        """Reads the first message of each."""
        self._folder = folder
        self._workplace = workplace
        self.known = Known()
        self.files: List[Signed] = []
        self.unlinked: List[str] = []
        self.gaps: List[Before] = []
        """What isn't here of the chain that goes on, once the newest is known."""
        for name in folder.frames():
            first = first_of(folder.number, name, workplace)
            if first is None:
                self.unlinked.append(name)
                self.known.unread.add(bare(name)[:-len(SIGNED)])
            else:
                self.files.append(Signed(name, first))
        self.files.sort(key=lambda it: (it.link.rsid, it.name))
        for it in self.files:
            self.known.add(it.link.log)
        # another file of such a name would stand in the way of the one that is put back
        folder.reserved = {it.link.before.name for it in self.files if it.link.before is not None}

    @property
    def last_rsid(self) -> int:
        """The greatest RSID that a file states, be it verified or not; -1 where there is no signed file."""
        return self.files[-1].link.rsid if self.files else -1

    def newest(self) -> Optional[Signed]:
        """The file that no other names as the one before, and that goes on. A chain that begins later ends each earlier one.

        Raises Fault where it isn't known.
        """
        begins = max((it.link.rsid for it in self.files if it.link.before is None), default=0)
        present = [it for it in self.files if it.link.rsid >= begins]
        followed = {it.link.before.name for it in present if it.link.before is not None}
        # who compresses a file has two of its name meanwhile
        followed.update(bare(it.name) for it in self.files)
        unlinked = [it for it in self.unlinked if bare(it) not in followed]
        if unlinked:
            raise Fault(f"{few(unlinked)} in {self._folder.name}: no link can be read in it, and no file names it as the "
                        "one before, so nobody knows whether it is the newest: put a good copy in its place, or move it into "
                        "another folder")
        self.gaps = gaps_of(present)
        ends = self._unnamed(present)
        gone = sorted(it.rsid for it in self.gaps)
        # a file that isn't here may have named one of these, if it is newer
        older = list(enumerate(reversed(ends[:-1]), 1))
        if any(len(gone) - bisect.bisect(gone, it.link.rsid) < count for count, it in older):
            heads = few([it.name for it in ends])
            raise Fault(f"the chain of {self._folder.name} forks: no file names {heads} as the one before, as where a machine "
                        "was put back, or two of them sign with one key. Move the one into another folder that should not be "
                        "there; or --begin begins a chain after both")
        if present and not ends:
            raise Fault(f"the signed files of {self._folder.name} name one another in a circle: put good copies in their place")
        return ends[-1] if ends else None

    def _unnamed(self, files: Sequence[Signed]) -> List[Signed]:
        """The files that no other names as the one before; of files with the same octets, one."""
        named: Dict[int, Set[str]] = {}
        for it in files:
            if it.link.before is not None:
                named.setdefault(it.link.before.rsid, set()).add(it.link.before.sha256)
        by_rsid: Dict[int, Dict[str, Signed]] = {}
        for it in files:
            by_rsid.setdefault(it.link.rsid, {}).setdefault(bare(it.name), it)
        found: List[Signed] = []
        for rsid, alike in by_rsid.items():
            if len(alike) > 1:
                found += self._different(list(alike.values()), named.get(rsid, set()))
            elif rsid not in named:
                found += alike.values()
        return found

    def _different(self, alike: Sequence[Signed], named: Set[str]) -> List[Signed]:
        """Of files with one RSID, those of other octets than the files that are named; of the same octets, one."""
        found = {self.sha256(it.name): it for it in alike}
        return [it for sha256, it in found.items() if sha256 not in named]

    def sha256(self, name: str) -> str:
        """The SHA-256 of a signed file, expanded."""
        with open_in(self._folder.number, name) as file:
            return digests(plain_pieces(file, name, self._workplace)).sha256
