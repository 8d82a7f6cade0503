"""What lies in the folder of an originator: signed files, logs, and files of messages that were set aside. And their octets."""
from __future__ import annotations

import hashlib
import os
import stat
from typing import Dict, Iterator, List, NamedTuple, Optional, Sequence

from ..chain.names import ASIDE, PACKED, bare, is_log, is_signed, is_stamp
from ..chain.reading import Digests, digests
from ..expand import FRONT, form_of
from ..faults import Fault
from ..files import open_regular, reason
from ..logs import Log, open_log
from ..progress import Progress
from ..words import shown_name
from ..workplace import Workplace
from .record import Stat

PIECE = 1 << 20


class Unread(Exception):
    """A file can't be read to its end. `fact` says as much of its octets as is known."""

    def __init__(self, why: str, fact: str = "") -> None:
        super().__init__(why)
        self.why = why
        self.fact = fact or why


class Lying(NamedTuple):
    """A file as it lies in its folder."""

    name: str
    bare: str
    """Its name without what a compression adds."""
    path: str
    stat: Stat
    """What changes where it is written to."""
    changed: int
    """When it was written to last, as the system reports it, in seconds."""


class Folder(NamedTuple):
    """What lies in a folder."""

    signed: List[Lying]
    asides: Dict[str, Lying]
    """By their names without what a compression adds."""
    logs: List[Lying]
    stamps: List[Lying]
    """Time stamps of signed files."""


def look(folder: str, patterns: Sequence[str]) -> Folder:
    """Looks into a folder. Raises OSError. Files of other names, and those that begin with a dot, are no concern of a check."""
    signed, asides, logs, stamps = [], {}, [], []
    for name in sorted(it for it in os.listdir(folder) if not it.startswith(".")):
        try:
            seen = os.lstat(os.path.join(folder, name))
        except FileNotFoundError:
            # it was renamed or compressed meanwhile, and has its new name
            continue
        plain = bare(name)
        facts = (seen.st_size, seen.st_mtime_ns, seen.st_ctime_ns, seen.st_ino, seen.st_mode)
        it = Lying(name, plain, os.path.join(folder, name), facts, int(seen.st_mtime))
        if is_signed(name):
            signed.append(it)
        elif is_stamp(name):
            stamps.append(it)
        elif plain.endswith(ASIDE):
            asides[plain] = it
        elif stat.S_ISREG(seen.st_mode) and is_log(name, patterns):
            logs.append(it)
    return Folder(signed, asides, logs, stamps)


class Reader:
    """Reads files, each expanded, and takes their SHA-256."""

    def __init__(self, workplace: Workplace, progress: Progress, max_expanded: Optional[int]) -> None:
        self.workplace = workplace
        self._progress = progress
        self._max_expanded = max_expanded
        self._count = 0

    def sha256(self, it: Lying) -> str:
        """The SHA-256 of the octets of a file, expanded. Raises Unread."""
        return self.digests(it, []).sha256

    def digests(self, it: Lying, ends: Sequence[int]) -> Digests:
        """The SHA-256 of a file, expanded, and up to each of these ends that it reaches. Raises Unread."""
        refuse_odd(it)
        self._count += 1
        self._progress.show("reading files", self._count, 0, "files")
        try:
            log = open_log([it.path], False, self.workplace, self._progress, self._max_expanded)
            with log.file:
                return digests(pieces_of(log), ends)
        except (Fault, OSError) as fault:
            why = reason(fault) if isinstance(fault, OSError) else str(fault)
            raise Unread(why, raw_sha256(it.path) or why) from fault


def refuse_odd(it: Lying) -> None:
    """Refuses what is no regular file, or isn't compressed as its name says."""
    mode = it.stat[-1]
    if not stat.S_ISREG(mode):
        raise Unread("it is a link" if stat.S_ISLNK(mode) else "it is no regular file")
    ending = it.name[len(it.bare):]
    if not ending:
        return
    try:
        with open(open_regular(it.path), "rb") as file:
            form = form_of(file.read(FRONT))
    except OSError as fault:
        raise Unread(reason(fault)) from fault
    wanted = PACKED[ending]
    if wanted is None:
        raise Unread(f"a file {ending} isn't read: expand it, or compress it by gzip, xz or zstd")
    if form != wanted:
        what = "it is empty" if not it.stat[0] else "it isn't compressed so"
        raise Unread(f"its name ends with {ending}, and {what}", raw_sha256(it.path))


def pieces_of(log: Log) -> Iterator[bytes]:
    """The octets of a log, which has to stay as it is meanwhile."""
    at = 0
    while at < log.size:
        piece = os.pread(log.file.fileno(), min(PIECE, log.size - at), at)
        if not piece:
            raise log.changed()
        yield piece
        at += len(piece)
    log.check_unchanged()


def raw_sha256(path: str) -> str:
    """The SHA-256 of a file as it lies there; nothing where it can't be read."""
    hasher = hashlib.sha256()
    try:
        with open(open_regular(path), "rb") as file:
            for piece in iter(lambda: file.read(PIECE), b""):
                hasher.update(piece)
    except OSError:
        return ""
    return hasher.hexdigest()


def find_folders(named: Sequence[str]) -> Dict[str, str]:
    """The folder of each originator, by its name. Raises Fault where two have one name."""
    folders: Dict[str, str] = {}
    for folder in named:
        for path in originators_in(folder):
            name = os.path.basename(os.path.abspath(path))
            if not name:
                raise Fault(f"{shown_name(folder)} has no name that its originator could have: name the folders in it")
            if folders.setdefault(name, path) != path:
                raise Fault(f"{shown_name(folders[name])} and {shown_name(path)} have one name, which is the originator's: "
                            "rename one of the folders")
    return folders


def originators_in(folder: str) -> List[str]:
    """The folders of originators that a folder is or holds: if it has no signed file, each folder in it is one."""
    try:
        with os.scandir(folder) as entries:
            found = [(it.name, it.is_dir()) for it in entries]
    except OSError:
        # whether somebody knows it, the memory says
        return [folder]
    inner = sorted(name for name, is_folder in found if is_folder and not name.startswith(".") and not is_signed(name))
    if not inner or any(is_signed(name) for name, _ in found):
        return [folder]
    return [os.path.join(folder, name) for name in inner]
