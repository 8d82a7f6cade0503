"""A manifest: a line of JSON for each signed log, and for each copy of one (docs/dev/FORMATS.md, "A manifest").

Each line holds its number, and the hash of the line before.
"""
from __future__ import annotations

import hashlib
import json
import os
import re
from dataclasses import dataclass, field
from datetime import datetime
from typing import BinaryIO, Dict, List, NamedTuple, Optional, Sequence, Set, Tuple, Union

from .blocks import Session
from .faults import Fault
from .files import NOT_REGULAR, open_regular, reason
from .json_text import compact
from .session_file import Ends, read_ends
from .words import shown_name

# a longer line is none of a manifest
LONGEST = 1 << 20
FIRST_SUM = "0" * 64
SUM = re.compile(r"[0-9a-f]{64}")
STAMP = "%Y-%m-%dT%H:%M:%SZ"
KEYS = ("entry", "previous", "signed", "name", "size", "sha256", "host", "app", "procid", "rsid", "groups", "counters",
        "set_aside")
# of a night before which a run was stopped
LEFT_OUT_KEYS = (*KEYS, "left_out")
COPIED_KEYS = ("entry", "previous", "copied", "name", "sha256", "to")
# the most octets of HOSTNAME, APP-NAME and PROCID (RFC 5424, section 6)
NAMES = {"host": 255, "app": 48, "procid": 128}
MOST = 9999999999
# how many characters the place of a copy has at most
LONGEST_PLACE = 1000


class Extent(NamedTuple):
    """The numbers of a group that a log has."""

    sg: int
    spri: int
    first: int
    last: int


class SetAside(NamedTuple):
    """The file of the messages that couldn't be signed."""

    name: str
    size: int
    sha256: str
    messages: int


class LeftOut(NamedTuple):
    """Numbers that runs had given when they were stopped, by the signer's state: they lie between these counters."""

    before: Ends
    after: Ends

    def fields(self, session: Session) -> Dict[str, List[str]]:
        """As an entry has them."""
        return {key: it.lines(session).decode("ascii").splitlines() for key, it in (("from", self.before), ("to", self.after))}


@dataclass(frozen=True)
class Entry:
    """A signed log, as it was when it was signed and verified."""

    number: int
    previous: str
    signed: str
    name: str
    size: int
    sha256: str
    session: Session
    gbc: int
    """The GBC of the session's next signature block."""
    groups: Tuple[Extent, ...]
    set_aside: Optional[SetAside]
    left_out: Optional[LeftOut] = None

    @property
    def counters(self) -> List[str]:
        """The lines of `ssign counters`."""
        front = f"count {self.session}"
        return [f"{front} {self.gbc}", *(f"{front} {it.sg} {it.spri} {it.last + 1}" for it in self.groups)]

    @property
    def ends(self) -> Ends:
        """How far the session goes with the log, and with what was left out before it."""
        reached = Reached()
        if self.left_out is not None:
            reached.take(self.left_out.after)
        reached.take(Ends(self.gbc, tuple((it.sg, it.spri, it.last + 1) for it in self.groups)))
        return reached.ends

    def goes_on(self, before: Entry) -> bool:
        """Whether it is a later night of the session that another entry has: it has none of its numbers, and later ones."""
        if self.session != before.session:
            return False
        if not self.groups or not before.groups:
            return True
        ends = before.ends
        return self.gbc > before.gbc and all(it.first >= ends.number((it.sg, it.spri)) for it in self.groups)

    def is_like(self, before: Entry) -> bool:
        """Whether it may have the octets of another entry: both are nights of one session, and have no message."""
        return self.session == before.session and not self.groups and not before.groups

    def line(self) -> bytes:
        """The line of the entry, with its LF."""
        host, app, procid, rsid = (it.decode("ascii") for it in self.session)
        fields = {
            "entry": self.number, "previous": self.previous, "signed": self.signed, "name": self.name, "size": self.size,
            "sha256": self.sha256, "host": host, "app": app, "procid": procid, "rsid": int(rsid),
            "groups": [it._asdict() for it in self.groups], "counters": self.counters,
            "set_aside": None if self.set_aside is None else self.set_aside._asdict(),
        }
        if self.left_out is not None:
            fields["left_out"] = self.left_out.fields(self.session)
        return compact(fields).encode("ascii") + b"\n"

    @property
    def sum(self) -> str:
        """The SHA-256 of the line, which the next entry repeats."""
        return hashlib.sha256(self.line()).hexdigest()

    @property
    def mark(self) -> str:
        """The number and the hash, as whoever keeps them apart writes them down."""
        return f"{self.number}:{self.sum}"


class Reached:
    """How far a session has gone: the GBC of its next block, and the number of the next message of each group."""

    def __init__(self) -> None:
        """It hasn't begun."""
        self.gbc = 0
        self.groups: Dict[Tuple[int, int], int] = {}

    def lines(self, session: Session) -> bytes:
        """As lines of a counters file; none where it hasn't begun."""
        if not self.gbc and not self.groups:
            return b""
        said = [f"count {session} {self.gbc}"]
        said += [f"count {session} {sg} {spri} {number}" for (sg, spri), number in sorted(self.groups.items())]
        return "".join(f"{it}\n" for it in said).encode("ascii")

    @property
    def ends(self) -> Ends:
        """As counters."""
        return Ends(self.gbc, tuple((sg, spri, number) for (sg, spri), number in sorted(self.groups.items())))

    def take(self, ends: Ends) -> None:
        """Goes as far as these counters, where they go further."""
        self.gbc = max(self.gbc, ends.gbc)
        for sg, spri, number in ends.groups:
            self.groups[sg, spri] = max(self.groups.get((sg, spri), 1), number)

    def go_on(self, entry: Entry) -> None:
        """Takes a night into account."""
        self.take(entry.ends)

    def pass_over(self, left_out: LeftOut) -> int:
        """Goes on after what runs left out, and says how many numbers that is. Where others are missing before, it stays."""
        before, after = self.ends, left_out.after
        if not left_out.before.is_before(before):
            return 0
        self.take(after)
        return sum(max(number - before.number((sg, spri)), 0) for sg, spri, number in after.groups)


@dataclass(frozen=True)
class Copied:
    """A copy of a signed log, which was compared with its entry."""

    number: int
    previous: str
    copied: str
    name: str
    sha256: str
    to: str
    """Where the copy is, in words of whoever made it."""

    def line(self) -> bytes:
        """The line of the copy, with its LF."""
        fields = {"entry": self.number, "previous": self.previous, "copied": self.copied, "name": self.name,
                  "sha256": self.sha256, "to": self.to}
        return compact(fields).encode("ascii") + b"\n"

    @property
    def sum(self) -> str:
        """The SHA-256 of the line, which the next line repeats."""
        return hashlib.sha256(self.line()).hexdigest()

    @property
    def mark(self) -> str:
        """The number and the hash, as whoever keeps them apart writes them down."""
        return f"{self.number}:{self.sum}"


Line = Union[Entry, Copied]


class Copy(NamedTuple):
    """A line about a copy."""

    line: int
    """Its line, from 1."""
    copied: Copied
    is_named: bool
    """Whether an entry before it has a file of this name and SHA-256."""


class Mark(NamedTuple):
    """The number and the hash of an entry, which somebody kept apart."""

    number: int
    sum: str


def read_mark(text: str, option: str = "--last") -> Mark:
    """What `N:SHA-256` says, as the value of an option. Raises Fault where it is nothing of that form."""
    number, colon, given = text.partition(":")
    if not (colon and re.fullmatch(r"0|[1-9][0-9]{0,9}", number) and SUM.fullmatch(given)):
        raise Fault(f"{option} {shown_name(text)}: this is no number of an entry, a colon and 64 digits of a SHA-256, as "
                    "`ssign-keys manifest add` prints them")
    if number == "0" and given != FIRST_SUM:
        raise Fault(f"{option}: of a manifest without entries the hash is 64 zeros")
    return Mark(int(number), given)


@dataclass
class Manifest:
    """The entries of a manifest, with what is wrong with the file as a whole."""

    path: str
    lines: List[Line] = field(default_factory=list)
    # the lines, from 1, that don't follow the line before
    broken: List[int] = field(default_factory=list)
    # the line, from 1, in which the file breaks off
    torn: Optional[int] = None
    # how many octets were read, and their SHA-256
    size: int = 0
    sha256: str = ""

    @property
    def entries(self) -> List[Entry]:
        """The signed logs, in the order of their lines."""
        return [it for it in self.lines if isinstance(it, Entry)]

    @property
    def copies(self) -> List[Copy]:
        """The copies of files, in the order of their lines."""
        named: Set[Tuple[str, str]] = set()
        found = []
        for number, it in enumerate(self.lines, 1):
            if isinstance(it, Copied):
                found.append(Copy(number, it, (it.name, it.sha256) in named))
                continue
            named.add((it.name, it.sha256))
            if it.set_aside is not None:
                named.add((it.set_aside.name, it.set_aside.sha256))
        return found

    @property
    def copied(self) -> Set[Tuple[str, str]]:
        """The names and SHA-256 of files that were copied and may be gone. A line about a file that no entry has says nothing."""
        return {(it.copied.name, it.copied.sha256) for it in self.copies if it.is_named}

    @property
    def last(self) -> Mark:
        """The number and the hash of the last line."""
        return Mark(self.lines[-1].number, self.lines[-1].sum) if self.lines else Mark(0, FIRST_SUM)


def open_manifest(path: str, flags: int) -> BinaryIO:
    """Opens a manifest, which has to be a regular file that is there."""
    try:
        number = open_regular(path, flags)
    except FileNotFoundError as fault:
        raise Fault(f"the manifest {shown_name(path)} isn't there; to begin one, make an empty file of this name") from fault
    except (OSError, ValueError) as fault:
        if reason(fault) == NOT_REGULAR:
            raise Fault(f"the manifest {shown_name(path)} is no regular file") from fault
        raise Fault(f"the manifest {shown_name(path)} can't be opened: {reason(fault)}") from fault
    return os.fdopen(number, "r+b" if flags & os.O_RDWR else "rb")


def read_manifest(path: str) -> Manifest:
    """A manifest. Raises Fault at the first bad line."""
    with open_manifest(path, os.O_RDONLY) as file:
        return read_entries(path, file)


def read_entries(path: str, file: BinaryIO) -> Manifest:
    """The manifest in an open file."""
    manifest, hasher = Manifest(path), hashlib.sha256()
    try:
        while True:
            line = file.readline(LONGEST)
            hasher.update(line)
            manifest.size, manifest.sha256 = manifest.size + len(line), hasher.hexdigest()
            if not line:
                return manifest
            number = len(manifest.lines) + 1
            if not line.endswith(b"\n"):
                if len(line) >= LONGEST:
                    raise bad(path, number, f"it has more than {LONGEST} octets")
                manifest.torn = number
                return manifest
            add_line(manifest, number, line)
    except OSError as fault:
        raise Fault(f"the manifest {shown_name(path)} can't be read: {reason(fault)}") from fault


def add_line(manifest: Manifest, number: int, line: bytes) -> None:
    """Takes a line of a manifest."""
    try:
        read = read_line(line)
    except ValueError as fault:
        raise bad(manifest.path, number, str(fault)) from fault
    if (read.number - 1, read.previous) != manifest.last:
        manifest.broken.append(number)
    manifest.lines.append(read)


def bad(path: str, number: int, why: str) -> Fault:
    """What is said of a line that is no entry."""
    return Fault(f"the line {number} of the manifest {shown_name(path)} is no entry: {why}")


def read_line(line: bytes) -> Line:
    """The entry or the copy that a line spells. Raises ValueError, with a sentence, where it isn't spelled as one."""
    try:
        fields = json.loads(line.decode("ascii"))
    except (ValueError, RecursionError) as fault:
        raise ValueError("it is no JSON in ASCII") from fault
    if not isinstance(fields, dict) or tuple(fields) not in (KEYS, LEFT_OUT_KEYS, COPIED_KEYS):
        raise ValueError("it is no object with the keys of an entry in their order")
    made: Line = make_copied(fields) if tuple(fields) == COPIED_KEYS else make_entry(fields)
    if made.line() != line:
        raise ValueError("it isn't spelled as an entry is, or its counters aren't those of its groups")
    return made


def make_entry(fields: Dict[str, object]) -> Entry:
    """The entry that has these values."""
    host, app, procid = (name_of(fields, it) for it in NAMES)
    session = Session(host, app, procid, str(number_of(fields, "rsid", 0, MOST)).encode())
    counters = fields["counters"]
    if not isinstance(counters, list) or not counters or not isinstance(counters[0], str):
        raise ValueError("its counters aren't the lines of a counters file")
    gbc = counters[0].rpartition(" ")[2]
    if not re.fullmatch(r"[0-9]{1,11}", gbc):
        raise ValueError("its first counter has no GBC")
    aside, groups = fields["set_aside"], extents_of(fields["groups"])
    left_out = read_left_out(fields["left_out"], session, groups) if "left_out" in fields else None
    return Entry(number_of(fields, "entry", 1, MOST), sum_of(fields, "previous"), stamp_of(fields["signed"]),
                 file_of(fields["name"]), number_of(fields, "size", 1, 1 << 62), sum_of(fields, "sha256"), session, int(gbc),
                 groups, None if aside is None else set_aside_of(aside), left_out)


def read_left_out(value: object, session: Session, groups: Sequence[Extent]) -> LeftOut:
    """What runs left out that were stopped before a night with these groups."""
    if not isinstance(value, dict) or tuple(value) != ("from", "to"):
        raise ValueError("left_out is no object with from and to")
    ends = []
    for lines in value.values():
        if not isinstance(lines, list) or not all(isinstance(it, str) and it.isascii() for it in lines):
            raise ValueError("its left_out isn't of lines of a counters file")
        ends.append(read_ends([it.encode("ascii") for it in lines], session))
    return left_out_of(LeftOut(*ends), groups)


def left_out_of(left_out: LeftOut, groups: Sequence[Extent]) -> LeftOut:
    """The same, where it ends before the numbers of the night. Raises ValueError where it doesn't, or where it is nothing."""
    if left_out.before == left_out.after or not left_out.before.is_before(left_out.after):
        raise ValueError("its left_out doesn't go from counters to greater ones")
    if any(it.first < left_out.after.number((it.sg, it.spri)) for it in groups):
        raise ValueError("its left_out goes on where its numbers have begun")
    return left_out


def make_copied(fields: Dict[str, object]) -> Copied:
    """The copy that has these values."""
    to = fields["to"]
    if not isinstance(to, str) or not 1 <= len(to) <= LONGEST_PLACE or not to.isprintable():
        raise ValueError(f"to isn't 1 to {LONGEST_PLACE} printable characters")
    return Copied(number_of(fields, "entry", 1, MOST), sum_of(fields, "previous"), stamp_of(fields["copied"]),
                  file_of(fields["name"]), sum_of(fields, "sha256"), to)


def number_of(fields: Dict[str, object], key: str, least: int, most: int) -> int:
    """A number of the entry."""
    value = fields[key]
    if type(value) is not int or not least <= value <= most:
        raise ValueError(f"{key} is no number from {least} to {most}")
    return value


def sum_of(fields: Dict[str, object], key: str) -> str:
    """A SHA-256 of the entry."""
    value = fields[key]
    if not isinstance(value, str) or not SUM.fullmatch(value):
        raise ValueError(f"{key} isn't a SHA-256 of 64 small hexadecimal digits")
    return value


def name_of(fields: Dict[str, object], key: str) -> bytes:
    """One of the names of the session."""
    value = fields[key]
    if not isinstance(value, str) or not re.fullmatch(r"[!-~]{1,%d}" % NAMES[key], value):
        raise ValueError(f"{key} isn't 1 to {NAMES[key]} printable characters of ASCII without a space")
    return value.encode("ascii")


def stamp_of(value: object) -> str:
    """When it was signed."""
    if isinstance(value, str):
        try:
            if datetime.strptime(value, STAMP).strftime(STAMP) == value:
                return value
        except ValueError:
            pass
    raise ValueError("its time is no time in UTC as 2026-11-27T04:00:00Z")


def file_of(value: object) -> str:
    """The name of a file, without a folder."""
    if not isinstance(value, str) or value in ("", ".", "..") or "/" in value or "\0" in value:
        raise ValueError("a name is no name of a file without its folder")
    try:
        value.encode("utf-8")
    except UnicodeEncodeError as fault:
        raise ValueError("a name isn't Unicode") from fault
    return value


def extents_of(value: object) -> Tuple[Extent, ...]:
    """The groups, which rise by SG and SPRI."""
    found: List[Extent] = []
    for it in value if isinstance(value, list) else [None]:
        if not isinstance(it, dict) or tuple(it) != Extent._fields:
            raise ValueError("its groups aren't objects with sg, spri, first and last")
        extent = Extent(number_of(it, "sg", 0, 3), number_of(it, "spri", 0, 191), number_of(it, "first", 1, MOST),
                        number_of(it, "last", 1, MOST))
        if extent.first > extent.last or (found and found[-1][:2] >= extent[:2]):
            raise ValueError("its groups don't rise by SG and SPRI, or one ends before it begins")
        found.append(extent)
    return tuple(found)


def set_aside_of(value: object) -> SetAside:
    """The file of the messages that couldn't be signed."""
    if not isinstance(value, dict) or tuple(value) != SetAside._fields:
        raise ValueError("set_aside isn't null or an object with name, size, sha256 and messages")
    return SetAside(file_of(value["name"]), number_of(value, "size", 0, 1 << 62), sum_of(value, "sha256"),
                    number_of(value, "messages", 0, 1 << 62))
