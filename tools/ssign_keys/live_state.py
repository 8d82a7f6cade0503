"""The state of `ssign-keys live` as a file (docs/dev/FORMATS.md, "A session that is signed as messages come").

It says what is written next, before that is written. Two files take turns, and each is written over in place: so one of
them is whole wherever the machine stops. What a longer text left after the last line is no part of it.
"""
from __future__ import annotations

import base64
import hashlib
import re
from dataclasses import dataclass, replace
from typing import Callable, List, Optional, Tuple

from .encoding import decode
from .session_file import KEPT, START, Ends, Ongoing, read_ends, read_options

HEADING = re.compile(rb"ssign-keys live 1 ([0-9a-f]{64}) ([1-9][0-9]{0,17})")
END = re.compile(rb"^end ([0-9a-f]{64})\n", re.MULTILINE)
NUMBER = "(0|[1-9][0-9]{0,17})"
WORD = "([!-~]{1,100})"
ASKED = re.compile(f"asked {NUMBER} {WORD} ([0-9a-f]{{64}})")
FILES = ("state-0", "state-1")


@dataclass(frozen=True)
class Asked:
    """What the machine with the key was asked to sign, and didn't answer yet: it has seen these numbers."""

    count: int
    """How many messages, the first of those that no block announces."""
    stamp: str
    """The TIMESTAMP of their blocks."""
    digest: str
    """The SHA-256 of what has to be signed."""
    start: Ends
    """The counters before."""


@dataclass(frozen=True)
class Saved:
    """A state: the session with its counters ahead, and what of the output is written next."""

    turn: int
    """How often a state was saved."""
    session: Ongoing
    """No number and no GBC from its counters on was given. Without certificate blocks nothing of it was written."""
    boot: str
    machine: str
    day: str
    """When the file was begun, as a date of UTC."""
    file: int
    """The number of the file; 0 where there is none yet."""
    at: int
    """How many octets of it stand before what is written next."""
    place: int
    """How many messages and blocks these are."""
    tail: int
    """Where the messages begin that no block announces."""
    write: bytes = b""
    """What is written there: certificate blocks at the front of a file, or signature blocks, as frames."""
    asked: Optional[Asked] = None

    @property
    def name(self) -> str:
        """The name of the file."""
        return file_name(self.session, self.file)

    def spell(self) -> bytes:
        """The octets of the file."""
        session = self.session
        lines = [f"ssign-keys live 1 {session.key} {self.turn}", *(f"{it} {session.options[it]}" for it in KEPT)]
        lines += [f"boot {self.boot}", f"machine {self.machine}", f"file {self.file} {self.day}",
                  f"at {self.at} {self.place}", f"tail {self.tail}"]
        lines += session.ends.lines(session.session).decode("ascii").splitlines()
        lines += [f"certificate {spelled(it)}" for it in session.certificates]
        if self.write:
            lines.append(f"write {spelled(self.write)}")
        if self.asked is not None:
            lines.append(f"asked {self.asked.count} {self.asked.stamp} {self.asked.digest}")
            lines += [f"from {it}" for it in self.asked.start.lines(session.session).decode("ascii").splitlines()]
        text = "".join(f"{it}\n" for it in lines).encode("ascii")
        return text + f"end {hashlib.sha256(text).hexdigest()}\n".encode("ascii")


def spelled(octets: bytes) -> str:
    """Octets in base64."""
    return base64.b64encode(octets).decode("ascii")


def file_name(session: Ongoing, number: int) -> str:
    """The name of an output file, which it has from its birth on."""
    return f"{prefix_of(session.options['app'])}{session.rsid}-{number:06}.frames"


def prefix_of(app: str) -> str:
    """How the names of all output files of an APP-NAME begin. It may hold what no name of a file should."""
    plain = re.sub("[^A-Za-z0-9._]", "_", app)
    return f"{'_' + plain if plain.startswith('.') else plain}-"


def read_saved(text: bytes) -> Saved:
    """The state that a file spells at its front. Raises ValueError, with the reason, where it spells none."""
    end = END.search(text)
    if end is None:
        raise ValueError("its end is missing")
    body = text[:end.start()]
    if hashlib.sha256(body).hexdigest().encode("ascii") != end[1]:
        raise ValueError("it isn't what was written")
    lines = body.decode("ascii").splitlines()
    heading = HEADING.fullmatch(lines[0].encode("ascii")) if lines else None
    if heading is None:
        raise ValueError("it doesn't begin as one")
    options = read_options([it.encode("ascii") for it in lines[1:len(KEPT) + 1]])
    rest = Rest(lines[len(KEPT) + 1:])
    boot, = rest.take(f"boot {WORD}")
    machine, = rest.take(f"machine {WORD}")
    file, day = rest.take(f"file {NUMBER} ([0-9]{{4}}-[0-9]{{2}}-[0-9]{{2}})")
    at, place = rest.take(f"at {NUMBER} {NUMBER}")
    tail, = rest.take(f"tail {NUMBER}")
    session = Ongoing(heading[1].decode("ascii"), options, START, ())
    ends = read_ends(rest.all("count "), session.session)
    certificates = tuple(octets_of(it) for it in rest.all("certificate "))
    write = b"".join(octets_of(it) for it in rest.all("write "))
    saved = Saved(int(heading[2]), replace(session, ends=ends, certificates=certificates), boot, machine, day, int(file),
                  int(at), int(place), int(tail), write)
    if rest.lines:
        count, stamp, digest = rest.take(ASKED.pattern)
        start = read_ends([it[len("from "):] for it in rest.all("from ")], session.session)
        saved = replace(saved, asked=Asked(int(count), stamp, digest, start))
    if saved.spell() != text[:end.end()]:
        raise ValueError("it isn't spelled as one")
    return saved


class Rest:
    """The lines of a state that weren't read yet."""

    def __init__(self, lines: List[str]) -> None:
        """All of them."""
        self.lines = lines

    def take(self, pattern: str) -> Tuple[str, ...]:
        """The words of the next line. Raises ValueError where it is another one."""
        found = re.fullmatch(pattern, self.lines[0]) if self.lines else None
        if found is None:
            raise ValueError("a line is none of a state")
        del self.lines[0]
        return tuple(found.groups())

    def all(self, word: str) -> List[bytes]:
        """The next lines that begin so."""
        count = 0
        while count < len(self.lines) and self.lines[count].startswith(word):
            count += 1
        taken, self.lines = self.lines[:count], self.lines[count:]
        return [it.encode("ascii") for it in taken]


def octets_of(line: bytes) -> bytes:
    """The octets that stand in base64 after the first word of a line."""
    octets = decode(line.partition(b" ")[2])
    if octets is None:
        raise ValueError("a line holds no base64")
    return octets


class Damaged(Exception):
    """No file of the state is whole. `is_first` says whether it may be the first of all, which broke off."""

    def __init__(self, why: str, is_first: bool) -> None:
        super().__init__(why)
        self.is_first = is_first


def newest(read: Callable[[str], Optional[bytes]]) -> Optional[Saved]:
    """The state that counts: the whole one with the greater turn. None where there is no file. Raises Damaged."""
    texts = [read(it) for it in FILES]
    found: List[Saved] = []
    why = ""
    for number, text in enumerate(texts):
        try:
            saved = None if text is None else read_saved(text)
        except (ValueError, IndexError) as fault:
            why = f"{FILES[number]}: {fault}"
            continue
        if saved is not None and saved.turn % len(FILES) != number:
            raise Damaged(f"{FILES[number]}: it is the other file's", False)
        if saved is not None:
            found.append(saved)
    if not found and any(it is not None for it in texts):
        raise Damaged(why, texts[0] is None)
    return max(found, key=lambda it: it.turn) if found else None
