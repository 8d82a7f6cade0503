"""A session of `ssign-keys sign --state` as a file: what goes on from run to run (docs/dev/FORMATS.md, "A session that goes on").

The file is read by the rule that it is spelled in one way only: whatever was cut, doubled or changed is refused.
"""
from __future__ import annotations

import base64
import hashlib
import re
from dataclasses import dataclass
from typing import Dict, List, NamedTuple, Tuple

from .blocks import Session
from .counters_file import file_of
from .encoding import decode
from .schemes import SCHEMES

HEADING = b"ssign-keys session 1 %s\n"
DIGEST = rb"([0-9a-f]{64})"
# what stays as it was when the session began, in the order of its lines
KEPT = ("rsid", "payload", "pri", "host", "app", "procid", "msgid", "ver", "groups", "count", "frag", "copies")
VALUE = re.compile(rb"[ -~]+")
NUMBER = re.compile(rb"0|[1-9][0-9]{0,10}")
# what the counters of a session that hasn't begun are
LEAST_NUMBER = 1
MOST_COUNTED = 10000000000
MOST_RSID = 9999999999


class Ends(NamedTuple):
    """How far a session went."""

    gbc: int
    """The GBC of its next signature block."""
    groups: Tuple[Tuple[int, int, int], ...]
    """SG, SPRI and the next number of each group that has one, by SG and SPRI."""

    def file(self, session: Session) -> bytes:
        """As a counters file."""
        return file_of(self.lines(session))

    def lines(self, session: Session) -> bytes:
        """As lines of a counters file, without their end."""
        front = f"count {session}"
        lines = [f"{front} {self.gbc}", *(f"{front} {sg} {spri} {number}" for sg, spri, number in self.groups)]
        return "".join(f"{it}\n" for it in lines).encode("ascii")

    def number(self, group: Tuple[int, int]) -> int:
        """The next number of a group."""
        return next((it[2] for it in self.groups if it[:2] == group), LEAST_NUMBER)

    def is_before(self, later: Ends) -> bool:
        """Whether none of the later counters is less."""
        return self.gbc <= later.gbc and all(number <= later.number((sg, spri)) for sg, spri, number in self.groups)


START = Ends(0, ())


@dataclass(frozen=True)
class Ongoing:
    """A session that goes on."""

    key: str
    """The fingerprint of the key."""
    options: Dict[str, str]
    """The words of `ssign sign` that stay."""
    ends: Ends
    """The counters: no number and no GBC from them on was given."""
    certificates: Tuple[bytes, ...]
    """The messages of the certificate blocks, as they stand in front of each signed log; none before they are signed."""

    @property
    def session(self) -> Session:
        """Its names and its RSID."""
        host, app, procid, rsid = (self.options[it].encode("ascii") for it in ("host", "app", "procid", "rsid"))
        return Session(host, app, procid, rsid)

    @property
    def rsid(self) -> int:
        """Its number."""
        return int(self.options["rsid"])

    @property
    def frames(self) -> bytes:
        """The certificate blocks as frames."""
        return b"".join(b"%d %s" % (len(it), it) for it in self.certificates)

    def spell(self) -> bytes:
        """The octets of the file."""
        text = HEADING % self.key.encode("ascii")
        text += b"".join(f"{it} {self.options[it]}\n".encode("ascii") for it in KEPT)
        text += self.ends.lines(self.session)
        text += b"".join(b"certificate %s\n" % base64.b64encode(it) for it in self.certificates)
        return text + b"end %s\n" % hashlib.sha256(text).hexdigest().encode("ascii")


def read_ongoing(text: bytes) -> Ongoing:
    """The session that a file spells. Raises ValueError, with the reason, where it isn't spelled as one."""
    heading = re.match(HEADING % DIGEST, text)
    if heading is None:
        raise ValueError("it doesn't begin as one")
    body, _, end = text[:-1].rpartition(b"\n")
    if not text.endswith(b"\n") or not re.fullmatch(b"end " + DIGEST, end):
        raise ValueError("its end is missing")
    if end != b"end %s" % hashlib.sha256(body + b"\n").hexdigest().encode("ascii"):
        raise ValueError("it isn't what was written")
    lines = body.split(b"\n")[1:]
    options = read_options(lines[:len(KEPT)])
    counters = [it for it in lines[len(KEPT):] if it.startswith(b"count ")]
    certificates = [decode(it.partition(b" ")[2]) for it in lines[len(KEPT) + len(counters):]]
    read = Ongoing(heading[1].decode("ascii"), options, START, tuple(it for it in certificates if it))
    read = Ongoing(read.key, options, read_ends(counters, read.session), read.certificates)
    if read.spell() != text:
        raise ValueError("it isn't spelled as one")
    return read


def read_options(lines: List[bytes]) -> Dict[str, str]:
    """The words that stay."""
    options: Dict[str, str] = {}
    for name, line in zip(KEPT, lines):
        word, _, value = line.partition(b" ")
        if word != name.encode("ascii") or not VALUE.fullmatch(value):
            raise ValueError(f"its line of {name} is none")
        options[name] = value.decode("ascii")
    if len(options) != len(KEPT):
        raise ValueError("it has too few lines")
    if not NUMBER.fullmatch(options["rsid"].encode("ascii")) or int(options["rsid"]) > MOST_RSID:
        raise ValueError("its RSID is none")
    if options["ver"].encode("ascii") not in SCHEMES:
        raise ValueError("its VER is none")
    return options


def read_ends(lines: List[bytes], session: Session) -> Ends:
    """The counters that these lines spell, all of one session. Raises ValueError, with the reason, where they aren't."""
    front = f"count {session} ".encode("ascii")
    gbcs: List[int] = []
    groups: List[Tuple[int, int, int]] = []
    for line in lines:
        fields = line[len(front):].split(b" ")
        if not line.startswith(front) or not all(NUMBER.fullmatch(it) and int(it) <= MOST_COUNTED for it in fields):
            raise ValueError("a line of its counters is none of this session")
        if len(fields) == 1:
            gbcs.append(int(fields[0]))
        elif len(fields) == 3:
            groups.append((int(fields[0]), int(fields[1]), int(fields[2])))
        else:
            raise ValueError("a line of its counters is none")
    if len(gbcs) != 1 or [it[:2] for it in groups] != sorted({it[:2] for it in groups}):
        raise ValueError("its counters contradict each other")
    if any(not LEAST_NUMBER <= number for _, _, number in groups):
        raise ValueError("a number of its counters is none")
    return Ends(gbcs[0], tuple(groups))
