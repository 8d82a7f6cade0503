"""What a log that can't be read most likely is, by its first octets."""
from __future__ import annotations

import re
from typing import Optional

from .expand import form_of

# the front of a log, by which it is known
FRONT = 512
PACKED = "it is compressed by %s: hand over its contents (`%s`)"
WIDE = "this is a text in UTF-16, and a log is stored as it was sent"
CAPTURE = "this is a capture of packets, and no log"
JOURNAL = "this is the journal of systemd, and no log: `ssign-keys live --journal` signs its messages"
OBJECTS = "these are objects of JSON, and no messages: have the daemon write the form of RFC 5424"
LINES = "this looks like one message a line: use --lines"
# what no log begins with, where it stands, and what the file is. Where one row begins as another does, the longer one is first
KINDS = (
    (0, b"BZh", PACKED % ("bzip2", "bzcat")),
    (0, b"PK\x03\x04", PACKED % ("zip", "unzip -p")),
    (0, b"\x04\x22\x4d\x18", PACKED % ("lz4", "lz4cat")),
    (0, b"\x1f\x9d", PACKED % ("compress", "zcat")),
    (0, b"7z\xbc\xaf\x27\x1c", PACKED % ("7-Zip", "7z x -so")),
    (0, b"LZIP", PACKED % ("lzip", "lzip -dc")),
    (0, b"Rar!\x1a\x07", PACKED % ("RAR", "unrar p -inul")),
    # POSIX.1-2001, pax
    (257, b"ustar", "this is an archive of tar: hand over a log of it (`tar -xOf ARCHIVE LOG`)"),
    # the four orders of octets of pcap, and pcapng
    *((0, it, CAPTURE) for it in (b"\xd4\xc3\xb2\xa1", b"\xa1\xb2\xc3\xd4", b"\x4d\x3c\xb2\xa1", b"\xa1\xb2\x3c\x4d",
                                b"\x0a\x0d\x0d\x0a")),
    *((0, it, JOURNAL) for it in (b"LPKSHHRH", b"__CURSOR=", b"__REALTIME_TIMESTAMP=", b'{"__CURSOR"', b'{"__REALTIME_TIMESTAMP"')),
    (0, b"ElfFile\0", "this is an event log of Windows, and no log of messages"),
    *((0, it, OBJECTS) for it in (b"{", b"[{")),
    (0, b"\xef\xbb\xbf", "it begins with a byte order mark, which is no part of a message: remove it (`tail -c +4`)"),
    (0, b"\xff\xfe", WIDE),
    (0, b"\xfe\xff", WIDE),
    (0, b"-----BEGIN ", "this is a file of keys or certificates, and no log"),
    (0, b"\n", "it begins with a line feed, and no message is empty: remove it (`tail -n +2`)"),
    (0, b"\r\n", "it begins with a CR and a line feed, and no message is empty: remove them (`tail -n +2`)"),
)
FRAMED = re.compile(rb"[1-9][0-9]{0,6} ")
SURELY_FRAMED = re.compile(rb"[1-9][0-9]{0,6} <[0-9]{1,3}>1 ")
# in a first line a length, perhaps with a mistake in it, and a message
NEARLY_FRAMED = re.compile(rb"[^\n]*[0-9][^<\n]{0,3}<[0-9]{1,3}>")


def looks_framed(front: bytes) -> bool:
    """Whether a log begins like one of octet-counted frames."""
    return FRAMED.match(front) is not None


def is_surely_framed(front: bytes) -> bool:
    """Whether a log begins with a frame and the front of a message of RFC 5424."""
    return SURELY_FRAMED.match(front) is not None


def likely_cause(front: bytes) -> Optional[str]:
    """What a log is that begins with no frame, or None where nobody can guess it."""
    form = form_of(front)
    if form is not None:
        return f"it is compressed by {form} twice: expand it once"
    for place, octets, what in KINDS:
        if front.startswith(octets, place):
            return what
    if NEARLY_FRAMED.match(front) is None and is_text(front):
        return LINES
    return None


def looks_lined(front: bytes) -> bool:
    """Whether a log is one message a line, though it doesn't begin with `<`: its first line is a text without a length."""
    line, end, _ = front.partition(b"\n")
    return bool(end) and not line.isdigit() and not looks_framed(front) and likely_cause(front) == LINES


def is_text(front: bytes) -> bool:
    """Whether a first line stands there that somebody could read."""
    line, end, _ = front.partition(b"\n")
    return bool(end or len(front) > 1) and all(it >= 32 and it != 127 or it in b"\t\r\x1b" for it in line)
