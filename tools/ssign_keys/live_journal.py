"""The journal of systemd as messages of RFC 5424 (`ssign-keys live --journal`), with the place that was confirmed kept.

journalctl writes it in the export format (systemd.io/JOURNAL_EXPORT_FORMATS), which has each octet of a field. The cursor of the
last entry whose message is on the disk is in the folder of the state, so the next start goes on after it.
"""
from __future__ import annotations

import contextlib
import os
import re
import shlex
import signal
import subprocess
import time
from typing import Dict, Iterator, List, Optional, Tuple

from .faults import Fault
from .files import open_regular, reason
from .live_engine import LONGEST
from .live_input import PIECE, Piece
from .live_loop import Loop
from .words import shown_front

# the file with the cursor, in the folder of the state
CURSOR = "journal-cursor"
CURSOR_FORM = re.compile(rb"[!-~]{1,1000}\n")
FIELDS = ("MESSAGE", "MESSAGE_ID", "PRIORITY", "SYSLOG_FACILITY", "SYSLOG_IDENTIFIER", "_COMM", "_PID", "SYSLOG_PID", "_HOSTNAME",
          "_SOURCE_REALTIME_TIMESTAMP")
NAME = re.compile(rb"[A-Z0-9_]{1,64}")
LENGTH = 8
# how long the end of the command is waited for, in seconds
PATIENCE = 5.0
# systemd.journal-fields(7): what journalctl takes where an entry has none
USUAL_PRIORITY, USUAL_FACILITY = 6, 1
MOST_FACILITY, MOST_PRIORITY = 23, 7
HOST, APP, PROCID = 255, 48, 128
MESSAGE_ID = re.compile(rb"[0-9a-f]{32}")
Fields = Dict[bytes, List[bytes]]
# octets that are no field, or too many for one
NO_FIELD = (b"-", b"")


def message_of(fields: Fields) -> bytes:
    """The message of RFC 5424, section 6, for an entry. What its header can't hold is written as `_`, or cut off."""
    priority = number_of(fields, b"PRIORITY", MOST_PRIORITY, USUAL_PRIORITY)
    facility = number_of(fields, b"SYSLOG_FACILITY", MOST_FACILITY, USUAL_FACILITY)
    stamp = stamp_of(fields)
    host = word_of(fields, HOST, b"_HOSTNAME")
    app = word_of(fields, APP, b"SYSLOG_IDENTIFIER", b"_COMM")
    procid = word_of(fields, PROCID, b"_PID", b"SYSLOG_PID")
    known = fields.get(b"MESSAGE_ID", [b""])[0]
    header = b"<%d>1 %s %s %s %s %s -" % (8 * facility + priority, stamp, host, app, procid,
                                          known if MESSAGE_ID.fullmatch(known) else b"-")
    text = b"\n".join(fields.get(b"MESSAGE", []))
    return b"%s %s" % (header, text) if text else header


def number_of(fields: Fields, name: bytes, most: int, usual: int) -> int:
    """The number in a field."""
    text = fields.get(name, [b""])[0]
    return int(text) if re.fullmatch(rb"[0-9]{1,2}", text) and int(text) <= most else usual


def word_of(fields: Fields, most: int, *names: bytes) -> bytes:
    """The first of these fields that is there, as a word of a header; `-` where none is."""
    for name in names:
        text = fields.get(name, [b""])[0]
        if text:
            return re.sub(rb"[^!-~]", b"_", text[:most])
    return b"-"


def stamp_of(fields: Fields) -> bytes:
    """When the message was sent, or else when the journal received it, as a TIMESTAMP."""
    for name in (b"_SOURCE_REALTIME_TIMESTAMP", b"__REALTIME_TIMESTAMP"):
        text = fields.get(name, [b""])[0]
        if re.fullmatch(rb"[0-9]{1,17}", text):
            seconds, rest = divmod(int(text), 1000000)
            moment = time.gmtime(seconds)
            if moment.tm_year <= 9999:
                return b"%s.%06dZ" % (time.strftime("%Y-%m-%dT%H:%M:%S", moment).encode("ascii"), rest)
    return b"-"


class Journal:
    """What journalctl writes, in place of standard input."""

    def __init__(self, command: str, state: str) -> None:
        """The words of the command, as a shell reads them, and the folder with the cursor."""
        try:
            self._words = shlex.split(command)
        except ValueError as fault:
            raise Fault(f"--journal: a shell can't read it: {fault}") from fault
        if not self._words:
            raise Fault("--journal is empty")
        self.cursor = read_cursor(os.path.join(state, CURSOR))
        self._kept = self.cursor
        self.has_ended = False
        self._child: Optional[subprocess.Popen[bytes]] = None
        self._held = bytearray()
        # where the next LF is looked for
        self._from = 0
        self._fields: Fields = {}
        # of a field that is too long: how many octets are to come; of a line, whether its end is to come
        self._left = 0
        self._is_long_line = False
        self._is_long = False

    def start(self) -> None:
        """Starts the command, whose output takes the place of standard input."""
        words = [*self._words, "--follow", "--no-tail", "--output=export", f"--output-fields={','.join(FIELDS)}"]
        if self.cursor:
            words.append(f"--after-cursor={self.cursor.decode('ascii')}")
        try:
            self._child = subprocess.Popen(words, stdin=subprocess.DEVNULL, stdout=subprocess.PIPE, start_new_session=True)
        except OSError as fault:
            raise Fault(f"the journal command {self._words[0]} can't be run: {reason(fault)}") from fault
        assert self._child.stdout is not None
        os.dup2(self._child.stdout.fileno(), 0)
        self._child.stdout.close()

    def refuse_end(self) -> None:
        """Refuses an end of the command, which should go on for ever."""
        if self.has_ended and self._child is not None:
            raise Fault(f"the journal command {self._words[0]} ended with the status {self._child.wait(PATIENCE)}. What it wrote is "
                        "signed; the next start goes on after it")

    def close(self) -> None:
        """Ends the command."""
        if self._child is not None:
            with contextlib.suppress(OSError):
                os.killpg(self._child.pid, signal.SIGTERM)
            try:
                self._child.wait(PATIENCE)
            except subprocess.TimeoutExpired:
                with contextlib.suppress(OSError):
                    os.killpg(self._child.pid, signal.SIGKILL)
                self._child.wait()

    def take_cursor(self) -> Optional[bytes]:
        """The cursor of the last entry that was given, where it isn't kept yet."""
        if self.cursor == self._kept:
            return None
        self._kept = self.cursor
        return self.cursor + b"\n"

    # ---- entries

    def read(self) -> Iterator[Piece]:
        """Reads once, and gives the messages of the entries that are whole then. One that breaks off comes again."""
        try:
            octets = os.read(0, PIECE)
        except OSError as fault:
            raise Fault(f"the journal can't be read: {reason(fault)}") from fault
        if not octets:
            self.has_ended = True
        self._held += octets
        while True:
            if self._left or self._is_long_line:
                piece = self._long_piece()
                if not piece:
                    return
                yield Piece(piece, False, False)
                continue
            field = self._field()
            if field is None:
                return
            if field is not NO_FIELD and field[0]:
                self._fields.setdefault(field[0], []).append(field[1])
            elif field is not NO_FIELD and (self._fields or self._is_long):
                yield self._entry()

    def _entry(self) -> Piece:
        """The message of the entry that has ended."""
        fields, self._fields = self._fields, {}
        cursor = fields.get(b"__CURSOR", [b""])[0]
        if not CURSOR_FORM.fullmatch(cursor + b"\n"):
            raise Fault("the journal command wrote an entry without a cursor, so nobody knows where to go on: it has to be journalctl")
        self.cursor = cursor
        if self._is_long:
            self._is_long = False
            return Piece(b"", False, True)
        message = message_of(fields)
        return Piece(message, len(message) <= LONGEST, True)

    def _field(self) -> Optional[Tuple[bytes, bytes]]:
        """The next field; one without a name where an entry ends; None where more has to come."""
        held = self._held
        end = held.find(b"\n", self._from)
        if end < 0:
            self._from = len(held)
            if len(held) > LONGEST:
                self._begin_long(held.find(b"=") + 1)
                self._is_long_line = True
                return NO_FIELD
            return None
        name, equals, value = bytes(held[:end]).partition(b"=")
        if not name and not equals:
            self._drop(1)
            return b"", b""
        if name.startswith(b"-- "):
            self._drop(end + 1)
            return NO_FIELD
        if not NAME.fullmatch(name):
            raise Fault(f"the journal command wrote `{shown_front(name, 20)[0]}` where a field begins: it has to be journalctl")
        if equals:
            self._drop(end + 1)
            return name, value
        return self._long_field(name, end + 1)

    def _long_field(self, name: bytes, at: int) -> Optional[Tuple[bytes, bytes]]:
        """A field whose length stands before its octets."""
        held = self._held
        self._from = at - 1
        if len(held) < at + LENGTH:
            return None
        length = int.from_bytes(held[at:at + LENGTH], "little")
        start = at + LENGTH
        if length > LONGEST:
            self._begin_long(start)
            # and the LF after it
            self._left = length + 1
            return NO_FIELD
        if len(held) <= start + length:
            return None
        value = bytes(held[start:start + length])
        self._drop(start + length + 1)
        return name, value

    def _begin_long(self, at: int) -> None:
        """Begins to put a field aside, which no message can hold."""
        self._drop(at)
        self._is_long = True

    def _long_piece(self) -> bytes:
        """Octets of a field that is too long."""
        if self._is_long_line:
            end = self._held.find(b"\n") + 1
            self._is_long_line = not end
            size = end or len(self._held)
        else:
            size = min(self._left, len(self._held))
            self._left -= size
        piece = bytes(self._held[:size])
        self._drop(size)
        return piece

    def _drop(self, size: int) -> None:
        """Takes octets from the front."""
        del self._held[:size]
        self._from = 0


def read_cursor(path: str) -> bytes:
    """The cursor in a file; nothing where it isn't there."""
    try:
        with open(open_regular(path, os.O_RDONLY), "rb") as file:
            text = file.read(2000)
    except FileNotFoundError:
        return b""
    except OSError as fault:
        raise Fault(f"the cursor {path} can't be read: {reason(fault)}") from fault
    if not CURSOR_FORM.fullmatch(text):
        raise Fault(f"{path} holds no cursor of the journal: remove it to sign the journal from its beginning, or write the cursor "
                    "into it that `journalctl --show-cursor` prints")
    return text[:-1]


class JournalLoop(Loop):
    """Takes entries of the journal. The cursor is kept once their messages are on the disk."""

    def _read(self) -> None:
        """Takes what was read, has it on the disk, and keeps the cursor."""
        super()._read()
        assert isinstance(self._source, Journal)
        cursor = self._source.take_cursor()
        if cursor is not None:
            self._live.sync()
            self.keep_cursor(cursor)

    def keep_cursor(self, cursor: bytes) -> None:
        """Keeps how far the journal was read."""
        self._live.replace(CURSOR, cursor)
