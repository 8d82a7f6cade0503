"""What stands against signing: messages that are none of RFC 5424, and logs that are signed other than they were sent."""
from __future__ import annotations

import re
import subprocess
from typing import List, Optional

from .commands import PATIENCE
from .explanations import first_sentence
from .frames import LONGEST, PIECE, read_at
from .logs import Log

UNPARSED = re.compile(rb"unparsed 0 (M[0-9]{1,2}) ([0-9]+)\n")


def said(program: str, log: Log, place: int) -> List[bytes]:
    """The frame of the message at a place of the log, and what ssign reports about it alone."""
    words = ["extract", f"--place={place}", f"--max-len={LONGEST}", *(["--lines"] if log.are_lines else [])]
    frame = subprocess.run([program, *words], stdin=log.rewind(), stdout=subprocess.PIPE, stderr=subprocess.DEVNULL,
                           timeout=PATIENCE, check=False).stdout
    return [frame, subprocess.run([program, "inspect", f"--max-len={LONGEST}"], input=frame, stdout=subprocess.PIPE,
                                  stderr=subprocess.DEVNULL, timeout=PATIENCE, check=False).stdout]


def part_that_fails(program: str, log: Log, place: int) -> str:
    """Which part of a message is wrong, as `ssign inspect` says: ` (M4 at its octet 5: ..)`, or nothing."""
    try:
        frame, line = said(program, log, place)
    except (OSError, subprocess.SubprocessError):
        return ""
    found = UNPARSED.match(line)
    if found is None:
        return ""
    octet = int(found[2])
    what = ", a CR" if frame.partition(b" ")[2][octet:octet + 1] == b"\r" else ""
    code = found[1].decode()
    return f" ({code} at its octet {octet}{what}: {first_sentence(program, code)})"


def warning(log: Log) -> Optional[str]:
    """What has to be said of a log that is signed, though nothing refuses it; None where nothing has."""
    if log.size == 0:
        return "the log is empty: its signed log says that a session began, and nothing else"
    if not log.are_lines:
        return None
    lines = ended = 0
    before = b""
    for at in range(0, log.size, PIECE):
        piece = read_at(log.file, at, PIECE)
        lines += piece.count(b"\n")
        ended += piece.count(b"\r\n") + (before == b"\r" and piece.startswith(b"\n"))
        before = piece[-1:]
    if not ended:
        return None
    which = "each line ends" if ended == lines else f"{ended} of {lines} lines end"
    return f"{which} with a CR, which is signed as a part of the message"
