"""The lines of a report of `ssign review`: their words and values, and long stretches of them."""
from __future__ import annotations

import json
from typing import BinaryIO, Iterator, List, Tuple, Union

from .blocks import Session
from .faults import Fault
from .words import shown_front

# lines are read by so many octets, so that a long stretch of `ok` lines is taken at once
PIECE = 1 << 16
# a long line isn't shown whole
SHOWN = 60

# what stands before the last two values of an object
NUMBER, PLACE = b',"number":', b',"place":'

# the values of a line: words as texts, and numbers
Values = List[Union[str, int]]


def wrong(what: str) -> Fault:
    """What is said of a report that can't be read."""
    return Fault(f"the report of ssign review is wrong, so there is no verdict: {what}")


def text_of(octets: bytes) -> str:
    """The front of a line for a complaint."""
    text, taken = shown_front(octets, SHOWN)
    return f"'{text}{' ..' if taken < len(octets) else ''}'"


def values_of(line: bytes) -> Tuple[str, Values]:
    """The word of a line of either form, and its values."""
    try:
        word, *values = json.loads(line).values() if line.startswith(b"{") else line.decode("ascii").split(" ")
    except (ValueError, AttributeError) as fault:
        raise wrong(f"it has a line of another kind, {text_of(line)}") from fault
    return word, values


def session_of(values: Values) -> Session:
    """The session that the first four values name."""
    host, app, procid, rsid = (str(it).encode("ascii") for it in values[:4])
    return Session(host, app, procid, rsid)


def front_of(line: bytes) -> bytes:
    """The front of an `ok` line up to its number."""
    return line.rsplit(b" ", 2)[0] + b" " if not line.startswith(b"{") else line[:line.rindex(NUMBER) + len(NUMBER)]


def stretches(report: BinaryIO) -> Iterator[bytes]:
    """The report in stretches of whole lines."""
    rest = b""
    while True:
        piece = report.read(PIECE)
        if not piece:
            break
        whole, line_end, behind = piece.rpartition(b"\n")
        if line_end:
            yield rest + whole + line_end
            rest = behind
        else:
            rest += piece
    if rest:
        raise wrong("it breaks off")
