"""A counters file as octets: lines `count`, and a last one that says how many they are (docs/dev/FORMATS.md, "A counters file")."""
from __future__ import annotations

from typing import List


def file_of(lines: bytes) -> bytes:
    """A counters file of these lines."""
    return lines + b"end %d\n" % lines.count(b"\n")


def lines_of(file: bytes) -> List[bytes]:
    """The lines `count` of a counters file, or of several one after the other. Raises ValueError where it isn't whole."""
    found: List[bytes] = []
    begun = 0
    *lines, rest = file.split(b"\n")
    for line in lines:
        if not line.startswith(b"end "):
            found.append(line)
        elif line == b"end %d" % (len(found) - begun):
            begun = len(found)
        else:
            raise ValueError("an end of its counters says another number than there are")
    if rest or begun < len(found) or not lines:
        raise ValueError("its counters have no end, as where the file was cut off")
    return found
