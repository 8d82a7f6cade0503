"""Which messages surely can be signed as they are, without asking ssign: a part of RFC 5424 that is easy to see.

ssign decides in the end: what it refuses when it is to be signed is stored unsigned, and counted. A message that isn't sure
here is asked about before it is stored. So a mistake here loses nothing.
"""
from __future__ import annotations

import re
from calendar import isleap

# RFC 5424, section 6. Elements have ASCII alone and no escape, and their names no colon, which a block's never has either.
NAME = rb"[A-Za-z][A-Za-z0-9.@_-]{0,31}"
ELEMENT = rb"\[" + NAME + rb"(?: " + NAME + rb'="[ !#-\[^-~]*")*\]'
SURE = re.compile(rb"<(?:[0-9]|[1-9][0-9]|1[0-8][0-9]|19[01])>1 (-|[0-9T:.Z+-]{20,32}) [!-~]{1,255} [!-~]{1,48} [!-~]{1,128} "
                  rb"([!-~]{1,32}) (-|(?:" + ELEMENT + rb")+)(?: (.*))?", re.DOTALL)
ID = re.compile(rb"\[(" + NAME + rb")")
MARK = b"ssign"
WRAPPED = b"wrapped"
BOM = b"\xef\xbb\xbf"

# a day of a month, or the last one of February in a leap year
DAY = (rb"(?:[0-9]{4}-(?:(?:0[1-9]|1[0-2])-(?:0[1-9]|1[0-9]|2[0-8])|(?:0[13-9]|1[0-2])-(?:29|30)|(?:0[13578]|1[02])-31)"
       rb"|([0-9]{4})-02-29)")
TIME = rb"(?:[01][0-9]|2[0-3]):[0-5][0-9]"
STAMP = re.compile(rb"-|" + DAY + rb"T" + TIME + rb":[0-5][0-9](?:\.[0-9]{1,6})?(?:Z|[+-]" + TIME + rb")")


def is_sure(message: bytes) -> bool:
    """Whether a message surely is one of RFC 5424, no block, and no wrap."""
    found = SURE.fullmatch(message)
    if found is None or found[2] == WRAPPED or not is_stamp(found[1]):
        return False
    if found[3] != b"-":
        names = ID.findall(found[3])
        if len(set(names)) != len(names) or any(it.startswith(MARK) for it in names) or found[3].count(b"[") != len(names):
            return False
    return not (found[4] or b"").startswith(BOM)


def is_stamp(stamp: bytes) -> bool:
    """Whether this is a TIMESTAMP (RFC 5424, section 6.2.3), or `-`."""
    found = STAMP.fullmatch(stamp)
    return found is not None and (found[1] is None or isleap(int(found[1])))
