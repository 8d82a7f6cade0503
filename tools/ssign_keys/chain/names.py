"""The names of the files in a folder of signed logs, for whoever signs and whoever checks: what each ending says."""
from __future__ import annotations

import argparse
import fnmatch
import re
from typing import Dict, List, Optional, Sequence

from ..words import shown_name

SIGNED, ASIDE, NEW, STAMP = ".frames", ".set-aside", ".new", ".tsr"
BZIP2 = ".bz2"
# what a compression adds to a name, and the form that such a file has; None where it isn't read
PACKED: Dict[str, Optional[str]] = {".gz": "gzip", BZIP2: None, ".xz": "xz", ".zst": "zstd"}
# which files are logs, where nobody says it
MATCH = ("*.log*",)
# what logrotate adds to a name, at its end or before its extension: a number, or a date
ADDED = re.compile(r"[-._][0-9][-._:+0-9TZ]*(?=(?:\.[A-Za-z][A-Za-z0-9]*)?\Z)")
# a year and a month, a year of two digits with month and day, or seconds since 1970
DATE = re.compile(r"(?<![0-9])(?:(?:19|20)[0-9]{2}[-._]?(?:0[1-9]|1[0-2])|[0-9]{6}(?![0-9])|[0-9]{10}(?![0-9]))")
# of so many names a sentence has all
FEW = 4


def bare(name: str) -> str:
    """The name of a file without what a compression adds."""
    return next((name[:-len(it)] for it in PACKED if name.endswith(it) and len(name) > len(it)), name)


def is_signed(name: str) -> bool:
    """Whether a file of this name is a signed file."""
    return not name.startswith(".") and bare(name).endswith(SIGNED)


def is_stamp(name: str) -> bool:
    """Whether a file of this name is a time stamp of a signed file."""
    return name.endswith(STAMP) and is_signed(name[:-len(STAMP)])


def is_log(name: str, globs: Sequence[str]) -> bool:
    """Whether a file of this name is a log that is to be signed."""
    if name.startswith(".") or name.endswith(NEW) or is_stamp(name) or bare(name).endswith((SIGNED, ASIDE)):
        return False
    return any(fnmatch.fnmatchcase(it, glob) for it in (name, bare(name)) for glob in globs)


def read_glob(text: str) -> str:
    """A pattern of names, as an option gives it."""
    if not text or "/" in text:
        raise argparse.ArgumentTypeError(f"{text!r} is the pattern of no name of a file, which has no /")
    return text


def root(name: str) -> str:
    """The name that a log had before logrotate gave it this one, which has no compression."""
    return ADDED.sub("", name, count=1)


def is_dated(name: str) -> bool:
    """Whether logrotate gives this name to one log alone, because it has a date; others are given again."""
    added = ADDED.search(name)
    return added is not None and DATE.search(added[0]) is not None


def few(names: Sequence[str]) -> str:
    """Names of files for a sentence, of which a few are shown."""
    shown: List[str] = [shown_name(it) for it in names]
    return ", ".join(shown) if len(shown) <= FEW else f"{shown[0]}, {shown[1]} .. {shown[-1]}"
