"""The options of `check`, as one value that is handed on."""
from __future__ import annotations

import argparse
import re
import time
from dataclasses import dataclass
from typing import Optional, Tuple

from .. import expand as expand_options
from .. import stamped
from ..chain.names import MATCH, read_glob
from ..faults import Fault
from ..numbers import MOST_JOBS, number
from ..programs import add_program_argument, find_program
from . import keys as key_options
from .keys import Keys
from .part import Part, part

# each file is read again within so many runs, though nothing shows that it changed
TURNS = 30
SPAN = re.compile(r"([0-9]{1,6})([hd])")
HOURS = {"h": 1, "d": 24}
# a log waits for its signed file for so many seconds, where no option names a time
LATE = 26 * 3600


@dataclass(frozen=True)
class Options:
    """What was asked for. Times are in seconds."""

    folders: Tuple[str, ...]
    keys: Keys
    program: str
    memory: str
    is_begun: bool
    accept: Tuple[str, ...]
    why: str
    expect: Optional[int]
    keep: Optional[int]
    match: Tuple[str, ...]
    reads_all: bool
    jobs: int
    part: Optional[Part]
    """The share of the files that is verified, if that is all that is done."""
    status: Optional[str]
    shows_head: bool
    is_json: bool
    tsa_ca: Tuple[str, ...]
    tsa_ca_anchor: Tuple[str, ...]
    html: Optional[str]
    """Where the page is wanted."""

    @property
    def late(self) -> int:
        """After so many seconds a log without its signed file is a finding."""
        return LATE if self.expect is None else self.expect


def span(text: str) -> int:
    """A time of hours or days, in seconds."""
    found = SPAN.fullmatch(text) if text.isascii() else None
    if found is None or not int(found[1]):
        raise argparse.ArgumentTypeError(f"{text!r} is no time such as 26h or 400d")
    return int(found[1]) * HOURS[found[2]] * 3600


def add_arguments(parser: argparse.ArgumentParser) -> None:
    """Says which words the command takes."""
    key_options.add_arguments(parser)
    expand_options.add_arguments(parser)
    parser.add_argument("--memory", required=True, metavar="DIR", help="the folder in which checks remember what they saw; "
                        "nothing else may write to it")
    parser.add_argument("--begin", action="store_true", help="begin the memory: what is there now is taken for all there was")
    parser.add_argument("--accept", action="append", default=[], metavar="NAME", help="accept a finding of the last check, by "
                        "its name, as long as the same is seen; may be given several times; needs --why")
    parser.add_argument("--why", metavar="TEXT", help="why it is accepted")
    parser.add_argument("--expect", type=span, metavar="TIME", help="a file has to come at least each TIME, as 26h or 2d: "
                        "else it is a finding")
    parser.add_argument("--keep", type=span, metavar="TIME", help="what was checked may be removed after TIME, as 400d")
    parser.add_argument("--match", action="append", type=read_glob, metavar="GLOB", help="which other files are logs that have "
                        f"to be signed, by their names (default: {MATCH[0]}); can be given several times")
    parser.add_argument("--read", choices=["all"], metavar="all", help="read all files, and not only those that are new or changed and a "
                        "thirtieth of the others")
    parser.add_argument("--jobs", type=number(1, MOST_JOBS), default=1, metavar="N",
                        help="verify so many files at once (default: 1)")
    parser.add_argument("--part", type=part, metavar="K/N", help="only verify the K-th of N shares of the files that need it, "
                        "and leave what came of it in the memory for the next check; all N may run at once, on many machines")
    parser.add_argument("--status", metavar="FILE", help="replace FILE by what was found, in JSON, at the end of each check")
    parser.add_argument("--head", action="store_true", help="also print the newest file of each originator, with its SHA-256")
    parser.add_argument("--json", action="store_true", help="print an object of JSON for each finding, each originator and "
                        "the verdict")
    parser.add_argument("--html", metavar="FILE", help="also write a page for people to FILE, with a grid of the files by day; "
                        "an older page there is replaced")
    stamped.add_authorities(parser)
    add_program_argument(parser)
    parser.add_argument("folders", nargs="+", metavar="DIR", help="the folder of an originator, by whose name it is known; or "
                        "one that holds such folders")


def read_options(arguments: argparse.Namespace) -> Options:
    """The options, where they go together."""
    if bool(arguments.accept) != (arguments.why is not None):
        raise Fault("--accept NAME and --why TEXT go together: say why a finding is accepted")
    if arguments.why is not None and not arguments.why.strip():
        raise Fault("--why is empty: say why the finding is accepted")
    if arguments.part is not None and (arguments.accept or arguments.expect or arguments.keep or arguments.match
                                       or arguments.status or arguments.head or arguments.json):
        raise Fault("--part only verifies: leave --accept, --expect, --keep, --match, --status, --head and --json to the check "
                    "after it")
    keys = key_options.read_keys(arguments)
    return Options(tuple(arguments.folders), keys, find_program(arguments), arguments.memory, arguments.begin,
                   tuple(arguments.accept), arguments.why or "", arguments.expect, arguments.keep,
                   tuple(arguments.match or MATCH), arguments.read == "all", arguments.jobs, arguments.part,
                   arguments.status, arguments.head, arguments.json, tuple(arguments.tsa_ca), tuple(arguments.tsa_ca_anchor),
                   arguments.html)


def utc(seconds: int) -> str:
    """A time in UTC."""
    return time.strftime("%Y-%m-%dT%H:%M:%SZ", time.gmtime(seconds))
