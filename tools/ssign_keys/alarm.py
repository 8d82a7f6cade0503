"""`ssign-keys alarm`: whether the last clean check is too old, by the files of `check --status`. It reads nothing else."""
from __future__ import annotations

import argparse
import calendar
import time
from typing import Any, Dict, NamedTuple, Optional

from .check.options import span, utc
from .check.status import read_status
from .output import write_out
from .words import grouped, shown_line, shown_name

FORM = "%Y-%m-%dT%H:%M:%SZ"
USUAL = "2d"
# a time may be so many seconds after the clock of this machine
EARLY = 300
# how many letters of what another program wrote are shown
SHOWN = 300


class Answer(NamedTuple):
    """What a status file shows."""

    is_late: bool
    text: str


def add_arguments(parser: argparse.ArgumentParser) -> None:
    """Says which words the command takes."""
    parser.add_argument("--older", type=span, default=span(USUAL), metavar="TIME", help="how old the last clean check may be, as "
                        f"26h or 2d (default: {USUAL})")
    parser.add_argument("status", nargs="+", metavar="STATUS", help="a file of `ssign-keys check --status`")


def run(arguments: argparse.Namespace) -> int:
    """Prints a line for each file. Status 1 where a last clean check is too old, or isn't known."""
    now = int(time.time())
    answers = [(path, judge(read_status(path), arguments.older, now)) for path in arguments.status]
    write_out([f"{shown_name(path)}: {it.text}\n".encode("utf-8", "backslashreplace") for path, it in answers])
    return 1 if any(it.is_late for _, it in answers) else 0


def judge(status: Optional[Dict[str, Any]], older: int, now: int) -> Answer:
    """What the fields of a status file show at a time, where the last clean check may be so many seconds old."""
    if status is None:
        return Answer(True, "there is no file of a check, or it can't be read: see whether checks run, and where they write it")
    clean = moment_of(status.get("last_clean"))
    if clean is None:
        return Answer(True, f"no check was clean yet; {last_of(status)}")
    if clean > now + EARLY:
        return Answer(True, f"the last clean check was at {utc(clean)}, and the clock of this machine says {utc(now)}: one of the "
                      "two is wrong")
    if clean < now - older:
        return Answer(True, f"no check was clean for {grouped(older // 3600, 'hour')}: the last clean one was at {utc(clean)}; "
                      f"{last_of(status)}")
    return Answer(False, f"the last clean check was at {utc(clean)}")


def moment_of(text: object) -> Optional[int]:
    """A time of a status file, in seconds since 1970; None where it is none."""
    try:
        return calendar.timegm(time.strptime(str(text), FORM))
    except ValueError:
        return None


def last_of(status: Dict[str, Any]) -> str:
    """What the last check came to."""
    verdict, findings = shown_line(str(status.get("verdict"))[:SHOWN]), status.get("findings")
    first = f", first {shown_line(str(findings[0])[:SHOWN])}" if isinstance(findings, list) and findings else ""
    return f"the last one was at {shown_line(str(status['time'])[:SHOWN])}: {verdict}{first}"
