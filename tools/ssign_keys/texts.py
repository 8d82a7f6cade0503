"""Finds the option whose text ssign refuses."""
from __future__ import annotations

import argparse
import subprocess
from typing import NamedTuple, Optional

from .commands import PATIENCE
from .words import shown_name

# how many characters of a text are shown
SHOWN = 60
# the options with a text, in the order in which ssign looks at them
TEXTS = ("payload", "stamp", "groups", "host", "app", "procid", "msgid")


class Given(NamedTuple):
    """An option, and its text."""

    option: str
    text: str


def quoted(text: str) -> str:
    """A text of the command line between quotes, or the front of a long one."""
    front = shown_name(text[:SHOWN])
    return f'"{front}.."' if len(text) > SHOWN else f'"{front}"'


def is_refused(program: str, given: Given) -> bool:
    """Whether ssign refuses this text alone, where no message is to be signed."""
    words = {"payload": "- N", given.option: given.text}
    try:
        run = subprocess.run([program, "plan", "--rsid=1", *(f"--{it}={text}" for it, text in words.items())],
                             stdin=subprocess.DEVNULL, capture_output=True, timeout=PATIENCE, check=False)
    except (OSError, ValueError, subprocess.SubprocessError):
        return False
    return run.stderr.startswith(b"ssign: P2")


def out_of_form(program: str, arguments: argparse.Namespace) -> Optional[Given]:
    """The first option whose text ssign refuses."""
    given = (Given(option, text) for option in TEXTS for text in getattr(arguments, option, None) or [])
    return next((it for it in given if is_refused(program, it)), None)


def not_utf8(arguments: argparse.Namespace) -> Optional[Given]:
    """The option whose text isn't UTF-8, which ssign refuses before all else."""
    for option, texts in vars(arguments).items():
        for text in texts if isinstance(texts, list) else []:
            if isinstance(text, str) and any("\udc80" <= it <= "\udcff" for it in text):
                return Given(option.replace("_", "-"), text)
    return None
