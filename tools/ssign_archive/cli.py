"""The command line of ssign-archive: its commands, in the order of their use."""
from __future__ import annotations

from typing import Sequence

from ssign_keys import usage

TOOL = usage.Tool(
    name="ssign-archive",
    purpose="Cuts the log of a collector into parts, and writes the messages of a part.",
    commands={
        "split": "cut a log into parts that can be reviewed apart",
        "join": "write the messages of all logs of a folder, as one log",
    },
    examples={
        "split": ("ssign-archive split --by host collector.log.gz archive",),
        "join": ("ssign-archive join archive/gate | ssign questions > questions",),
    },
    package=__package__,
)


def main(words: Sequence[str]) -> int:
    """Runs the command that the words name. Gives the status of the process."""
    return usage.main(TOOL, words)
