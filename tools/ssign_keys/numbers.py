"""Numbers of the command line."""
from __future__ import annotations

import argparse
from typing import Callable

MOST_JOBS = 1024


def number(least: int, most: int) -> Callable[[str], int]:
    """Reads a number from `least` to `most`, in no more digits than `most` has."""
    def read(text: str) -> int:
        if not (text.isascii() and text.isdigit() and len(text) <= len(str(most)) and least <= int(text) <= most):
            raise argparse.ArgumentTypeError(f"{text!r} isn't a number from {least} to {most}")
        return int(text)
    return read


def add_jobs(parser: argparse.ArgumentParser) -> None:
    """Says how many processes check signatures; `jobs` of the parsed arguments."""
    parser.add_argument("--jobs", type=number(1, MOST_JOBS), default=1, metavar="N", help="check signatures by so many "
                        "processes (default: 1)")
