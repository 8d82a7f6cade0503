"""Sizes that options give: numbers of octets."""
from __future__ import annotations

import argparse
import re

SIZE = re.compile(r"([0-9]{1,15})([KMGT]?)")
# No longer payload is looked at, unless --max-payload says so: it isn't trusted. A DSA key has four numbers of at most
# 10,000 bits, which fit in a tenth of that; a certificate or an OpenPGP key of this length is none of a signer of logs.
LONGEST_PAYLOAD = 65536
UNITS = {"": 1, "K": 10 ** 3, "M": 10 ** 6, "G": 10 ** 9, "T": 10 ** 12}


def read_size(word: str) -> int:
    """A number of octets, which may end with K, M, G or T: thousands, millions and so on."""
    parts = SIZE.fullmatch(word) if word.isascii() else None
    if not parts or not int(parts[1]):
        raise argparse.ArgumentTypeError(f"'{word}' is no size such as 500M or 5G")
    return int(parts[1]) * UNITS[parts[2]]


def add_max_payload(parser: argparse.ArgumentParser) -> None:
    """Says how long a payload may be; `max_payload` of the parsed arguments."""
    parser.add_argument("--max-payload", type=read_size, default=LONGEST_PAYLOAD, metavar="SIZE", help="look at payloads of so "
                        "many octets; a longer one isn't trusted (default: 65536)")
