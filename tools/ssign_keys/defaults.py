"""What `ssign-keys sign` says to ssign where an option isn't given: the payload, VER and the most hashes in a block."""
from __future__ import annotations

import argparse
import os
from typing import List, Optional

from .faults import Fault
from .keys import PublicKey
from .payloads import present_stamp, state_key
from .schemes import SCHEMES, USUAL, Scheme, scheme_for
from .stated import refuse_other_key

# The most hashes of a signature block (RFC 5848, section 4.2.6): the fewer blocks, the fewer signatures.
MOST_HASHES = 99
# the longest message that ssign reads without --max-len
USUAL_LENGTH = 65536
# what the header of a block has where no option says it
USUAL_FIELDS = {"pri": "110", "stamp": "-", "host": "-", "app": "-", "procid": "-", "msgid": "-"}
# SG, SPRI, GBC, FMN and CNT at their longest
ELEMENT = ('[ssign VER="0121" RSID="{rsid}" SG="0" SPRI="191" GBC="9999999999" FMN="9999999999" CNT="99" HB="" '
           'SIGN=""]')


def fill(arguments: argparse.Namespace, key: PublicKey) -> None:
    """Puts in what wasn't given. Raises Fault where the key doesn't go with the VER or the payload that was."""
    for text in arguments.payload or []:
        refuse_other_key(text.encode("utf-8", "surrogateescape"), key, "the payload of --payload")
    arguments.payload = arguments.payload or [state_key(key, present_stamp()).decode("ascii")]
    arguments.ver = arguments.ver or [scheme_for(key.numbers.q.bit_length()).name]
    scheme = scheme_of(arguments)
    if key.numbers.q.bit_length() > scheme.hash_bits:
        raise Fault(f"--ver {arguments.ver[0]} has a hash of {scheme.hash_bits} bits, and the number q of the key has "
                    f"{key.numbers.q.bit_length()}: leave --ver out, or use another key")
    arguments.count = arguments.count or [str(most_hashes(arguments, key))]


def machine_name() -> str:
    """The name of this machine as a HOSTNAME (RFC 5424, section 6): what can't stand in one becomes a hyphen."""
    return "".join(it if "!" <= it <= "~" else "-" for it in os.uname().nodename)[:255] or "-"


def scheme_of(arguments: argparse.Namespace) -> Scheme:
    """What --ver says. Another word is for ssign to refuse."""
    return SCHEMES.get(arguments.ver[0].encode("utf-8", "surrogateescape"), USUAL)


def most_hashes(arguments: argparse.Namespace, key: PublicKey) -> int:
    """The most hashes for a block that is no longer than --max-len, so that a reader with the same limit reads it.

    At least 1: where no block fits, a reader refuses the signed log.
    """
    hash_octets = scheme_of(arguments).hash_octets
    given = {name: only(getattr(arguments, name)) or usual for name, usual in USUAL_FIELDS.items()}
    header = "<{pri}>1 {stamp} {host} {app} {procid} {msgid} ".format(**given)
    element = ELEMENT.format(rsid=only(arguments.rsid))
    # SIGN is two numbers below q, each with its count of bits
    number = 2 + (key.numbers.q.bit_length() + 7) // 8
    fixed = len(header) + len(element) + in_base64(2 * number)
    return max(1, min(MOST_HASHES, (longest(arguments) - fixed + 1) // (in_base64(hash_octets) + 1)))


def longest(arguments: argparse.Namespace) -> int:
    """What --max-len says, or would say. A word that is no number is for ssign to refuse."""
    word = only(arguments.max_len)
    return int(word) if word and word.isascii() and word.isdigit() and len(word) < 10 else USUAL_LENGTH


def only(values: Optional[List[str]]) -> Optional[str]:
    """The value of an option that was given once. ssign refuses one that was given twice."""
    return values[0] if values else None


def in_base64(octets: int) -> int:
    """How long so many octets are in base64."""
    return (octets + 2) // 3 * 4
