"""Makes the key pair of an originator, and the payload that states it."""
from __future__ import annotations

import argparse
import os
from typing import Dict, List

from .faults import Fault
from .files import reason
from .keys import PrivateKey
from .payloads import present_stamp, state_key
from .schemes import SCHEMES, SHA1, SHA256, USUAL

PRIVATE, PUBLIC, PAYLOAD = "private-key.pem", "public-key.pem", "payload"


def add_arguments(parser: argparse.ArgumentParser) -> None:
    """Says which words the command takes."""
    parser.add_argument("folder", metavar="DIR", help=f"the folder that gets {PRIVATE}, {PUBLIC} and {PAYLOAD}")
    parser.add_argument("--ver", choices=[it.name for it in SCHEMES.values()], default=USUAL.name,
                        help=f"{SHA256.name}: a key of {SHA256.p_bits} bits, whose number q has {SHA256.q_bits}, for "
                             f"{SHA256.hash_name}; {SHA1.name}: a weak key of {SHA1.p_bits} bits, whose q has {SHA1.q_bits}, "
                             f"for {SHA1.hash_name}, which {SHA256.hash_name} can be used with too "
                             f"(default: {USUAL.name})")


def run(arguments: argparse.Namespace) -> int:
    """Makes the three files."""
    folder = arguments.folder
    if not os.path.isdir(folder):
        raise Fault(f"there is no folder {folder}: make it first")
    for name in (PRIVATE, PUBLIC, PAYLOAD):
        path = os.path.join(folder, name)
        if os.path.lexists(path):
            raise Fault(f"there is a file {path}, which is not overwritten")
    scheme = SCHEMES[arguments.ver.encode("ascii")]
    key = PrivateKey.generate(scheme.p_bits, scheme.q_bits)
    keep(folder, {PRIVATE: key.pem(), PUBLIC: key.public.pem(), PAYLOAD: state_key(key.public, present_stamp()) + b"\n"})
    return 0


def keep(folder: str, texts: Dict[str, bytes]) -> None:
    """Writes files that aren't there yet: all of them, or none."""
    made: List[str] = []
    try:
        for name, text in texts.items():
            path = os.path.join(folder, name)
            mode = 0o600 if name == PRIVATE else 0o666
            with open(os.open(path, os.O_WRONLY | os.O_CREAT | os.O_EXCL, mode), "wb") as file:
                made.append(path)
                file.write(text)
    except OSError as fault:
        for it in made:
            os.unlink(it)
        raise Fault(f"{path} can't be written: {reason(fault)}") from fault
