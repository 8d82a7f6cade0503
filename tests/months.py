"""A month of one session, night by night, for tests/months.sh.

    months.py sign SSIGN-KEYS KEYS LOGS MANIFEST     signs 30 nights, and prints how many messages they have
    months.py damage LOGS TO STEP                    copies the logs, and damages every STEP-th; prints the damages
    months.py relist MANIFEST LOGS TO                has a manifest name the octets of these logs
    months.py ends MANIFEST NIGHT                    prints how far the session went with this night, as counters
    months.py compare DAMAGES VERDICT                what was done to each night, and whether its review shows it
"""
from __future__ import annotations

import hashlib
import json
import os
import random
import shutil
import subprocess
import sys
from typing import Callable, Dict, List, Tuple

NIGHTS = 30
# nights without a message
SILENT = (6, 17, 18)


def frames_of(octets: bytes) -> List[bytes]:
    """The messages of whole frames (RFC 6587, section 3.4.1)."""
    found, at = [], 0
    while at < len(octets):
        space = octets.index(b" ", at)
        length = int(octets[at:space])
        found.append(octets[space + 1:space + 1 + length])
        at = space + 1 + length
    return found


def joined(messages: List[bytes]) -> bytes:
    """Messages as frames."""
    return b"".join(b"%d %s" % (len(it), it) for it in messages)


def name_of(night: int) -> str:
    """The name of a signed log."""
    return f"night-{night:02d}.frames"


def sign(tool: str, keys: str, logs: str, manifest: str) -> int:
    """Signs a month."""
    rng, total = random.Random(57), 0
    open(manifest, "wb").close()
    for night in range(1, NIGHTS + 1):
        count = 0 if night in SILENT else rng.randrange(3, 25)
        texts = [f"message {it} of night {night}" for it in range(count)]
        lines = [f"<{rng.choice((13, 14, 165))}>1 - gate app {night} - - {it}" for it in texts]
        total += count
        path = os.path.join(logs, name_of(night))
        with open("plain", "w", encoding="ascii") as file:
            file.write("".join(f"{it}\n" for it in lines))
        begin = ["--new-session", "--rsid", "7"] if night == 1 else []
        with open(path, "wb") as out:
            subprocess.run([tool, "sign", "--state", "state", *begin, "--key", f"{keys}/private-key.pem", "--host", "gate", "--app",
                            "signer", "--count", "5", "--lines", "plain"], stdout=out, stderr=subprocess.DEVNULL, check=True)
        if os.path.exists("counters"):
            os.remove("counters")
        subprocess.run([tool, "verify", "--key", f"{keys}/public-key.pem", "--counters-out", "counters", path],
                       stdout=subprocess.DEVNULL, stderr=subprocess.DEVNULL, check=False)
        subprocess.run([tool, "manifest", "add", manifest, path, "--counters", "counters"], stdout=subprocess.DEVNULL, check=True)
    print(total)
    return 0


# ---- damages. Each takes the messages of a night, those of another one, and a source of chance, and gives what is left

def is_block(message: bytes) -> bool:
    """Whether it holds the mark of a block."""
    return b"[ssign" in message


def places(messages: List[bytes], blocks: bool) -> List[int]:
    """Where blocks stand, or other messages."""
    return [at for at, it in enumerate(messages) if is_block(it) == blocks]


Damage = Callable[[List[bytes], List[bytes], random.Random], List[bytes]]


def without_message(messages: List[bytes], other: List[bytes], rng: random.Random) -> List[bytes]:
    """One message is gone."""
    at = rng.choice(places(messages, False))
    return messages[:at] + messages[at + 1:]


def changed(messages: List[bytes], other: List[bytes], rng: random.Random) -> List[bytes]:
    """One message has another letter."""
    at = rng.choice(places(messages, False))
    return [*messages[:at], messages[at] + b"x", *messages[at + 1:]]


def put_in(messages: List[bytes], other: List[bytes], rng: random.Random) -> List[bytes]:
    """A message that nobody signed is there."""
    return [*messages, b"<13>1 - gate app - - - of a stranger"]


def without_last_block(messages: List[bytes], other: List[bytes], rng: random.Random) -> List[bytes]:
    """The last block is gone, with what it announces."""
    at = places(messages, True)[-1]
    before = places(messages, True)[-2]
    return messages[:before + 1] + messages[at + 1:]


def without_first_block(messages: List[bytes], other: List[bytes], rng: random.Random) -> List[bytes]:
    """The first signature block is gone."""
    at = next(at for at in places(messages, True) if b"[ssign " in messages[at])
    return messages[:at] + messages[at + 1:]


def only_certificates(messages: List[bytes], other: List[bytes], rng: random.Random) -> List[bytes]:
    """Only the certificate blocks are left."""
    return [it for it in messages if b"[ssign-cert" in it]


def without_certificates(messages: List[bytes], other: List[bytes], rng: random.Random) -> List[bytes]:
    """The certificate blocks are gone."""
    return [it for it in messages if b"[ssign-cert" not in it]


def foreign_block(messages: List[bytes], other: List[bytes], rng: random.Random) -> List[bytes]:
    """A block of another night is there, with its messages."""
    end = next(at for at in places(other, True) if b"[ssign " in other[at])
    return messages + [it for it in other[:end + 1] if b"[ssign-cert" not in it]


def moved(messages: List[bytes], other: List[bytes], rng: random.Random) -> List[bytes]:
    """It is another night."""
    return other


def emptied(messages: List[bytes], other: List[bytes], rng: random.Random) -> List[bytes]:
    """Nothing is left but one certificate block."""
    return [next(it for it in messages if b"[ssign-cert" in it)]


DAMAGES: Tuple[Damage, ...] = (without_message, changed, put_in, without_last_block, without_first_block, only_certificates,
                               without_certificates, foreign_block, moved, emptied)
# those that want a message, two blocks, or more than certificate blocks
OF_MESSAGES = (without_message, changed, without_last_block, without_first_block, only_certificates, without_certificates)


def damage(logs: str, to: str, step: int) -> int:
    """Copies the logs, and damages some."""
    shutil.copytree(logs, to)
    rng = random.Random(58)
    nights: Dict[int, List[bytes]] = {}
    for night in range(1, NIGHTS + 1):
        with open(os.path.join(logs, name_of(night)), "rb") as file:
            nights[night] = frames_of(file.read())
    loud = [it for it in nights if it not in SILENT]
    for at, night in enumerate(range(1, NIGHTS + 1, step)):
        kind = DAMAGES[at % len(DAMAGES)]
        if night in SILENT:
            kind = put_in if kind in OF_MESSAGES else kind
        other = nights[rng.choice([it for it in loud if it != night])]
        damaged = kind(nights[night], other, rng)
        assert damaged != nights[night], (night, kind.__name__)
        with open(os.path.join(to, name_of(night)), "wb") as file:
            file.write(joined(damaged))
        print(night, kind.__name__)
    return 0


def relist(manifest: str, logs: str, to: str) -> int:
    """Has a manifest name these octets: the review alone has to find what was done."""
    previous = "0" * 64
    with open(manifest, encoding="ascii") as source, open(to, "w", encoding="ascii") as out:
        for line in source:
            fields = json.loads(line)
            with open(os.path.join(logs, fields["name"]), "rb") as file:
                octets = file.read()
            fields.update(previous=previous, size=len(octets), sha256=hashlib.sha256(octets).hexdigest())
            line = json.dumps(fields, separators=(",", ":")) + "\n"
            previous = hashlib.sha256(line.encode("ascii")).hexdigest()
            out.write(line)
    return 0


def ends(manifest: str, last: int) -> int:
    """Prints the greatest counters of the first nights."""
    most: Dict[str, int] = {}
    with open(manifest, encoding="ascii") as file:
        for line in list(file)[:last]:
            for counter in json.loads(line)["counters"]:
                front, number = counter.rsplit(" ", 1)
                most[front] = max(most.get(front, 0), int(number))
    for front, number in most.items():
        print(front, number)
    print("end", len(most))
    return 0


def compare(damages: str, verdict: str) -> int:
    """Whether the review of each night alone shows what was done to it."""
    done = {}
    with open(damages, encoding="ascii") as file:
        for line in file:
            night, kind = line.split()
            done[int(night)] = kind
    wrong = []
    with open(verdict, encoding="ascii") as file:
        for line in file:
            fields = json.loads(line)
            if fields["line"] == "night" and fields["night"] in done:
                kind = done.pop(fields["night"])
                if fields["status"] != 1:
                    wrong.append(f"night {fields['night']}, {kind}: {fields['verdict']}")
    wrong += [f"night {night}, {kind}: no line" for night, kind in done.items()]
    print("\n".join(wrong))
    return 1 if wrong else 0


def main(words: List[str]) -> int:
    """Does what the words say."""
    command, given = words[0], words[1:]
    if command == "sign":
        return sign(*given)
    if command == "damage":
        return damage(given[0], given[1], int(given[2]))
    if command == "relist":
        return relist(*given)
    if command == "ends":
        return ends(given[0], int(given[1]))
    return compare(*given)


if __name__ == "__main__":
    sys.exit(main(sys.argv[1:]))
