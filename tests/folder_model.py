"""A second reader of the signed files of a folder, by docs/dev/FORMATS.md: it shares nothing with the tools.

`read_folder` gives them in the order of their RSID, and raises Wrong where one isn't as it has to be.
"""
import bz2
import datetime
import gzip
import hashlib
import json
import lzma
import os
import re
import subprocess
from typing import Dict, List, NamedTuple, Optional

LINK = re.compile(rb"<110>1 (\S+) (\S+) (\S+) (\S+) chain - (\{.*\})")
WRAP = re.compile(rb"<[0-9]+>1 - \S+ \S+ \S+ wrapped - \|")
EXPAND = {".gz": gzip.decompress, ".xz": lzma.decompress, ".bz2": bz2.decompress,
          ".zst": lambda it: subprocess.run(["zstd", "-dcq"], input=it, capture_output=True, check=True).stdout}


class Wrong(Exception):
    """A signed file isn't as it has to be."""


class File(NamedTuple):
    """A signed file."""

    name: str
    sha256: str
    names: bytes
    link: Dict
    originals: List[bytes]
    wrapped: int


def frames_of(octets: bytes) -> List[bytes]:
    """The messages of octet-counted frames."""
    found, at = [], 0
    while at < len(octets):
        space = octets.index(b" ", at)
        length = int(octets[at:space])
        if space + 1 + length > len(octets):
            raise Wrong("a frame is cut")
        found.append(octets[space + 1:space + 1 + length])
        at = space + 1 + length
    return found


def plain(path: str) -> bytes:
    """The octets of a file, expanded."""
    with open(path, "rb") as file:
        octets = file.read()
    expand = EXPAND.get(os.path.splitext(path)[1])
    return octets if expand is None else expand(octets)


def bare(name: str) -> str:
    root, extension = os.path.splitext(name)
    return root if extension in EXPAND else name


def is_block(message: bytes) -> bool:
    """Whether it is one of the signer's blocks: everything else that has such an element was wrapped."""
    return message.split(b" ", 6)[6][:6] in (b"[ssign",)


def read_file(path: str) -> File:
    """A signed file."""
    octets = plain(path)
    messages = frames_of(octets)
    mine = [it for it in messages if not is_block(it)]
    found = LINK.fullmatch(mine[0])
    if found is None:
        raise Wrong(f"{path}: its first message is no link: {mine[0][:100]!r}")
    link = json.loads(found[5])
    stamp = datetime.datetime.fromtimestamp(link["rsid"], datetime.timezone.utc).strftime("%Y-%m-%dT%H:%M:%SZ")
    if found[1].decode() != stamp:
        raise Wrong(f"{path}: its link has the time {found[1]!r}, and not {stamp}")
    if f'RSID="{link["rsid"]}"'.encode() not in messages[0]:
        raise Wrong(f"{path}: its link has another RSID than its blocks")
    if any(LINK.fullmatch(it) and it.split(b" ", 6)[2:5] == list(found.groups()[1:4]) for it in mine[1:]):
        raise Wrong(f"{path}: a second message is a link")
    wraps = [WRAP.match(it) for it in mine[1:]]
    originals = [it if wrap is None else it[wrap.end():] for it, wrap in zip(mine[1:], wraps)]
    return File(os.path.basename(path), hashlib.sha256(octets).hexdigest(), b" ".join(found.groups()[1:4]), link, originals,
                sum(it is not None for it in wraps))


def read_folder(folder: str) -> List[File]:
    """The signed files of a folder, by rising RSID."""
    names = [it for it in os.listdir(folder) if bare(it).endswith(".frames") and not it.startswith(".")]
    return sorted((read_file(os.path.join(folder, it)) for it in names), key=lambda it: it.link["rsid"])


def check_chain(files: List[File], beginnings: int = 1) -> None:
    """Raises Wrong where a file doesn't name the one before, or more of them begin a chain."""
    before: Optional[File] = None
    begun = 0
    for it in files:
        named = it.link["before"]
        if named is None:
            begun += 1
        elif before is None or named != {"name": bare(before.name), "rsid": before.link["rsid"], "sha256": before.sha256}:
            raise Wrong(f"{it.name} names {named} as the file before, and not {before and before.name}")
        if before is not None and before.link["rsid"] >= it.link["rsid"]:
            raise Wrong(f"{it.name} has the RSID of {before.name}")
        before = it
    if begun != beginnings:
        raise Wrong(f"{begun} files begin a chain, and not {beginnings}")


def check_part(folder: str, file: File, log: bytes, longest: int = 65536) -> None:
    """Raises Wrong where a signed file doesn't hold its part of a log."""
    part = file.link["log"]
    if hashlib.sha256(log[:part["end"]]).hexdigest() != part["sha256"]:
        raise Wrong(f"{file.name}: the SHA-256 of its log isn't that of {part['end']} octets")
    lines = log[part["start"]:part["end"]].split(b"\n")
    lines = lines[:-1] if lines[-1] == b"" else lines
    if part["empty"] != lines.count(b""):
        raise Wrong(f"{file.name}: it counts {part['empty']} empty lines, and not {lines.count(b'')}")
    lines = [it for it in lines if it]
    aside: List[bytes] = []
    if file.link["aside"] is not None:
        octets = plain(os.path.join(folder, file.link["aside"]["name"]))
        aside = frames_of(octets)
        wanted = {"name": file.name[:-len(".frames")] + ".set-aside", "messages": len(aside),
                  "sha256": hashlib.sha256(octets).hexdigest()}
        if file.link["aside"] != wanted:
            raise Wrong(f"{file.name}: it names {file.link['aside']}, and not {wanted}")
    short = [it for it in lines if len(it) <= longest - 100]
    if [it for it in file.originals if len(it) <= longest - 100] != short:
        raise Wrong(f"{file.name}: it doesn't hold the lines of its log")
    if sorted(file.originals + joined(aside)) != sorted(lines):
        raise Wrong(f"{file.name}: it and what was set aside aren't the lines of its log")


def joined(aside: List[bytes], most: int = 1048576) -> List[bytes]:
    """The lines that were set aside: one that is longer than a frame stands in several."""
    found: List[bytes] = []
    goes_on = False
    for it in aside:
        if goes_on:
            found[-1] += it
        else:
            found.append(it)
        goes_on = len(it) == most
    return found
