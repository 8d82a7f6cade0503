"""Which programs made a verdict: their versions, and the SHA-256 of what they are."""
from __future__ import annotations

import glob
import hashlib
import os
import shutil
from typing import Dict, NamedTuple, Optional, Tuple

from . import VERSION
from .digests import digest_of
from .programs import said, usual_program
from .words import shown_name

SCRIPT = b"#!"


class Program(NamedTuple):
    """A program: where it lies, the version that it states, and its SHA-256. None where neither can be known."""

    path: str
    version: Optional[str]
    sha256: Optional[str]
    named: str = ""
    """Who named it, if it isn't the one that is run where nobody does."""

    @property
    def place(self) -> str:
        """Where it lies, and who named it, for a person."""
        return f"{shown_name(self.path)}{f' ({self.named})' if self.named else ''}"

    def fields(self) -> Dict[str, object]:
        """As JSON has it."""
        return {"path": shown_name(self.path), "version": self.version, "sha256": self.sha256}


def ssign_facts(program: str, naming: str) -> Program:
    """The program ssign. `naming` is what named it, if it isn't the one that is run where nobody names one."""
    path, sha256 = found_at(program)
    usual = usual_program()
    is_other = program != usual and (usual is None or sha256 is None or found_at(usual)[1] != sha256)
    return Program(path, said(program, "--version"), sha256,
                   f"named by {naming}, not the one that belongs to ssign-keys" if is_other else "")


def found_at(program: str) -> Tuple[str, Optional[str]]:
    """Where a program lies, and its SHA-256. The script of the repository names the program that it runs."""
    path = shutil.which(program) or program
    try:
        with open(path, "rb") as file:
            is_script = file.read(len(SCRIPT)) == SCRIPT
        named = said(program, "--which") if is_script else None
        path = named if named is not None and os.path.isfile(named) else path
        return path, digest_of(path, path).sha256
    except OSError:
        return path, None


def tool_facts(name: str) -> Program:
    """The tool itself: the SHA-256 of what `sha256sum *.py */*.py` prints in the folder of its code (with LC_ALL=C)."""
    folder = os.path.dirname(os.path.realpath(__file__))
    hasher = hashlib.sha256()
    for pattern in ("*.py", "*/*.py"):
        for path in sorted(glob.glob(os.path.join(glob.escape(folder), pattern))):
            hasher.update(f"{digest_of(path, path).sha256}  {os.path.relpath(path, folder)}\n".encode("ascii"))
    return Program(folder, f"{name} {VERSION}", hasher.hexdigest())
