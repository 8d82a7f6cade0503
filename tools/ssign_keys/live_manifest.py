"""Has each ended file of `ssign-keys live` named in a manifest, with the counters with which it ends."""
from __future__ import annotations

import os
import re
import subprocess
from typing import Callable, Dict, List, Optional, Tuple

from .blocks import Session
from .digests import digest_of
from .faults import Fault
from .files import reason
from .live_engine import LONGEST
from .live_state import Saved, prefix_of
from .manifest_file import Appending
from .manifest_form import FIRST_SUM, Entry, Extent, read_manifest
from .payloads import present_stamp
from .store import replace
from .words import shown_name


class Book:
    """The manifest. What is wrong with it is reported, and keeps no message from being signed."""

    def __init__(self, path: str, out: str, program: str, tell: Callable[[str, str], None]) -> None:
        """The path of the manifest, the folder of the output, and whoever learns of faults."""
        self._path = path
        self._out = out
        self._program = program
        self._tell = tell

    def begin(self, is_first: bool) -> None:
        """Makes an empty manifest, where no session was begun before."""
        if os.path.lexists(self._path):
            return
        try:
            if not is_first:
                raise Fault(f"the manifest {shown_name(self._path)} is gone: put the last good copy in its place")
            replace(self._path, b"")
        except Fault as fault:
            self._tell("manifest", str(fault))

    def note(self, saved: Saved) -> None:
        """Adds an entry for each ended file that has none."""
        prefix = prefix_of(saved.session.options["app"])
        try:
            entries = read_manifest(self._path).entries
            names = {it.name for it in entries}
            found = (re.fullmatch(re.escape(prefix) + r"([0-9]{1,10})-([0-9]{6,12})\.frames", it) for it in os.listdir(self._out))
            files = sorted((int(it[1]), int(it[2]), it[0]) for it in found if it)
        except (Fault, OSError) as fault:
            self._tell("manifest", str(fault) if isinstance(fault, Fault) else f"the output can't be read: {reason(fault)}")
            return
        for rsid, number, name in files:
            if (rsid, number) >= (saved.session.rsid, saved.file) or name in names:
                continue
            try:
                entry = self._entry(name)
                with Appending(self._path, None) as appending:
                    appending.append(entry)
            except (Fault, OSError) as fault:
                why = str(fault) if isinstance(fault, Fault) else reason(fault)
                self._tell("manifest", f"{name} has no entry in the manifest {shown_name(self._path)}: {why}")

    def _entry(self, name: str) -> Entry:
        """The entry of a file, but for its number and the hash of the entry before."""
        path = os.path.join(self._out, name)
        session: Optional[Session] = None
        spans: Dict[Tuple[int, int], Tuple[int, int]] = {}
        gbc = 0
        for fields in self._blocks(path):
            if session not in (None, Session(*fields[2:6])):
                raise Fault("it has blocks of two sessions")
            session = Session(*fields[2:6])
            if fields[0] == b"signature":
                sg, spri, number, first, count = map(int, fields[6:])
                before = spans.get((sg, spri), (first, 0))
                spans[sg, spri] = min(first, before[0]), max(first + count - 1, before[1])
                gbc = max(gbc, number + 1)
        if session is None:
            raise Fault("it has no block")
        _, size, sha256 = digest_of(name, path)
        groups = tuple(Extent(*group, *spans[group]) for group in sorted(spans))
        return Entry(1, FIRST_SUM, present_stamp(), name, size, sha256, session, gbc, groups, None)

    def _blocks(self, path: str) -> List[List[bytes]]:
        """The words of the lines of `ssign inspect` about the blocks of a file."""
        with open(path, "rb") as file:
            ran = subprocess.run([self._program, "inspect", "--findings", f"--max-len={LONGEST}"], stdin=file,
                                 stdout=subprocess.PIPE, stderr=subprocess.PIPE, start_new_session=True, check=False)
        lines = [it.split(b" ") for it in ran.stdout.splitlines()]
        if ran.returncode not in (0, 1) or not lines or lines[-1][0] != b"end":
            raise Fault("ssign can't read it to its end")
        return [it for it in lines if it[0] in (b"signature", b"certificate")]
