"""Signs each closed log of a folder that isn't signed yet, as a file of a chain (`ssign-keys sign --folder`).

Nothing is remembered beside the files: what is signed, their links say. So a run may be started by anything, as often as one
likes, and finishes what the one before it left.
"""
from __future__ import annotations

import argparse
import errno
import os
import time
from typing import BinaryIO, Iterator, List, Optional, Union

from ..faults import Fault
from ..files import reason
from ..keys import PrivateKey, read_private_key
from ..known_sessions import KnownSessions
from ..output import write_out
from ..store import replace
from ..words import counted, shown_name
from ..workplace import Workplace, finish, notify, put
from .folder import Busy, Chain, Folder, Signed, Whole
from .link import Before, Log
from .options import Options, options_of
from .names import bare, few, is_signed
from .reading import digests, open_in, plain_pieces
from .seen import Seen, seconds_of
from .to_sign import Finder, Part
from .verifying import Verifier
from .writing import Made, Source, Writer, passing_name

# where a run is stopped that begins a chain, this file has the greatest RSID of those before
BEGINS = passing_name("begins")
HOUR, DAY = 3600, 86400
# after so many times the time of a beat nothing is signed in the folder
BEATS = 2
# a signed file has a message for each line, one for its link, and its blocks: ssign reads ten million
MOST_LINES = 9_700_000


def run(arguments: argparse.Namespace) -> int:
    """Signs what is to be signed, and prints the names of the new files. Status 1 where a log can't be signed."""
    options = options_of(arguments)
    key = read_private_key(options.key)
    try:
        with Folder(options.folder) as folder, Workplace() as workplace:
            # a child that outlives a run that was killed keeps the lock
            workplace.kept_open = (folder.number,)
            signing = Run(options, folder, key, workplace)
            signing.sign_all()
            status = signing.notify()
    except Busy:
        return meet(options)
    write_out([f"{shown_name(it.signed.name)}\n".encode() for it in signing.made])
    return status


def meet(options: Options) -> int:
    """Says that another run has the folder. Status 1 if that can't be, because nothing was signed for too long."""
    with os.scandir(options.folder) as found:
        newest = max((it.stat(follow_symlinks=False).st_mtime for it in found if is_signed(it.name)), default=None)
    idle = 0 if newest is None else int((time.time() - newest) // HOUR)
    if options.beat is None or idle < BEATS * options.beat:
        notify(f"ssign-keys: another run signs the folder {shown_name(options.folder)} now; what it doesn't sign, the next run "
               "signs")
        return 0
    notify(f"ssign-keys: another process holds the lock of the folder {shown_name(options.folder)}, and nothing was signed for "
           f"{counted(idle, 'hour')}: see which it is (`lslocks`), and end it")
    return 1


class Run:
    """A run over a folder."""

    def __init__(self, options: Options, folder: Folder, key: PrivateKey, workplace: Workplace) -> None:
        """Reads what is there. Raises Fault where nobody knows after which file it is signed."""
        self._options = options
        self._folder = folder
        self._workplace = workplace
        self._known = KnownSessions(options.key)
        folder.read()
        self._clear()
        self._chain = Chain(folder, workplace)
        self._begins = options.begins or self._has_begun()
        if not self._begins:
            folder.remove(BEGINS)
        self._newest = None if self._begins else self._chain.newest()
        if self._newest is None and not self._begins:
            self._refuse_lost()
        self._verifier = Verifier(options.program, key.public, options.max_expanded, workplace)
        self._writer = Writer(folder, key, self._known, options.names, self._verifier, options.program, workplace)
        self._before: Optional[Before] = None
        self.made: List[Made] = []

    def _clear(self) -> None:
        """Removes what a run left that was stopped: each log of it is signed again."""
        for it in self._folder.drafts():
            if it != BEGINS:
                self._folder.remove(it)

    def _has_begun(self) -> bool:
        """Whether a run was stopped that began a chain, before the first file of it had its name."""
        if BEGINS not in self._folder.entries:
            return False
        try:
            with open_in(self._folder.number, BEGINS) as file:
                text = file.read(20).strip()
        except Fault:
            return False
        after = int(text) if text.lstrip(b"-").isdigit() else -1
        return all(it.link.before is not None or it.link.rsid <= after for it in self._chain.files)

    def _refuse_lost(self) -> None:
        """Refuses to begin a chain where the key has signed under these names before."""
        last = self._known.last(self._options.names.session(0)[:3])
        if last >= 0:
            raise Fault(f"there is no signed file in {self._folder.name}, and {self._known.name} knows a session of "
                        f"{' '.join(self._options.names)} with the RSID {last}: put the signed files back. If this key signed "
                        "them in another folder, or they are lost, --begin begins a chain")

    # ---- the whole of a run

    def sign_all(self) -> None:
        """Signs each log that is to be signed, or a beat. One log that fails keeps no other from it."""
        seen = Seen(self._options.folder)
        finder = Finder(self._folder, self._chain.known, seen, self._options.quiet, self._options.max_expanded, self._workplace)
        self._notes = finder.notes
        for part in finder.parts(self._folder.logs(self._options.match)):
            self._make_ready()
            try:
                while (end := self._sign(part)):
                    part = finder.rest(part.log, end)
            except (Fault, OSError) as fault:
                finder.trouble(part.log, why_of(fault))
        if not self.made and (self._begins or self._is_beat_due()):
            self._make_ready()
            self._take(self._writer.write(None, self._before, self._least(), None))
        seen.keep()
        if self.made and self._chain.gaps:
            names = few([it.name for it in self._chain.gaps])
            self._say(f"{names}: no link can be read there, and a later file names it as the one before: put a good copy in "
                      "its place")

    def _is_beat_due(self) -> bool:
        """Whether nothing was signed for so long."""
        if self._options.beat is None or self._newest is None:
            return self._options.beat is not None
        seen = self._folder.entries[self._newest.name]
        # a clock that was ahead gave an RSID that lies ahead
        return time.time() - min(self._newest.link.rsid, seen.st_mtime) >= self._options.beat * HOUR

    def _make_ready(self) -> None:
        """Sees, before the first file is signed, that the newest one is as this key signed it, or that a chain begins."""
        if self.made or self._before is not None:
            return
        if self._newest is not None:
            self._before = self._verified(self._newest)
            return
        self._refuse_ahead()
        if not self._options.begins:
            why = ", because a run with --begin was stopped before its first file" if self._begins else ""
            self._say(f"a chain begins in {self._folder.name}{why}")
        replace(os.path.join(self._options.folder, BEGINS), b"%d\n" % self._chain.last_rsid, 0o600)

    def _refuse_ahead(self) -> None:
        """Refuses to begin a chain after an RSID that nobody may have signed: it would use up those of the key."""
        if self._chain.last_rsid < time.time() + DAY:
            return
        last = self._chain.files[-1]
        try:
            with open_in(self._folder.number, last.name) as file:
                self._verifier.sha256(file, last.first)
        except Fault as fault:
            raise Fault(f"{shown_name(last.name)} states the RSID {last.link.rsid}, which lies ahead, and can't be verified with "
                        "this key: move it into another folder before a chain begins") from fault

    def _verified(self, newest: Signed) -> Before:
        """The newest file, once it is verified and on the disk."""
        try:
            with open_in(self._folder.number, newest.name) as file:
                os.fsync(file.fileno())
                sha256 = self._verifier.sha256(file, newest.first)
        except Fault as fault:
            raise Fault(f"{shown_name(newest.name)}, the newest signed file of {self._folder.name}, can't be verified with "
                        f"this key: {str(fault).rstrip('.')}. If it is damaged, put the last good copy in its place; if it "
                        "doesn't belong here, move it into another folder; if there is no copy, or the key was exchanged, "
                        "--begin begins a chain") from fault
        os.fsync(self._folder.number)
        return Before(bare(newest.name), newest.link.rsid, sha256)

    # ---- one file

    def _sign(self, part: Part) -> int:
        """Signs what is to be signed of a log. Gives the octet at which the next file goes on; 0 if there is none."""
        with open_in(self._folder.number, part.log) as file, self._workplace.new_file("lines") as lines:
            seen = os.fstat(file.fileno())
            front = Front(part.start, lines)
            pieces = plain_pieces(file, part.log, self._workplace, self._options.max_expanded)
            found = digests(front.pieces(pieces), [part.start])
            if part.start and Whole(part.start, found.fronts.get(part.start, "")) not in self._chain.known.signings:
                raise Fault("it was changed meanwhile: run again")
            log = Log(bare(part.log), part.start, found.size, found.sha256, 0, seconds_of(seen))
            made = self._writer.write(part.name, self._before, self._least(), Source(log, seen.st_mode, lines))
        self._take(made)
        return found.size if front.has_more else 0

    def _least(self) -> int:
        """The least RSID of the next file. Of a chain that goes on, only what the newest file states is verified."""
        return (self._chain.last_rsid if self._before is None else self._before.rsid) + 1

    def _take(self, made: Made) -> None:
        """Goes on after a signed file that was made."""
        self.made.append(made)
        self._before = made.before
        self._chain.known.add(made.signed.link.log)
        self._folder.remove(BEGINS)
        link = made.signed.link
        if link.log is not None and link.log.start:
            self._say(f"{shown_name(link.log.name)}: its lines after octet {link.log.start}, up to which it was signed before, "
                      f"are signed in {shown_name(made.signed.name)}")
        if link.aside is not None:
            what = counted(link.aside.messages, "message is too long to be signed, and stands in",
                           "messages are too long to be signed, and stand in")
            self._say(f"{what} {shown_name(link.aside.name)}, whose SHA-256 {shown_name(made.signed.name)} holds")

    @staticmethod
    def _say(sentence: str) -> None:
        notify(f"ssign-keys: {sentence}")

    def notify(self) -> int:
        """Names what isn't signed, and gives the status."""
        for it in [*self._notes.others, *self._notes.waits, *self._notes.troubles]:
            self._say(it)
        return 1 if self._notes.troubles else 0


def why_of(fault: Union[Fault, OSError]) -> str:
    """Why a log isn't signed, and what to do where the reason of the system says too little."""
    if isinstance(fault, Fault):
        return str(fault)
    if fault.errno == errno.ENAMETOOLONG:
        return "its name leaves no room for what a signed file has besides: give it a shorter one"
    return f"a file can't be read or written: {reason(fault)}"


class Front:
    """What one signed file has room for of a log, from an octet on."""

    def __init__(self, start: int, lines: BinaryIO) -> None:
        """It is put into a file."""
        self._start = start
        self._lines = lines
        self.has_more = False
        """Whether something stands after it."""

    def pieces(self, pieces: Iterator[bytes]) -> Iterator[bytes]:
        """The same pieces, as far as there is room."""
        at, left = 0, MOST_LINES
        for piece in pieces:
            if not left:
                self.has_more = True
                break
            begin = max(0, self._start - at)
            end = end_of_lines(piece, begin, left)
            left -= piece.count(b"\n", begin, end)
            put(self._lines, piece[begin:end])
            at += len(piece)
            yield piece[:end]
            if end < len(piece):
                self.has_more = True
                break
        finish(self._lines)


def end_of_lines(piece: bytes, at: int, most: int) -> int:
    """Where so many lines of a piece end, from an octet on at which a line begins or goes on; its end, where it has fewer."""
    if piece.count(b"\n", at) < most:
        return len(piece)
    for _ in range(most):
        at = piece.index(b"\n", at) + 1
    return at
