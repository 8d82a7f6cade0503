"""Which session `ssign-keys live` signs in: the one of the state, or another that begins."""
from __future__ import annotations

import argparse
import dataclasses
import os
import re
from typing import Dict, List, Optional, Tuple

from .counters_file import lines_of
from .defaults import fill, machine_name, most_hashes
from .faults import Fault
from .keys import PublicKey
from .known_sessions import keep_names
from .live_disk import OUT, STATE, Disk
from .live_engine import LONGEST, Engine, Trouble
from .live_log import Live, Older, older
from .live_state import FILES, Damaged, Saved, newest, prefix_of
from .manifest_form import read_manifest
from .ongoing import NAMES, OF_A_RUN, USUAL, is_same
from .programs import Refused
from .refusals import fault_of
from .session_file import KEPT, MOST_RSID, START, Ends, Ongoing, read_ends
from .texts import quoted
from .words import counted

NEW = "--new-session begins another"
COUNTERS = re.compile("counters-([0-9]{1,10})")
# a state, counters and what is left of them
LONGEST_STATE = 1 << 30
# where the system says which boot and which machine this is
BOOT, MACHINE = "/proc/sys/kernel/random/boot_id", "/etc/machine-id"


def identity(path: str) -> str:
    """An identity of this boot or machine; `-` where the system gives none."""
    try:
        with open(path, "rb") as file:
            text = file.read(100).strip().decode("ascii")
    except (OSError, ValueError):
        return "-"
    return text if re.fullmatch("[!-~]{1,100}", text) else "-"


class Starter:
    """Has a `Live` begin or go on, as the options and the state say."""

    def __init__(self, live: Live, arguments: argparse.Namespace, program: str, manifest: str, seconds: int) -> None:
        """`seconds` since 1970 are the RSID of a session that begins, unless one before had a greater one."""
        self._live = live
        self._disk: Disk = live.disk
        self._engine: Engine = live.engine
        self._key: PublicKey = live.sealer.public
        self._arguments = arguments
        self._program = program
        self._manifest = manifest
        self._seconds = seconds

    def is_first(self) -> bool:
        """Whether no session was begun here before."""
        return all(self._disk.size(STATE, it) is None for it in FILES)

    def start(self) -> None:
        """Begins a session or goes on. After it messages can be taken."""
        live, saved = self._live, self._read()
        if saved is None:
            self._begin(-1)
            return
        is_new: bool = self._arguments.new_session
        if is_new:
            keep_names(self._arguments, saved.session.options)
        else:
            self._settle(saved.session)
        newer = self._newer(saved)
        try:
            if newer is not None:
                live.turn = saved.turn
                raise older(newer)
            live.recover(saved)
        except Older:
            if not is_new:
                raise
            # what was signed after this state is another's to finish
            live.outside.tell("older", "the state is older than what was signed: its session is left as it is")
            self._begin(saved.session.rsid, is_left=True)
            return
        live.of_a_run = {it: getattr(self._arguments, it)[0] for it in OF_A_RUN if getattr(self._arguments, it)}
        if is_new or self._is_elsewhere(saved) or not saved.session.certificates:
            self._end(saved)
            self._begin(saved.session.rsid)
        else:
            # the next state says which boot this is
            live.saved = dataclasses.replace(live.state, boot=live.terms.boot)

    # ---- what is there

    def _read(self) -> Optional[Saved]:
        """The state; None where there is none. With --new-session one that is damaged is set aside."""
        if self._disk.size(STATE, "session") is not None:
            raise Fault("the folder of --state is one of `ssign-keys sign --state`: name another one (L2)")
        try:
            return newest(self._read_file)
        except Damaged as damaged:
            if damaged.is_first and not self._outputs() and self._last_counted() < 0:
                return None
            if not self._arguments.new_session:
                raise Fault(f"neither file of the state is whole ({damaged}), so nobody knows which numbers were given: put both "
                            "files back as they were, or begin another session with --new-session (L2)") from damaged
            for name in FILES:
                if self._disk.size(STATE, name) is not None:
                    self._disk.rename(STATE, name, f"damaged-{name}-{self._seconds}")
            self._disk.sync_folder(STATE)
            return None

    def _read_file(self, name: str) -> Optional[bytes]:
        """A file of the state."""
        size = self._disk.size(STATE, name)
        return None if size is None else self._disk.read(STATE, name, 0, min(size, LONGEST_STATE))

    def _outputs(self) -> List[Tuple[int, int]]:
        """The RSID and the number of each file of the output with this APP-NAME."""
        found = (re.fullmatch(re.escape(prefix_of(self._app())) + r"([0-9]{1,10})-([0-9]{6,12})\.frames", it)
                 for it in self._disk.names(OUT))
        return sorted((int(it[1]), int(it[2])) for it in found if it)

    def _app(self) -> str:
        """The APP-NAME."""
        if self._arguments.app:
            return str(self._arguments.app[0])
        saved = self._live.saved
        return saved.session.options["app"] if saved is not None else "signer"

    def _last_counted(self) -> int:
        """The greatest RSID of which the state has counters; -1 where it has none."""
        return max((int(it[1]) for it in map(COUNTERS.fullmatch, self._disk.names(STATE)) if it), default=-1)

    def _newer(self, saved: Saved) -> Optional[str]:
        """What was signed that the state doesn't know, in words; None where nothing shows that."""
        session = saved.session
        self._live.saved = saved
        last = max(self._outputs(), default=(-1, 0))
        if last > (session.rsid, saved.file):
            return f"the output has the file {last[1]} of the RSID {last[0]}"
        counted_rsid = self._last_counted()
        if counted_rsid > session.rsid or not self._counted(session).is_before(session.ends):
            return f"counters-{max(counted_rsid, session.rsid)} beside it goes further"
        for it in self._entries():
            if it[0] > session.rsid or it[0] == session.rsid and not it[1].is_before(session.ends):
                return "the manifest goes further"
        return None

    def _counted(self, session: Ongoing) -> Ends:
        """How far the counters file of a session goes: nowhere where it isn't as it was written."""
        text = self._read_file(f"counters-{session.rsid}")
        try:
            return START if text is None else read_ends(lines_of(text), session.session)
        except ValueError:
            return START

    def _entries(self) -> List[Tuple[int, Ends]]:
        """The RSID and the counters of each entry of the manifest with these names. One that can't be read is reported."""
        live = self._live
        try:
            entries = read_manifest(self._manifest).entries
        except Fault as fault:
            live.outside.tell("manifest", str(fault))
            return []
        names = None if live.saved is None else live.saved.session.session[:3]
        return [(int(it.session.rsid), it.ends) for it in entries if names is None or it.session[:3] == names]

    # ---- the session that goes on

    def _settle(self, session: Ongoing) -> None:
        """Raises Fault where an option says something else than the session (L3)."""
        if session.key != self._key.fingerprint:
            raise Fault(f"the session of the state is that of another key: name its key, or {NEW} (L3)")
        for option in KEPT:
            kept = session.options[option]
            given: List[str] = getattr(self._arguments, option, None) or []
            for it in given:
                if option not in OF_A_RUN and not is_same(option, it, kept):
                    what = NAMES.get(option, f"--{option}")
                    raise Fault(f"--{option} {quoted(it)}: {what} of the session of the state is {quoted(kept)}; {NEW} (L3)")

    def _is_elsewhere(self, saved: Saved) -> bool:
        """Whether another session begins because the machine was started anew, or is another one."""
        terms = self._live.terms
        return saved.machine != terms.machine or saved.boot != terms.boot and not self._arguments.keep_session

    def _end(self, saved: Saved) -> None:
        """Has the session end: what has no block gets one, and its counters are kept."""
        live = self._live
        if saved.session.key != self._key.fingerprint:
            if live.pending:
                live.outside.tell("left", f"{counted(len(live.pending), 'message')} of {live.name} stay without a block, because "
                                  "the key of that session isn't here")
            return
        while live.pending:
            live.patiently(live.begin_batch)
            while not self._is_finished():
                live.outside.wait(0.05)

    def _is_finished(self) -> bool:
        """Whether the batch is signed, or has to be asked for anew."""
        live = self._live
        try:
            return live.finish_batch()
        except Trouble as fault:
            live.outside.tell("wait", f"{fault}. The session before isn't ended until this is over (L5)")
            live.outside.wait(1.0)
            return True

    # ---- the session that begins

    def _begin(self, last: int, is_left: bool = False) -> None:
        """Begins a session. Its RSID is greater than that of each session that is known here."""
        live = self._live
        rsid = max([last, self._last_counted(), *(it[0] for it in self._outputs()), *(it[0] for it in self._entries())])
        arguments = argparse.Namespace(**vars(self._arguments))
        arguments.rsid = [str(max(rsid + 1, self._seconds))]
        arguments.max_len, arguments.stamp = [str(LONGEST)], [live.outside.stamp()]
        if int(arguments.rsid[0]) > MOST_RSID:
            raise Fault(f"no RSID is left: the greatest one is {MOST_RSID}, and the last session has {rsid}, or the clock is wrong"
                        ". Set the clock, or begin with other names, by --app, and other folders (L6)")
        fill(arguments, self._key)
        usual = {**USUAL, "host": machine_name(), "app": "signer"}
        options: Dict[str, str] = {it: (getattr(arguments, it) or [usual[it]])[0] for it in KEPT}
        if not self._arguments.count:
            options["count"] = str(most_hashes(arguments, self._key))
        session = Ongoing(self._key.fingerprint, options, START, ())
        try:
            live.patiently(lambda: self._engine.certificate_wants(session, live.outside.stamp()))
        except Refused as refused:
            raise fault_of(refused, self._program, arguments, None) or Fault("ssign refuses the options") from refused
        if is_left:
            live.leave()
        live.begin_session(session)

    def next_session(self) -> None:
        """Ends the session and begins another, as where its numbers are used up."""
        self._begin(self._live.session.rsid)
