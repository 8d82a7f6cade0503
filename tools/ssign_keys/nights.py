"""Verifies every night of a manifest between its own counters, each by itself, and gives one verdict on all of them.

A night is the log of one entry. It begins at the counters with which the entries before it end, and ends at its own.
"""
from __future__ import annotations

import argparse
import contextlib
import json
import os
from dataclasses import dataclass, field
from typing import BinaryIO, Dict, Iterator, List, NamedTuple, Optional, Sequence, Tuple

from . import checked, json_verdict, program_facts, strangers, times
from .blocks import Session
from .cli import main
from .commands import BUDGET
from .counters_file import file_of
from .digests import Digest
from .faults import Fault
from .forked import Forked
from .json_text import compact
from .manifest import logs_in
from .manifest_findings import Found, Stored, bare, differs, of_manifest, seen_up_to
from .manifest_form import Entry, Manifest, Reached, read_manifest
from .manifested import read_marks
from .options_given import REPEATED_NOT, given_options
from .output import file_pieces, write_out
from .programs import find_program
from .progress import Progress
from .stamped import check_stamps, refuse_lone
from .summaries import FEW, Runs
from .text_verdict import LONG
from .trust import read_public_keys
from .verdict import at_least, unbound
from .words import grouped, shown, shown_name, spelled
from .workplace import Workplace, finish, put

# options of `verify` that speak of one log, each with the name of its value
OF_ONE_LOG = {"whole": "whole", "counters": "counters", "from": "begin", "manifest": "manifest",
              "from-manifest": "from_manifest", "raw": "raw", "details": "details", "hostname": "hostname", "findings": "findings",
              "html": "html", "answers-out": "answers_out", "counters-out": "counters_out"}
# what a check of a night loads where it comes to it: loaded here, before the nights are forked, it is loaded once
LOADED = (checked, json_verdict, program_facts, times)
# a longer line of what is said of one night is cut
MOST_SAID = 2000

Group = Tuple[int, int]


class Night(NamedTuple):
    """A night that can be verified."""

    number: int
    """Which of the entries of logs it is, from 1."""
    entry: Entry
    path: str
    begin: bytes
    """The counters with which it begins, as lines."""
    end: bytes
    """The counters with which it ends."""


class Vouched(NamedTuple):
    """What is known of the payload that vouches for the session of a night."""

    fingerprint: str
    """That of its key."""
    certificate: Optional[str]
    """That of the certificate in it, if it has one."""
    time: str

    def words(self) -> str:
        """In words."""
        certificate = f", certificate SHA-256 {self.certificate}" if self.certificate else ""
        stated = "without a time" if self.time == "-" else f"of {self.time}"
        return f"one {stated}, key SHA-256 {self.fingerprint}{certificate}"


@dataclass
class Judged:
    """What is known of a night."""

    number: int
    entry: Entry
    status: int
    """0 if it is clean, 1 if it isn't, 2 if it couldn't be judged."""
    said: str
    """Its verdict, or why there is none."""
    listed: Optional[int] = None
    ignored: int = 0
    """How many blocks of strangers were ignored."""
    unbound: List[str] = field(default_factory=list)
    """The file of each key that could have signed any session; empty where there is one such key."""
    vouched: Optional[Vouched] = None
    """None where its session isn't joined."""

    def text(self) -> str:
        """As a line for a person."""
        return f"Night {self.number} (entry {self.entry.number}, {shown_name(self.entry.name)}): {self.said}"

    def fields(self) -> Dict[str, object]:
        """As JSON has it."""
        host, app, procid, rsid = self.entry.session
        return {"line": "night", "night": self.number, "entry": self.entry.number, "name": shown_name(self.entry.name),
                "host": spelled(host), "app": spelled(app), "procid": spelled(procid), "rsid": int(rsid), "status": self.status,
                "listed": self.listed, "verdict": self.said}


@dataclass
class Verdict:
    """All nights together."""

    judged: List[Judged] = field(default_factory=list)
    found: List[Found] = field(default_factory=list)
    ends: Dict[Session, Reached] = field(default_factory=dict)
    stamps: List[str] = field(default_factory=list)
    """What time stamps of the manifest show, each in a sentence."""
    left_out: int = 0
    """How many numbers runs left out that were stopped, as far as that was seen before."""

    @property
    def status(self) -> int:
        """The worst of the nights; at least 1 where the manifest shows something, or there is no night."""
        worst = max((it.status for it in self.judged), default=1)
        return at_least(worst, self.found)

    def sentence(self) -> str:
        """In one line, with what time stamps show."""
        ignored = sum(it.ignored for it in self.judged)
        strange = [f"{strangers.ignored_words(ignored)}."] if ignored else []
        no_keys: List[str] = []
        keys = max((it.unbound for it in self.judged), key=len, default=no_keys)
        return " ".join([self._of_nights(), *strange, *unbound(keys), *self.stamps])

    def _of_nights(self) -> str:
        """What the nights come to."""
        count = len(self.judged)
        clean = sum(it.status == 0 for it in self.judged)
        if not count:
            return f"FINDINGS: the manifest names no night{self._differences()}."
        span = "Night 1" if count == 1 else f"Nights 1 to {count}"
        if self.status == 0:
            all_clean = "clean" if count == 1 else f"all {count} clean"
            return f"{span}: {all_clean}; {self._numbers()}{self._left_out()}."
        front = "FINDINGS" if self.status == 1 else "NOT ALL JUDGED"
        said = f"{front}: {span[0].lower()}{span[1:]}: {clean} of {grouped(count, 'night')} {'is' if clean == 1 else 'are'} clean"
        for status, what in ((1, "with findings"), (2, "not judged")):
            runs = Runs()
            for it in self.judged:
                if it.status == status:
                    runs.add(it.number)
            if runs.count:
                said += f"; {what}: {'night' if runs.count == 1 else 'nights'} {runs}"
        return said + self._differences() + "."

    def _differences(self) -> str:
        count = len(self.found)
        return f"; {grouped(count, 'difference from the manifest', 'differences from the manifest')}" if count else ""

    def _left_out(self) -> str:
        """Which numbers aren't there, as was seen before."""
        count = self.left_out
        return f", but for {grouped(count, 'number')} that stopped runs left out" if count else ""

    def _groups(self) -> Iterator[Tuple[Session, Group, int]]:
        """Each group with its last number, if it has one."""
        for session, ends in self.ends.items():
            for group, number in sorted(ends.groups.items()):
                if number > 1:
                    yield session, group, number - 1

    def _numbers(self) -> str:
        """Which numbers are there."""
        groups = list(self._groups())
        if not groups:
            return "no message was signed in them, and nothing else is there"
        if len(groups) == 1:
            return f"{numbers_words(groups[0][2])} there, {'and' if groups[0][2] == 1 else 'each once, and'} nothing else is"
        shown_groups = [f"{' '.join(map(shown, session))}, SG {sg}, SPRI {spri}: {span(last)}"
                        for session, (sg, spri), last in groups[:FEW]]
        more = f"; and {grouped(len(groups) - FEW, 'more group')}" if len(groups) > FEW else ""
        return f"these numbers are there, each once, and nothing else is: {'; '.join(shown_groups)}{more}"

    def fields(self) -> Dict[str, object]:
        """The verdict as JSON has it."""
        groups = []
        for session, (sg, spri), last in self._groups():
            host, app, procid, rsid = session
            groups.append({"host": spelled(host), "app": spelled(app), "procid": spelled(procid), "rsid": int(rsid), "sg": sg,
                           "spri": spri, "last": last})
        left_out = {"left_out": self.left_out} if self.left_out else {}
        return {"line": "verdict", "status": self.status, "verdict": self.sentence(), "nights": len(self.judged),
                "clean": sum(it.status == 0 for it in self.judged), "findings": len(self.found), "groups": groups, **left_out}


def span(last: int) -> str:
    """The numbers from 1 on."""
    return "number 1" if last == 1 else f"numbers 1 to {last:,}"


def numbers_words(last: int) -> str:
    """The numbers from 1 on, with their verb."""
    return f"{span(last)} {'is' if last == 1 else 'are'}"


def run(arguments: argparse.Namespace) -> int:
    """Prints what each night is, and one verdict. Gives its status."""
    for option, name in OF_ONE_LOG.items():
        if getattr(arguments, name):
            raise Fault(f"--{option} doesn't go with --nights, which judges many logs: it is of one log")
    refuse_lone(arguments)
    kept, seen = read_marks(arguments)
    program, progress = find_program(arguments), Progress()
    try:
        with Workplace() as workplace:
            manifest = read_manifest(arguments.nights)
            verdict = Verdict(found=of_manifest(manifest, kept, seen))
            nights = find_nights(manifest, Given(arguments.logs, arguments.nights), verdict, seen_up_to(manifest, seen))
            digest = Digest(manifest.path, manifest.size, manifest.sha256)
            verdict.stamps = check_stamps(arguments, None, digest, workplace).sentences
            words = [it for it in given_options(of_each_night(arguments)) if it not in REPEATED_NOT]
            look_at_keys([*arguments.keys, *(it for _, it in arguments.session_key)])
            run_nights = Nights(["--ssign", program, *words], workplace, progress)
            verdict.judged += run_nights.judge(nights, arguments.jobs)
            verdict.judged.sort(key=lambda it: it.number)
            compare_payloads(verdict.judged)
            out = workplace.new_file("out")
            for line in lines_of(verdict, arguments.json):
                put(out, f"{line}\n".encode("ascii" if arguments.json else "utf-8", "backslashreplace"))
            finish(out)
            progress.clear()
            write_out(file_pieces(out))
            return verdict.status
    finally:
        progress.clear()


def look_at_keys(files: Sequence[str]) -> None:
    """Has the numbers of these keys looked at, which takes as long as a night. What is found stays known where it forks.

    Each night reads them again, and says what is wrong with them. A pipe is left to it.
    """
    for it in files:
        with contextlib.suppress(Fault):
            if os.path.isfile(it):
                read_public_keys(it)


def of_each_night(arguments: argparse.Namespace) -> argparse.Namespace:
    """The arguments without those about the manifest."""
    return argparse.Namespace(**{**vars(arguments), "manifest_last": None, "manifest_seen": None, "stamped": [], "tsa_ca": [],
                                 "tsa_ca_anchor": []})


def lines_of(verdict: Verdict, is_json: bool) -> Iterator[str]:
    """What is printed."""
    if is_json:
        yield from (it.line() for it in verdict.found)
        yield from (compact(it.fields()) for it in verdict.judged)
        yield compact(verdict.fields())
        return
    said = f"Verdict: {verdict.sentence()}"
    lines = ["Manifest:", *(f"  {it.text()}" for it in verdict.found)] if verdict.found else []
    lines += [it.text() for it in verdict.judged if it.status]
    yield from [said, *lines, said] if len(lines) >= LONG else [*lines, said]


class Given:
    """The logs that were named, and those of named folders, by their names without what says how they are compressed."""

    def __init__(self, names: Sequence[str], manifest: str) -> None:
        """Looks into the folders."""
        self.named: Dict[str, str] = {}
        self.in_folders: Dict[str, str] = {}
        for name in names:
            if name == "-":
                raise Fault("standard input has no name that a manifest could hold: name the logs or their folder")
            if not os.path.isdir(name):
                self._add(self.named, bare(os.path.basename(name)), name)
                continue
            for path, stored in logs_in(name, "*", manifest):
                self._add(self.in_folders, bare(stored), path)
        for name, path in self.named.items():
            if name in self.in_folders:
                raise one_name(path, self.in_folders[name])

    @staticmethod
    def _add(known: Dict[str, str], name: str, path: str) -> None:
        if name in known:
            raise one_name(known[name], path)
        known[name] = path

    def path(self, name: str) -> Optional[str]:
        """Where the log of this name lies."""
        return self.named.get(name) or self.in_folders.get(name)


def one_name(first: str, second: str) -> Fault:
    """What is said of two logs of one night."""
    return Fault(f"{shown_name(first)} and {shown_name(second)} have one name: each night has one log")


def find_nights(manifest: Manifest, given: Given, verdict: Verdict, seen: int) -> List[Night]:
    """The nights whose logs are here. What isn't here, or isn't in the manifest, is a finding.

    A night begins after what was left out before it, if that was seen before. Else its review shows that it is missing.
    """
    nights: List[Night] = []
    for number, entry in enumerate(manifest.entries, 1):
        ends = verdict.ends.setdefault(entry.session, Reached())
        if entry.left_out is not None and entry.number <= seen:
            verdict.left_out += ends.pass_over(entry.left_out)
        begin = ends.lines(entry.session)
        ends.go_on(entry)
        path = given.path(entry.name)
        if path is None:
            verdict.judged.append(Judged(number, entry, 1, "its log isn't here"))
        else:
            nights.append(Night(number, entry, path, begin, ends.lines(entry.session)))
    names = {it.name for it in manifest.entries}
    for name, path in given.named.items():
        if name not in names:
            verdict.found.append(Found(shown_name(path), "unknown, no entry names this log"))
    return nights


class Nights:
    """Runs `verify` on each night, several at once, each in a process of its own.

    These are forked: to start an interpreter and read the code would take longer than a small night.
    """

    def __init__(self, words: Sequence[str], workplace: Workplace, progress: Progress) -> None:
        self._words = list(words)
        self._workplace = workplace
        self._progress = progress
        self._running: List[Tuple[Night, Forked]] = []

    def judge(self, nights: Sequence[Night], jobs: int) -> Iterator[Judged]:
        """What each night is, as they end."""
        waiting, done = list(reversed(nights)), 0
        try:
            while waiting or self._running:
                while waiting and len(self._running) < jobs:
                    night = waiting.pop()
                    self._running.append((night, self._start(night)))
                # a child has ended, which is left for `poll`
                os.waitid(os.P_ALL, 0, os.WEXITED | os.WNOWAIT)
                ended = [(night, child.wait()) for night, child in self._running if child.poll() is not None]
                self._running = [(night, child) for night, child in self._running if child.returncode is None]
                for night, status in ended:
                    done += 1
                    self._progress.show("verifying nights", done, len(nights), "nights")
                    yield self._read(night, status)
        finally:
            # each removes its own passing files
            for _, child in self._running:
                child.terminate()
            for _, child in self._running:
                child.wait()

    def _file(self, what: str, night: Night) -> str:
        return f"{what}-{night.number}"

    def _start(self, night: Night) -> Forked:
        words = ["verify", "--json", "--findings"]
        for option, lines in (("from", night.begin), ("counters", night.end)):
            with self._workplace.new_file(self._file(option, night)) as file:
                put(file, file_of(lines))
                finish(file)
            words.append(f"--{option}={self._workplace.path(self._file(option, night))}")
        words += [*self._words, "--", night.path if not night.path.startswith("-") else f"./{night.path}"]

        def verify() -> int:
            # what commands may take is for each log
            BUDGET.renew()
            return main(words)

        with self._workplace.new_file(self._file("out", night)) as out, self._workplace.new_file(self._file("said", night)) as said:
            return self._workplace.fork(verify, out, said)

    def _read(self, night: Night, status: int) -> Judged:
        """What a run said. Its passing files go."""
        with open(self._workplace.path(self._file("said", night)), "rb") as file:
            said = file.read(MOST_SAID).decode("utf-8", "backslashreplace").strip()
        with open(self._workplace.path(self._file("out", night)), "rb") as file:
            first = file.readline()
            sessions, last = told_lines(file) if first else ([], b"")
        for what in ("from", "counters", "out", "said"):
            os.remove(self._workplace.path(self._file(what, night)))
        if status not in (0, 1):
            return Judged(night.number, night.entry, 2, "not judged: " + (said.splitlines() or ["it ended by a signal"])[-1])
        try:
            checked, verdict = json.loads(first), json.loads(last)
            it = judged(night, status, checked["files"][0], verdict)
            it.vouched = vouched_in(sessions, night.entry)
            return it
        except (ValueError, KeyError, IndexError, TypeError) as fault:
            raise Fault(f"what was said of night {night.number} can't be read") from fault


def told_lines(file: BinaryIO) -> Tuple[List[bytes], bytes]:
    """The lines of joined sessions and the last line of a passing file, of which other lines may be long and many."""
    sessions, last = [], b""
    for last in file:
        if last.startswith(b'{"line":"session",') and b'"state":"joined",' in last:
            sessions.append(last)
    return sessions, last


def vouched_in(sessions: Sequence[bytes], entry: Entry) -> Optional[Vouched]:
    """What vouches for the session of an entry, by these objects of JSON."""
    host, app, procid, rsid = entry.session
    for it in map(json.loads, sessions):
        if [it[name] for name in ("host", "app", "procid", "rsid")] == [spelled(host), spelled(app), spelled(procid), int(rsid)]:
            certificate = it["certificate"]
            return Vouched(str(it["fingerprint"]), certificate and str(certificate["fingerprint"]), str(it["payload_time"]))
    return None


def compare_payloads(nights: Sequence[Judged]) -> None:
    """Has a night not be clean for whose session another payload vouches than in the first night of it."""
    firsts: Dict[Session, Tuple[int, Vouched]] = {}
    for it in nights:
        if it.vouched is None:
            continue
        number, first = firsts.setdefault(it.entry.session, (it.number, it.vouched))
        if it.vouched != first:
            it.status = at_least(it.status, "another payload")
            it.said = f"its session has another payload than in night {number}: {it.vouched.words()}; there {first.words()}; {it.said}"


def judged(night: Night, status: int, file: Dict[str, object], verdict: Dict[str, object]) -> Judged:
    """What the verdict on a night comes to, with the octets of its log."""
    entry, said = night.entry, str(verdict["verdict"])
    if int(str(verdict["status"])) != status:
        raise ValueError("the status isn't that of the verdict")
    listed = int(str(verdict["listed"]))
    ignored = int(str(verdict["strangers"])) if verdict["strangers_ignored"] else 0
    if status and not entry.groups and not listed and (verdict["review_status"] == 0 or ignored):
        # a night without a message lists none
        status, said = 0, "no message was signed in it, and none is missing"
    size, sha256 = file["plain_size"] or file["size"], file["plain_sha256"] or file["sha256"]
    found = differs(Stored(shown_name(night.path), entry.name, int(str(size)), str(sha256)), entry.number, entry.size, entry.sha256)
    if found is not None:
        status, said = at_least(status, found), f"{found.what}; {said}"
    keys = verdict["unbound_keys"]
    if not isinstance(keys, list):
        raise TypeError("no list of keys")
    return Judged(night.number, entry, status, said, listed, ignored, keys)
