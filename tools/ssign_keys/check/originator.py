"""The check of one originator's folder: what is read, what is to be verified, and what is found."""
from __future__ import annotations

from dataclasses import dataclass, field
from typing import Callable, Dict, Iterator, List, NamedTuple, Optional, Set, Tuple

from ..chain.names import SIGNED
from ..words import grouped, shown_name
from .files import Folder, Lying, Reader, Unread, look
from .findings import Finding, find
from .keys import FIRST, Judges
from .lines import Row
from .logs import Logs
from .options import TURNS, Options, utc
from .record import File, Record, digest
from .stamps import Checker, Cover, Stamps, link_in
from .taken import Done
from .verdicts import Judged, Work
from .walk_chain import Node, Others, Walk, Walked, rank


@dataclass
class Here:
    """A signed file that is here."""

    name: str
    """As findings name it: without what a compression adds, unless another file has that name too."""
    lying: Lying
    sha256: str
    file: Optional[File] = None
    """None as long as it isn't verified, or where that can't be done."""
    fault: str = ""


class Night(NamedTuple):
    """A file as a picture shows it."""

    name: str
    when: int
    """Its RSID, or when a check saw it first where that isn't known; in seconds since 1970."""
    place: str
    """The file that a finding about it names."""
    is_here: bool
    is_kept: bool
    """False where it isn't here because it is old."""


@dataclass
class Counts:
    """What a run counts of an originator."""

    files: int = 0
    newest: Optional[Node] = None
    removed: int = 0
    cover: Optional[Cover] = None
    """How far time stamps go; None where none holds."""
    unchecked: int = 0
    """How many time stamps no authority was given for."""


@dataclass
class Originator:
    """The folder of an originator, with what the memory has of it."""

    name: str
    folder: str
    record: Record
    options: Options
    now: int
    turn: int
    """How many checks there were."""
    is_doubted: bool
    """Whether its part of the memory was edited: then each file is verified again."""
    done: Done
    """What tasks did for this check."""
    found: List[Finding] = field(default_factory=list)
    counts: Counts = field(default_factory=Counts)
    _folder: Optional[Folder] = None
    """None where it can't be read."""
    _here: List[Here] = field(default_factory=list)
    _by_sha256: Dict[str, List[Here]] = field(default_factory=dict)
    _unread: Set[str] = field(default_factory=set)
    """The names of files that can't be read."""
    _walk: Optional[Walk] = None

    # ---- reading

    def read(self, reader: Reader, judges: Judges, checker: Optional[Checker]) -> Iterator[Work]:
        """Looks into the folder. Gives what is to be verified."""
        self._stamps = Stamps(self.name, self.record, checker)
        try:
            self._folder = look(self.folder, self.options.match)
        except OSError as fault:
            self._folder = None
            what = f"its folder {shown_name(self.folder)} can't be read: {fault.strerror}"
            self.found.append(find("gone" if isinstance(fault, FileNotFoundError) else "unreadable", "gone", what, self.name))
            return
        names: Dict[str, str] = {}
        for it in self._folder.signed:
            name = it.bare if names.setdefault(it.bare, it.name) == it.name else it.name
            if self.options.part is not None and not self.options.part.has(self.name, it.bare):
                continue
            self.counts.files += 1
            sha256 = self._read_one(name, it, reader)
            if sha256 is None:
                continue
            here = Here(name, it, sha256, self.record.files.get(sha256))
            self._here.append(here)
            self._by_sha256.setdefault(sha256, []).append(here)
        self._stamps.read(self._folder.stamps, self._here, lambda it: self.is_doubted or self._is_due(it))
        if judges.has_times and self._stamps.are_any:
            self._stamps.cover(lambda it: self._before(it) or self._stated_before(it, reader))
        for same in self._by_sha256.values():
            if self._has_to_be_verified(same[0], judges):
                yield self._work(same[0])

    def _work(self, here: Here) -> Work:
        """A file that is to be verified, with the time at which it is known to have existed."""
        it, seen = here.lying, self.now if here.file is None else here.file.seen
        stamped = self._stamps.time_of(here.sha256, seen)
        if stamped is None:
            return Work(self.name, it.name, it.path, here.sha256, seen, FIRST)
        return Work(self.name, it.name, it.path, here.sha256, stamped, self._stamps.how(here.sha256))

    def _is_due(self, sha256: str) -> bool:
        """Whether a file is read again in this run, though nothing shows that it changed: each is within so many runs."""
        number = self.record.numbers.get(sha256)
        return self.options.reads_all or number is None or (number + self.turn) % TURNS == 0

    def _read_one(self, name: str, it: Lying, reader: Reader) -> Optional[str]:
        """The SHA-256 of a file. None where it can't be read, which is a finding."""
        kept, sha256 = self.record.reads.get(it.name, ((), ""))
        if kept == it.stat and (it.name in self.done.names or not self._is_due(sha256) and not self.is_doubted):
            return sha256
        try:
            sha256 = reader.sha256(it)
        except Unread as fault:
            self.found.append(find("unreadable", fault.fact, fault.why, self.name, name))
            self._unread.add(name)
            return None
        # what a task read counts as read, also where it is as it was
        if self.record.reads.get(it.name) != (it.stat, sha256) or self.options.part is not None:
            self.record.put({"kind": "read", "name": it.name, "stat": list(it.stat), "sha256": sha256})
        return sha256

    def _has_to_be_verified(self, here: Here, judges: Judges) -> bool:
        """Whether there is no verdict that holds. What another program, or more keys, would find, is looked at by turns."""
        file = here.file
        if file is None or self.is_doubted and file.sha256 not in self.done.sums:
            return True
        if judges.has_times and file.stamped != self._stamps.time_of(file.sha256, file.seen):
            return True
        if file.of == judges.of:
            return False
        return not judges.holds(file) or self._is_due(file.sha256)

    def take(self, work: Work, judged: Judged, judges: Judges) -> Optional[Row]:
        """Takes what came of a file. Gives the line for the memory."""
        same = self._by_sha256[work.sha256]
        if judged.unread or judged.fields["sha256"] != work.sha256:
            fault = judged.unread or "it was changed while it was read: check again"
            for it in same:
                it.file = None
                it.fault = fault
            return None
        before = self.record.files.get(work.sha256)
        seen = self.now if before is None else before.seen
        row = {"kind": "file", "name": same[0].lying.bare, **judged.fields, "of": list(judges.of), "seen": seen,
               "stamped": self._stamps.time_of(work.sha256, seen) if judges.has_times else None}
        self.record.put(row)
        for it in same:
            it.file = self.record.files[work.sha256]
        return row

    # ---- judging

    def judge(self, reader: Reader) -> None:
        """Finds all that there is to find, once each file has its verdict."""
        if not self.record.is_known_as(self.name):
            self.found.append(find("new", "new", "no check saw it before", self.name))
        if self._folder is None:
            return
        if not self._folder.signed and self.record.held:
            what = f"its folder {shown_name(self.folder)} has no signed file any more"
            self.found.append(find("gone", "gone", what, self.name))
            return
        chain, others = self._sort()
        self._join_damaged()
        self._walk = Walk(self.name, chain, others, self.record.accepted.rows)
        self._walked = self._walk.run()
        self.found += self._walked.findings
        self.counts.removed, self.counts.newest = self._walked.removed, self._walked.newest
        self._find_quiet(chain)
        self._check_logs(self._folder, chain, reader)
        self._check_stamps(chain)

    def _sort(self) -> Tuple[List[Node], Others]:
        """The files of the chain, here or not, and the others that are here. Each of these has a finding."""
        chain: Dict[str, Node] = {}
        others = Others(set(self._unread), {}, {})
        originals: Dict[str, str] = {}
        for it in sorted(self._here, key=self._oddness):
            file = it.file
            if file is None:
                self._find("unreadable", it.sha256, it.fault, it)
            elif file.status:
                self._find("damaged", it.sha256, file.said.rstrip("."), it)
            elif it.sha256 in originals:
                others.copies[it.name] = originals[it.sha256]
                continue
            elif file.link is None:
                self._find("unlinked", it.sha256, "no signed message in it names the file before" if file.session else
                           "it holds several sessions, and a signed file is one", it)
            else:
                chain[it.sha256] = self._node(file, it.name, True)
            if file is not None and not file.status:
                originals[it.sha256] = it.name
            if it.sha256 not in chain:
                others.troubled.add(it.name)
                if file is not None and file.link is not None:
                    others.links[it.name] = file.link
        self._add_absent(chain)
        return list(chain.values()), others

    def _find(self, kind: str, fact: str, text: str, it: Here) -> None:
        self.found.append(find(kind, fact, text, self.name, it.name))

    def _join_damaged(self) -> None:
        """Where no file at all is of a key that is given, this is one finding, because it has one cause."""
        files = [it.file for it in self._here if it.file is not None]
        if len(files) > 1 and len(files) == len(self._here) and all(it.status and it.session is None for it in files):
            self.found = [it for it in self.found if it.kind != "damaged"]
            newest = self._here[-1]
            why = newest.file.said.partition(". ")[0] if newest.file is not None else ""
            what = f"none of its {grouped(len(files), 'file')} is signed by a key that is trusted for it; of " \
                f"{shown_name(newest.name)}: {why}"
            self.found.append(find("damaged", digest(sorted(it.sha256 for it in files)), what, self.name))

    def _oddness(self, it: Here) -> Tuple[bool, str]:
        """Which of two files with the same octets is the copy: the one that hasn't the name of its log, or its first one."""
        link = it.file.link if it.file else None
        is_named = link is not None and link.log is not None and it.name == link.log.name + SIGNED
        is_first = it.file is not None and it.sha256 in self.record.held and it.name == it.file.name
        return not (is_named or is_first), it.name

    def _node(self, file: File, name: str, is_here: bool) -> Node:
        """A file of the chain."""
        node = Node(file.sha256, name, file.rsid, is_here=is_here, is_seen=file.sha256 in self.record.held, seen=file.seen)
        node.is_kept = is_here or self.options.keep is None or file.seen >= self.now - self.options.keep
        node.names = file.session[:3] if file.session else ()
        if file.link is not None:
            node.follow(file.link)
        return node

    def _add_absent(self, chain: Dict[str, Node]) -> None:
        """Adds the files that have to be here and aren't. One that was accepted as it was is of no chain."""
        here, names = {it.sha256 for it in self._here}, {it.name for it in self._here}
        for sha256 in sorted(self.record.held - here):
            file = self.record.files.get(sha256)
            if file is None:
                continue
            node = self._node(file, file.name, False)
            if file.is_right:
                chain[sha256] = node
            elif file.name not in names and node.is_kept:
                what = "it was accepted as it was, and isn't there any more"
                self.found.append(find("gone", sha256, what, self.name, file.name))

    def _find_quiet(self, chain: List[Node]) -> None:
        """Whether the newest file is too old: by when it was seen first, or by its RSID, if that is earlier."""
        times = [min(it.seen, it.rsid) for it in chain]
        times += [min(it.file.seen, it.file.rsid) for it in self._here if it.file is not None and it.file.session]
        if self.options.expect is None or times and self.now - max(times) <= self.options.expect:
            return
        newest = max(chain, key=lambda it: it.rsid, default=None)
        text = f"the newest file is of {utc(max(times))}" if times else "nothing was signed yet"
        self.found.append(find("quiet", newest.sha256 if newest else "nothing", text, self.name))

    def _check_logs(self, folder: Folder, chain: List[Node], reader: Reader) -> None:
        """Compares logs, and files of messages that were set aside, with the links of the chain."""
        nodes = sorted(chain, key=lambda it: it.rsid)
        links = [(it, link) for it in nodes for link in [self.record.files[it.sha256].link] if link is not None]
        logs = Logs(self.name, [link for _, link in links], self.record, reader, self.now, self.turn)
        logs.check(folder, self._walked.absent, self.options.late)
        logs.check_asides([(shown_name(it.name), link) for it, link in links if it.is_here], folder)
        self.found += logs.found

    def _check_stamps(self, chain: List[Node]) -> None:
        """Finds which files time stamps cover, by verified links, and stamps that don't hold."""
        self._stamps.cover(self._before)
        here = sorted((it for it in chain if it.is_here), key=rank)
        judged = sum(self.record.files[it.sha256].stamped is not None for it in here)
        self.counts.cover = self._stamps.summary([(it.name, it.sha256) for it in here], judged)
        self.counts.unchecked = self._stamps.unchecked
        self.found += self._stamps.find(self.found, self._walked.absent, self._has_to_be_stamped)

    def _before(self, sha256: str) -> Optional[str]:
        """The SHA-256 of the file before, by a verified link."""
        link = self.record.files[sha256].link if sha256 in self.record.files else None
        return link.before.sha256 if link is not None and link.before is not None else None

    def _stated_before(self, sha256: str, reader: Reader) -> Optional[str]:
        """The same of a file that isn't verified yet, by its first message."""
        here = self._by_sha256.get(sha256)
        link = link_in(here[0].lying, reader.workplace) if here else None
        return link.before.sha256 if link is not None and link.before is not None else None

    def _has_to_be_stamped(self, sha256: str) -> bool:
        """Whether the stamp of a file, which was seen once, has to be here: the file is, and isn't so old that it may go."""
        file = self.record.files.get(sha256)
        is_old = file is not None and self.options.keep is not None and file.seen < self.now - self.options.keep
        return sha256 in self._by_sha256 and not is_old and not self.is_doubted

    # ---- keeping

    def keep(self, is_accepted: Callable[[Finding], bool]) -> None:
        """Has the memory know which files have to be here from now on: those that are right, or were accepted."""
        opened = {it.name: it.fact for it in self.found if not is_accepted(it)}
        accepted = {it.name for it in self.found if is_accepted(it)}
        if self._walk is not None and self.record.is_known_as(self.name):
            doubtful = self._walk.after(root for name, root in self._walked.doubtful.items() if name in opened)
            doubtful |= self._walked.changed
            held = {it.sha256 for it in self._here if it.file is not None and self._is_held(it, it.file, doubtful, accepted)}
            if held:
                self.record.put({"kind": "held", "files": sorted(held)})
        self.record.note_open(opened, self.now)

    def _is_held(self, it: Here, file: File, doubtful: Set[str], accepted: Set[str]) -> bool:
        """Whether a file has to be here from now on, and hadn't up to now."""
        is_right = file.is_right and it.sha256 not in doubtful
        place = f"{shown_name(self.name)}/{shown_name(it.name)}"
        is_accepted = f"{place} damaged" in accepted or f"{place} unlinked" in accepted
        return it.sha256 not in self.record.held and (is_right or is_accepted)

    def nights(self) -> Iterator[Night]:
        """Each file that is here or should be, for a picture."""
        for it in self._here:
            when = it.file.rsid or it.file.seen if it.file is not None else self.now
            yield Night(it.name, when, it.name, True, True)
        for name in sorted(self._unread):
            yield Night(name, self.now, name, True, True)
        names = {it.name for it in self._here} | self._unread
        for node in self._walked.away if self._walk is not None else []:
            # what lies in its place is shown
            if node.name not in names:
                yield Night(node.name, node.rsid, self._walked.tops.get(node.sha256, node.name), False, node.is_kept)

    def files(self) -> Iterator[Tuple[str, str]]:
        """The name and the SHA-256 of each clean file that is here, but for those of chains about which there is a finding."""
        doubtful = self._walk.after(self._walked.doubtful.values()) if self._walk is not None else set()
        return ((it.name, it.sha256) for it in self._here
                if it.file is not None and not it.file.status and it.sha256 not in doubtful)
