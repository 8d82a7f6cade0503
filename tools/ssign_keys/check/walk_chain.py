"""How signed files hang together: each names the one before it by its SHA-256, and that shows which files aren't here.

Nothing is read here. Each step goes over the files once, so that twice as many take twice as long.
"""
from __future__ import annotations

from dataclasses import dataclass, field
from typing import Container, Dict, Iterable, Iterator, List, NamedTuple, Optional, Set, Tuple

from ..chain.link import Link
from ..chain.names import few
from ..words import shown_line
from .findings import Finding, find
from .record import digest


@dataclass
class Node:
    """A file of the chain, be it here or not."""

    sha256: str
    name: str
    """Without what a compression adds."""
    rsid: int
    before: Optional[str] = None
    """The SHA-256 of the file before; None where there is none or its link isn't known."""
    is_here: bool = False
    is_seen: bool = False
    """Whether an earlier check saw it, and it was right."""
    is_kept: bool = True
    """False where it may be removed, because it is old and was checked."""
    seen: int = 0
    names: Tuple[str, ...] = ()
    """HOSTNAME, APP-NAME and PROCID."""
    before_name: str = ""
    before_rsid: int = 0

    def follow(self, link: Link) -> None:
        """Takes the file before from its link."""
        if link.before is not None:
            self.before, self.before_name, self.before_rsid = link.before.sha256, link.before.name, link.before.rsid


class Others(NamedTuple):
    """Files that are here and are no part of the chain, by their names without what a compression adds."""

    troubled: Set[str]
    """Those about which there is a finding already."""
    copies: Dict[str, str]
    """Those that have the octets of another one, with the name of that."""
    links: Dict[str, Link]
    """The verified links of those that aren't right."""


@dataclass
class Walked:
    """What a walk comes to."""

    findings: List[Finding] = field(default_factory=list)
    newest: Optional[Node] = None
    """The newest file that is here."""
    doubtful: Dict[str, str] = field(default_factory=dict)
    """For the name of a finding, the SHA-256 of a file: that and all that follow aren't right as long as it isn't accepted."""
    changed: Set[str] = field(default_factory=set)
    """The SHA-256 of files that lie in the place of another one. They never have to be there."""
    removed: int = 0
    """How many files aren't here because they are old."""
    absent: Set[str] = field(default_factory=set)
    """The names of files that aren't here."""
    away: List[Node] = field(default_factory=list)
    """These files."""
    tops: Dict[str, str] = field(default_factory=dict)
    """For the SHA-256 of each of them that a finding is about, the name of the file that this one names."""


class Piece(NamedTuple):
    """Files that follow one another, as far as they are known."""

    root: Node
    """The first of them, be it here or not."""
    top: Node
    """The newest that is here."""
    bottom: Node
    """The oldest that is here."""
    seen: int
    """When one of them was seen first."""
    files: int
    """How many are here."""


class Walk:
    """A walk over the files of one originator."""

    def __init__(self, originator: str, nodes: Iterable[Node], others: Others, accepted: Container[str]) -> None:
        """The files that are here and right, and those that have to be here; and the names of accepted findings."""
        self._originator = originator
        self._accepted = accepted
        self._nodes = {it.sha256: it for it in nodes}
        self._others = others
        self._walked = Walked()
        self._followers: Dict[str, List[Node]] = {}
        self._explained: Set[str] = set()
        """Files that aren't here, because another finding names what lies in their place."""

    def run(self) -> Walked:
        """What all of it comes to."""
        self._add_named()
        for it in self._nodes.values():
            if it.before is not None:
                self._followers.setdefault(it.before, []).append(it)
        self._walked.away = [it for it in self._nodes.values() if not it.is_here]
        self._walked.absent = {it.name for it in self._walked.away}
        self._walked.removed = sum(not it.is_here and not it.is_kept for it in self._nodes.values())
        self._by_name = {it.name: it for it in self._nodes.values() if it.is_here}
        self._compare_names()
        self._compare_pieces()
        self._find_lost()
        self._find_forks()
        here = [it for it in self._nodes.values() if it.is_here]
        self._walked.newest = max(here, key=rank) if here else None
        return self._walked

    def after(self, roots: Iterable[str]) -> Set[str]:
        """These files and all that follow one of them, by their SHA-256."""
        found: Set[str] = set()
        waiting = list(roots)
        while waiting:
            sha256 = waiting.pop()
            if sha256 not in found:
                found.add(sha256)
                waiting += [it.sha256 for it in self._followers.get(sha256, [])]
        return found

    def _find(self, kind: str, fact: str, text: str, it: Node, doubtful: str = "") -> None:
        finding = find(kind, fact, text, self._originator, it.name)
        self._walked.findings.append(finding)
        if doubtful:
            self._walked.doubtful[finding.name] = doubtful

    def _add_named(self) -> None:
        """Adds each file that a link names and of which nothing else is known. What was before one that may go isn't wanted.

        If a damaged file lies there in its place, the link of that may still be verified.
        """
        waiting = list(self._nodes.values())
        while waiting:
            it = waiting.pop()
            if it.before is not None and it.before not in self._nodes and (it.is_here or it.is_kept):
                named = Node(it.before, it.before_name, it.before_rsid)
                link = self._others.links.get(named.name)
                if link is not None and link.rsid == named.rsid:
                    named.follow(link)
                self._nodes[named.sha256] = named
                waiting.append(named)

    def _lost(self) -> Iterator[Node]:
        """The files that should be here and aren't, and no other finding says why."""
        return (it for it in self._nodes.values() if not it.is_here and it.is_kept and it.sha256 not in self._explained)

    def _compare_names(self) -> None:
        """Looks at what lies in the place of a file that isn't here."""
        told: Set[str] = set()
        for it in list(self._lost()):
            other = self._by_name.get(it.name)
            if it.name in self._others.troubled:
                self._explained.add(it.sha256)
            elif it.name in self._others.copies:
                self._explained.add(it.sha256)
                if it.name not in told:
                    self._find("changed", it.sha256, f"it has the octets of {few([self._others.copies[it.name]])}", it)
                told.add(it.name)
            elif other is not None and not other.is_seen and (it.is_seen or other.sha256 not in self._followers):
                self._explained.add(it.sha256)
                if it.name not in told:
                    who = "seen before" if it.is_seen else f"named by {few(self._names_of_followers(it))}"
                    what = f"it is validly signed, and its SHA-256 isn't the one that was {who}"
                    if other.sha256 in self._followers:
                        what += f"; {few(self._names_of_followers(other))} goes on from it, so keep it"
                    self._find("changed", other.sha256, what, other)
                    self._walked.changed.add(other.sha256)
                told.add(it.name)
        for name, original in self._others.copies.items():
            if name not in told:
                what = f"it has the octets of {few([original])}"
                self._walked.findings.append(find("twice", digest([name, original]), what, self._originator, name))

    def _names_of_followers(self, it: Node) -> List[str]:
        return sorted(node.name for node in self._followers.get(it.sha256, []))

    def _find_lost(self) -> None:
        """Files that follow one another and aren't here are one finding, named by the newest of them."""
        lost = {it.sha256: it for it in self._lost()}
        done: Set[str] = set()
        tops = [it for it in lost.values() if not any(node.sha256 in lost for node in self._followers.get(it.sha256, []))]
        for top in sorted(tops, key=rank, reverse=True):
            stretch: List[Node] = []
            at: Optional[Node] = top
            while at is not None and at.sha256 not in done:
                done.add(at.sha256)
                stretch.append(at)
                at = lost.get(at.before) if at.before is not None else None
            self._find_stretch(top, [it for it in self._followers.get(top.sha256, []) if it.is_here or it.is_kept], stretch)

    def _find_stretch(self, top: Node, followers: List[Node], stretch: List[Node]) -> None:
        """The finding about such files."""
        self._walked.tops.update((it.sha256, top.name) for it in stretch)
        names = [it.name for it in reversed(stretch)]
        more = "" if len(names) == 1 else f"; {len(names)} files aren't there: {few(names)}"
        fact = digest([it.sha256 for it in stretch])
        # what was accepted as cut off keeps its name where a later file names it
        is_cut = not followers or find("cut", fact, "", self._originator, top.name).name in self._accepted
        if not is_cut:
            by = few(sorted(it.name for it in followers))
            what = "another file has its name" if top.name in self._by_name else "it isn't there"
            self._find("missing", fact, f"{what}, and {by} names it as the file before{more}", top)
        else:
            self._find("cut", fact, f"it was the newest of its chain at an earlier check, and isn't there{more}", top)

    def _find_forks(self) -> None:
        """Files that name the same file before: the one with the least RSID is taken for the right one."""
        for before, nodes in self._followers.items():
            here = sorted((it for it in nodes if it.is_here), key=rank)
            for it in here[1:]:
                what = f"it and {few([here[0].name])} both name {few([self._nodes[before].name])} as the file before"
                self._find("fork", digest([here[0].sha256, it.sha256]), what, it, it.sha256)

    # ---- pieces of chains

    def _roots(self) -> Dict[str, str]:
        """For the SHA-256 of each file, that of the first file that is known of its chain.

        A chain that closes itself can't be made, but by whoever edits the memory: it ends where it began.
        """
        roots: Dict[str, str] = {}
        for first in self._nodes:
            way: Dict[str, None] = {}
            at: Optional[str] = first
            while at is not None and at in self._nodes and at not in roots and at not in way:
                way[at] = None
                at = self._nodes[at].before
            last = next(reversed(way), first)
            roots.update(dict.fromkeys(way, roots[at] if at is not None and at in roots else last))
        return roots

    def _pieces(self) -> List[Piece]:
        """The chains, or what is left of them, the newest first."""
        pieces: Dict[str, Piece] = {}
        for sha256, first in self._roots().items():
            it = self._nodes[sha256]
            if it.is_here:
                piece = pieces.setdefault(first, Piece(self._nodes[first], it, it, it.seen, 0))
                pieces[first] = piece._replace(top=max(piece.top, it, key=rank), bottom=min(piece.bottom, it, key=rank),
                                               seen=min(piece.seen, it.seen), files=piece.files + 1)
        return sorted(pieces.values(), key=lambda it: rank(it.top), reverse=True)

    def _compare_pieces(self) -> None:
        """Each piece but the oldest has to begin after a gap, which is a finding already. Else a chain begins there."""
        pieces = self._pieces()
        own = min(pieces, key=lambda it: (it.seen, -it.files), default=None)
        for it in pieces:
            if own is not None and it.top.names != own.top.names:
                self._explained.add(it.root.sha256)
                self._find_begin(it.bottom, own.top)
        own_pieces = [it for it in pieces if own is not None and it.top.names == own.top.names]
        for newer, older in zip(own_pieces, own_pieces[1:]):
            if newer.root.is_here:
                is_later = newer.seen >= older.seen or not older.root.is_here
                self._find_begin(*((newer.root, older.top) if is_later else (older.root, newer.top)))
            elif newer.root.rsid < older.top.rsid:
                self._find("fork", digest([older.top.sha256, newer.top.sha256]),
                           f"no file follows it, and {few([newer.top.name])} is newer and isn't of its chain", older.top,
                           older.bottom.sha256)

    def _find_begin(self, root: Node, other: Node) -> None:
        """The finding about a second chain."""
        names = "" if root.names == other.names else f" of another signer, {shown_line(' '.join(root.names))},"
        what = f"a chain{names} begins with it, beside that of {few([other.name])}"
        self._find("begins", root.sha256, what, root, root.sha256)


def rank(it: Node) -> Tuple[int, str]:
    """What rises with the age of a file's session."""
    return it.rsid, it.sha256
