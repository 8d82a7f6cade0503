"""Which log of a folder is which one that was signed.

logrotate gives a log other names, compresses it, and gives its name to another log. So a log is known by its octets, its
name and the time of its last change, which logrotate leaves as it was. What was signed stands for one log of the folder.
Where nobody can know whether two are one, both are signed.
"""
from __future__ import annotations

from dataclasses import dataclass
from typing import Callable, Dict, Hashable, List, Optional, Sequence, Set, Tuple

from .folder import Known, Signing, Whole
from .names import bare, is_dated, root


@dataclass
class Here:
    """A log as it lies in the folder."""

    file: str
    changed: int
    """When it was changed last, in whole seconds since 1970."""
    whole: Whole
    fronts: Dict[int, str]
    """The SHA-256 of some fronts of it, by how many octets they have."""
    signing: Optional[Signing] = None
    """What of it was signed."""

    @property
    def name(self) -> str:
        """Its name without what a compression adds."""
        return bare(self.file)


def by_name(name: str, changed: int) -> Hashable:
    """The name, and the time."""
    return name, changed


def by_root(name: str, changed: int) -> Hashable:
    """The name that it had first, and the time."""
    return root(name), changed


def by_date(name: str, _changed: int) -> Hashable:
    """A name that is given once, whatever the time says: a copy that was put back has another one."""
    return name if is_dated(name) else None


class Matcher:
    """Finds for each log what was signed of it."""

    def __init__(self, known: Known) -> None:
        """Nothing is found yet."""
        self._known = known
        self._claimed: Set[Signing] = set()

    def match(self, logs: Sequence[Here]) -> None:
        """Has each log know what was signed of it. None has the name and the octets of another; the oldest is first."""
        for key in (by_name, by_root, by_date):
            self._match_whole(logs, key)
        for it in logs:
            if it.signing is None:
                self._match_front(it)

    def is_here(self, signing: Signing) -> bool:
        """Whether a log of the folder has it at its front."""
        return signing in self._claimed

    def _match_whole(self, logs: Sequence[Here], key: Callable[[str, int], Hashable]) -> None:
        """Matches logs all of whose octets were signed."""
        free: Dict[Tuple[Whole, Hashable], List[Signing]] = {}
        for whole in {it.whole for it in logs}:
            for signing in self._known.signings.get(whole, ()):
                if signing.is_last and signing not in self._claimed:
                    free.setdefault((whole, key(signing.log.name, signing.log.changed)), []).append(signing)
        for it in logs:
            wanted = key(it.name, it.changed)
            found = free.get((it.whole, wanted)) if wanted is not None else None
            if it.signing is None and found:
                it.signing = found.pop()
                self._claimed.update(it.signing.all_fronts())

    def _match_front(self, it: Here) -> None:
        """Matches a log to which lines were added after it was signed."""
        held = [signing for signing in self._known.candidates(it.name)
                if signing.is_last and signing not in self._claimed and signing.log.end < it.whole.end
                and it.fronts.get(signing.log.end) == signing.log.sha256]
        if held:
            it.signing = max(held, key=lambda signing: (signing.log.name == it.name, signing.log.end))
            self._claimed.update(it.signing.all_fronts())
