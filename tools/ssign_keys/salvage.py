"""Reads which octets are damaged, as `ssign inspect --salvage` says it (docs/dev/FORMATS.md, "An inspection")."""
from __future__ import annotations

from typing import Iterable, NamedTuple, Optional

from .damage import Damage, Damaged
from .report_lines import wrong

SALVAGE = "--salvage"
# the words of an inspection that are about no message
WORDS = (b"damaged", b"torn", b"end")


class Salvaged(NamedTuple):
    """What can be read of a log."""

    damage: Damage
    messages: int
    torn: Optional[int]
    """The octet from which on it breaks off."""

    @property
    def is_log(self) -> bool:
        """Whether it can be a log: of another file nothing is read, and all of it is damaged."""
        return self.messages > 0 or not self.damage


def salvaged(lines: Iterable[bytes]) -> Salvaged:
    """What the lines of an inspection report."""
    damage = Damage()
    messages: Optional[int] = None
    torn: Optional[int] = None
    for line in lines:
        word, *fields = line.rstrip(b"\n").split(b" ")
        if word not in WORDS:
            continue
        numbers = list(map(int, fields))
        if word == b"torn":
            torn = numbers[0]
        elif word == b"end":
            messages = numbers[0]
        else:
            damage.add(Damaged(*numbers))
    if messages is None:
        raise wrong("ssign inspect doesn't say how the log ends")
    return Salvaged(damage, messages, torn)
