"""What a check finds: each kind of finding with what it means and the act that it asks for, and a finding with its name.

A name is ORIGINATOR KIND or ORIGINATOR/FILE KIND, and stays as long as the cause does. The fact says what was seen, so that an
accepted finding is open again where something else is seen under its name.
"""
from __future__ import annotations

from typing import Dict, List, NamedTuple

from ..words import shown_name


class Kind(NamedTuple):
    """A kind of finding."""

    means: str
    act: str


# the gravest first: in this order they are printed
KINDS: Dict[str, Kind] = {
    "edited": Kind("A file of the memory was changed, cut or put back.",
                   "put the memory back as the last check left it; or accept it"),
    "older": Kind("The memory isn't the one of which the status file knows.", "put the newest memory back, or accept this one"),
    "status": Kind("The status file isn't there, which knows how far the memory went.",
                   "find out who removed it; this check writes it again"),
    "gone": Kind("An originator, or a file that was accepted as it was, isn't there any more.",
                 "put it back, or accept that it ended"),
    "cut": Kind("The newest files that were seen aren't there any more.", "put the copies back; or accept the loss"),
    "missing": Kind("A signed file isn't there, and a later one names it.", "put the copy back; or accept the loss"),
    "changed": Kind("A file is validly signed, and isn't the one that was seen under its name or that a later one names.",
                    "put the copy back; or find out who signed this one, and accept it"),
    "damaged": Kind("A file isn't as it was signed, or no key that is given signed it.",
                    "put the copy back; or read what `ssign-keys verify` reports, and accept it"),
    "unreadable": Kind("A file can't be read to its end, or a folder can't be read.", "make it readable, or put the copy back; or accept it"),
    "fork": Kind("Two files name the same file before, or two are the newest.",
                 "find out whether the signer was put back or a second one has its key; then accept it"),
    "begins": Kind("A second chain of files begins.",
                   "find out why the signer began anew, and accept it; or move its files away"),
    "unlinked": Kind("A signed file doesn't name the file before it.", "move it away if it belongs elsewhere; or accept it"),
    "twice": Kind("Two files have the same octets.", "remove the copy; or accept it"),
    "log": Kind("A log isn't as it was signed.", "make it anew from its signed file, or put the copy back; or accept it"),
    "aside": Kind("The file of messages that were set aside is missing or differs from what the signed file names.",
                  "put the copy back; or accept the loss"),
    "stamp": Kind("A time stamp beside a signed file doesn't hold, or one that was seen isn't there any more.",
                  "put the copy of it, or of its file, back; or accept it"),
    "unsigned": Kind("A log has octets that no signed file holds.", "see why the signer doesn't sign it; or move it away"),
    "new": Kind("An originator wasn't seen before.", "accept it, if you know it"),
    "quiet": Kind("No signed file came in time.", "look at the machine, its signer and the copying"),
}
RANKS = {kind: rank for rank, kind in enumerate(KINDS)}


class Finding(NamedTuple):
    """Something that isn't as it should be."""

    place: str
    """The originator, or ORIGINATOR/FILE, as it is shown."""
    kind: str
    fact: str
    """What was seen: a SHA-256, or a few words."""
    text: str
    """A sentence without its full stop."""

    @property
    def name(self) -> str:
        """What it is accepted by."""
        return f"{self.place} {self.kind}"


def find(kind: str, fact: str, text: str, originator: str, file: str = "") -> Finding:
    """A finding about an originator, or about a file of it."""
    place = shown_name(originator) + (f"/{shown_name(file)}" if file else "")
    return Finding(place, kind, fact, text)


def in_order(found: List[Finding]) -> List[Finding]:
    """The gravest first."""
    return sorted(found, key=lambda it: (RANKS[it.kind], it.place))
