"""Shows a person a report: sessions and groups in a few lines each, then what is wrong, then the verdict.

A list of many lines is shown in short, so that a person finds what matters. `--json` and `--raw` have all of it.
"""
from __future__ import annotations

from typing import BinaryIO, Dict, List, NamedTuple, Optional

from . import sha1
from . import strangers
from .blocks import Session
from .damage import Damaged
from .frames import LENGTH, frame_at, read_at
from .identity import identity_lines
from .inspected import most_shown
from .logs import Log
from .longest import NAMED, Weighed, numbers_words, order_words, whose
from .pairs import Neighbour, Stretch
from .reach import Reached
from .report import Group
from .reviewed import Reviewed
from .summaries import FEW, Few, Runs
from .verdict import sentence
from .block_facts import BlockFacts
from .words import grouped, octets_for, shown, shown_name
from .workplace import put

# a text of more lines has the verdict in front too
LONG = 40
STATES = {
    "joined": "its key is trusted, and its certificate blocks are validly signed",
    "disputed": "its certificate blocks contradict each other, so its key isn't known; its signatures were ignored",
    "incomplete": "certificate blocks of it are missing, so its key isn't known; its signatures were ignored",
    "malformed": "its certificate blocks hold no payload of RFC 5848, section 5.2.1; its signatures were ignored",
    "untrusted": "it states no key that you trust; its signatures were ignored",
    "unaccepted": "its payload is trusted, but its certificate blocks aren't all validly signed by a key that you trust for "
                  "it; its signatures were ignored",
    "absent": "the counters name it, and no block of it is here",
}
HEADINGS = {
    "unlisted": "Unlisted messages (stored, and no number lists them: no verified block announces them, or they are copies "
                "too many)",
    "refused": "Unverified blocks (refused in a report)",
    "spoilt": "Spoilt blocks (they have a block's element, and are no blocks)",
}
PAIRS = "Likely pairs (missing numbers, and unlisted messages between the same neighbours; a hash can't show its message)"
PAIRS_WITH_DAMAGE = "Likely pairs (missing numbers, and unlisted messages or damaged octets between the same neighbours; a hash " \
    "can't show its message)"


class Listed(NamedTuple):
    """A list of runs, of a session or a group: how far its lines are indented, and what is left of it."""

    indent: str
    what: str
    noun: str


LISTS = {
    "outside": Listed("  ", "messages before the night or after it", "message"),
    "tail": Listed("  ", "messages, missing or unlisted by the counters", "message"),
    "blocks": Listed("  ", "missing signature blocks", "block"), "missing": Listed("    ", "missing numbers", "number"),
    "disputed": Listed("    ", "disputed numbers", "number"), "unannounced": Listed("    ", "unannounced numbers", "number"),
}


def session_words(session: Session) -> str:
    """The four names of a session."""
    host, app, procid, rsid = map(shown, session)
    return f"HOSTNAME {host}, APP-NAME {app}, PROCID {procid}, RSID {rsid}"


def group_words(sg: int, spri: int) -> str:
    """A group, with the messages that belong to it (RFC 5848, section 4.2.3)."""
    members = ("all messages", f"messages of PRI {spri}", f"messages of a range up to PRI {spri}", "by private arrangement")
    return f"SG {sg}, SPRI {spri} ({members[sg] if sg < len(members) else 'no group of the RFC'})"


def blocks_words(first: int, last: int) -> str:
    """A run of missing signature blocks, and what that means."""
    if first == last:
        return (f"missing: signature block {first + 1} (GBC {first}), which isn't here or is unverified; messages that it "
                "announced may be missing without another line saying so")
    return (f"missing: signature blocks {first + 1} to {last + 1} (GBC {first} to {last}), which aren't here or are "
            "unverified; messages that they announced may be missing without another line saying so")


def block_words(gbc: int) -> str:
    """A signature block by its counter, which begins with 0 (RFC 5848, section 4.2.4)."""
    return f"signature block {gbc + 1} (GBC {gbc})"


def reach_words(group: Reached) -> str:
    """How far the log goes in a group."""
    if group.last == 0:
        return "no verified block announces a message of it"
    return f"known up to message {group.last}" + ("" if group.gbc is None else f" and {block_words(group.gbc)}")


def counters_words(group: Reached) -> str:
    """How far the counters go in a group, as compared with the log."""
    if group.next_number is None:
        return "the counters don't name this group"
    block = f" and {block_words(group.next_gbc - 1)}" if group.next_gbc else ""
    if group.next_number == 1:
        return "the counters cover no message of this group"
    last = group.next_number - 1
    if last > group.last:
        return f"the counters go on to message {last}{block}"
    if group.is_covered:
        return f"the counters go as far, to message {last}{block}"
    if last == group.last and not block:
        return f"the counters go as far, to message {last}, but name no signature block"
    return f"the counters cover only the front, up to message {last}{block}"


def outside_words(is_early: bool) -> str:
    """What numbers outside of a night are."""
    if is_early:
        return "early, announced here and below the counters that the night begins with"
    return "beyond, announced here and not below the counters that the night ends with"


def times_words(first: Optional[str], last: Optional[str]) -> str:
    """The earliest and the latest TIMESTAMP of a session's listed messages."""
    if first is None:
        return "listed messages: none states a time"
    span = f"of {first}" if first == last else f"from {first} to {last}"
    return f"listed messages: {span}, by their sender's own clock"


def stamp_words(stamp: Optional[str]) -> str:
    """The TIMESTAMP of a message."""
    return "which states no time" if stamp in (None, "-") else f"of {stamp}"


def neighbours_words(stretch: Stretch) -> str:
    """Between which listed messages a number is missing."""
    sides = [f"{side} number {it[0]} at place {it[1]}"
             for side, it in (("after", stretch.before), ("before", stretch.behind)) if it is not None]
    return ", ".join(sides) or "no other number of this group is listed"


def octets_words(log: Log, it: Damaged, octet: str = "octet") -> str:
    """How many octets are damaged, and from where on."""
    part = log.part_of_offset(it.offset)
    name = f" of {shown_name(part.name)}" if len(log.parts) > 1 else ""
    return f"{grouped(it.length, octet)} from octet {it.offset - part.offset}{name} on"


def place_words(log: Log, place: int) -> str:
    """The place of a message, also in its file where there are several."""
    part = log.part_of_place(place)
    return f"place {place}" if len(log.parts) == 1 else f"place {place} (place {place - part.place} of {shown_name(part.name)})"


def after_words(log: Log, it: Damaged) -> str:
    """What is known of damaged octets: after how many messages they stand, and that they are none."""
    in_all = " in all" if len(log.parts) > 1 else ""
    where = f"after {grouped(it.place, 'message')}{in_all}" if it.place else "before the first message"
    length = frame_at(read_at(log.file, it.offset, LENGTH), 0)[1]
    long = f"; they begin like a frame of {length:,} octets, and --max-len {log.longest} allows none so long" \
        if length > log.longest else ""
    return f"{where}, {'is' if it.length == 1 else 'are'} no message{long}"


class TextVerdict(Weighed):
    """Writes for a person, into a passing file, as the report is read."""

    def __init__(self, out: BinaryIO, reviewed: Reviewed, only_findings: bool, is_detailed: bool = False) -> None:
        """Shows what was checked, and the times, where it is to be detailed."""
        super().__init__(reviewed.survey, NAMED, reviewed.unproved)
        self._out = out
        self._reviewed = reviewed
        self._only_findings = only_findings
        self._details = reviewed.details if is_detailed else None
        self.lines = 0
        # whether a list is cut
        self._is_cut = False
        self._facts: Optional[BlockFacts] = None
        # headings that are written once something follows them
        self._session_heading: List[str] = []
        self._group_heading: List[str] = []
        self._states: Dict[str, Few] = {}
        # where the present session is grouped as one that isn't shown
        self._left: Optional[Few] = None
        self._lists: Dict[str, Few] = {}
        self._kind = ""
        self._shown = 0
        self._runs = Runs()

    def _put(self, line: str) -> None:
        put(self._out, line.encode("utf-8", "backslashreplace") + b"\n")
        self.lines += 1

    def _put_more(self, line: str) -> None:
        """Says how many entries of a list aren't shown."""
        self._is_cut = True
        self._put(line)

    # ---- sessions

    def session(self, session: Session, state: str) -> None:
        """Shows a session that isn't joined, and keeps the heading of another until something follows it."""
        super().session(session, state)
        self._end_runs()
        self._facts = self._reviewed.notes.of(session)
        self._session_heading = [f"Session: {session_words(session)}", f"  state: {state}; {STATES[state]}"]
        if self._facts is not None:
            self._session_heading += [f"  {it}" for it in identity_lines(self._facts.finding)]
        if self._details is not None and state == "joined":
            self._session_heading.append(f"  {times_words(*self._details.times.of_session(session))}")
        weakness = sha1.weakness(self._facts, state)
        if weakness is not None:
            self._session_heading.append(f"  {weakness}")
        of_strangers = self._reviewed.facts.strangers.get(session, strangers.NO_CLAIMS)
        if of_strangers.blocks:
            self._session_heading.append(f"  {strangers.words_of(of_strangers)}")
        self._left = None
        if state == "joined":
            is_shown = not self._only_findings or weakness is not None or of_strangers.blocks > 0
        else:
            states = self._states.setdefault(state, Few())
            is_shown = states.takes()
            self._left = None if is_shown else states
        if is_shown:
            self._need_session()

    def _need_session(self) -> None:
        for line in self._session_heading:
            self._put(line)
        self._session_heading = []
        if self._left is not None:
            # it is shown after all
            self._left.left -= 1
            self._left = None

    def _show(self, name: str, numbers: int, line: str) -> None:
        """Shows an entry of a list, about so many numbers, unless the list is long."""
        if self._lists.setdefault(name, Few()).takes(numbers):
            if LISTS[name].indent == "  ":
                self._need_session()
            else:
                self._need_group()
            self._put(LISTS[name].indent + line)

    def _end_runs(self) -> None:
        for name, (indent, what, noun) in LISTS.items():
            few = self._lists.pop(name, None)
            if few is not None and few.left:
                self._put_more(f"{indent}and {grouped(few.left, 'more run')} of {what} ({grouped(few.left_numbers, noun)})")

    def outside(self, session: Session, sg: int, spri: int, first: int, last: int, is_early: bool) -> None:
        """Shows announced numbers that don't belong to the night."""
        super().outside(session, sg, spri, first, last, is_early)
        self._show("outside", last - first + 1, f"{outside_words(is_early)}: {group_words(sg, spri)}, {numbers_words(first, last)}")

    def tail_after(self, session: Session, sg: int, spri: int, first: int, last: int, before: Optional[Neighbour]) -> None:
        """Shows what is missing up to a counter."""
        super().tail_after(session, sg, spri, first, last, before)
        known = f"announces a number after {first - 1}" if first > 1 else "announces a message of this group"
        self._show("tail", last - first + 1, f"missing or unlisted, by the counters: {group_words(sg, spri)}, "
                   f"{numbers_words(first, last)}; no verified block {known}{self._between(before, None)}")

    def missing_blocks(self, session: Session, first: int, last: int) -> None:
        """Shows which signature blocks are missing."""
        super().missing_blocks(session, first, last)
        self._show("blocks", last - first + 1, blocks_words(first, last))

    # ---- groups

    def begin_group(self, group: Group) -> None:
        """Keeps the heading of a group."""
        super().begin_group(group)
        self._group_heading = [f"  group: {group_words(group.sg, group.spri)}"]
        if not self._only_findings:
            self._need_group()

    def _need_group(self) -> None:
        self._need_session()
        for line in self._group_heading:
            self._put(line)
        self._group_heading = []

    def stretch(self, group: Group, stretch: Stretch) -> None:
        """Shows numbers that are missing, disputed or unannounced."""
        super().stretch(group, stretch)
        numbers, between = numbers_words(stretch.first, stretch.last), self._between(stretch.before, stretch.behind)
        if stretch.kind == "lost":
            self._show("missing", stretch.length, f"missing: {numbers}{between}")
        elif stretch.kind == "hole":
            blocks = "the block for it is" if stretch.length == 1 else "the blocks for them are"
            self._show("unannounced", stretch.length, f"unannounced: {numbers}; {blocks} missing or unverified{between}")
        else:
            for number in range(stretch.first, stretch.last + 1):
                self._show("disputed", 1, f"disputed: number {number}; verified blocks announce two different messages for it")

    def _between(self, before: Optional[Neighbour], behind: Optional[Neighbour]) -> str:
        """When the neighbours of these numbers were sent, where that is to be shown."""
        if self._details is None:
            return ""
        sides = [f"{side} number {it[0]}, {stamp_words(self._details.times.of_neighbour(it))}"
                 for side, it in (("after", before), ("before", behind)) if it is not None]
        return f"; {' and '.join(sides)}" if sides else ""

    def end_group(self, group: Group) -> None:
        """Shows the counts of a group, and its order."""
        super().end_group(group)
        if group.lost or group.disputed or group.unannounced or group.out_of_order:
            self._need_group()
        self._end_runs()
        if not self._group_heading:
            self._put_counts(group)
        self._group_heading = []

    def _put_counts(self, group: Group) -> None:
        counts = "".join(f", {count:,} {what}" for count, what in (
            (group.lost, "missing"), (group.disputed, "disputed"), (group.unannounced, "unannounced")) if count)
        self._put(f"    numbers {group.first} to {group.last}: {group.listed:,} listed{counts}")
        if group.out_of_order:
            self._put(f"    out of order: {order_words(group)}")
        elif group.listed > 1 and not self._only_findings:
            self._put("    order: the places of the listed messages rise with their numbers")

    # ---- messages by their places

    def stray(self, kind: str, place: int, cause: str) -> None:
        """Shows the first few messages of a kind, and keeps the places of the others."""
        super().stray(kind, place, cause)
        if self._kind != kind:
            self._end_list()
            self._kind, self._shown, self._runs = kind, 0, Runs()
            self._put(f"{HEADINGS[kind]}:")
        if self._shown == FEW:
            self._runs.add(place)
            return
        self._shown += 1
        where = place_words(self._reviewed.log, place)
        claim = self._reviewed.claim_at(place) if kind == "refused" else None
        what = strangers.claim_words(*claim) if claim else "unproved" if place in self._reviewed.unproved else cause
        self._put(f"  {where}{f', {what}' if what else ''}{self._text(place, kind)}")

    def _text(self, place: int, kind: str) -> str:
        # what is said of the text stands in front of its colon, where no text of a log can stand
        most = most_shown(kind)
        found = self._reviewed.inspected.find_original(place, octets_for(most))
        text, is_cut = found.shown(most)
        more = f" .. ({found.octets:,} octets)" if is_cut else ""
        return f"{', in a wrap' if found.is_original else ''}: {text}{more}"

    def _end_list(self) -> None:
        if not self._kind:
            # the sessions end here
            self._end_runs()
            self._end_states()
        elif self._runs.count:
            self._put_more(f"  and {self._runs.count:,} more, at {'place' if self._runs.count == 1 else 'places'} {self._runs}")
        self._runs = Runs()

    def _end_states(self) -> None:
        for state, few in self._states.items():
            if few.left:
                self._put_more(f"And {grouped(few.left, 'more session')}: {state}; {STATES[state]}")

    def damaged(self, stretch: Damaged) -> None:
        """Shows all that is damaged at once, or the longest stretches if there are too many."""
        self._end_lists()
        if self.totals.damaged > 1:
            return
        log, damage = self._reviewed.log, self._reviewed.survey.damage
        shown_ones = damage.longest(FEW)
        for it in shown_ones:
            self._put(f"Damaged: {octets_words(log, it)}, {after_words(log, it)}.")
        more = len(damage) - len(shown_ones)
        if more:
            self._put_more(f"  and {grouped(more, 'more stretch', 'more stretches')}, none of them longer; all {len(damage):,} have "
                           f"{grouped(damage.octets, 'octet')}")

    def torn(self, offset: int) -> None:
        """Shows where the log breaks off."""
        self._end_lists()
        part = self._reviewed.log.part_of_offset(offset)
        where = shown_name(part.name)
        self._put(f"Torn: the log breaks off in the message that begins at octet {offset - part.offset} of {where}")

    def end(self, count: int) -> None:
        """Shows how many messages there are of each kind."""
        super().end(count)
        self._end_lists()
        totals = self.totals
        kinds = [grouped(totals.unlisted, "unlisted", "unlisted"), grouped(totals.refused, "unverified block"),
                 grouped(totals.spoilt, "spoilt block")]
        others = "".join(f", {it}" for it in kinds if not it.startswith("0 "))
        if not self._only_findings:
            self._put(f"Stored messages: {count:,} ({totals.listed:,} listed, "
                      f"{grouped(self._reviewed.survey.verified, 'verified block')}{others})")

    def _end_lists(self) -> None:
        if self._kind != "end":
            self._end_list()
            self._put_pairs()
            self._kind = "end"

    def _put_pairs(self) -> None:
        pairs, count = self._reviewed.shown.pairs, self._reviewed.shown.pair_count
        if pairs:
            self._put(f"{PAIRS_WITH_DAMAGE if any(it.stretch.damaged for it in pairs) else PAIRS}:")
        for it in pairs:
            group = whose(it.group.session, it.group.sg, it.group.spri)
            self._put(f"  missing {numbers_words(it.first, it.last)} of {group}: {neighbours_words(it.stretch)}")
            for place in it.places:
                self._put(f"    likely {place_words(self._reviewed.log, place)}{self._text(place, 'unlisted')}")
            for damaged in it.stretch.damaged:
                self._put(f"    likely {octets_words(self._reviewed.log, damaged, 'damaged octet')}")
        if count > len(pairs):
            self._put_more(f"  and {grouped(count - len(pairs), 'more likely pair')}")

    # ---- the verdict

    def verdict(self) -> bytes:
        """Shows how far the log goes, and the verdict. Gives what has to stand in front: of a long text, or where a list was cut,
        the verdict and the longest runs; and what was checked."""
        self._put_reach()
        said = f"Verdict: {sentence(self._reviewed.facts)}"
        self._put(said)
        checked = self._details.checked.lines() if self._details is not None else []
        front = [said, *self._longest(), *checked] if self._is_cut or self.lines + len(checked) > LONG else checked
        return "".join(f"{it}\n" for it in front).encode("utf-8", "backslashreplace")

    def _longest(self) -> List[str]:
        """The longest runs of each kind, whatever stands before them in their lists."""
        lines = []
        for kind, runs in self.runs.items():
            others = self.others[kind]
            lines += [f"  {kind}: {it.words(self.has_one_group)}{self._between(it.stretch.before, it.stretch.behind)}"
                      for it in runs.longest()]
            lines += [f"  {kind}: {it.where}: {it.what}" for it in others.longest()]
            if runs.entries + others.entries > NAMED:
                lines.append(f"  and {runs.entries + others.entries - NAMED:,} more, none of them longer")
        return ["The longest runs of each kind:", *lines] if lines else []

    def _put_reach(self) -> None:
        reach = self._reviewed.survey.reach
        if not reach:
            return
        both = "" if self.counters is None else " and after the counters"
        self._put("The verdict doesn't cover anything sent after the last signature block in this log"
                  f"{both}{'.' if self._only_findings else ':'}")
        if self._only_findings:
            return
        for number, it in enumerate(reach):
            if number == FEW:
                self._put(f"  and {grouped(len(reach) - FEW, 'more group')}")
                break
            further = "" if self.counters is None else f"; {counters_words(it)}"
            self._put(f"  session {whose(it.session, it.sg, it.spri)}: {reach_words(it)}{further}")
        self._put(f"Whether anything sent later is missing, this log{' and these counters' if both else ''} can't show.")
