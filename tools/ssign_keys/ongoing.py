"""Signs a log in a session that goes on from run to run (`ssign-keys sign --state`).

The counters with which the signed log will end are saved before anything of it is signed. So a run that is killed at any
moment has given no number that the next run gives again: what it didn't write shows as unannounced numbers.
"""
from __future__ import annotations

import argparse
import dataclasses
import itertools
import subprocess
from typing import BinaryIO, Callable, List, Optional

from .blocks import Certificate, Session, Signature, Written
from .counters_file import lines_of
from .defaults import USUAL_FIELDS, fill, machine_name, most_hashes, only
from .faults import Fault
from .frames import frame_at
from .keys import PublicKey
from .known_sessions import KnownSessions, keep_names, session_of
from .logs import Log, Part
from .output import file_pieces, write_out
from .programs import Run
from .progress import Progress
from .refusals import RANGES
from .sealed import Sessions, record_of
from .seal import Check
from .session_file import KEPT, MOST_RSID, START, Ends, Ongoing, read_ends
from .session_state import NEW, SessionState
from .texts import quoted
from .workplace import Workplace, finish, put

# what an option of `ssign sign` is where it isn't given, but for those that depend on the key or on the time
USUAL = {**USUAL_FIELDS, "groups": "one", "frag": "500", "copies": "1"}
# what may be another in each run; where it isn't given it is that of the first one
OF_A_RUN = ("count", "copies")
NAMES = {"rsid": "the RSID", "host": "the HOSTNAME", "app": "the APP-NAME", "procid": "the PROCID", "msgid": "the MSGID",
         "pri": "the PRI", "ver": "the VER", "groups": "the groups", "payload": "the payload"}

Seal = Callable[[List[str], Log, Optional[Check]], str]
"""Plans a log under these words, and signs what that wants and a check doesn't refuse. Gives the path of the answers file."""
Write = Callable[[List[str], str, Log, BinaryIO], int]
"""Has ssign write a log with these answers. Gives its status."""


class Once(argparse.Action):
    """Takes --state once."""

    def __call__(self, parser: argparse.ArgumentParser, namespace: argparse.Namespace, values: object,
                 option_string: Optional[str] = None) -> None:
        """Keeps the folder. Of two, nobody would see which one is used."""
        if getattr(namespace, self.dest) is not None:
            parser.error(f"{option_string} can be given only once")
        setattr(namespace, self.dest, values)


def add_arguments(parser: argparse.ArgumentParser) -> None:
    """Says how a session goes on."""
    parser.add_argument("--state", action=Once, metavar="FOLDER", help="sign in the session that FOLDER keeps, and go on with "
                        "its numbers; options that name the session, its payload or its blocks may be left out then, and "
                        "may not differ, but for --stamp, --count and --copies")
    parser.add_argument("--new-session", action="store_true", help="begin a session in the folder of --state; the one before "
                        "ends there, its counters stay, and names that aren't given are taken from it")


# ---- the words of a session

def settle(arguments: argparse.Namespace, state: SessionState, key: PublicKey, known: KnownSessions) -> Ongoing:
    """Puts in the words that aren't given, as the session has them. Raises Fault where one that is given differs."""
    if arguments.new_session:
        return begin(arguments, state, key, known)
    ongoing = state.ongoing
    assert ongoing is not None
    if ongoing.key != key.fingerprint:
        raise Fault(f"the session of the state {state.name} is that of another key; {NEW}")
    is_usual = not arguments.count
    for option in KEPT:
        kept = ongoing.options[option]
        given: List[str] = getattr(arguments, option) or [kept]
        if option in OF_A_RUN:
            setattr(arguments, option, given)
            continue
        for it in given:
            if not is_same(option, it, kept):
                what = NAMES.get(option, f"--{option}")
                raise Fault(f"--{option} {quoted(it)}: {what} of the session of the state {state.name} is {quoted(kept)}; {NEW}")
        # ssign refuses an option that is given twice
        setattr(arguments, option, [kept] * len(given))
    fill(arguments, key)
    most = most_hashes(arguments, key)
    if is_usual and int(ongoing.options["count"]) > most:
        # --max-len may be less than in the run that began the session
        arguments.count = [str(most)]
    return ongoing


def is_same(option: str, given: str, kept: str) -> bool:
    """Whether two words of an option say the same. A name of digits isn't a number."""
    are_numbers = option in RANGES and is_number(given) and is_number(kept)
    return given == kept or (are_numbers and int(given) == int(kept))


def is_number(word: str) -> bool:
    """Whether a word is a number, in digits alone."""
    return word.isascii() and word.isdigit() and len(word) < 20


def begin(arguments: argparse.Namespace, state: SessionState, key: PublicKey, known: KnownSessions) -> Ongoing:
    """A session that begins, with a greater RSID than each before, and the names of the one before where none are given."""
    last = state.last_rsid()
    ongoing = state.ongoing
    # of a session without certificate blocks nothing was written
    is_unused = ongoing is not None and not ongoing.certificates and ongoing.rsid > state.last_counted()
    given = only(arguments.rsid)
    if state.before is not None:
        keep_names(arguments, state.before.options)
    arguments.host = arguments.host or [machine_name()]
    if given is None:
        known.begin(arguments, state.next_rsid())
    elif not is_number(given) or int(given) > MOST_RSID:
        raise Fault(f"--rsid {quoted(given)}: it has to be a number from {RANGES['rsid']}")
    elif int(given) < last or int(given) == last and not is_unused:
        more = "; without --new-session that session goes on" if ongoing is not None and int(given) == ongoing.rsid else ""
        raise Fault(f"--rsid {given}: the state {state.name} knows a session with the RSID {last}, and one that begins needs a "
                    f"greater one{more}")
    else:
        arguments.rsid = [str(int(given))] * len(arguments.rsid)
        if ongoing is None or session_of(arguments) != ongoing.session:
            known.begin(arguments, 0)
    fill(arguments, key)
    for option in KEPT:
        if not getattr(arguments, option):
            setattr(arguments, option, [USUAL[option]])
    return Ongoing(key.fingerprint, {it: getattr(arguments, it)[0] for it in KEPT}, START, ())


# ---- signing

class Signing:
    """A run that signs a log in a session that goes on."""

    def __init__(self, program: str, state: SessionState, ongoing: Ongoing, known: KnownSessions, workplace: Workplace,
                 progress: Progress) -> None:
        """Nothing is done yet."""
        self._program = program
        self._state = state
        self._known = known
        self._ongoing = ongoing
        self._workplace = workplace
        self._progress = progress

    def sign(self, words: List[str], log: Log, seal: Seal, write: Write) -> int:
        """Writes the signed log to standard output, whole, and gives the status of `ssign sign`."""
        has_begun = bool(self._ongoing.certificates)
        # a log that is refused ends no session, and uses no number up
        ahead = self._plan_ahead(self._resumed(words) if has_begun else words, log)
        if not has_begun:
            self._begin(words, log.are_lines, seal, write)
        before = self._ongoing
        if not before.ends.is_before(ahead):
            raise Fault("this is a mistake of ssign-keys: ssign would go on with numbers that were given, so nothing is signed")
        words = self._resumed(words)
        self._save(dataclasses.replace(before, ends=ahead))
        room = Room(before.session, before.ends, ahead)
        seals = seal(words, log, room.check)
        room.check_spans()
        with self._workplace.new_file("signed") as out:
            status = write(words, seals, log, out)
            write_out(itertools.chain([before.frames], file_pieces(out)))
        return status

    def _begin(self, words: List[str], are_lines: bool, seal: Seal, write: Write) -> None:
        """Has the certificate blocks signed, which stand in front of each log of the session. Its RSID is used up before."""
        self._known.take()
        self._save(self._ongoing)
        with self._workplace.new_file("nothing") as file:
            nothing = Log(file, [Part("-", 0, 0)], are_lines, True)
            room = Room(self._ongoing.session, START, START)
            seals = seal(words, nothing, room.check_certificate)
            room.check_spans()
            with self._workplace.new_file("signed") as out:
                write(words, seals, nothing, out)
                certificates = messages_of(b"".join(file_pieces(out)))
        self._ongoing = dataclasses.replace(self._ongoing, certificates=tuple(certificates))

    def _save(self, ongoing: Ongoing) -> None:
        """Has the state on the disk before the run goes on."""
        self._state.save(ongoing)
        self._ongoing = ongoing

    def _resumed(self, words: List[str]) -> List[str]:
        """The words with which a run of ssign goes on from the counters of the session."""
        with self._workplace.new_file("start") as file:
            put(file, self._ongoing.ends.file(self._ongoing.session))
            finish(file)
        return [*words, f"--resume={self._workplace.path('start')}"]

    def _plan_ahead(self, words: List[str], log: Log) -> Ends:
        """The counters with which the signed log will end."""
        planning = Run(self._program, ["plan", "--ahead", *words], self._workplace, self._progress, log.rewind(), subprocess.PIPE)
        lines = list(planning.lines(lambda: self._progress.show("counting", log.position(), log.size, "octets")))
        try:
            return read_ends(lines_of(b"".join(lines)), self._ongoing.session)
        except ValueError as fault:
            raise Fault(f"ssign plan --ahead wrote no counters of the session: {fault}") from fault


def messages_of(frames: bytes) -> List[bytes]:
    """The messages of frames that ssign wrote."""
    found: List[bytes] = []
    at = 0
    while at < len(frames):
        start, length = frame_at(frames, at)
        if not length or start + length > len(frames):
            raise Fault("this is a mistake of ssign-keys: ssign wrote certificate blocks that are no frames")
        found.append(frames[start:start + length])
        at = start + length
    return found


class Room:
    """What may be signed: blocks of one session, between the counters before and those that were saved."""

    def __init__(self, session: Session, before: Ends, ahead: Ends) -> None:
        """Nothing is signed yet."""
        self._session = session
        self._before = before
        self._ahead = ahead
        self._taken = Sessions(is_ordered=False)

    def check(self, block: Written, octets: bytes, line: int) -> None:
        """Refuses all but signature blocks whose numbers weren't given before, and that were saved as given."""
        if not isinstance(block, Signature) or block.session != self._session:
            raise Fault("the block is no signature block of the session, so it isn't signed")
        first, last = block.first, block.first + block.hashes - 1
        is_new = self._before.gbc <= block.gbc and self._before.number(block.group) <= first
        if not is_new or block.gbc >= self._ahead.gbc or last >= self._ahead.number(block.group):
            raise Fault(f"the block with GBC {block.gbc} and the numbers {first} to {last} isn't between the counters of the "
                        "state: the log was changed meanwhile, or this is a mistake of ssign-keys")
        self._taken.take(block.session, record_of(block, octets, line))

    def check_certificate(self, block: Written, octets: bytes, line: int) -> None:
        """Refuses all but certificate blocks of the session."""
        if not isinstance(block, Certificate) or block.session != self._session:
            raise Fault("the block is no certificate block of the session, so it isn't signed")
        self._taken.take(block.session, record_of(block, octets, line))

    def check_spans(self) -> None:
        """Refuses two blocks with one number."""
        self._taken.check_spans()
