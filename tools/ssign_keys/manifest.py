"""Keeps a manifest of signed logs, and checks a folder of logs against it."""
from __future__ import annotations

import argparse
import fnmatch
import os
import subprocess
from typing import Dict, Iterator, List, Optional, Sequence, Tuple

from . import form as forms
from .blocks import Session
from .counters_file import lines_of
from .digests import sum_of
from .faults import Fault
from .frames import LONGEST
from .json_text import compact
from .kept import copy_counters
from .logs import Log, open_file, open_log
from .manifest_file import Appending
from .manifest_findings import Stored, bare, of_logs, of_manifest
from .manifest_form import (FIRST_SUM, LONGEST_PLACE, Copied, Entry, Extent, LeftOut, Manifest, Mark, SetAside, file_of,
                            left_out_of, read_manifest, read_mark, stamp_of)
from .payloads import present_stamp
from .programs import Refused, Run, add_limit_arguments, add_program_argument, find_program, log_words
from .progress import Progress
from .refusals import fault_of
from .salvage import SALVAGE, salvaged
from .session_file import Ends
from .streams import Output
from .words import counted, shown_name
from .workplace import Workplace, notify

ACTIONS = ("add", "copied", "check")
# octets: one session has at most 768 groups, and a line of one less than 500
MOST_COUNTERS = 1 << 20


def add_arguments(parser: argparse.ArgumentParser) -> None:
    """Says which words the command takes."""
    parser.add_argument("action", choices=ACTIONS, metavar="ACTION", help="add: append the entry of a signed log that was "
                        "verified, and print its number and hash; copied: append that a signed log was copied to "
                        "another place, once the copy is compared; check: compare a folder of logs with the manifest "
                        "[possible values: add, copied, check]")
    parser.add_argument("manifest", metavar="MANIFEST", help="the manifest; to begin one, make an empty file")
    parser.add_argument("place", metavar="LOG", help="add: the signed log; copied: the copy of it; check: the folder of "
                        "the logs")
    parser.add_argument("--counters", metavar="FILE", help="add: the counters of the log, as `ssign counters` wrote them; has "
                        "to be given")
    parser.add_argument("--set-aside", metavar="FILE", help="add: the file of the messages that couldn't be "
                        "signed, as frames")
    parser.add_argument("--left-out", nargs=2, metavar=("FROM", "TO"), help="add: the counters before and after runs that were "
                        "stopped, before the run that signed the log: no message has a number between them")
    parser.add_argument("--signed", metavar="TIME", help="add: when the log was signed, in UTC as 2026-11-27T04:00:00Z "
                        "(default: now)")
    parser.add_argument("--last", metavar="N:SHA256", help="the last entry as `add` printed it, which was kept apart: add "
                        "refuses a manifest that ends with another one; check looks whether it is there")
    parser.add_argument("--seen", metavar="N:SHA256", help="check: the last entry when it was checked before, as check prints it: "
                        "what entries up to it say a stopped run left out is no finding again")
    parser.add_argument("--logs", metavar="PATTERN", help="check: the names of signed logs in the folder, as a pattern of "
                        "the shell; names with a dot in front are skipped (default: all names)")
    parser.add_argument("--to", metavar="PLACE", help="copied: where the copy is kept, as the name of a machine; has to be given")
    parser.add_argument("--sizes", action="store_true", help="check: read no log: compare its name and its size alone, and of a "
                        "compressed log its name")
    parser.add_argument("--json", action="store_true", help="check: print a JSON object for each finding, and one for the total")
    forms.add_arguments(parser)
    add_limit_arguments(parser)
    add_program_argument(parser)


def run(arguments: argparse.Namespace) -> int:
    """Does the action."""
    kept = None if arguments.last is None else read_mark(arguments.last)
    of_add = ("counters", "set_aside", "left_out", "signed", "lines", "frames", "max_len", "max_messages")
    of_check = ("seen", "logs", "sizes", "json")
    with_other = {"add": (*of_check, "to"), "copied": (*of_add, *of_check), "check": (*of_add, "to")}
    for name in with_other[arguments.action]:
        if getattr(arguments, name):
            raise Fault(f"--{name.replace('_', '-')} doesn't go with `manifest {arguments.action}`")
    if arguments.action == "check":
        return check(arguments, kept)
    if arguments.action == "copied":
        return note_copy(arguments, kept)
    if arguments.counters is None:
        raise Fault("`manifest add` needs the counters of the log: --counters FILE")
    return add(arguments, kept)


# ---- add

def add(arguments: argparse.Namespace, kept: Optional[Mark]) -> int:
    """Appends the entry of a log, and prints its number and hash."""
    program, progress = find_program(arguments), Progress()
    log: Optional[Log] = None
    arguments.log = arguments.place
    try:
        with Workplace() as workplace:
            log = open_log([real_name(arguments.place)], forms.named_form(arguments), workplace, progress)
            entry = make_entry(arguments, program, log, workplace, progress)
            log.check_unchanged()
            with Appending(arguments.manifest, kept) as appending:
                number = appending.manifest.last.number
                entry = appending.append(entry)
            if entry.number <= number:
                notify(f"ssign-keys: the entry {entry.number} is of this log already, so nothing is added")
            try:
                with Output() as output:
                    output.add(f"{entry.mark}\n".encode("ascii"))
                    output.release()
            except Fault as fault:
                raise Fault(f"the entry stands in the manifest as {entry.mark}, but {fault}") from fault
            return 0
    except Refused as refused:
        progress.clear()
        said = fault_of(refused, program, arguments, log)
        if said is not None:
            raise said from refused
        return 2
    finally:
        progress.clear()


def real_name(path: str) -> str:
    """The path of a log, which isn't standard input."""
    if path == "-":
        raise Fault("standard input has no name that a manifest could hold: name the log's file")
    return path


def name_for(path: str) -> str:
    """The name of a file in a manifest."""
    try:
        return file_of(os.path.basename(path))
    except ValueError as fault:
        raise Fault(f"{shown_name(path)} has a name that isn't UTF-8, which a manifest can't hold: give it another "
                    "one") from fault


def make_entry(arguments: argparse.Namespace, program: str, log: Log, workplace: Workplace, progress: Progress) -> Entry:
    """The entry of a log, but for its number and the hash of the line before."""
    try:
        signed = stamp_of(present_stamp() if arguments.signed is None else arguments.signed)
    except ValueError as fault:
        raise Fault(f"--signed {shown_name(arguments.signed)}: this is no time in UTC as "
                    "2026-11-27T04:00:00Z") from fault
    session, gbc, ends = read_lines(arguments.counters, workplace)
    groups = extents_of(program, log_words(arguments, log.are_lines), log, session, gbc, ends, workplace, progress)
    name = name_for(bare(arguments.place))
    size, sha256 = sum_of(log.file, 0, log.size)
    left_out = None if arguments.left_out is None else read_left_out(arguments.left_out, session, groups, workplace)
    set_aside = set_aside_of(arguments.set_aside, program, workplace, progress)
    return Entry(1, FIRST_SUM, signed, name, size, sha256, session, gbc, groups, set_aside, left_out)


def read_left_out(paths: Sequence[str], session: Session, groups: Sequence[Extent], workplace: Workplace) -> LeftOut:
    """What was left out between the counters of two files, before a log of this session that begins at the second ones."""
    ends = []
    for path in paths:
        named, gbc, lasts = read_lines(path, workplace)
        if named != session:
            raise Fault(f"the counters file {shown_name(path)} of --left-out is of another session than the log")
        ends.append(Ends(gbc, tuple((*group, last + 1) for group, last in sorted(lasts.items()))))
    try:
        left_out = left_out_of(LeftOut(*ends), groups)
    except ValueError as fault:
        raise Fault(f"the counters of --left-out don't stand before those of the log: {fault}") from fault
    if any(it.first != left_out.after.number((it.sg, it.spri)) for it in groups):
        raise Fault(f"the log doesn't begin at the counters {shown_name(paths[1])} of --left-out")
    return left_out


def read_lines(path: str, workplace: Workplace) -> Tuple[Session, int, Dict[Tuple[int, int], int]]:
    """What a counters file says: its session, the next GBC, and the last number of each group. It has one session."""
    name = shown_name(path)
    sessions = set()
    gbcs: List[int] = []
    ends: Dict[Tuple[int, int], int] = {}
    with open(copy_counters(path, workplace), "rb") as file:
        text = file.read(MOST_COUNTERS + 1)
    if len(text) > MOST_COUNTERS:
        raise Fault(f"the counters file {name} is longer than the counters of one session")
    try:
        lines = lines_of(text)
    except ValueError as fault:
        raise Fault(f"the counters file {name} isn't whole: {fault}") from fault
    for count, line in enumerate(lines, 1):
        fields = line.split(b" ")
        are_numbers = all(it.isdigit() and len(it) < 12 for it in fields[4:])
        if len(fields) not in (6, 8) or fields[0] != b"count" or not are_numbers:
            raise Fault(f"the line {count} of the counters file {name} isn't one that `ssign counters` writes")
        sessions.add(Session(*fields[1:5]))
        if len(fields) == 6:
            gbcs.append(int(fields[5]))
        else:
            ends[int(fields[5]), int(fields[6])] = int(fields[7]) - 1
    if len(sessions) != 1 or len(gbcs) != 1:
        raise Fault(f"the counters file {name} has {counted(len(sessions), 'session')} and "
                    f"{counted(len(gbcs), 'line')} with a "
                    "GBC: an entry is of one session, which has one")
    return sessions.pop(), gbcs[0], ends


def extents_of(program: str, words: List[str], log: Log, session: Session, gbc: int, ends: Dict[Tuple[int, int], int],
               workplace: Workplace, progress: Progress) -> Tuple[Extent, ...]:
    """The numbers that the log's signature blocks announce. Raises Fault where the counters aren't those of the log."""
    firsts: Dict[Tuple[int, int], int] = {}
    lasts: Dict[Tuple[int, int], int] = {}
    greatest = -1
    for line in inspected(program, words, log, workplace, progress):
        fields = line.split(b" ")
        if Session(*fields[2:6]) != session:
            raise Fault(f"the log holds a block of the session {Session(*fields[2:6])}, and the counters are of {session}")
        if fields[0] != b"signature":
            continue
        sg, spri, number, first, count = map(int, fields[6:])
        group = sg, spri
        greatest = max(greatest, number)
        firsts[group] = min(first, firsts.get(group, first))
        lasts[group] = max(first + count - 1, lasts.get(group, 0))
    if lasts != ends or greatest + 1 != gbc:
        raise Fault("the counters aren't those of the log: the signature blocks in it go to other numbers")
    return tuple(Extent(*group, firsts[group], lasts[group]) for group in sorted(lasts))


def inspected(program: str, words: List[str], log: Log, workplace: Workplace, progress: Progress) -> Iterator[bytes]:
    """The lines of `ssign inspect` about blocks. Raises Fault where the log breaks off, or has none."""
    inspecting = Run(program, ["inspect", "--findings", *words], workplace, progress, log.rewind(), subprocess.PIPE)
    count = 0
    for line in inspecting.lines(lambda: progress.show("looking at blocks", log.position(), log.size, "octets")):
        line = line.rstrip(b"\n")
        word = line.partition(b" ")[0]
        if word == b"torn":
            raise Fault("the log breaks off, so it isn't the log that was signed")
        if word in (b"signature", b"certificate"):
            count += 1
            yield line
    if not count:
        raise Fault("the log holds no block, so it isn't a signed log")


def set_aside_of(path: Optional[str], program: str, workplace: Workplace, progress: Progress) -> Optional[SetAside]:
    """The file of messages that couldn't be signed."""
    if path is None:
        return None
    with open_file(path) as file:
        words = ["inspect", "--findings", SALVAGE, f"--max-len={LONGEST}"]
        found = salvaged(Run(program, words, workplace, progress, file, subprocess.PIPE).lines(lambda: None))
        octet = found.damage[0].offset if found.damage else found.torn
        if octet is not None:
            raise Fault(f"{shown_name(path)} isn't a file of whole frames: nothing is one at its octet {octet}")
        length, sha256 = sum_of(file, 0, os.fstat(file.fileno()).st_size)
    return SetAside(name_for(path), length, sha256, found.messages)


# ---- copied

def note_copy(arguments: argparse.Namespace, kept: Optional[Mark]) -> int:
    """Appends that a log was copied, where the copy is what its entry says. Prints the number and hash of the line."""
    if arguments.to is None:
        raise Fault("`manifest copied` needs the place of the copy: --to PLACE")
    if not 1 <= len(arguments.to) <= LONGEST_PLACE or not arguments.to.isprintable():
        raise Fault(f"--to isn't 1 to {LONGEST_PLACE} printable characters")
    with Workplace() as workplace:
        copy = stored_at(arguments.place, name_for(arguments.place), workplace)
        with Appending(arguments.manifest, kept) as appending:
            wanted = file_named(appending.manifest, copy.name)
            if wanted is None:
                raise Fault(f"no entry of the manifest {shown_name(arguments.manifest)} names {shown_name(copy.name)}")
            if wanted != (copy.size, copy.sha256):
                raise Fault(f"{shown_name(arguments.place)} isn't the file that the manifest names: it has "
                            f"{counted(copy.size or 0, 'octet')} and the SHA-256 {copy.sha256}")
            assert copy.sha256 is not None
            line = appending.append_copy(Copied(1, FIRST_SUM, present_stamp(), copy.name, copy.sha256, arguments.to))
        with Output() as output:
            output.add(f"{line.mark}\n".encode("ascii"))
            output.release()
    return 0


def file_named(manifest: Manifest, name: str) -> Optional[Tuple[int, str]]:
    """The size and the SHA-256 of the signed log of this name, or of the file of what was set aside."""
    for entry in manifest.entries:
        for it in (entry, entry.set_aside):
            if it is not None and it.name == name:
                return it.size, it.sha256
    return None


# ---- check

def check(arguments: argparse.Namespace, kept: Optional[Mark]) -> int:
    """Prints what is wrong with the manifest, and with the logs in a folder."""
    seen = None if arguments.seen is None else read_mark(arguments.seen, "--seen")
    with Workplace() as workplace, Output() as output:
        manifest = read_manifest(arguments.manifest)
        look = sized_at if arguments.sizes else stored_at
        logs = [look(path, name, workplace) for path, name in
                logs_in(arguments.place, arguments.logs or "*", arguments.manifest)]
        found = [*of_manifest(manifest, kept, seen), *of_logs(manifest, logs)]
        status = 1 if found else 0
        lines = [it.line() if arguments.json else it.text() for it in found]
        mark = "{}:{}".format(*manifest.last)
        if arguments.json:
            total = {"line": "total", "status": status, "entries": len(manifest.entries), "logs": len(logs),
                     "findings": len(found), "last": mark}
            lines.append(compact(total))
        else:
            lines.append(f"{counted(len(found), 'finding') if found else 'Clean'}. "
                         f"{counted(len(manifest.entries), 'entry', 'entries')}, {counted(len(logs), 'log')}; "
                         "the last entry is "
                         f"{mark}")
        output.add("".join(f"{it}\n" for it in lines).encode("utf-8", "backslashreplace"))
        output.release()
    return status


def logs_in(folder: str, pattern: str, manifest: str) -> Iterator[Tuple[str, str]]:
    """The paths and names of the logs in a folder, in the order of their names. The manifest itself is none."""
    try:
        names = sorted((it for it in os.listdir(folder) if not it.startswith(".")), key=os.fsencode)
    except OSError as fault:
        raise Fault(f"the folder {shown_name(folder)} can't be read: {fault.strerror}") from fault
    for name in names:
        path = os.path.join(folder, name)
        if os.path.isdir(path):
            name_below(path, pattern)
            continue
        if os.path.exists(path) and os.path.samefile(path, manifest):
            continue
        if fnmatch.fnmatchcase(bare(name), pattern) or fnmatch.fnmatchcase(name, pattern):
            yield path, name


def name_below(folder: str, pattern: str) -> None:
    """Reports a file below the folder of logs that has the name of a log, because it isn't looked at."""
    for path, _, names in os.walk(folder):
        for name in sorted(names, key=os.fsencode):
            if not name.startswith(".") and fnmatch.fnmatchcase(bare(name), pattern):
                notify(f"ssign-keys: warning: {shown_name(os.path.join(path, name))} lies below the folder of the logs, and isn't looked "
                       "at: check its folder by itself, or move it")
                return


def sized_at(path: str, name: str, workplace: Workplace) -> Stored:
    """A log of a folder, which isn't read. How long a compressed one is, isn't known then."""
    try:
        size: Optional[int] = os.stat(path).st_size
    except OSError as fault:
        raise Fault(f"{shown_name(path)} can't be looked at: {fault.strerror}") from fault
    return Stored(shown_name(name), bare(name), None if bare(name) != name else size, None)


def stored_at(path: str, name: str, workplace: Workplace) -> Stored:
    """A log of a folder, expanded where it is compressed."""
    if os.path.exists(path) and not os.path.isfile(path):
        raise Fault(f"{shown_name(path)} is no regular file")
    log = open_log([path], False, workplace, Progress())
    try:
        size, sha256 = sum_of(log.file, 0, log.size)
        log.check_unchanged()
    finally:
        log.file.close()
    return Stored(shown_name(name), bare(name), size, sha256)
