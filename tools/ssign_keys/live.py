"""Signs messages as they come: reads standard input for ever, and goes on in its session after any stop."""
from __future__ import annotations

import argparse
import errno
import fcntl
import os
import subprocess
from typing import Optional

from .describer import Describer
from .faults import Fault
from .files import open_lock, read_file, reason
from .keys import PublicKey, read_pem_keys, read_private_key
from .live_disk import Disk
from .live_engine import Engine
from .live_input import Input, Source
from .live_journal import Journal, JournalLoop
from .live_log import Live, Terms
from .live_loop import Loop, Pace
from .live_manifest import Book
from .live_outside import World
from .live_sealer import CommandSealer, KeySealer, Sealer
from .live_session import BOOT, MACHINE, Starter, identity
from .live_stamps import Stamps, words_of
from .live_stamps import add_arguments as add_stamps
from .programs import add_program_argument, find_program
from .sign import OPTIONS
from .sizes import read_size
from .store import sync_folder
from .streams import say_waiting
from .words import shown_name

# the options of a session, but for those that `live` says by itself
NAMED = tuple(it for it in OPTIONS if it not in ("rsid", "stamp"))
DEFAULTS = {"app": "signer"}


def add_arguments(parser: argparse.ArgumentParser) -> None:
    """Says which words the command takes."""
    key = parser.add_mutually_exclusive_group(required=True)
    key.add_argument("--key", metavar="PRIVATE.pem", help="the private key to sign with")
    key.add_argument("--seal-command", metavar="CMD", help="have CMD sign, which answers each line as `ssign-keys seal --each` "
                     "does; needs --public")
    parser.add_argument("--public", metavar="PUBLIC.pem", help="the public key of --seal-command")
    parser.add_argument("--state", required=True, metavar="FOLDER", help="the folder of what is remembered over a stop")
    parser.add_argument("--out", required=True, metavar="FOLDER", help="the folder of the signed logs, which are named "
                        "APP-RSID-000001.frames and so on")
    parser.add_argument("--new-session", action="store_true", help="begin another session; the one before ends, its counters stay, "
                        "and names that aren't given are taken from it")
    parser.add_argument("--keep-session", action="store_true", help="go on in the session after the machine was started anew "
                        "(default: another one begins)")
    for name in NAMED:
        value, meaning = OPTIONS[name]
        if name in DEFAULTS:
            meaning = meaning.replace("(default: -)", f"(default: {DEFAULTS[name]})")
        meaning = meaning.replace(", or as many as --max-len has room for", "")
        parser.add_argument(f"--{name}", action="append", metavar=value, help=meaning)
    parser.add_argument("--lines", action="store_true", help="read one message a line (default: octet-counted frames)")
    parser.add_argument("--journal", metavar="CMD", help="read the journal of systemd, which CMD writes: journalctl, with or without "
                        "options that choose entries, as 'journalctl --unit=ssh.service'")
    parser.add_argument("--omprog", action="store_true", help="read strings of JSON, one a line, and answer OK to each message or "
                        "transaction once it is on the disk, as omprog of rsyslog wants it with confirmMessages=\"on\"")
    add_paces(parser)
    wraps = parser.add_mutually_exclusive_group()
    wraps.add_argument("--wrap", action="store_true", help="sign each message that can't be signed in a wrap, which holds all its "
                       "octets (default)")
    wraps.add_argument("--no-wrap", action="store_true", help="store a message that can't be signed as it is, unsigned")
    parser.add_argument("--manifest", metavar="FILE", help="the manifest, which gets an entry with the counters of each ended file "
                        "(default: manifest.jsonl in the folder of --state)")
    add_stamps(parser)
    parser.add_argument("--status", metavar="FILE", help="keep in FILE, as a JSON object, how it goes")
    add_program_argument(parser)


def add_paces(parser: argparse.ArgumentParser) -> None:
    """Says what is done when."""
    parser.add_argument("--messages", type=messages, default=99, metavar="N", help="write a block after N messages: 1 to 9900 "
                        "(default: 99)")
    parser.add_argument("--seconds", type=seconds, default=5.0, metavar="T", help="write a block T seconds after the first message "
                        "that has none (default: 5)")
    parser.add_argument("--rotate-size", type=read_size, default=0, metavar="SIZE", help="begin another file after so many "
                        "octets, as 500M")
    parser.add_argument("--rotate-daily", action="store_true", help="begin another file each day, by the clock of UTC; the signal "
                        "HUP begins one too")
    parser.add_argument("--heartbeat", type=seconds, default=3600.0, metavar="SECONDS", help="sign a message with the counters "
                        "each so many seconds, 0 for none (default: 3600)")


def messages(text: str) -> int:
    """A number of messages."""
    if not (text.isascii() and text.isdigit() and len(text) <= 4 and 1 <= int(text) <= 9900):
        raise argparse.ArgumentTypeError(f"{text!r} is no number of messages from 1 to 9900")
    return int(text)


def seconds(text: str) -> float:
    """A time."""
    try:
        value = float(text) if text.replace(".", "", 1).isdigit() and text.isascii() else -1.0
    except ValueError:
        value = -1.0
    if not 0 <= value <= 86400:
        raise argparse.ArgumentTypeError(f"{text!r} is no number of seconds from 0 to 86400")
    return value


def run(arguments: argparse.Namespace) -> int:
    """Signs until the input ends, or a signal asks it to end. Status 0."""
    if arguments.lines and arguments.omprog:
        raise Fault("--omprog goes without --lines: omprog writes strings of JSON")
    if arguments.journal is not None and (arguments.omprog or arguments.lines):
        raise Fault("--journal goes without --lines and --omprog: no messages are read from standard input then")
    for name in NAMED:
        if len(getattr(arguments, name) or []) > 1:
            raise Fault(f"--{name} can be given only once")
    words_of(arguments)
    program = behind(find_program(arguments))
    sealer = sealer_of(arguments, Describer(program))
    for option, folder, mode in (("--state", arguments.state, 0o700), ("--out", arguments.out, 0o750)):
        make_folder(option, folder, mode)
    lock = lock_folder(arguments.state)
    try:
        with World(arguments.status) as world:
            return run_locked(arguments, sealer, program, world)
    finally:
        sealer.close()
        os.close(lock)


def run_locked(arguments: argparse.Namespace, sealer: Sealer, program: str, world: World) -> int:
    """Signs, in folders that no other process uses."""
    disk = Disk(arguments.state, arguments.out)
    terms = Terms(not arguments.no_wrap, arguments.rotate_size, arguments.rotate_daily, identity(BOOT), identity(MACHINE))
    live = Live(disk, Engine(program), sealer, world, terms)
    path: str = arguments.manifest or os.path.join(arguments.state, "manifest.jsonl")
    book = Book(path, arguments.out, program, world.tell)
    starter = Starter(live, arguments, program, path, int(world.time()))
    book.begin(starter.is_first())
    starter.start()
    stamps = Stamps(live, words_of(arguments), arguments.tsa_seconds)

    def turned() -> None:
        book.note(live.state)
        stamps.begin()

    turned()
    journal = None if arguments.journal is None else Journal(arguments.journal, arguments.state)
    source: Source = journal or Input(arguments.lines, arguments.omprog)
    pace = Pace(arguments.messages, arguments.seconds, arguments.heartbeat)
    kind = Loop if journal is None else JournalLoop
    loop = kind(live, source, world, pace, arguments.omprog, turned, starter.next_session, stamps)
    try:
        if journal is None:
            say_waiting()
            return loop.run()
        journal.start()
        status = loop.run()
        if not world.is_ending:
            journal.refuse_end()
        return status
    finally:
        if journal is not None:
            journal.close()
        stamps.close()
        disk.close_all()


def behind(program: str) -> str:
    """The program that a starter of this repository runs: to judge it anew for each batch would cost more than all the rest."""
    try:
        ran = subprocess.run([program, "--which"], stdin=subprocess.DEVNULL, capture_output=True, check=False)
    except OSError as fault:
        raise Fault(f"the program {shown_name(program)} can't be run: {reason(fault)}") from fault
    path = os.fsdecode(ran.stdout.rstrip(b"\n"))
    return path if ran.returncode == 0 and os.path.isfile(path) else program


def sealer_of(arguments: argparse.Namespace, describer: Describer) -> Sealer:
    """Who signs."""
    if arguments.key is not None:
        if arguments.public is not None:
            raise Fault("--public goes with --seal-command; --key says its public key by itself")
        return KeySealer(read_private_key(arguments.key), describer)
    if arguments.public is None:
        raise Fault("--seal-command needs the public key of whoever signs: --public PUBLIC.pem")
    return CommandSealer(arguments.seal_command, only_key(arguments.public), describer)


def only_key(path: str) -> PublicKey:
    """The one public key in a file."""
    keys = read_pem_keys(path, read_file(path, "a DSA public key in PEM"))
    if len(keys) != 1:
        raise Fault(f"{shown_name(path)} holds {len(keys)} keys, and one signs")
    return keys[0]


def make_folder(option: str, folder: str, mode: int) -> None:
    """Makes a folder, where it isn't there."""
    if not folder:
        raise Fault(f"{option} has an empty name")
    try:
        if not os.path.isdir(folder):
            os.mkdir(folder, mode)
            sync_folder(os.path.dirname(os.path.abspath(folder)))
    except OSError as fault:
        raise Fault(f"the folder {shown_name(folder)}, which {option} names, can't be made: {reason(fault)}") from fault


def lock_folder(folder: str) -> int:
    """A lock on the state, which ends with this process. Its file stays, because another process may wait to lock it."""
    path = os.path.join(folder, "lock")
    lock: Optional[int] = None
    try:
        lock = open_lock(path)
        fcntl.flock(lock, fcntl.LOCK_EX | fcntl.LOCK_NB)
    except OSError as fault:
        if lock is not None:
            os.close(lock)
        if fault.errno in (errno.EACCES, errno.EAGAIN) and lock is not None:
            raise Fault(f"the state {shown_name(folder)} is used by another process: stop it first (L1)") from fault
        raise Fault(f"the state {shown_name(folder)} can't be locked: {reason(fault)} (L1)") from fault
    return lock
