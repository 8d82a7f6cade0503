"""Signs what a log wants to have signed: a line `seal` for each line `want` of `ssign plan`.

Who holds the key reads the whole of what it signs. So nothing is signed but blocks that `ssign plan` writes, no two that
contradict each other, and, where the caller says so, those of one session alone.
"""
from __future__ import annotations

import argparse
import base64
from contextlib import ExitStack
from typing import Callable, Dict, Iterable, Iterator, List, Optional

from .blocks import Certificate, Session, Written, block_of
from .describer import Describer
from .encoding import decode
from .faults import Fault
from .keys import PrivateKey, read_private_key
from .output import write_out
from .payloads import OCTETS
from .programs import add_program_argument, find_program
from .seal_each import LONGEST, LastSessions, LastState
from .sealed import Sessions, record_of
from .sealed_payloads import OwnPayload, Payloads
from .state import State
from .streams import Output, input_lines, short_lines

WANT = b"want "
# the options that name a session, with the field of the RFC that each is
NAMES = {"host": "HOSTNAME", "app": "APP-NAME", "procid": "PROCID", "rsid": "RSID"}

Check = Callable[[Written, bytes, int], None]


def read_written(octets: bytes, describer: Describer) -> Written:
    """The block that these octets in base64 are, all of them. Raises Fault where `ssign plan` doesn't write such a block."""
    fields = describer.describe(octets)
    block = block_of(fields) if "exact" in fields else None
    if block is None or isinstance(block, Certificate) and OCTETS.fullmatch(block.fragment) is None:
        raise Fault("the octets aren't a block as `ssign plan` writes it, so they aren't signed")
    return block


def seals(lines: Iterable[bytes], key: PrivateKey, describer: Describer, check: Optional[Check] = None) -> Iterator[bytes]:
    """For each line `want OCTETS`, with or without its LF, the line `seal OCTETS SIGNATURE` with its LF.

    Raises Fault at a line that is no such line, at octets that are no block of `ssign plan`, at a block that `check`
    refuses, and where the hash is too short for q.
    """
    for number, line in enumerate(lines, 1):
        wanted = line[len(WANT):len(line) - line.endswith(b"\n")]
        octets = decode(wanted) if line.startswith(WANT) else None
        if octets is None:
            raise Fault(f"line {number} is no line `want OCTETS` of ssign plan")
        try:
            block = read_written(wanted, describer)
            if check is not None:
                check(block, octets, number)
            signature = key.sign(octets, block.version)
        except Fault as fault:
            raise Fault(f"line {number}: {fault}") from fault
        yield b"seal %s %s\n" % (wanted, base64.b64encode(signature))


def add_arguments(parser: argparse.ArgumentParser) -> None:
    """Says which words the command takes."""
    parser.add_argument("key", metavar="PRIVATE.pem", help="the originator's private key, a DSA key without a passphrase")
    for name, field in NAMES.items():
        parser.add_argument(f"--{name}", action="append", metavar="N" if name == "rsid" else "TEXT",
                            help=f"refuse a block with another {field}")
    parser.add_argument("--state", metavar="FILE", help="keep in FILE what was signed, and refuse a block that doesn't go "
                        "with it: of an older session, or with a counter or a number that other octets have")
    parser.add_argument("--new-state", action="store_true", help="begin the file of --state, which may not be there yet")
    parser.add_argument("--each", action="store_true", help="answer each line at once, as `ssign-keys live` wants it; the file of "
                        "--state remembers the last blocks then, and a block before them is refused")
    add_program_argument(parser)


def run(arguments: argparse.Namespace) -> int:
    """Writes a line `seal` for each line of standard input."""
    if arguments.new_state and arguments.state is None:
        raise Fault("--new-state goes with --state FILE")
    wanted = session_of(arguments)
    key = read_private_key(arguments.key)
    program = find_program(arguments)
    if arguments.each:
        return seal_each(arguments, key, program, wanted)
    with ExitStack() as stack:
        state: Optional[State] = None
        sessions = Sessions(is_ordered=False)
        if arguments.state is not None:
            state = stack.enter_context(State(arguments.state, key.public.fingerprint, arguments.new_state))
            sessions = state.sessions
        output = stack.enter_context(Output())
        payloads = Payloads()

        def check(block: Written, octets: bytes, line: int) -> None:
            refuse_other_session(block.session, wanted)
            sessions.take(block.session, record_of(block, octets, line))
            payloads.take(block)

        for line in seals(input_lines(), key, stack.enter_context(Describer(program)), check):
            output.add(line)
        sessions.check_spans()
        payloads.refuse_other_key(key.public)
        if state is not None:
            state.write()
        output.release()
    return 0


def seal_each(arguments: argparse.Namespace, key: PrivateKey, program: str, wanted: Dict[str, bytes]) -> int:
    """Answers each line of standard input at once. Ends at the first one that is refused.

    A block stands in the state, on the disk, before its seal is given out. The state is locked for one answer at a time, so a
    connection that hangs keeps nobody from asking.
    """
    payload = OwnPayload(key.public)
    ask = LastSessions().ask
    if arguments.state is not None:
        state = LastState(arguments.state, key.public.fingerprint, arguments.new_state)
        state.begin()
        ask = state.ask

    def check(block: Written, octets: bytes, line: int) -> None:
        refuse_other_session(block.session, wanted)
        is_bound = "rsid" in wanted
        if isinstance(block, Certificate):
            ask(block.session, payload.stamp(block), is_bound)
        else:
            ask(block.session, record_of(block, octets, 0), is_bound)

    with Describer(program) as describer:
        for line in seals(short_lines(LONGEST), key, describer, check):
            write_out([line])
    return 0


def session_of(arguments: argparse.Namespace) -> Dict[str, bytes]:
    """What the options say of the session: a value for each that was given."""
    wanted = {}
    for name in NAMES:
        values: List[str] = getattr(arguments, name) or []
        if len(values) > 1:
            raise Fault(f"--{name} can be given only once")
        wanted.update({name: value.encode("utf-8", "surrogateescape") for value in values})
    return wanted


def refuse_other_session(session: Session, wanted: Dict[str, bytes]) -> None:
    """Refuses a block whose session isn't the one that the options say."""
    for name, value in wanted.items():
        stored: bytes = getattr(session, name)
        if stored != value:
            raise Fault(f"the block has {NAMES[name]} {stored.decode('ascii')}, and --{name} says "
                        f"{value.decode('utf-8', 'surrogateescape')}")
