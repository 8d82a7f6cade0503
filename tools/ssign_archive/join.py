"""Writes the messages of all logs of a folder as one log, each file read from its own front on."""
from __future__ import annotations

import argparse
import os

from ssign_keys import expand as expand_options
from ssign_keys.faults import Fault
from ssign_keys.output import batched, write_out
from ssign_keys.programs import add_log_arguments, add_program_argument, find_program, log_words
from ssign_keys.words import shown_name
from ssign_keys.workplace import Workplace, notify

from .findings import file_findings
from .sources import How, Reader
from .folder import files_of


def add_arguments(parser: argparse.ArgumentParser) -> None:
    """Says which words the command takes."""
    parser.add_argument("folder", metavar="FOLDER", help="the folder of a part")
    add_log_arguments(parser)
    expand_options.add_arguments(parser)
    add_program_argument(parser)


def how_of(arguments: argparse.Namespace) -> How:
    """How the options say that logs are read."""
    for given in arguments.max_len or []:
        if not (given.isascii() and given.isdigit() and 1 <= int(given) <= 1048576):
            raise Fault(f"--max-len: {given!r} is no number from 1 to 1048576")
    return How(os.path.abspath(find_program(arguments)), tuple(log_words(arguments)), arguments.max_expanded)


def run(arguments: argparse.Namespace) -> int:
    """Writes the messages. The status is 2 where a file can't be read to its end, and 1 where one breaks off or is damaged."""
    folder = os.path.normpath(arguments.folder)
    with Workplace() as workplace:
        how, files = how_of(arguments), files_of(folder)
        if not files:
            raise Fault(f"no file lies in {shown_name(folder)}")
        reader = Reader(folder, files, how, workplace)
        write_out(batched(reader.octets()))
    found = file_findings(os.path.basename(folder), reader.read)
    for it in found:
        notify(f"ssign-archive: {it}")
    return 0 if not found else 1 if all(it.octet is None or it.why == "torn" for it in reader.read) else 2
