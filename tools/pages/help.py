"""The commands and options of a program, read from what it says with --help."""
from __future__ import annotations

import os
import re
import subprocess
from dataclasses import dataclass, field
from typing import Dict, List, Optional, Sequence, Tuple

from ssign_keys.explanations import UNPRINTED, read_explanations

OPTION = re.compile(r" +(?:(-\w), )?(--[a-z][a-z0-9-]*)((?: [<{]?[\w.,:/]+[>}]?)*)(?:  +(\S.*))?")
NAMED = re.compile(r" +(\S+)(?:  +(\S.*))?")
HEADING = re.compile(r"[A-Za-z][a-z ]*:")
POSSIBLE = re.compile(r"\[possible values: ([^]]+)\]")
# values that are few, and that a help tells in a sentence alone
KNOWN_VALUES = {"--groups": ["one", "pri"]}


class Unreadable(Exception):
    """A help isn't in a form that is known here."""


@dataclass
class Option:
    """An option: `-h, --help`, or `--answers FILE`. `values` are the names of its values."""

    name: str
    short: Optional[str]
    values: List[str]
    text: str
    choices: List[str]


@dataclass
class Command:
    """A command with its options. `arguments` are the names of the words after it, with a text each."""

    name: str
    purpose: str
    usage: str = ""
    options: List[Option] = field(default_factory=list)
    arguments: List[Tuple[str, str]] = field(default_factory=list)
    examples: List[str] = field(default_factory=list)


@dataclass
class Program:
    """A program with its commands. `codes` are the words that its command `explain` knows, each with its text."""

    name: str
    purpose: str
    version: str
    usage: str
    options: List[Option]
    commands: List[Command]
    codes: Dict[str, str] = field(default_factory=dict)


def ask(path: str, name: str, words: Sequence[str]) -> Tuple[str, str]:
    """What the program says, on standard output and on standard error, under this name and without line breaks."""
    environment = {**os.environ, "LC_ALL": "C", "COLUMNS": "10000", "NO_COLOR": "1", "PYTHON_COLORS": "0"}
    said = subprocess.run([name, *words], executable=path, env=environment, stdin=subprocess.DEVNULL,
                          capture_output=True, check=False)
    return said.stdout.decode("utf-8"), said.stderr.decode("utf-8")


def ask_help(path: str, name: str, words: Sequence[str]) -> str:
    """What the program says with these words and --help. It may lack a module, and then says nothing."""
    said, complaint = ask(path, name, [*words, "--help"])
    if not said:
        raise Unreadable(f"{' '.join([name, *words])} --help says nothing, but: {complaint.strip()}")
    return said


def choices_of(name: str, values: Sequence[str], text: str) -> List[str]:
    """The values that an option takes, where they are few."""
    possible = POSSIBLE.search(text)
    if possible:
        return possible[1].split(", ")
    if len(values) == 1 and values[0].startswith("{"):
        return values[0].strip("{}").split(",")
    return KNOWN_VALUES.get(name, [])


def option_of(line: str, text: str) -> Option:
    """The option of a line of help."""
    found = OPTION.fullmatch(line)
    if found is None:
        raise Unreadable(f"no option: {line}")
    words = found[3].split()
    choices = choices_of(found[2], words, text)
    values = ["VER" if word.startswith("{") else word.strip("<>") for word in words]
    return Option(found[2], found[1], values, text, choices)


def sections(said: str) -> Dict[str, List[str]]:
    """The lines of a help below each of its headings. A line that stands further right goes on the one before."""
    parts: Dict[str, List[str]] = {"": []}
    heading = ""
    for line in said.splitlines():
        if HEADING.fullmatch(line):
            heading = line.rstrip(":").lower().replace("optional arguments", "options")
            parts[heading] = []
        elif line.startswith("            ") and parts[heading]:
            parts[heading][-1] += "  " + line.strip()
        elif line.strip():
            parts[heading].append(line)
    return parts


def options_of(parts: Dict[str, List[str]]) -> List[Option]:
    """The options of a help, which may stand below several headings."""
    options = []
    for line in (it for lines in parts.values() for it in lines):
        if line.lstrip().startswith("-"):
            found = OPTION.fullmatch(line)
            options.append(option_of(line, found[4] or "" if found else ""))
    return options


def named(lines: Sequence[str]) -> List[Tuple[str, str]]:
    """The names in front of these lines, each with its text."""
    found = [NAMED.fullmatch(line) for line in lines]
    return [(it[1], it[2] or "") for it in found if it and not it[1].startswith("{")]


def usage_of(parts: Dict[str, List[str]]) -> str:
    """The words after `Usage:`, under the name that the program has wherever it is."""
    for line in parts[""]:
        if line.lower().startswith("usage: "):
            return re.sub(r"^ssign-x86_64-linux\b", "ssign", line.split(": ", 1)[1])
    raise Unreadable("a help without its usage")


def purpose_of(parts: Dict[str, List[str]]) -> str:
    """The sentence that says what a program or command does."""
    return next(line for line in parts[""] if not line.lower().startswith("usage: "))


def read_command(path: str, program: str, name: str) -> Command:
    """A command, as its help has it."""
    parts = sections(ask_help(path, program, [name]))
    arguments = named(parts.get("arguments", parts.get("positional arguments", [])))
    examples = [line.strip() for line in parts.get("examples", [])]
    return Command(name, purpose_of(parts), usage_of(parts), options_of(parts), arguments, examples)


def read_program(path: str, name: str) -> Program:
    """A program with all of its commands."""
    parts = sections(ask_help(path, name, []))
    rows = named(parts.get("commands", [])) or named(parts.get("positional arguments", []))
    commands = [read_command(path, name, it) for it, _ in rows if it not in ("help", "COMMAND")]
    options = options_of(parts)
    version = ask(path, name, ["--version"])[0].strip() if any(it.name == "--version" for it in options) else ""
    codes = read_codes(path) if any(it.name == "explain" for it in commands) else {}
    return Program(name, purpose_of(parts), version, usage_of(parts), options, commands, codes)


def read_codes(path: str) -> Dict[str, str]:
    """The text of each code that the program prints, in its order. Of a code of several words none is completed."""
    try:
        return {it.code: it.text for it in read_explanations(path) if it.table != UNPRINTED and " " not in it.code}
    except (ValueError, subprocess.SubprocessError) as fault:
        raise Unreadable(f"{path} explains no codes: {fault}") from fault
