"""Makes each manual page and each completion."""
from __future__ import annotations

import os
import sys
from typing import Dict, Sequence

from .clauses import with_lists
from .decisions import with_decisions
from .help import Program, Unreadable, read_program
from .manual import page
from .shells import bash, fish, zsh

ROOT = os.path.normpath(os.path.join(os.path.dirname(os.path.realpath(__file__)), "..", ".."))
# each page with the program whose commands it has
PAGES = {"ssign.1": "ssign", "ssign-answers.5": "ssign", "ssign-report.5": "ssign", "ssign-keys.1": "ssign-keys",
         "ssign-archive.1": "ssign-archive"}


def read(*names: str) -> str:
    """A file of the repository."""
    with open(os.path.join(ROOT, *names), encoding="utf-8") as file:
        return file.read()


def read_programs() -> Dict[str, Program]:
    """All programs. Those without named values take them from the option of ssign with the same name."""
    ssign = read_program(os.path.abspath(os.environ.get("SSIGN") or os.path.join(ROOT, "ssign")), "ssign")
    keys = read_program(os.path.join(ROOT, "tools", "ssign-keys"), "ssign-keys")
    known = {option.name: option.choices for command in ssign.commands for option in command.options if option.choices}
    archive = read_program(os.path.join(ROOT, "tools", "archive"), "ssign-archive")
    for command in keys.commands + archive.commands:
        for option in command.options:
            option.choices = option.choices or known.get(option.name, [])
    return {"ssign": ssign, "ssign-keys": keys, "ssign-archive": archive}


def make_all() -> Dict[str, str]:
    """The text of each file, under its name in the repository."""
    programs = read_programs()
    formats = read("docs", "dev", "FORMATS.md")
    version = programs["ssign"].version
    made = {f"man/{name}": page(name, read("man", f"{name}.md"), programs[of], version, formats) for name, of in PAGES.items()}
    made["docs/dev/DECISIONS.md"] = with_decisions(read)
    made.update(with_lists(ROOT))
    for name, program in programs.items():
        made[f"completions/{name}.bash"] = bash(program)
        made[f"completions/_{name}"] = zsh(program)
        made[f"completions/{name}.fish"] = fish(program)
    return made


def main(words: Sequence[str]) -> int:
    """Writes each file into the folder that is named, or into the repository."""
    if len(words) > 1 or words and words[0].startswith("-"):
        sys.stderr.write("make-pages: it takes one folder, or no word\n")
        return 2
    try:
        made = make_all()
        for name, text in made.items():
            path = os.path.join(words[0] if words else ROOT, name)
            os.makedirs(os.path.dirname(path), exist_ok=True)
            with open(path, "w", encoding="utf-8" if name.endswith(".md") else "ascii", newline="\n") as file:
                file.write(text)
    except (Unreadable, OSError, UnicodeError) as fault:
        sys.stderr.write(f"make-pages: {fault}\n")
        return 2
    return 0
