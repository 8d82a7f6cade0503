"""Manual pages: a text of man/*.md, with the commands of a program and sections of docs/dev/FORMATS.md in it."""
from __future__ import annotations

import re
from typing import List

from .help import Command, Option, Program, Unreadable
from .roff import entry, plain, quoted, roff, tidy

# the day of the texts; a page has to have one
DATE = "2026-11-24"
PART = re.compile(r"^\{\{(.+)\}\}$", re.M)


def raw(lines: List[str]) -> str:
    """Lines of roff as a block that passes unchanged."""
    return "\n" + "\n".join("\0" + line for line in lines) + "\n"


def option_lines(option: Option) -> List[str]:
    """An option with its values and its text."""
    tag = f"\\fB{plain(option.short)}\\fR, " if option.short else ""
    tag += f"\\fB{plain(option.name)}\\fR" + "".join(f" \\fI{plain(it)}\\fR" for it in option.values)
    text = option.text[:1].upper() + option.text[1:]
    if option.choices and "possible values" not in text and not any(it in text for it in option.choices):
        text += f" [possible values: {', '.join(option.choices)}]"
    return entry(tag, [text if text.endswith((".", "]", ")")) else f"{text}."])


def usage_line(usage: str) -> str:
    """A usage with its names in bold and its values in italics."""
    made = []
    for word in usage.split(" "):
        bare = word.strip("[]<>.|")
        style = "I" if bare and bare.upper() == bare and not bare.startswith("-") or bare.endswith(".pem") else "B"
        spelled = plain(word)
        made.append(f"\\f{style}{spelled}\\fR" if bare else spelled)
    return " ".join(made)


def command_lines(program: Program, command: Command) -> List[str]:
    """A command: how it is called, what it does, and its options."""
    made = [f".SS {quoted(f'{program.name} {command.name}')}", usage_line(command.usage)]
    made += [".PP", *roff(sentence(command.purpose))[1:]]
    for name, text in command.arguments:
        made += entry(f"\\fI{plain(name.strip('<>.[]'))}\\fR", [sentence(text[:1].upper() + text[1:])])
    for option in command.options:
        made += option_lines(option)
    if command.examples:
        made += [".PP", "As in", ".PP", ".RS 4", ".nf", *[plain(it) for it in command.examples], ".fi", ".RE"]
    return made


def sentence(text: str) -> str:
    """A text with its full stop."""
    return text if text.endswith(".") else f"{text}."


def format_section(formats: str, name: str) -> str:
    """A section of docs/dev/FORMATS.md, from its heading up to the next one of its rank."""
    found = re.search(rf"^(##+) {re.escape(name)}\n", formats, re.M)
    if found is None:
        raise Unreadable(f"docs/dev/FORMATS.md has no section {name}")
    rest = formats[found.end():]
    end = re.search(rf"^#{{2,{len(found[1])}}} ", rest, re.M)
    body = rest[:end.start()] if end else rest
    return f"{found[1][1:]} {name}\n\n" + re.sub(r"^###", "##", body, flags=re.M)


def fill(part: str, program: Program, formats: str) -> str:
    """What stands for a part in braces."""
    word, _, name = part.partition(" ")
    if word == "synopsis":
        usages = [it.usage for it in program.commands]
        return raw([line for it in usages for line in ([".br"] if it is not usages[0] else []) + [usage_line(it)]])
    if word == "commands":
        return raw([line for it in program.commands for line in command_lines(program, it)])
    if word == "options":
        return raw([line for it in program.options for line in option_lines(it)])
    if word == "codes":
        return " ".join(f"`{it}`" for it in program.codes)
    if word == "format":
        return format_section(formats, name)
    raise Unreadable(f"nothing is known of {{{{{part}}}}}")


def page(name: str, text: str, program: Program, version: str, formats: str) -> str:
    """The page `ssign.1` of the text of `ssign.1.md`."""
    title, _, section = name.rpartition(".")
    filled = PART.sub(lambda found: fill(found[1], program, formats), text)
    made = [f".\\\" Made by tools/make-pages from --help, man/{name}.md and docs/dev/FORMATS.md.",
            f".TH {plain(title.upper())} {section} {DATE} {quoted(version)} {quoted('Suhvatek')}",
            ".nh", ".ad l"]
    return "\n".join(tidy(made + roff(filled))) + "\n"
