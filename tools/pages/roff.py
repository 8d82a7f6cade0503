"""Spells a small part of Markdown as a manual page: headings, paragraphs, lists, tables and blocks of four spaces."""
from __future__ import annotations

import re
import textwrap
from typing import Iterator, List, Sequence

INLINE = re.compile(r"`([^`]+)`|\*\*(.+?)\*\*|(?<![\w*])\*([^*\s][^*]*)\*|\[([^]]+)\]\([^)]*\)|_([A-Z][A-Z.a-z]*)_")
WIDTH = 79


def plain(text: str) -> str:
    """Text without a meaning for roff."""
    return text.replace("\\", "\\e").replace("-", "\\-").replace("'", "\\(aq").replace("`", "\\(ga").replace("^", "\\(ha") \
        .replace("~", "\\(ti").replace("\u2026", "...")


def inline(text: str) -> str:
    """Text with its literals in bold, and its values in italics."""
    made, end = "", 0
    for found in INLINE.finditer(text):
        made += plain(text[end:found.start()])
        literal, strong, stressed, link, value = found.groups()
        if link is not None:
            made += inline(link)
        elif literal is not None or strong is not None:
            made += f"\\fB{plain(literal or strong)}\\fR"
        else:
            made += f"\\fI{plain(stressed or value)}\\fR"
        end = found.end()
    return made + plain(text[end:])


def lines_of(text: str) -> List[str]:
    """A paragraph in lines, none of which is taken for a request."""
    made = textwrap.wrap(inline(text), WIDTH, break_long_words=False, break_on_hyphens=False)
    return ["\\&" + line if line[0] in ".'" else line for line in made]


def quoted(text: str) -> str:
    """An argument of a request."""
    return '"' + plain(text).replace('"', "\\(dq") + '"'


def entry(tag: str, texts: Sequence[str]) -> List[str]:
    """A tag, which is spelled already, and what is said of it."""
    made = [".TP", tag]
    for index, text in enumerate(it for it in texts if it):
        made += ([".IP"] if index else []) + lines_of(text)
    return made


def cells(row: str) -> List[str]:
    """The cells of a row of a table."""
    return [cell.strip() for cell in row.strip().strip("|").split(" | ")]


def table(rows: Sequence[str]) -> List[str]:
    """A table as entries: the first cell is the tag."""
    heads = cells(rows[0])
    made: List[str] = []
    for row in rows[2:]:
        first, *others = cells(row)
        texts = [others[0]] if others else []
        texts += [f"{head}: {cell}" for head, cell in zip(heads[2:], others[1:])]
        made += entry(inline(first), texts)
    return made


def code(lines: Sequence[str]) -> List[str]:
    """A block as it stands."""
    shown = [plain(line[4:]) for line in lines]
    shown = ["\\&" + line if line[:1] in (".", "\\") else line for line in shown]
    return [".PP", ".RS 4", ".nf", *shown, ".fi", ".RE"]


def blocks(text: str) -> Iterator[List[str]]:
    """The blocks of a text: runs of lines without an empty one."""
    block: List[str] = []
    for line in [*text.splitlines(), ""]:
        if line.strip():
            block.append(line)
        elif block:
            yield block
            block = []


def items(block: Sequence[str]) -> List[str]:
    """A list."""
    made: List[str] = []
    for line in block:
        mark, text = line.split(" ", 1)
        made += [".IP \\(bu 2" if mark == "-" else f".IP {mark} 4", *lines_of(text)]
    return made


def roff(text: str) -> List[str]:
    """A text of Markdown as lines of roff. `#` is a section, and `##` a part of one."""
    made: List[str] = []
    for block in blocks(text):
        head = block[0]
        if head.startswith("# "):
            made += [f".SH {quoted(head[2:].upper())}"]
        elif re.match("###? ", head):
            made += [f".SS {quoted(head.split(' ', 1)[1])}"]
        elif head.startswith("|"):
            made += table(block)
        elif head.startswith("    "):
            made += code(block)
        elif re.match(r"- |\d+\. ", head):
            made += items(block)
        elif head.startswith("\0"):
            made += [line[1:] for line in block]
        else:
            made += [".PP", *lines_of(" ".join(block))]
    return made


def tidy(made: Sequence[str]) -> List[str]:
    """Without a paragraph right after a heading, which means nothing there."""
    kept: List[str] = []
    for line in made:
        if line == ".PP" and kept and kept[-1].startswith((".SH", ".SS")):
            continue
        kept.append(line)
    return kept
