#!/usr/bin/env python3
"""The README of a crate, and the page of edits.

    crate_readmes.py NAME [FOLDER]       the README of this crate, of the repository in FOLDER or of this one
    crate_readmes.py --edits [FOLDER]    docs/dev/wrong-bodies.md and mutants/README.md

Each has a part that people write, and may end with a list that tools/make-pages makes from the sources. That list
is what it makes now. In the part before it no sentence, and no cell of a table, has more than 25 words. Of a crate that
part has at most 150 words, and its first paragraph is one sentence. The example of a library has at most five lines,
and they stand in its test crate, which compiles, proves and runs them. A library of laws alone has none. Both pages of
edits have at most 300 words together. What isn't so is printed, and the status is then 1.

A word is what stands between white space. In a sentence or cell, what stands between two backquotes is one word, and a
link has its text alone.
"""
from __future__ import annotations

import os
import re
import sys
from typing import Iterator, List, Tuple

sys.path.insert(0, os.path.join(os.path.dirname(os.path.dirname(os.path.abspath(__file__))), "tools"))

from pages import clauses, edits

ROOT = os.path.dirname(os.path.dirname(os.path.abspath(__file__)))
MOST_WORDS = 150
MOST_WORDS_ON_EDITS = 300
MOST_IN_SENTENCE = 25
MOST_LINES = 5
MUTANTS = "mutants/README.md"
# the test crate whose src/examples.rt has the example of a library
TEST_CRATES = {
    "ss_octets": "test_rows",
    "ss_frame": "test_rows",
    "ss_message": "test_rows",
    "ss_payload": "test_rows",
    "ss_block": "test_rows",
    "ss_origin": "test_origins",
    "ss_wrap": "test_origins",
    "ss_review": "test_runs",
    "ss_between": "test_runs",
    "ss_report": "test_runs",
    "ss_salvage": "test_salvage",
    "ss_answers": "test_signings",
    "ss_signing": "test_signings",
    "ss_journal": "test_journals",
    "ss_folder": "test_folders",
    "ss_lines": "test_spelled",
    "ss_signed": "test_signed",
    "ss_spelled": "test_spelled",
    "ss_live": "test_lives",
}
# a line, from 1, and what is wrong there
Fault = Tuple[int, str]


def read(*path: str) -> str:
    """A file."""
    with open(os.path.join(*path), encoding="utf-8") as file:
        return file.read()


def without_code(text: str) -> str:
    """The text with one word in place of what stands between backquotes, and of a link its text."""
    return re.sub(r"\[([^\]]*)\]\([^)]*\)", r"\1", re.sub("`[^`]*`", "code", text))


def word_count(text: str) -> int:
    """How many words a sentence or cell has."""
    return len(without_code(text).split())


def cells_in(line: str) -> List[str]:
    """The cells of a line of a table, in which backquotes may hold a bar."""
    cells = re.split(r"\|(?=(?:[^`]*`[^`]*`)*[^`]*$)", line.strip())
    return [cell.strip() for cell in cells[1:-1]]


def sentences_in(text: str) -> List[str]:
    """The sentences of a paragraph or an item of a list."""
    return re.split(r"(?<=[.!?])[)*]*\s+", without_code(text))


def paragraphs_in(lines: List[str]) -> Iterator[Tuple[int, str]]:
    """Each paragraph, item of a list and heading, with its first line. Blocks of code and tables are none."""
    start, text = 0, ""
    for number, line in enumerate([*lines, ""], 1):
        goes_on = bool(line.strip()) and not line.startswith(("    ", "|", "#", "- "))
        if text and not goes_on:
            yield start, text
            text = ""
        if goes_on or line.startswith(("#", "- ")):
            start, text = (start, f"{text} {line}") if text else (number, line)


def long_faults(lines: List[str]) -> Iterator[Fault]:
    """Sentences and cells that have too many words."""
    for number, paragraph in paragraphs_in(lines):
        for sentence in sentences_in(paragraph.lstrip("#- ")):
            if word_count(sentence) > MOST_IN_SENTENCE:
                yield number, f"a sentence has {word_count(sentence)} words: {sentence}"
    for number, line in enumerate(lines, 1):
        for cell in cells_in(line) if line.startswith("|") else []:
            if word_count(cell) > MOST_IN_SENTENCE:
                yield number, f"a cell has {word_count(cell)} words: {cell}"


def first_faults(lines: List[str]) -> Iterator[Fault]:
    """What is wrong with the paragraph after the title."""
    number, paragraph = next(((number, it) for number, it in paragraphs_in(lines) if number > 1), (1, ""))
    if not paragraph.endswith(".") or re.search(r"[.!?]\s", without_code(paragraph)):
        yield number, f"the first paragraph isn't one sentence: {paragraph}"


def example_of(lines: List[str]) -> Tuple[int, List[str]]:
    """The line after the first block of code, and the block."""
    block: List[str] = []
    for number, line in enumerate(lines, 1):
        if line.startswith("    "):
            block.append(line)
        elif block:
            return number, block
    return len(lines), block


def example_faults(root: str, lines: List[str], test_crate: str) -> Iterator[Fault]:
    """What is wrong with the example of a library."""
    end, block = example_of(lines)
    if not 1 <= len(block) <= MOST_LINES:
        yield end, f"the example has {len(block)} lines, and not 1 to {MOST_LINES}"
        return
    there = read(root, "crates", test_crate, "src", "examples.rt").split("\n")
    if not any(there[i:i + len(block)] == block for i in range(len(there))):
        other = next((line for line in block if line not in there), "the lines in another order")
        yield end, f"crates/{test_crate}/src/examples.rt doesn't have the example: {other.strip()}"


def crate_faults(root: str, name: str) -> Iterator[Fault]:
    """What is wrong with the README of a crate."""
    text = read(root, "crates", name, "README.md")
    own = clauses.own_part(text)
    lines = own.split("\n")
    if len(own.split()) > MOST_WORDS:
        yield 1, f"{len(own.split())} words stand before the list of clauses, and at most {MOST_WORDS} may"
    yield from first_faults(lines)
    yield from long_faults(lines)
    if text != clauses.with_clauses(root, name):
        yield len(lines), "the list of clauses isn't that of the sources: run make pages"
    if name in TEST_CRATES:
        yield from example_faults(root, lines, TEST_CRATES[name])
    elif name.startswith("ss_") and not clauses.has_laws_alone(root, name):
        yield 1, "no test crate is named for the example of this library"


def edit_faults(root: str) -> Iterator[Tuple[str, int, str]]:
    """What is wrong with the pages of edits, each with its page."""
    page = read(root, edits.PAGE)
    if page != edits.with_edits(root)[edits.PAGE]:
        yield edits.PAGE, 1, "the list of edits isn't that of the folders: run make pages"
    owns = {edits.PAGE: edits.own_part(page), MUTANTS: read(root, MUTANTS)}
    words = sum(len(own.split()) for own in owns.values())
    if words > MOST_WORDS_ON_EDITS:
        yield edits.PAGE, 1, f"with {MUTANTS} it has {words} words beside the list: over {MOST_WORDS_ON_EDITS}"
    for name, own in owns.items():
        yield from ((name, number, fault) for number, fault in long_faults(own.split("\n")))


def main(name: str, root: str = ROOT) -> int:
    """Prints each fault."""
    if name == "--edits":
        faults = list(edit_faults(root))
    else:
        faults = [(f"crates/{name}/README.md", number, fault) for number, fault in crate_faults(root, name)]
    for page, number, fault in faults:
        print(f"    {page}, line {number}: {fault}")
    return 1 if faults else 0


if __name__ == "__main__":
    sys.exit(main(*sys.argv[1:]))
