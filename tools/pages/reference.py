"""The page of codes, from `ssign explain --json` and `ssign-keys explain --json`: a table for each of their tables."""
from __future__ import annotations

import re
from typing import Iterator, List, Sequence

from ssign_keys.explanations import Explanation

# the heading of each table; any other table has its name for one
HEADINGS = {
    "refusals": "Refusals",
    "words": "Words of the output",
    "faults": "What is wrong with a message or a block",
    "unprinted": "Codes that ssign never prints",
    "keys": "Codes and words of ssign-keys alone",
}
BEGINNING = """# Codes and words

`ssign explain CODE` and `ssign-keys explain CODE` print these texts. A code is a letter and a number. A word is one of
the output.
"""
# what Markdown, or HTML in it, would take for a mark
MARKS = re.compile(r"[\\`*_{}\[\]<>()#+!|&$~^:]")


def escaped(text: str) -> str:
    """A text that Markdown shows as it is."""
    return MARKS.sub(r"\\\g<0>", text)


def tables(entries: Sequence[Explanation]) -> Iterator[List[Explanation]]:
    """The entries of each table, in the order in which the tables begin."""
    for name in dict.fromkeys(it.table for it in entries):
        yield [it for it in entries if it.table == name]


def codes_page(entries: Sequence[Explanation]) -> str:
    """The page of these entries."""
    made = [BEGINNING]
    for table in tables(entries):
        made += [f"## {HEADINGS.get(table[0].table, table[0].table)}", "", "| Code | In words |", "|---|---|"]
        made += [f"| `{it.code}` | {escaped(it.text)} |" for it in table]
        made.append("")
    return "\n".join(made)
