"""The list in docs/dev/DECISIONS.md: below the heading of each page, the decisions of that page, a line each."""
from __future__ import annotations

import re
from typing import Callable, Dict

from .help import Unreadable

FOLDER = "docs/dev"
# the heading of a page, and the lines below it
PAGE = re.compile(r"^(## \[[^]]*\]\((decisions/[\w-]+\.md)\)\n)(?:\n(?:- .*\n)+)?", re.M)
# a decision: its heading, with its number and what was chosen, and the text below it
DECISION = re.compile(r"^## ((\d+)\. (.*))\n\n(?=\S)", re.M)
HEADING = re.compile(r"^## ", re.M)
NEXT = re.compile(r"(?<=The next number is )\d+")


def anchor(heading: str) -> str:
    """The name by which a link finds a heading."""
    return re.sub(r"[^\w\- ]", "", heading.lower()).replace(" ", "-")


def with_decisions(read: Callable[..., str]) -> str:
    """The page with a line for each decision: its number, and its heading as the link."""
    places: Dict[int, str] = {}

    def lines_of(page: "re.Match[str]") -> str:
        """The heading of a page, and its lines."""
        text, lines = read(*FOLDER.split("/"), *page[2].split("/")), []
        found = list(DECISION.finditer(text))
        if len(found) != len(HEADING.findall(text)):
            raise Unreadable(f"{FOLDER}/{page[2]} has a heading without a number, or one without a text below it")
        for it in found:
            number = int(it[2])
            if number in places:
                raise Unreadable(f"the decision {number} stands in {places[number]} and in {page[2]}")
            places[number] = page[2]
            lines.append(f"- {number}: [{it[3]}]({page[2]}#{anchor(it[1])})\n")
        return f"{page[1]}\n{''.join(lines)}"

    text = PAGE.sub(lines_of, read(*FOLDER.split("/"), "DECISIONS.md"))
    return NEXT.sub(str(max(places) + 1), text)
