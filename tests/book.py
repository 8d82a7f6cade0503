#!/usr/bin/env python3
"""Helps tests/book.sh: runs the pages of the tutorial, and looks at the book as HTML.

    book.py run PAGE FOLDER     the commands of a page, one block after the other in FOLDER, print what the page shows
    book.py index BOOK          the first page of BOOK links to each other one
    book.py links HTML          each link of the HTML leads to a place that is there, and nothing outside is asked for
    book.py contents HTML BOOK  each page of BOOK stands once in the table of contents, in the order of the parts
    book.py search HTML BOOK    the index of the search has words of each page
    book.py codes PAGE          the page of codes has the objects of standard input, which `explain --json` wrote

It prints what is wrong, a line each, and has the status 1 then.
"""
from __future__ import annotations

import glob
import json
import os
import re
import subprocess
import sys
from html.parser import HTMLParser
from typing import Callable, Dict, Iterator, List, Optional, Set, Tuple

PARTS = ("tutorial", "how-to", "reference", "explanation")
LINK = re.compile(r"\]\(([^()\s#]+)")
# what stands between a block of commands and the block that shows what it prints
SHOWS = re.compile(r"(The last line is|prints), with status (\d),\s*$")
STATUS = re.compile(r"The status is (\d)")
# what loads a file without being asked to
LOADING = re.compile(r"(?:url\(|@import)\s*['\"]?(?:[a-z]+:)?//", re.IGNORECASE)


def read(path: str) -> str:
    """The text of a file."""
    with open(path, encoding="utf-8") as file:
        return file.read()


def pages_of(book: str) -> List[str]:
    """The pages of the book, as paths in it."""
    return sorted(os.path.relpath(it, book) for it in glob.glob(f"{book}/**/*.md", recursive=True))


def blocks(text: str) -> Iterator[Tuple[str, str, str]]:
    """Each block of a page, with the text before it and the text after it."""
    parts = re.split(r"((?:^    .*\n(?:\n(?=    ))?)+)", text, flags=re.MULTILINE)
    for at in range(1, len(parts), 2):
        yield parts[at - 1], re.sub(r"^    ", "", parts[at], flags=re.MULTILINE).rstrip("\n"), parts[at + 1]


class Step:
    """A block of commands, and what the page shows of its end: its output, its last line or its status alone."""

    def __init__(self, commands: str) -> None:
        self.commands = commands
        self.status: Optional[str] = None
        self.shown: Optional[str] = None
        self.is_last_line = False

    def faults(self, status: str, output: str, complaint: str) -> Iterator[str]:
        """What differs from what the page says."""
        first = self.commands.splitlines()[0]
        if self.status not in (None, status):
            yield f"{first}: status {status}, and not {self.status}: {complaint.strip()[-300:]}"
        lines = output.rstrip("\n").split("\n")
        if self.shown is not None and self.shown != (lines[-1] if self.is_last_line else "\n".join(lines)):
            yield f"{first}: it prints: {output[-600:]}"
        if self.shown is not None and complaint:
            yield f"{first}: it complains: {complaint.strip()[-300:]}"


def steps_of(page: str) -> List[Step]:
    """The blocks of commands of a page."""
    steps: List[Step] = []
    for before, block, after in blocks(read(page)):
        found = SHOWS.search(before)
        if found:
            steps[-1].status, steps[-1].shown, steps[-1].is_last_line = found[2], block, found[1] != "prints"
        else:
            steps.append(Step(block))
            said = STATUS.search(after)
            steps[-1].status = said[1] if said else None
    return steps


def run(page: str, folder: str) -> Iterator[str]:
    """Runs the blocks of a page in one shell, as whoever reads it does."""
    steps = steps_of(page)
    if not any(it.shown for it in steps):
        yield "the page shows no output"
    script = "".join(f"{{ {step.commands}\n}} >>out.{at} 2>>err.{at} </dev/null\necho $? >status.{at}\n"
                     for at, step in enumerate(steps))
    subprocess.run(["bash", "-c", script], cwd=folder, check=False, timeout=300)
    for at, step in enumerate(steps):
        status, output, complaint = (read(f"{folder}/{kind}.{at}") for kind in ("status", "out", "err"))
        yield from step.faults(status.strip(), output, complaint)


def index(book: str) -> Iterator[str]:
    """Compares the links of the first page with the pages that are there."""
    linked = set(LINK.findall(read(f"{book}/index.md")))
    for page in pages_of(book):
        if page != "index.md" and page not in linked:
            yield f"index.md doesn't link to {page}"


class Page(HTMLParser):
    """The links, names and texts of a page of HTML."""

    def __init__(self, text: str) -> None:
        super().__init__()
        self.links: List[Tuple[str, str]] = []
        self.names: Set[str] = set()
        self.contents: List[str] = []
        self.cells: List[List[str]] = []
        self.words = ""
        self.inside = ""
        self.feed(text)

    def handle_starttag(self, tag: str, attrs: List[Tuple[str, Optional[str]]]) -> None:
        given = dict(attrs)
        self.names.update(value for name in ("id", "name") for value in [given.get(name)] if value)
        self.links += [(tag, value) for name in ("href", "src", "action") for value in [given.get(name)] if value]
        if "sphinxsidebar" in (given.get("class") or ""):
            self.inside = "contents"
        if self.inside == "contents" and tag == "a" and "internal" in (given.get("class") or ""):
            self.contents.append(given.get("href") or "")
        if tag == "tr":
            self.cells.append([])
        if tag in ("td", "th") and self.cells:
            self.cells[-1].append("")
            self.inside = "cell"

    def handle_endtag(self, tag: str) -> None:
        if tag in ("td", "th"):
            self.inside = ""

    def handle_data(self, data: str) -> None:
        self.words += data
        if self.inside == "cell":
            self.cells[-1][-1] += data


def parsed(html: str) -> Dict[str, Page]:
    """All pages of HTML, by their paths."""
    paths = (os.path.relpath(it, html) for it in glob.glob(f"{html}/**/*.html", recursive=True))
    return {it: Page(read(f"{html}/{it}")) for it in sorted(paths)}


def links(html: str) -> Iterator[str]:
    """Looks where each link of each page leads."""
    pages = parsed(html)
    for path, page in pages.items():
        for tag, link in page.links:
            if re.match(r"[a-z][a-z0-9+.-]*:|//", link):
                if tag != "a":
                    yield f"{path} asks for {link}"
                continue
            target, _, name = link.partition("#")
            # newer versions of Sphinx name a version of each script
            target = target.partition("?")[0]
            target = os.path.normpath(os.path.join(os.path.dirname(path), target)) if target else path
            if target.startswith("..") or not os.path.isfile(f"{html}/{target}"):
                yield f"{path}: {link} leads to nothing"
            elif name and target in pages and name not in pages[target].names:
                yield f"{path}: {link} leads to no place"
    for path in glob.glob(f"{html}/**/*.css", recursive=True):
        yield from (f"{path} asks for {it}" for it in read(path).split("\n") if LOADING.search(it))


def contents(html: str, book: str) -> Iterator[str]:
    """Compares the table of contents with the pages."""
    found = Page(read(f"{html}/index.html")).contents
    wanted = [it[:-3] + ".html" for it in pages_of(book) if it != "index.md"] + ["reference/codes.html"]
    if sorted(found) != sorted(wanted):
        yield f"the table of contents has {sorted(set(found) ^ set(wanted)) or 'a page twice'}"
    if [it.split("/")[0] for it in found] != sorted((it.split("/")[0] for it in found), key=PARTS.index):
        yield f"the parts stand in another order: {found}"


def search(html: str, book: str) -> Iterator[str]:
    """Looks for words of each page in the index of the search."""
    made = json.loads(read(f"{html}/searchindex.js").partition("(")[2].rpartition(")")[0])
    for page in [*pages_of(book), "reference/codes.md"]:
        name = page[:-3]
        if name not in made["docnames"]:
            yield f"{page} isn't in the index"
            continue
        number = made["docnames"].index(name)
        words = set(re.findall("[a-z]{5,}", Page(read(f"{html}/{name}.html")).words.lower()))
        terms = [term for term, docs in made["terms"].items() if number in (docs if isinstance(docs, list) else [docs])]
        if sum(any(word.startswith(term) for word in words) for term in terms if len(term) > 3) < 1:
            yield f"the index has no words of {page}"


def codes(path: str) -> Iterator[str]:
    """Compares the rows of the page with objects."""
    wanted: Dict[str, str] = {}
    for line in sys.stdin:
        entry = json.loads(line)
        wanted.setdefault(entry["code"], entry["text"])
    found = [[it.strip() for it in row] for row in Page(read(path)).cells if row[:1] != ["Code"]]
    if len(wanted) < 100 or [it[0] for it in found] != list(wanted):
        yield f"the codes are {[it[0] for it in found]}, and not {list(wanted)}"
    yield from (f"{code}: {text}" for code, text in found if wanted.get(code) != text)


def main(kind: str, *words: str) -> int:
    """Prints what is wrong."""
    kinds: Dict[str, Callable[..., Iterator[str]]] = {
        "run": run, "index": index, "links": links, "contents": contents, "search": search, "codes": codes}
    faults = list(kinds[kind](*words))
    for fault in faults:
        print(f"    {fault}")
    return 1 if faults else 0


if __name__ == "__main__":
    sys.exit(main(*sys.argv[1:]))
