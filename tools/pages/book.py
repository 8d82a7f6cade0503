"""Builds the book of docs/user as HTML, by Sphinx and its reader of Markdown. The search of Sphinx needs no network.

A link that leads out of the book leads to a copy of that file in the folder `files`. So no link of the HTML is dead,
wherever it is put. A folder has no copy, and its path stands in the text.
"""
from __future__ import annotations

import os
import posixpath
import re
import shutil
import subprocess
import sys
import tempfile
from typing import Dict, List, Match, Sequence

from ssign_keys.explanations import Explanation, read_explanations

from .reference import codes_page

ROOT = os.path.normpath(os.path.join(os.path.dirname(os.path.realpath(__file__)), "..", ".."))
BOOK = "docs/user"
# the parts of the book after its first page, in their order, with what they are called
PARTS = {"tutorial": "Tutorial", "how-to": "How to", "reference": "Reference", "explanation": "Explanation"}
CODES = "reference/codes.md"
SETTINGS: Dict[str, object] = {
    "project": "Suhvatek",
    "extensions": ["myst_parser"],
    "myst_heading_anchors": 6,
    "smartquotes": False,
    "highlight_language": "none",
    "html_title": "Suhvatek",
    "html_theme": "alabaster",
    "html_theme_options": {"description": "Signed syslog: signs, and checks offline", "show_powered_by": False,
                           "page_width": "72em", "body_max_width": "50em"},
    "html_sidebars": {"**": ["about.html", "searchbox.html", "navigation.html"]},
    "html_copy_source": False,
    "html_show_sourcelink": False,
    "html_show_copyright": False,
    "html_show_sphinx": False,
    "html_use_index": False,
    "html_extra_path": ["beside"],
}
# a span of code, or a link or picture, whose text may have such spans
SPAN = re.compile(r"(?P<code>`[^`]*`)|(?P<picture>!?)\[(?P<text>(?:[^\[\]`]|`[^`]*`)*)\]\((?P<target>[^()\s]*)\)")
OUTER = re.compile(r"[a-z][a-z0-9+.-]*:|#")
# what a browser shows under its own name; any other file is shown as text
SHOWN = (".json", ".png", ".txt")


class Fault(Exception):
    """The book can't be built of these pages."""


class Source:
    """The pages as Sphinx reads them: in `folder`, and what their links lead to in `folder`/beside."""

    def __init__(self, folder: str) -> None:
        self.folder = folder
        self.pages = sorted(self.relative(folder_, name) for folder_, _, names in os.walk(os.path.join(ROOT, BOOK))
                            for name in names if name.endswith(".md"))
        if "index.md" not in self.pages:
            raise Fault(f"there is no {BOOK}/index.md")

    @staticmethod
    def relative(folder: str, name: str) -> str:
        """The path of a page in the book."""
        return os.path.relpath(os.path.join(folder, name), os.path.join(ROOT, BOOK))

    def write(self, path: str, text: str) -> None:
        """Writes a file of the source."""
        path = os.path.join(self.folder, path)
        os.makedirs(os.path.dirname(path), exist_ok=True)
        with open(path, "w", encoding="utf-8", newline="\n") as file:
            file.write(text)

    def copy(self, origin: str, target: str) -> None:
        """Copies a file of the repository into the source."""
        target = os.path.join(self.folder, target)
        os.makedirs(os.path.dirname(target), exist_ok=True)
        shutil.copyfile(os.path.join(ROOT, origin), target)

    def make(self, entries: Sequence[Explanation]) -> None:
        """Writes all of the source."""
        os.makedirs(os.path.join(self.folder, "beside"))
        for page in self.pages:
            with open(os.path.join(ROOT, BOOK, page), encoding="utf-8") as file:
                text = file.read()
            text = "\n".join(line if line.startswith("    ") else self.line(page, line) for line in text.split("\n"))
            self.write(page, text + (self.contents(text) if page == "index.md" else ""))
        self.write(CODES, codes_page(entries))
        self.write("conf.py", "".join(f"{name} = {value!r}\n" for name, value in SETTINGS.items()))

    def contents(self, index: str) -> str:
        """The table of contents for Sphinx. A part has its pages in the order in which the first page links them."""
        order = {found["target"].partition("#")[0]: place for place, found in enumerate(SPAN.finditer(index))
                 if found["target"]}
        made = ""
        for part, name in PARTS.items():
            pages = [it for it in [*self.pages, CODES] if it.startswith(f"{part}/")]
            pages.sort(key=lambda it: (order.get(it, len(order) + len(index)), it))
            if pages:
                listed = "".join(f"{it[:-3]}\n" for it in pages)
                made += f"\n```{{toctree}}\n:hidden:\n:caption: {name}\n\n{listed}```\n"
        return made

    def line(self, page: str, line: str) -> str:
        """A line of a page, with its links out of the book turned to copies."""
        return SPAN.sub(lambda found: found[0] if found["code"] else self.link(page, found), line)

    def link(self, page: str, found: Match[str]) -> str:
        """A link of a page."""
        target, text = found["target"], found["text"]
        path = target.partition("#")[0]
        if OUTER.match(target):
            return found[0]
        origin = posixpath.normpath(posixpath.join(BOOK, posixpath.dirname(page), path))
        if origin.startswith("../") or not os.path.exists(os.path.join(ROOT, origin)):
            raise Fault(f"{BOOK}/{page} links to {target}, and there is no such file")
        if origin.startswith(f"{BOOK}/") and origin.endswith(".md"):
            return found[0]
        if os.path.isdir(os.path.join(ROOT, origin)):
            return text if origin in text else f"{text} (`{origin}/`)"
        beside = self.name_beside(origin)
        if found["picture"]:
            self.copy(origin, beside)
            return f"![{text}]({self.way(page, beside)})"
        self.copy(origin, f"beside/{beside}")
        return f'<a href="{self.way(page, beside)}">{text}</a>'

    @staticmethod
    def name_beside(origin: str) -> str:
        """Where the copy of a file of the repository stands: that of one of the book in its place there."""
        if origin.startswith(f"{BOOK}/"):
            return origin[len(BOOK) + 1:]
        return f"files/{origin}" + ("" if origin.endswith(SHOWN) else ".txt")

    @staticmethod
    def way(page: str, target: str) -> str:
        """The way from a page to a file of the source."""
        return posixpath.relpath(target, posixpath.dirname(page) or ".")


def read_entries() -> List[Explanation]:
    """All that both programs explain, in their order. Those of `ssign` stand in front."""
    ssign = os.path.abspath(os.environ.get("SSIGN") or os.path.join(ROOT, "ssign"))
    entries: Dict[str, Explanation] = {}
    for program in (ssign, os.path.join(ROOT, "tools", "ssign-keys")):
        try:
            for entry in read_explanations(program):
                entries.setdefault(entry.code, entry)
        except (ValueError, subprocess.SubprocessError) as fault:
            raise Fault(f"{program} explains no codes: {fault}") from fault
    return list(entries.values())


def build(work: str, target: str) -> None:
    """Builds the book in `work`, and puts it in the place of `target`."""
    source, made = os.path.join(work, "source"), os.path.join(work, "html")
    Source(source).make(read_entries())
    done = subprocess.run([sys.executable, "-B", "-m", "sphinx", "-q", "-E", "-W", "--keep-going", "-b", "html",
                           "-d", os.path.join(work, "trees"), source, made], stdin=subprocess.DEVNULL,
                          capture_output=True, check=False)
    if done.returncode:
        said = (done.stdout + done.stderr).decode("utf-8", "replace").replace(f"{source}/", f"{BOOK}/").strip()
        raise Fault(f"Sphinx refuses the pages:\n{said}")
    # what Sphinx and other books need, and no reader
    for name in (".buildinfo", "objects.inv"):
        if os.path.exists(os.path.join(made, name)):
            os.remove(os.path.join(made, name))
    shutil.rmtree(target, ignore_errors=True)
    os.makedirs(os.path.dirname(target), exist_ok=True)
    shutil.move(made, target)


def main(words: Sequence[str]) -> int:
    """Builds the book in the folder that is named."""
    target = os.path.abspath(words[0])
    if os.path.lexists(target) and not os.path.exists(os.path.join(target, "searchindex.js")):
        sys.stderr.write(f"make-docs: {target} is there, and no book that was built: name another folder\n")
        return 2
    try:
        with tempfile.TemporaryDirectory() as work:
            build(work, target)
    except (Fault, OSError, UnicodeError) as fault:
        sys.stderr.write(f"make-docs: {fault}\n")
        return 1
    return 0


if __name__ == "__main__":
    sys.exit(main(sys.argv[1:]))
