#!/usr/bin/env python3
"""The pages of a repository, against what is there.

    pages.py KIND FOLDER

Prints what is wrong with the pages in FOLDER, a line each. The status is then 1. KIND is one of

    links      each relative link leads to a file and to a heading that are there, and so does `FILE.md`, "HEADING"
    paths      each path of the repository between backquotes is there
    rows       each script and helper of tests/ has one row of a table in tests/README.md, and each row its file
    words      words that the glossary gives up stand nowhere but in its own column of them
    crates     each crate of crates.txt has its README, and is named in docs/dev/ARCHITECTURE.md
    laws       docs/dev/LAWS.md links the name of each law to the file that states it, and names no other law
    budgets    README.md and the book have no more words than they may, and no long sentence or cell of a table
    promises   each promise of SECURITY.md names a script of tests/, and what it quotes after one stands in it or its helpers

Blocks of code, which are indented by four spaces, are no text. A heading is found by the name that GitHub gives it.
"""
import glob
import os
import re
import sys
from collections import Counter

PAGES = ("README.md", "SECURITY.md", "docs/*.md", "docs/user/*.md", "docs/user/*/*.md", "docs/dev/*.md",
         "docs/dev/decisions/*.md", "tests/README.md", "mutants/README.md", "examples/README.md", "crates/*/README.md")
GLOSSARY = "docs/dev/glossary.md"
# the glossary's words for these: out of memory, reports, is refused or reported as, because
GIVEN_UP = ("want of memory", "says of", "is told as", "has it that")
LINK = re.compile(r"\[[^\]]*\]\(([^()\s]*)\)")
NAMED_HEADING = re.compile(r"`([\w./-]+\.md)`, \"([^\"]+)\"")
PATH = re.compile(r"`([\w.*-]+(?:/[\w.*-]+)+\.[a-z]\w*)`(?: \(?of `(ss_?\w+)`)?")
SECURITY = "SECURITY.md"
# the headings of SECURITY.md below which each item is a promise
PROMISES = ("What counts as a weakness", "What is promised", "Which keys are refused")
# a script, and the check in it that a promise quotes
SHOWN_BY = re.compile(r"`(tests/[\w-]+\.sh)`(?: \"([^\"]+)\")?")
# words that stand for any name, and letters
ANY_NAME = re.compile(r"\b(?:NAME|FUNCTION|COMMAND)\b|(?<=/)[a-z](?=[./])")
# what a build makes
MADE = re.compile(r"crates/\w+/out/")
# folders of a crate, in which a path may begin
PARTS = ("", "src/", "specs/", "proofs/")
# how many words these pages may have together, as `wc -w` counts them, and how many each of them
BUDGETS = ((("README.md",), 900, 900), (("docs/user/*.md", "docs/user/*/*.md"), 12000, 1200))
# how many words a sentence or a cell may have in these pages
LONGEST = 25
# what begins an item of a list, a heading or a quotation, and marks words
BEGINS_ITEM = re.compile(r"^ {0,3}(?:[-*+]|\d+[.)]|#+|>) +")
STRESS = re.compile(r"\*\*|(?<!\w)[*_](?=\S)|(?<=[^\s*_])[*_](?!\w)")
# points that end no sentence
SHORTENED = re.compile(r"\b(?:e\.g|i\.e|etc|cf|vs|p|pp|Mr|Ms|Dr)\.")
# the end of a sentence: a mark, and what closes after it. Two points stand for what is left out.
SENTENCE_END = re.compile(r"(?<=[.?!])(?<!\.\.)[)\"'\u201d]*\s+")
LAWS = "docs/dev/LAWS.md"
LAW_FILES = ("crates/*/src/laws.rt", "crates/*/src/laws/*.rt", "crates/ss_laws/src/*.rt", "crates/ss_laws/src/*/*.rt")
# a law, with the lines of its contract, and a statement that these name by a definition
LAW = re.compile(r"\npub fn (\w+).*\n((?: {4}.*\n)*)")
STATEMENT = re.compile(r"ensures(?: \w+)? \{ (\w*)")
IMPORTED = re.compile(r"ghost use Rattle\.([\w.]+)\.\{([^}]*)\}")
# the link of a law, with its module where that tells two apart
LAW_LINK = re.compile(r"\[`(?:\w+::)?([a-z0-9_]+)`\]\(\.\./\.\./(crates/(\w+)/[^)]*)\)")


def text_of(path):
    with open(path, encoding="utf-8") as file:
        return file.read()


def without_code(line):
    """The line with nothing between its backquotes."""
    return re.sub("`[^`]*`", "``", line)


def prose(path):
    """The lines of a page that are no blocks of code, with their numbers."""
    for number, line in enumerate(text_of(path).split("\n"), 1):
        if not line.startswith("    "):
            yield number, line


def anchors_in(path):
    """The names by which links find the headings of a page."""
    seen = Counter()
    for _, line in prose(path):
        heading = re.fullmatch(r"#+ +(.*?)[ #]*", line)
        if heading:
            words = LINK.sub(lambda link: link.group(0)[1:].split("]")[0], heading.group(1))
            name = re.sub(r"[^\w\- ]", "", words.lower()).replace(" ", "-")
            seen[name] += 1
            yield name if seen[name] == 1 else f"{name}-{seen[name] - 1}"


def plain(text):
    """A text with a word for each span of code, without marks and the targets of links."""
    text = re.sub(r"``.+?``|`[^`]*`", "code", text)
    text = re.sub(r"!?\[([^\]]*)\]\([^()\s]*\)", r"\1", text)
    return SHORTENED.sub(lambda it: it.group(0).replace(".", ""), STRESS.sub("", text))


def words_in(text):
    """The words of a text: what has a letter or a digit."""
    return [it for it in text.split() if re.search(r"\w", it)]


def sentences_in(path):
    """The sentences and the cells of a page, each with the number of its first line, its words, and what it is. An item, a
    heading and an empty line end one; a line goes on in the next one."""
    text, first = "", 0
    for number, line in [*prose(path), (0, "")]:
        is_row = line.startswith("|")
        if is_row or not line.strip() or BEGINS_ITEM.match(line):
            yield from ((first, words_in(it), "sentence") for it in SENTENCE_END.split(plain(text)))
            text = ""
        if is_row:
            cells = re.split(r"(?<!\\)\|", re.sub(r"`[^`]*`", "code", line).strip().strip("|"))
            yield from ((number, words_in(plain(it)), "cell") for it in cells)
        elif line.strip():
            first = first if text else number
            text += (" " if text else "") + BEGINS_ITEM.sub("", line, count=1)


def headings_in(path):
    return {line.lstrip("#").strip() for _, line in prose(path) if line.startswith("#")}


class Repository:
    def __init__(self, folder):
        self.folder = folder
        self.pages = sorted(it for pattern in PAGES for it in self.names(pattern))
        self.crates = [line.split(":")[0].split()[0] for line in text_of(self.at("crates.txt")).split("\n")
                       if line.strip() and not line.startswith("#")]

    def at(self, *parts):
        return os.path.join(self.folder, *parts)

    def names(self, pattern):
        """The files and folders whose path fits a pattern."""
        return [os.path.relpath(it, self.folder) for it in glob.glob(self.at(pattern))]

    def is_there(self, *parts):
        return os.path.exists(self.at(*parts))

    def links(self):
        for page in self.pages:
            for number, line in prose(self.at(page)):
                for target in LINK.findall(without_code(line)):
                    if not re.match("[a-z]+:", target):
                        fault = self.link_fault(page, *(target.split("#", 1) + [""])[:2])
                        if fault:
                            yield f"{page}:{number}: {target}: {fault}"
                for file, heading in NAMED_HEADING.findall(line):
                    if not self.is_there(file) or heading not in headings_in(self.at(file)):
                        yield f"{page}:{number}: {file} has no heading \"{heading}\""

    def link_fault(self, page, target, anchor):
        path = os.path.normpath(os.path.join(os.path.dirname(page), target)) if target else page
        if path.startswith("..") or not self.is_there(path):
            return "no such file"
        if anchor and anchor not in anchors_in(self.at(path)):
            return "no such heading"
        return None

    def paths(self):
        for page in self.pages:
            for number, line in prose(self.at(page)):
                for path, crate in PATH.findall(line):
                    pattern = ANY_NAME.sub("*", path)
                    if not MADE.match(path) and not any(self.names(it + pattern) for it in self.starts(page, crate)):
                        yield f"{page}:{number}: there is no {path}"

    def starts(self, page, crate):
        """Where a path may begin that a page names, if it says of which crate, or doesn't."""
        own = crate or (page.split("/")[1] if page.startswith("crates/") else "*")
        folder = os.path.dirname(page)
        return ["", f"{folder}/" if folder else ""] + [f"crates/{it}{part}" for it in ("", f"{own}/") for part in PARTS]

    def rows(self):
        rows = Counter()
        for _, line in prose(self.at("tests/README.md")):
            if line.startswith("|"):
                rows.update(re.findall(r"`([\w-]+\.(?:sh|py|c))`", line.split("|")[1]))
        there = {os.path.basename(it) for kind in ("sh", "py", "c") for it in self.names(f"tests/*.{kind}")}
        for name in sorted(there | set(rows)):
            if name not in there:
                yield f"tests/README.md has a row of {name}, which isn't there"
            elif rows[name] != 1:
                yield f"tests/README.md has {rows[name]} rows of tests/{name}"

    def words(self):
        for page in self.pages:
            for number, line in prose(self.at(page)):
                if page == GLOSSARY and line.startswith("|"):
                    line = line.rstrip("| ").rpartition("|")[0]
                for word in GIVEN_UP:
                    if word in without_code(line).lower():
                        yield f"{page}:{number}: \"{word}\""

    def stated_laws(self):
        """Each law, with its crate and the file that states it: that of its definition, or its own."""
        for path in sorted(it for pattern in LAW_FILES for it in self.names(pattern)):
            text = text_of(self.at(path))
            defined = {name.strip(): f"crates/{module.replace('.', '/')}.antt"
                       for module, names in IMPORTED.findall(text) for name in names.split(",")}
            for law, contract in LAW.findall(text):
                for statement in STATEMENT.findall(contract) or [""]:
                    yield law, path.split("/")[1], defined.get(statement, path)

    def laws(self):
        stated = set(self.stated_laws())
        linked = {(law, crate, path) for law, path, crate in LAW_LINK.findall(text_of(self.at(LAWS)))}
        for law, _, path in sorted(stated - linked):
            yield f"{LAWS} has no link from {law} to {path}"
        for law, crate, _ in sorted({it for it in linked if it[:2] not in {law[:2] for law in stated}}):
            yield f"{LAWS} names {law}, which is no law of {crate}"

    def promises(self):
        if not self.is_there(SECURITY):
            return
        heading = ""
        for number, line in prose(self.at(SECURITY)):
            heading = line.lstrip("# ") if line.startswith("#") else heading
            if heading not in PROMISES or not line.startswith("- "):
                continue
            shown = SHOWN_BY.findall(line)
            if not shown:
                yield f"{SECURITY}:{number}: no test is named"
            for script, check in shown:
                if check not in self.checks_of(script):
                    yield f"{SECURITY}:{number}: {script} has no \"{check}\""

    def budgets(self):
        for patterns, most, most_each in BUDGETS:
            pages = sorted(it for pattern in patterns for it in self.names(pattern))
            counts = {it: len(text_of(self.at(it)).split()) for it in pages}
            if sum(counts.values()) > most:
                yield f"{' and '.join(patterns)}: {sum(counts.values())} words, and at most {most}"
            for page, count in counts.items():
                if count > most_each and len(pages) > 1:
                    yield f"{page}: {count} words, and at most {most_each}"
                for number, words, what in sentences_in(self.at(page)):
                    if len(words) > LONGEST:
                        yield f"{page}:{number}: a {what} of {len(words)} words: {' '.join(words[:6])} .."

    def checks_of(self, script):
        """The text of a script, and of the helpers that it and they name."""
        texts, left, seen = [], [os.path.basename(script)], set()
        while left:
            name = left.pop()
            if name in seen or not self.is_there("tests", name):
                continue
            seen.add(name)
            texts.append(text_of(self.at("tests", name)))
            left += re.findall(r"\w+\.py", texts[-1]) + [f"{it}.py" for it in re.findall(r"(?m)^(?:from|import) (\w+)", texts[-1])]
        return "\n".join(texts)

    def crates_named(self):
        named = set(re.findall("`(\\w+)`", text_of(self.at("docs/dev/ARCHITECTURE.md"))))
        for crate in self.crates:
            if not self.is_there("crates", crate, "README.md"):
                yield f"crates/{crate} has no README.md"
            if crate not in named:
                yield f"docs/dev/ARCHITECTURE.md doesn't name `{crate}`"
        for folder in self.names("crates/*"):
            if os.path.basename(folder) not in self.crates:
                yield f"crates.txt doesn't name {folder}"


def main(kind, folder):
    repository = Repository(folder)
    if not repository.pages or not repository.crates:
        print("    there are no pages or no crates")
        return 1
    found = {"links": repository.links, "paths": repository.paths, "rows": repository.rows, "words": repository.words,
             "crates": repository.crates_named, "laws": repository.laws, "promises": repository.promises,
             "budgets": repository.budgets}[kind]
    faults = list(found())
    for fault in faults:
        print(f"    {fault}")
    return 1 if faults else 0


if __name__ == "__main__":
    sys.exit(main(*sys.argv[1:]))
