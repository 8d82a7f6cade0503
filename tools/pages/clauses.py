"""The list of clauses in the README of a crate, from the contracts in its sources.

Each public function has a row, in the order of the files. A clause without a name is called by its keyword. After it
stand the definitions of this repository that it cites, or its whole text if it is short and cites none. A function is
public if another crate can call it. A function of the program is public if another of its files can.
"""
from __future__ import annotations

import os
import re
from typing import Dict, Iterator, List, NamedTuple, Sequence, Set, Tuple

from .edits import with_edits

HEADING = "## Clauses"
# it has the laws of all crates, in numbered sections
LAWS = "docs/dev/LAWS.md"
NOTE = ("`make pages` makes this list from the sources. After each clause stand the definitions that it cites, or its text if "
        "it is short and cites none. A clause without a name is called `ensures`.\n")
NONE = "No function of this crate is public.\n"
PROGRAM = "ssign"
# the traits whose implementations say nothing of a function
PASSED_OVER = ("From", "Model")
# a clause that cites no definition is shown up to this length
LONGEST_TEXT = 60

IMPORT = re.compile(r"ghost use Rattle\.(\w+)\.specs\.([\w.]+)\.\{([^}]*)\};")
USE = re.compile(r"^pub use ([\w:]+?)::(?:\{([^}]*)\}|(\w+));", re.M)
MODULE = re.compile(r"^pub mod (\w+);", re.M)
PUBLIC = re.compile(r"^pub (?:const |unsafe )*(?:fn|struct|enum|trait|type) (\w+)", re.M)
# a function with what it takes and gives
TAKES = re.compile(r"^ *(?:pub )?(?:const |unsafe )*fn \w+(?:<[^>]*>)?\(([^)]*)\)([^\n{]*)", re.M)
METHOD = re.compile(r"^ {4}(pub )?(?:const |unsafe )*fn (\w+)", re.M)
BLOCK = re.compile(r"^(pub )?(trait|impl)\b([^{;]*?)\s*\{(.*?)^\}", re.M | re.S)
CLAUSE = re.compile(r"\s*(?://[^\n]*\s*)*(requires|ensures)(?: (\w+))? \{")
FACT = re.compile(r"^ {4}ghost (\w+)(?:<[^>]*>)? = \{", re.M)
NAME = re.compile(r"(?<![\w.'])[A-Za-z]\w*")


class BadSource(ValueError):
    """A source isn't in a form that is known here."""


class Clause(NamedTuple):
    """A clause of a contract: its name, and what it says."""

    name: str
    text: str


class Function(NamedTuple):
    """A function, or what an implementation states of a trait. `owed` is what its caller owes."""

    name: str
    file: str
    clauses: List[Clause]
    owed: Sequence[Clause] = ()


class Source(NamedTuple):
    """A file of a crate. `module` is its path below src/, without its ending."""

    module: str
    text: str
    definitions: Dict[str, str]

    @property
    def file(self) -> str:
        """Its path in the crate."""
        return f"src/{self.module}.rt"


def read(path: str) -> str:
    """A file."""
    with open(path, encoding="utf-8") as file:
        return file.read()


def definitions_in(root: str, name: str, text: str) -> Dict[str, str]:
    """The definitions of this repository that a file of the crate names, each with the link to its file."""
    found = {}
    for crate, module, names in IMPORT.findall(text):
        path = f"specs/{module.replace('.', '/')}.antt"
        if os.path.isfile(os.path.join(root, "crates", crate, path)):
            link = path if crate == name else f"../{crate}/{path}"
            found.update({it.strip(): link for it in names.split(",") if NAME.fullmatch(it.strip())})
    return found


def sources_of(root: str, name: str) -> List[Source]:
    """The files of a crate but for its laws, in their order. A file stands before those of its folder."""
    folder = os.path.join(root, "crates", name, "src")
    paths = [os.path.relpath(os.path.join(at, it), folder) for at, _, names in os.walk(folder) for it in names]
    modules = sorted((it[:-len(".rt")] for it in paths if it.endswith(".rt")), key=lambda it: it.split(os.sep))
    made = []
    for module in modules:
        if module.split(os.sep)[0] != "laws":
            text = read(os.path.join(folder, f"{module}.rt"))
            made.append(Source(module, text, definitions_in(root, name, text)))
    return made


def end_of(text: str, at: int) -> int:
    """Where a text goes on after the brace that stands before this place, and its partner."""
    depth = 1
    while depth:
        brace = re.compile("[{}]").search(text, at)
        if brace is None:
            raise BadSource(f"a brace isn't closed: {text[at:at + LONGEST_TEXT]}")
        depth += 1 if brace[0] == "{" else -1
        at = brace.end()
    return at


def head_end(text: str, at: int) -> int:
    """Where the parameters and the result of a function end, which begin here."""
    depth = 0
    for found in re.compile(r"[()\[\]]|\n\s*(?://[^\n]*\s*)*(?:requires|ensures)\b|[{;]").finditer(text, at):
        if found[0] in "([":
            depth += 1
        elif found[0] in ")]":
            depth -= 1
        elif depth == 0:
            return found.start()
    raise BadSource(f"a function has no end: {text[at:at + LONGEST_TEXT]}")


def contract_at(text: str, at: int) -> Tuple[List[Clause], List[Clause]]:
    """The clauses of the function whose parameters begin here, and what its caller owes."""
    clauses: Dict[str, List[Clause]] = {"ensures": [], "requires": []}
    at = head_end(text, at)
    found = CLAUSE.match(text, at)
    while found:
        at = end_of(text, found.end())
        said = " ".join(text[found.end():at - 1].split())
        clauses[found[1]].append(Clause(found[2] or found[1], said))
        found = CLAUSE.match(text, at)
    return clauses["ensures"], clauses["requires"]


def methods_in(source: Source, text: str, owner: str, all_of_them: bool) -> Iterator[Function]:
    """The functions of a trait or an implementation that are `pub`, or all of them."""
    for found in METHOD.finditer(text):
        if found[1] or all_of_them:
            yield Function(f"{owner}::{found[2]}", source.file, *contract_at(text, found.end()))


def facts_in(source: Source, text: str, name: str) -> Iterator[Function]:
    """What an implementation states of its trait, as one row."""
    facts = [Clause(found[1], " ".join(text[found.end():end_of(text, found.end()) - 1].split()))
             for found in FACT.finditer(text)]
    if facts:
        yield Function(name, source.file, facts)


def plain_name(words: str) -> str:
    """The name of a type or trait, without its parameters and its path."""
    return re.sub(r"<.*|[&']\w* *|:.*", "", words.split("::")[-1].strip()).strip()


def without_parameters(words: str) -> str:
    """What stands after `impl`, without the parameters in front."""
    depth = 0
    for place, letter in enumerate(words):
        depth += {"<": 1, ">": -1}.get(letter, 0) if words[place - 1:place + 1] != "->" else 0
        if depth == 0:
            return words[place + 1:] if letter == ">" else words
    return words


def of_block(source: Source, block: re.Match[str], exported: Set[str]) -> Iterator[Function]:
    """The functions of a trait or an implementation, if its type or trait is exported."""
    is_public, kind, words, text = block.groups()
    if kind == "trait":
        name = plain_name(words)
        if is_public and name in exported:
            yield from methods_in(source, text, name, True)
        return
    trait, _, owner = without_parameters(words).rpartition(" for ")
    name = plain_name(owner)
    if name not in exported or plain_name(trait) in PASSED_OVER:
        return
    if trait:
        yield from facts_in(source, text, f"impl {plain_name(trait)} for {name}")
    yield from (it for it in methods_in(source, text, name, bool(trait)) if not trait or it.clauses)


def head_text(root: str, name: str) -> str:
    """The file of a crate that says what it exports."""
    folder = os.path.join(root, "crates", name, "src")
    for file in ("lib.rt", "main.rt"):
        if os.path.isfile(os.path.join(folder, file)):
            return read(os.path.join(folder, file))
    raise BadSource(f"crates/{name}/src has neither lib.rt nor main.rt")


def modules_of(text: str, sources: Sequence[Source]) -> Set[str]:
    """The modules that another crate can name: those that this text exports, and those that they export in turn."""
    texts = {source.module: source.text for source in sources}
    found, left = set(), MODULE.findall(text)
    while left:
        module = left.pop()
        found.add(module)
        left += [f"{module}/{it}" for it in MODULE.findall(texts.get(module, ""))]
    return found


def exports_of(name: str, text: str, sources: Sequence[Source]) -> Dict[str, str]:
    """What a crate exports by a name of its own, each with the beginning of its module. The program exports all that is
    `pub`."""
    exports = {}
    for module, names, one in USE.findall(text):
        exports.update({it.strip(): module.replace("::", "/") for it in (names or one).split(",") if it.strip()})
    if name == PROGRAM:
        exports.update({it: "" for source in sources for it in PUBLIC.findall(source.text)})
    return exports


def rows_in(source: Source, exports: Dict[str, str], module: str) -> Iterator[Function]:
    """The public functions of a file, in their order. `module` stands before names that are found there alone."""
    found: List[Tuple[int, List[Function]]] = []
    for function in re.finditer(r"^pub (?:const |unsafe )*fn (\w+)", source.text, re.M):
        at = exports.get(function[1])
        if at is not None and source.module.startswith(at):
            clauses, owed = contract_at(source.text, function.end())
            found.append((function.start(), [Function(module + function[1], source.file, clauses, owed)]))
    found += [(it.start(), list(of_block(source, it, set(exports)))) for it in BLOCK.finditer(source.text)]
    for _, functions in sorted(found, key=lambda it: it[0]):
        yield from functions


def functions_of(root: str, name: str) -> List[Tuple[Source, Function]]:
    """The public functions of a crate, each with its file."""
    sources, text = sources_of(root, name), head_text(root, name)
    exports, modules = exports_of(name, text, sources), modules_of(text, sources)
    made = []
    for source in sources:
        own, path = exports, ""
        if source.module in modules:
            own = {**exports, **dict.fromkeys(PUBLIC.findall(source.text), "")}
            path = source.module.replace(os.sep, "::") + "::"
        made += [(source, function) for function in rows_in(source, own, path)]
    return made


def code(text: str) -> str:
    """A text between backquotes, for a cell of a table."""
    return "`" + text.replace("|", "\\|") + "`"


def shown(source: Source, clause: Clause) -> str:
    """A clause with the definitions that it cites, or with its words."""
    cited = dict.fromkeys(it for it in NAME.findall(clause.text) if it in source.definitions)
    if cited:
        return f"{code(clause.name)}: " + ", ".join(f"[{code(it)}]({source.definitions[it]})" for it in cited)
    return f"{code(clause.name)}: {code(clause.text)}" if len(clause.text) <= LONGEST_TEXT else code(clause.name)


def table_of(functions: Sequence[Tuple[Source, Function]]) -> List[str]:
    """A row for each function. The column of what callers owe is there if somebody owes something."""
    owing = any(function.owed for _, function in functions)
    heads = ["Function", "Clauses"] + (["Owed by the caller"] if owing else [])
    rows = [f"| {' | '.join(heads)} |", "|---" * len(heads) + "|"]
    for source, function in functions:
        cells = [f"[{code(function.name)}]({function.file})",
                 "; ".join(shown(source, it) for it in function.clauses) or "no clause"]
        if owing:
            cells.append("; ".join(shown(source, it) for it in function.owed))
        rows.append(f"| {' | '.join(cells)} |".replace("|  |", "| |"))
    return rows


def has_laws(root: str, name: str) -> bool:
    """Whether a crate has laws."""
    return os.path.isfile(os.path.join(root, "crates", name, "src", "laws.rt"))


def has_laws_alone(root: str, name: str) -> bool:
    """Whether each function of a crate takes nothing and gives nothing, so that it can only state a law."""
    found = [it for source in sources_of(root, name) for it in TAKES.findall(source.text)]
    return bool(found) and not any(takes.strip() or "->" in gives for takes, gives in found)


def laws_of(root: str, name: str) -> str:
    """A line that leads to the sections with laws of a crate."""
    links = []
    for section in re.split(r"^## ", read(os.path.join(root, LAWS)), flags=re.M)[1:]:
        title = section.split("\n", 1)[0]
        if title[0].isdigit() and f"/crates/{name}/" in section:
            anchor = re.sub(r"[^\w\- ]", "", title.lower()).replace(" ", "-")
            links.append(f"[{title}](../../{LAWS}#{anchor})")
    return f"The laws of this crate, with their premises: {', '.join(links) or f'[LAWS.md](../../{LAWS})'}.\n"


def clauses_of(root: str, name: str) -> str:
    """The generated part of the README of a crate."""
    laws = laws_of(root, name) if has_laws(root, name) else ""
    functions = functions_of(root, name)
    listed = f"{NOTE}\n" + "\n".join(table_of(functions)) + "\n" if functions else NONE
    return f"{HEADING}\n\n{listed}" + (f"\n{laws}" if laws else "")


def own_part(text: str) -> str:
    """What people write of a README."""
    return re.split(rf"^{HEADING}$", text, maxsplit=1, flags=re.M)[0].rstrip() + "\n"


def crate_names(root: str) -> List[str]:
    """The crates of crates.txt."""
    lines = (it.partition("#")[0] for it in read(os.path.join(root, "crates.txt")).split("\n"))
    return [it.split(":")[0].split()[0] for it in lines if it.strip()]


def with_clauses(root: str, name: str) -> str:
    """The README of a crate with its list of clauses."""
    return own_part(read(os.path.join(root, "crates", name, "README.md"))) + "\n" + clauses_of(root, name)


def with_lists(root: str) -> Dict[str, str]:
    """Each page with a list that is made from the sources, under its name in the repository."""
    try:
        made = {f"crates/{name}/README.md": with_clauses(root, name) for name in crate_names(root)}
    except BadSource as fault:
        from .help import Unreadable
        raise Unreadable(str(fault)) from fault
    return {**made, **with_edits(root)}
