"""The list of edits in docs/dev/wrong-bodies.md, from the folders of edits."""
from __future__ import annotations

import os
import re
from typing import Dict, List

PAGE = "docs/dev/wrong-bodies.md"
HEADING = "## Edits"
NOTE = "`make pages` makes this list from the folders. The name of an edit says what the crate would do with it.\n"


def edits_in(root: str, folder: str) -> List[str]:
    """The names of the edits in a folder."""
    path = os.path.join(root, folder)
    names = os.listdir(path) if os.path.isdir(path) else []
    return sorted(it[:-len(".edit")] for it in names if it.endswith(".edit"))


def list_of(root: str, title: str, folder: str) -> str:
    """The edits of a folder in one line of a list, or nothing."""
    names = edits_in(root, folder)
    shown = ", ".join(f"`{it}`" for it in names)
    return f"- [{title}](../../{folder}), {len(names)}: {shown}\n" if names else ""


def edits_of(root: str) -> str:
    """The generated part: the edits of each crate, and then those of mutants/layers/."""
    made = f"{HEADING}\n\n{NOTE}"
    for name in sorted(set(os.listdir(os.path.join(root, "crates"))) | set(os.listdir(os.path.join(root, "mutants")))):
        lists = list_of(root, "Each run", f"crates/{name}/must-fail") + list_of(root, "Apart", f"mutants/{name}")
        made += f"\n### {name}\n\n{lists}" if lists else ""
    return made


def own_part(text: str) -> str:
    """What people write of the page."""
    return re.split(rf"^{HEADING}$", text, maxsplit=1, flags=re.M)[0].rstrip() + "\n"


def with_edits(root: str) -> Dict[str, str]:
    """The page with its list, under its name in the repository."""
    with open(os.path.join(root, PAGE), encoding="utf-8") as file:
        return {PAGE: f"{own_part(file.read())}\n{edits_of(root)}"}
