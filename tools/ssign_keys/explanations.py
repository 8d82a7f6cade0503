"""What the codes and words of ssign mean: the words of `ssign explain --json`, which one run of it gives."""
from __future__ import annotations

import functools
import json
import subprocess
from typing import Dict, List, NamedTuple

from .commands import PATIENCE

# codes that ssign explains, and never prints
UNPRINTED = "unprinted"


class Explanation(NamedTuple):
    """An entry of ssign: the name of its table, the code, and what it means."""

    table: str
    code: str
    text: str


def read_explanations(program: str) -> List[Explanation]:
    """All entries of the program, in their order. Raises OSError, ValueError or SubprocessError where it gives none."""
    run = subprocess.run([program, "explain", "--json"], stdin=subprocess.DEVNULL, stdout=subprocess.PIPE,
                         stderr=subprocess.DEVNULL, timeout=PATIENCE, check=True)
    objects = [json.loads(line) for line in run.stdout.decode("utf-8").splitlines()]
    try:
        return [Explanation(str(it["table"]), str(it["code"]), str(it["text"])) for it in objects if it["line"] == "explanation"]
    except (KeyError, TypeError) as fault:
        raise ValueError("ssign explain wrote something else than explanations") from fault


@functools.lru_cache(maxsize=None)
def explanations(program: str) -> Dict[str, str]:
    """The text of each code. The program is run once, at the first call; where it gives none, there are none."""
    try:
        return {it.code: it.text for it in read_explanations(program)}
    except (OSError, ValueError, subprocess.SubprocessError):
        return {}


def explained(program: str, code: str) -> str:
    """The text of the program on a code; an empty one where it has none."""
    return explanations(program).get(code, "")


def first_sentence(program: str, code: str) -> str:
    """The first sentence of that, without its full stop."""
    return explained(program, code).partition(". ")[0].rstrip(".") or "ssign doesn't explain it"
