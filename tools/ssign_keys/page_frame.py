"""What stands around the parts of a page: its first octets, its head with the policy, and the patterns of its pictures."""
from __future__ import annotations

from typing import BinaryIO, Sequence

from .markup import Markup, element, plain
from .page_style import patterns, policy, style
from .workplace import put


def front_of(command: str) -> str:
    """The first octets of the pages that a command makes, by which one is known."""
    return f"<!DOCTYPE html>\n<!-- made by {command} -->\n"


def write_page(out: BinaryIO, front: str, title: str, pieces: Sequence[Markup], more: str = "") -> None:
    """Writes a page into a passing file. `more` is what its style has besides that of each page."""
    text = style() + more
    head = plain(
        "head", element("meta", {"charset": "utf-8"}),
        element("meta", {"http-equiv": "Content-Security-Policy", "content": policy(text)}),
        element("meta", {"name": "viewport", "content": "width=device-width, initial-scale=1"}),
        element("meta", {"name": "referrer", "content": "no-referrer"}),
        plain("title", title), plain("style", Markup(text)))
    put(out, front.encode("ascii") + b'<html lang="en">\n')
    put(out, head.text.encode("utf-8", "backslashreplace"))
    for it in (Markup("<body>\n"), patterns(), Markup("<main>\n"), *pieces, Markup("</main>\n</body>\n</html>\n")):
        put(out, it.text.encode("utf-8", "backslashreplace"))
