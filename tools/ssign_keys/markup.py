"""Texts and elements of HTML. A text that comes from outside stays a text: only elements that are made here are elements."""
from __future__ import annotations

import html
from typing import Dict, Iterable, Union

from .words import is_seen


class Markup:
    """A piece of HTML that was made here."""

    def __init__(self, text: str) -> None:
        """The octets of a page as they stand there. Nobody else than this module's functions may make one of a text."""
        self.text = text

    def __bool__(self) -> bool:
        """Whether there is anything of it."""
        return bool(self.text)


Child = Union[str, Markup]
# elements without contents, and those after which a line ends, so that a page can be read as a text
EMPTY = frozenset(("meta", "br", "path", "rect"))
LINES = frozenset(("h1", "h2", "p", "li", "ul", "tr", "table", "thead", "tbody", "div", "dl", "dd", "section", "main", "figure",
                   "figcaption", "details", "summary", "svg", "pre", "title", "caption", "meta", "style", "head", "body"))


def escaped(text: str) -> str:
    """A text as HTML has it. What can't be seen was spelled before; what is left of it is spelled here."""
    if not text.isascii() or not text.isprintable():
        text = "".join(it if it in "\n" or is_seen(it) else f"\\u{{{ord(it):x}}}" for it in text)
    return html.escape(text, quote=True)


def joined(*children: Child) -> Markup:
    """These after one another."""
    return Markup("".join(it.text if isinstance(it, Markup) else escaped(it) for it in children))


def element(name: str, attributes: Dict[str, str], *children: Child) -> Markup:
    """An element of these attributes, with these children."""
    words = "".join(f' {key}="{escaped(value)}"' for key, value in attributes.items())
    end = "\n" if name in LINES else ""
    if name in EMPTY:
        return Markup(f"<{name}{words}>{end}")
    return Markup(f"<{name}{words}>{joined(*children).text}</{name}>{end}")


def plain(name: str, *children: Child) -> Markup:
    """An element without attributes."""
    return element(name, {}, *children)


def drawn(name: str, attributes: Dict[str, str]) -> Markup:
    """An element of SVG without contents."""
    words = "".join(f' {key}="{escaped(value)}"' for key, value in attributes.items())
    return Markup(f"<{name}{words}/>")


def named(text: str) -> Markup:
    """A name or a text of a stranger, which doesn't turn the direction of what stands beside it."""
    return plain("bdi", text)


def swatch(kind: str) -> Markup:
    """A small field in the colour and the pattern of a kind."""
    field = element("svg", {"class": "swatch", "viewBox": "0 0 24 12", "aria-hidden": "true"},
                    drawn("rect", {"width": "24", "height": "12", "class": kind}))
    return Markup(field.text.rstrip("\n"))


def legend(*items: Child) -> Markup:
    """A list of what colours and patterns mean."""
    return element("ul", {"class": "key"}, *(plain("li", it) for it in items))


def folded(summary: str, *children: Child) -> Markup:
    """What is shown where somebody opens it; on paper, only what it is."""
    return plain("details", plain("summary", summary), *children)


def code(text: str) -> Markup:
    """The same in letters of one width."""
    return plain("code", named(text))


def table(name: str, caption: str, heads: Iterable[str], rows: Iterable[Iterable[Child]]) -> Markup:
    """A table. The first cell of each row is the head of the row.

    On a narrow screen cells stand below one another, each with its head. The roles stay those of a table then.
    """
    heads = list(heads)
    head = element("tr", {"role": "row"}, *(element("th", {"scope": "col", "role": "columnheader"}, it) for it in heads))
    body = []
    for first, *others in rows:
        cells = [element("td", {"role": "cell", "data-head": its}, it) for its, it in zip(heads[1:], others)]
        body.append(element("tr", {"role": "row"}, element("th", {"scope": "row", "role": "rowheader"}, first), *cells))
    return element("table", {"id": name, "role": "table"}, plain("caption", caption),
                   element("thead", {"role": "rowgroup"}, head), element("tbody", {"role": "rowgroup"}, *body))


def listing(*items: Child) -> Markup:
    """A list of items in no order."""
    return plain("ul", *(plain("li", it) for it in items))
