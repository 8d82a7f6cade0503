"""The page of a check: the verdict, what is wrong, and a grid of the files by originator and day. It has no script."""
from __future__ import annotations

import time
from typing import BinaryIO, Dict, Iterator, List, NamedTuple, Sequence, Tuple

from .. import VERSION
from ..markup import Child, Markup, code, element, folded, joined, legend, listing, named, plain, table
from ..page_frame import front_of, write_page
from ..page_parts import TOP
from ..words import grouped, shown_name
from .findings import KINDS, find, in_order
from .options import utc
from .originator import Night, Originator
from .report import Report

# the first octets of a page, by which one is known
FRONT = front_of("ssign-keys check --html")
# how many rows a table of findings has, how many names a line of the verdict, and how many cells all grids together
MOST_ROWS, MOST_NAMES, MOST_CELLS = 500, 4, 60_000
# for each state of a file: how grave it is, its sign, its colour, and what it means
STATES: Dict[str, Tuple[int, str, str, str]] = {
    "finding": (3, "✗", "bad", "a finding"), "accepted": (2, "○", "odd", "an accepted finding"),
    "clean": (1, "✓", "good", "clean"), "removed": (0, "–", "dim", "removed after its time"),
}
STYLE = """.grid{overflow-x:auto}.grid td{min-width:1.6rem;padding:.1rem .2rem;text-align:center}
.grid th{padding:.1rem .2rem;text-align:center}.grid tr>:first-child{text-align:left;min-width:6rem}.grid td span{display:block;border-radius:.2rem}
"""


class Cell(NamedTuple):
    """What a grid shows of an originator's files of a day."""

    state: str
    files: Tuple[str, ...]
    """The name of each, with what is seen of it."""

    def markup(self) -> Markup:
        """Its sign, and how many files there are."""
        _, sign, colour, _ = STATES[self.state]
        more = f" {len(self.files)}" if len(self.files) > 1 else ""
        rest = len(self.files) - MOST_NAMES
        said = "; ".join(self.files[:MOST_NAMES]) + (f"; and {rest:,} more" if rest > 0 else "")
        return element("span", {"class": colour, "role": "img", "aria-label": said, "title": said}, sign + more)


def make_page(out: BinaryIO, report: Report, now: int) -> None:
    """Writes the page of a check into a passing file."""
    pieces = [verdict_part(report, now), *findings_part(report), *grid_part(report), originators_part(report),
              *accepted_part(report), limits_part()]
    write_page(out, FRONT, f"Check of signed files: {report.verdict()}", pieces, STYLE)


def verdict_part(report: Report, now: int) -> Markup:
    """The verdict, with a line for each kind of finding."""
    by_kind: Dict[str, List[str]] = {}
    for it in in_order(report.open):
        by_kind.setdefault(it.kind, []).append(it.place)
    leads = []
    for kind, places in by_kind.items():
        more = f" and {len(places) - MOST_NAMES:,} more" if len(places) > MOST_NAMES else ""
        leads.append(joined(plain("strong", f"{kind}: "), f"{KINDS[kind].means} ", named(", ".join(places[:MOST_NAMES])), more))
    sign = element("span", {"aria-hidden": "true"}, "✗ " if report.status else "✓ ")
    colour = "bad" if report.status else "odd" if report.accepted else "good"
    return plain("section", plain("h1", "Check of signed files"),
                 element("p", {"class": "dim"}, f"Made at {utc(now)} by ssign-keys {VERSION}. Status {report.status}."),
                 element("div", {"class": f"verdict {colour}", "id": "verdict"}, plain("strong", sign, named(report.verdict())),
                         *([listing(*leads)] if leads else [])))


# ---- findings

def findings_part(report: Report) -> List[Markup]:
    """What is wrong, the gravest first."""
    rows: List[Sequence[Child]] = [(named(it.name), named(it.text), KINDS[it.kind].act) for it in in_order(report.open)]
    heads = ("Finding", "What was seen", "To do")
    return [plain("section", plain("h2", "What is wrong, and what to do"),
                  *cut_rows("findings", "Findings, the gravest first", heads, rows))] if rows else []


def accepted_part(report: Report) -> List[Markup]:
    """What was accepted, and why."""
    rows: List[Sequence[Child]] = [(named(it.name), named(it.text), named(report.whys[it.name]))
                                   for it in in_order(report.accepted)]
    heads = ("Finding", "What was seen", "Accepted")
    return [plain("section", plain("h2", "Accepted findings"),
                  *cut_rows("accepted", "They hold as long as the same is seen", heads, rows))] if rows else []


def cut_rows(name: str, caption: str, heads: Sequence[str], rows: Sequence[Sequence[Child]]) -> List[Markup]:
    """A table: its first rows, more of them folded, and how many aren't shown."""
    pieces = [table(name, caption, heads, rows[:TOP])]
    if len(rows) > TOP:
        shown = rows[TOP:MOST_ROWS]
        pieces.append(folded(grouped(len(shown), "more row"), table(f"{name}-more", caption, heads, shown)))
    if len(rows) > MOST_ROWS:
        pieces.append(plain("p", f"Not shown: {grouped(len(rows) - MOST_ROWS, 'more row')}. ssign-keys check --json has all."))
    return pieces


# ---- the grid

Month = Dict[str, Dict[int, Cell]]


def grid_part(report: Report) -> List[Markup]:
    """The files by originator and day: the newest month, and each older one folded."""
    months = months_of(report)
    if not months:
        return []
    pieces: List[Child] = []
    left, shown = MOST_CELLS, 0
    for name in sorted(months, reverse=True):
        left -= sum(map(len, months[name].values()))
        if shown and left < 0:
            break
        grid = element("div", {"class": "grid"}, month_table(name, months[name]))
        bad = sum(cell.state == "finding" for row in months[name].values() for cell in row.values())
        said = f"{name}: {grouped(bad, 'day with findings', 'days with findings')}" if bad else f"{name}: no finding"
        pieces.append(folded(said, grid) if shown else grid)
        shown += 1
    if shown < len(months):
        pieces.append(plain("p", f"Not shown: {grouped(len(months) - shown, 'older month')}. ssign-keys check --json has all "
                            "findings."))
    signs = legend(*(joined(element("span", {"class": colour}, f" {sign} "), f" {means}")
                     for _, sign, colour, means in STATES.values()))
    return [plain("section", plain("h2", "Files by day"),
                  plain("p", "A file stands in the day on which it was signed, in UTC, as its signer states. A number after a "
                        "sign is how many files there are. An empty cell has none."), signs, *pieces)]


def months_of(report: Report) -> Dict[str, Month]:
    """For each month, the cells of each originator by day."""
    opened, accepted = ({it.place: it.kind for it in reversed(in_order(found))} for found in (report.open, report.accepted))
    seen: Dict[Tuple[str, str, int], List[Tuple[str, str]]] = {}
    for it in report.checked:
        for night in it.nights():
            day = time.strftime("%Y-%m-%d", time.gmtime(max(night.when, 0)))
            state, word = state_of(it, night, opened, accepted)
            seen.setdefault((day[:7], it.name, int(day[8:])), []).append((state, f"{day} {shown_name(night.name)}: {word}"))
    months: Dict[str, Month] = {}
    for (month, name, number), files in seen.items():
        worst = max((state for state, _ in files), key=lambda it: STATES[it][0])
        ordered = sorted(files, key=lambda it: -STATES[it[0]][0])
        months.setdefault(month, {}).setdefault(name, {})[number] = Cell(worst, tuple(text for _, text in ordered))
    return months


def state_of(it: Originator, night: Night, opened: Dict[str, str], accepted: Dict[str, str]) -> Tuple[str, str]:
    """What a grid shows of a file, and the word for it, by the kind of the finding at each place."""
    for name in (night.name, night.place, ""):
        place = find("", "", "", it.name, name).place
        # of an originator as a whole, this kind alone is about each of its files
        if place in opened and (name or opened[place] == "damaged"):
            return "finding", opened[place]
        if place in accepted and (name or accepted[place] == "damaged"):
            return "accepted", f"{accepted[place]}, accepted"
    if not night.is_here:
        return ("finding", "missing") if night.is_kept else ("removed", "removed")
    return "clean", "clean"


def month_table(name: str, month: Month) -> Markup:
    """The grid of a month."""
    days = sorted({number for row in month.values() for number in row})
    rows = (rows_of(originator, month[originator], days) for originator in sorted(month))
    return table(f"grid-{name}", name, ("Originator", *(f"{it:02}" for it in days)), rows)


def rows_of(originator: str, row: Dict[int, Cell], days: Sequence[int]) -> Iterator[Child]:
    """The name of an originator and its cells."""
    yield named(shown_name(originator))
    for it in days:
        yield row[it].markup() if it in row else ""


# ---- the rest

def originators_part(report: Report) -> Markup:
    """Each originator, with its newest file for whoever keeps that on paper."""
    rows: List[Sequence[Child]] = []
    for it in report.originators:
        newest, cover = it["newest"], report.covers.get(it["name"])
        rows.append((named(it["name"]), f"{it['files']:,}", named(newest["name"]) if newest else "none",
                     code(newest["sha256"]) if newest else "", newest["seen"] if newest else "",
                     named(cover.sentence()) if cover else "none"))
    heads = ("Originator", "Files", "Newest file", "Its SHA-256", "Seen first", "Time stamps")
    return plain("section", plain("h2", "Originators"), *cut_rows("originators", "The folders that were checked", heads, rows))


def limits_part() -> Markup:
    """What the check doesn't show."""
    return plain("section", plain("h2", "What the check doesn't show"), listing(
        "A machine that signs what its user wants, and a signer that left a message out.",
        "What was signed after the newest file of each originator.",
        "If the memory was lost: how many files were cut off at the newest end, and whether an originator is gone.",
        "The verdict is worth no more than the keys. Get each key by another way than with the files."))
