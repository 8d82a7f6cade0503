"""How a page looks: light, dark and on paper. Each kind of number or message has a pattern besides its colour."""
from __future__ import annotations

import base64
import hashlib
from typing import Dict

from .markup import Markup, drawn, element

# what is drawn over the colour of a kind, in a tile of 6 by 6; kinds without a pattern are one colour
PATTERNS: Dict[str, str] = {
    "missing": "M-1 1L1 -1M0 6L6 0M5 7L7 5", "disputed": "M0 0L6 6M6 0L0 6", "unannounced": "M0 1.5H6M0 4.5H6",
    "missing-up-to-the-counters": "M3 0V6", "changed-or-replaced": "M0 3L3 0L6 3", "unlisted": "M-1 5L1 7M0 0L6 6M5 -1L7 1",
    "unproved": "M0 0H3V3H0Z", "unverified": "M0 3H6M3 0V6", "spoilt": "M1 1H3V3H1Z", "damaged": "M0 3L3 0L6 3L3 6Z",
}
LIGHT = {
    "back": "#ffffff", "fore": "#1a1a1a", "dim": "#595959", "line": "#b8b8b8", "box": "#f3f3f0", "listed": "#2f7d4f",
    "missing": "#b3261e", "disputed": "#7a1fa2", "unannounced": "#9a6200", "missing-up-to-the-counters": "#1f5fb3",
    "changed-or-replaced": "#4a55c8", "unlisted": "#c2410c", "unproved": "#3f6212",
    "unverified": "#8c2d55", "spoilt": "#5d4037", "damaged": "#00696b", "verified": "#7d8b98", "good": "#e3f2e6", "good-fore": "#14532d",
    "bad": "#fde7e4", "bad-fore": "#7a1510", "odd": "#fff4cc", "odd-fore": "#5c4400",
}
DARK = {
    "back": "#15171a", "fore": "#e8e6e3", "dim": "#a9a9a9", "line": "#50555b", "box": "#1f2226", "listed": "#5cb87f",
    "missing": "#ff7b70", "disputed": "#d08bf0", "unannounced": "#f2b84b", "missing-up-to-the-counters": "#79aef2",
    "changed-or-replaced": "#a5b0ff", "unlisted": "#ff9a63", "unproved": "#bef264",
    "unverified": "#ef8fb8", "spoilt": "#c7a79b", "damaged": "#4fc4c4", "verified": "#8794a1", "good": "#163522", "good-fore": "#c9f2d6",
    "bad": "#43191a", "bad-fore": "#ffd9d4", "odd": "#3a2f0b", "odd-fore": "#ffe9a8",
}
KINDS = ("listed", "verified", *PATTERNS)
REST = """
*{box-sizing:border-box}
body{margin:0 auto;max-width:66rem;padding:1rem 1.25rem 3rem;background:var(--back);color:var(--fore);
font:16px/1.5 system-ui,sans-serif}
h1{font-size:1.5rem;margin:0 0 .2rem}
h2{font-size:1.2rem;margin:2.2rem 0 .5rem;border-bottom:1px solid var(--line)}
h1,h2,p,li,pre,bdi,td{overflow-wrap:anywhere}
p{margin:.3rem 0}
.verdict{padding:.9rem 1.1rem;border:2px solid currentColor;border-radius:.4rem;margin:.8rem 0}
.verdict>strong{display:block;font-size:1.35rem}
ul{margin:.3rem 0;padding-left:1.2rem}
.time{white-space:nowrap}
summary{cursor:pointer;color:var(--dim)}
.good{background:var(--good);color:var(--good-fore)}
.bad{background:var(--bad);color:var(--bad-fore)}
.odd{background:var(--odd);color:var(--odd-fore)}
.dim,caption{color:var(--dim)}
table{border-collapse:collapse;width:100%;font-size:.9rem;margin:.4rem 0 1rem}
caption{text-align:left;padding:.2rem 0}
th,td{text-align:left;vertical-align:top;padding:.25rem .7rem .25rem 0;border-bottom:1px solid var(--line)}
td,tbody th{min-width:5.5rem}
thead th{border-bottom:2px solid var(--line)}
tbody th{font-weight:600}
code,pre{font-family:ui-monospace,monospace;font-size:.87em}
td code{font-size:.8rem;overflow-wrap:anywhere}
pre{background:var(--box);padding:.7rem;white-space:pre-wrap}
figure{margin:.4rem 0 1rem}
.strip{display:block;width:100%;height:auto;background:var(--box);border:1px solid var(--line)}
.ends{display:flex;justify-content:space-between;font-size:.8rem;color:var(--dim);font-variant-numeric:tabular-nums}
.strip text{font-size:11px;fill:var(--fore)}
.hidden{position:absolute;width:0;height:0}
.over{stroke:var(--back);stroke-width:1.5;fill:none}
.key{display:flex;flex-wrap:wrap;gap:.1rem 1.2rem;list-style:none;padding:0;margin:.3rem 0;font-size:.87rem}
.swatch{width:1.5rem;height:.8rem;margin-right:.35rem;vertical-align:-.05rem}
"""
# cells stand below one another, each with the head of its column
NARROW = """
@media screen and (max-width:44rem){table,caption,tbody,tr,td,tbody th{display:block}
thead{position:absolute;width:1px;height:1px;overflow:hidden;clip-path:inset(50%)}
tr{border-bottom:1px solid var(--line);padding:.35rem 0}td,tbody th{border:0;padding:.05rem 0}
td:empty,.strip text{display:none}td::before{content:attr(data-head) ": ";color:var(--dim)}}
"""


def colours(named: Dict[str, str]) -> str:
    """Values of the variables."""
    return "".join(f"--{name}:{value};" for name, value in named.items())


def style() -> str:
    """The text of the style."""
    fills = "".join(f".{it}{{fill:{f'url(#p-{it})' if it in PATTERNS else f'var(--{it})'}}}.c-{it}{{fill:var(--{it})}}\n"
                    for it in KINDS)
    return (f":root{{color-scheme:light dark;{colours(LIGHT)}}}\n"
            f"@media (prefers-color-scheme:dark){{:root{{{colours(DARK)}}}}}\n{REST.strip()}\n{fills}"
            f"{NARROW.strip()}\n@page{{size:A4;margin:15mm}}\n"
            f"@media print{{:root{{color-scheme:light;{colours(LIGHT)}}}html,body{{font-size:9pt}}body{{max-width:none;padding:0}}\n"
            "h2,caption{break-after:avoid}tr,figure,.verdict{break-inside:avoid}\n"
            "*{-webkit-print-color-adjust:exact;print-color-adjust:exact}}\n")


def policy(text: str) -> str:
    """What a browser may do with a page that has this style: nothing is loaded, run or sent, were it there."""
    digest = base64.b64encode(hashlib.sha256(text.encode("utf-8")).digest()).decode("ascii")
    return f"default-src 'none'; style-src 'sha256-{digest}'; base-uri 'none'; form-action 'none'"


def patterns() -> Markup:
    """The patterns, for all pictures of a page."""
    made = []
    for name, path in PATTERNS.items():
        made.append(element("pattern", {"id": f"p-{name}", "width": "6", "height": "6", "patternUnits": "userSpaceOnUse"},
                            drawn("rect", {"width": "6", "height": "6", "class": f"c-{name}"}),
                            drawn("path", {"d": path, "class": "over"})))
    return element("svg", {"class": "hidden", "aria-hidden": "true"}, element("defs", {}, *made))
