#!/usr/bin/env python3
"""The page of `ssign-keys check --html`: its grid is compared with files and damages, and its text with what is printed.

    check_page.py

The last line is `check_page: N passed, M failed`.
"""
import hashlib
import html.parser
import os
import shutil
import subprocess
import sys
import tempfile
import time

import check_world as world
from check import Bench, night
from check_memory import chained, rows_of
from check_world import BEAT, DAY, NOW, START, copy, read, write

passed = failed = 0
FRONT = b"<!DOCTYPE html>\n<!-- made by ssign-keys check --html -->\n"
# elements and attributes that load, run or send something
BAD = {"script", "link", "a", "img", "iframe", "object", "embed", "form", "input", "base", "audio", "video", "source"}
BAD_ATTRIBUTES = {"src", "href", "srcset", "action", "style", "background"}
NO_END = {"meta", "br", "path", "rect"}


def tell(what, fault=""):
    global passed, failed
    if not fault:
        passed += 1
        return
    failed += 1
    print(f"check_page: {what}: FAILED\n    {fault}")


class Page(html.parser.HTMLParser):
    """What stands in a page: its elements, the rows of its tables, and the signs of its grids with what they say."""

    def __init__(self, octets):
        super().__init__()
        self.faults, self.tables, self.texts, self.open, self.labels = [], {}, [], [], []
        self.summaries, self.order = [], []
        self._table = self._cell = None
        self.feed(octets.decode("utf-8"))
        self.close()
        if self.open:
            self.faults.append(f"these elements don't end: {self.open}")

    def handle_starttag(self, tag, attributes):
        given = dict(attributes)
        if tag in BAD or BAD_ATTRIBUTES & given.keys() or any(it.startswith("on") for it in given):
            self.faults.append(f"<{tag} {given}>")
        if tag not in NO_END:
            self.open.append(tag)
        if tag == "table":
            self._table = self.tables.setdefault(given["id"], [])
        if tag in ("table", "div") and "id" in given:
            self.order.append(given["id"])
        if tag == "tr":
            self._table.append([])
        if tag in ("td", "th"):
            self._table[-1].append("")
            self._cell = True
        if "aria-label" in given:
            self.labels.append((self._table[-1][0], given["aria-label"]))
            if given.get("role") != "img" or given.get("title") != given["aria-label"]:
                self.faults.append(f"<{tag} {given}>")

    handle_startendtag = handle_starttag

    def handle_endtag(self, tag):
        if not self.open or self.open.pop() != tag:
            self.faults.append(f"</{tag}> at {self.getpos()}")
        if tag in ("td", "th"):
            self._cell = False

    def handle_data(self, text):
        if "style" in self.open:
            return
        self.texts.append(text)
        if self._cell:
            self._table[-1][-1] += text.strip()
        if "summary" in self.open:
            self.summaries.append(text)

    @property
    def text(self):
        return "".join(self.texts)


def tidy(what, path):
    """What the validator of HTML has against a page."""
    if shutil.which("tidy") is None:
        return
    done = subprocess.run(["tidy", "-q", "-e", "--show-info", "no", path], capture_output=True)
    tell(f"{what}: tidy", "" if done.returncode == 0 else done.stderr.decode()[:500])


def made(what, bench, *words, status=0):
    """A check that writes a page, and prints what it prints without one."""
    path = f"{bench.top}/try/page.html"
    result = bench.check("--html", path, *words)
    octets = read(path)
    page = Page(octets)
    tell(f"{what}: status and form", "" if result[0] == status and octets.startswith(FRONT) and not page.faults
         else f"{result} {page.faults} {octets[:200]}")
    tell(f"{what}: the verdict", "" if result[3][-1] in page.text else page.text[:500])
    order = [it for it in page.order if it in ("verdict", "findings") or it.startswith("grid-")]
    wanted = ["verdict", *(["findings"] if status else []), *(it for it in order if it.startswith("grid-"))]
    tell(f"{what}: what is wrong leads", "" if order == wanted else f"{order}")
    tidy(what, path)
    return result, page


def signs(page, originator, month="2030-03"):
    """The signs of an originator's days."""
    head, *rows = page.tables[f"grid-{month}"]
    return {int(day): sign for row in rows if row[0] == originator for day, sign in zip(head[1:], row[1:]) if sign}


def grids(bench):
    """What the grid shows: alpha's nights begin with the 19th of March 2030, and beta's three are its last ones."""
    begins = time.strftime("%Y-%m-%d", time.gmtime(START + DAY))
    assert begins == "2030-03-19", begins
    bench.begin()
    _, page = made("clean", bench)
    # with the late lines of night 6 and the beat of night 7 these days have two files
    alpha = {**{day: "✓" for day in range(19, 29)}, 24: "✓ 2", 25: "✓ 2"}
    beta = {26: "✓", 27: "✓", 28: "✓"}
    tell("clean: the grid", "" if (signs(page, "alpha"), signs(page, "beta")) == (alpha, beta) else f"{page.tables}")
    tell("clean: what a sign says", "" if ("alpha", f"2030-03-19 {night(1)}: clean") in page.labels else f"{page.labels}")
    newest = hashlib.sha256(read(f"{bench.logs}/alpha/{night(10)}")).hexdigest()
    row = next(it for it in page.tables["originators"] if it[0] == "alpha")
    tell("clean: the newest file", "" if row[:4] == ["alpha", "12", night(10), newest] else f"{row}")
    # three files in a row, one of which is damaged, and one that was put in
    for it in (night(2), night(3)):
        os.remove(f"{bench.logs}/alpha/{it}")
    path = f"{bench.logs}/alpha/{night(8)}"
    write(path, read(path).replace(b"message 2 ", b"message 9 "))
    copy(f"{bench.logs}/beta", f"{bench.logs}/gamma")
    result, page = made("damaged", bench, status=1)
    wanted = {**alpha, 20: "✗", 21: "✗", 26: "✗"}
    seen = signs(page, "alpha")
    tell("damaged: the grid", "" if seen == wanted else f"{seen}, not {wanted}")
    is_there = ("alpha", f"2030-03-20 {night(2)}: missing") in page.labels
    tell("damaged: each file of a loss", "" if is_there else f"{page.labels}")
    rows = [it[0] for it in page.tables["findings"][1:]]
    printed = [it.partition(": ")[0] for it in result[3][:-1]]
    tell("damaged: the findings, in their order", "" if rows == printed else f"{rows}, not {printed}")
    acts = all(line.endswith(f": {row[1]}. To do: {row[2]}") for line, row in zip(result[3], page.tables["findings"][1:]))
    tell("damaged: what was seen and the acts", "" if acts else f"{page.tables['findings']}")
    accepts = [it for name in result[1] for it in ("--accept", name)]
    _, page = made("accepted", bench, *accepts, "--why", "<b>ticket</b> 17")
    seen = signs(page, "alpha")
    tell("accepted: the grid", "" if (seen[20], seen[21], seen[26]) == ("○", "○", "○") else f"{seen}")
    tell("accepted: why", "" if "<b>ticket</b> 17" in page.text and len(page.tables["accepted"]) > 3 else page.text)
    # an old file that was removed, and an originator without a right key
    bench.begin()
    bench.now += 401 * DAY
    os.remove(f"{bench.logs}/alpha/{night(1)}")
    _, page = made("removed", bench, "--keep", "400d")
    tell("removed: the grid", "" if signs(page, "alpha") == {**alpha, 19: "–"} else f"{signs(page, 'alpha')}")
    other = Bench(bench.top, ["--key", f"{bench.top}/keys/beta/public-key.pem"])
    other.begin()
    _, page = made("no right key", other, status=1)
    seen = {sign[0] for sign in signs(page, "alpha").values()}
    tell("no right key: the grid", "" if seen == {"✗"} else f"{signs(page, 'alpha')}")
    assert BEAT and NOW


def hostile(bench):
    """Names that are HTML, or that a terminal obeys."""
    bench.begin()
    names = ["<script>alert(1)</script>.frames", "a\"onload=x'&amp;.frames", "\x1b[31m\u202egnp.frames", "-->.frames",
             "]]><svg onload=x>.frames"]
    for it in names:
        # a slash can't stand in a name
        write(f"{bench.logs}/alpha/{it.replace('/', '_')}", b"hello")
    _, page = made("hostile names", bench, status=1)
    rows = [it[0] for it in page.tables["findings"][1:]]
    tell("hostile names: they are texts", "" if "alpha/<script>alert(1)<_script>.frames damaged" in rows or
         "alpha/<script>alert(1)<_script>.frames unreadable" in rows else f"{rows}")
    tell("hostile names: nothing turns or ends a line", "" if not set("\x1b\u202e") & set(page.text) else "a control")


def refusals(bench):
    """A page is written whole, at the end of a run, and over nothing but a page."""
    bench.begin()
    path = f"{bench.top}/try/page.html"

    def run(*words, out=path):
        given = ("--memory", bench.memory, *bench.words, "--html", out)
        return world.tool("check", bench.logs, *given, *words, now=bench.now + 60)

    if os.path.exists(path):
        os.remove(path)
    status, out, err = run("--accept", "alpha no", "--why", "x")
    tell("a run that is refused writes no page", "" if status == 2 and not os.path.exists(path) else f"{status} {out} {err}")
    write(path, b"mine")
    for what, place, words, wanted in (
            ("another file", path, (), "is no page of --html"), ("no folder", f"{bench.top}/none/x", (), "there is no folder"),
            ("no name", "", (), "--html has an empty name"), ("a folder", bench.top, (), "is no page of --html"),
            ("an input", f"{bench.top}/keys/alpha/public-key.pem", (), "this is an input of the check")):
        status, out, err = run(*words, out=place)
        is_right = status == 2 and not out and wanted in err and err.count("\n") == 1
        tell(f"refused: {what}", "" if is_right else f"{status} {out} {err}")
    tell("another file stays", "" if read(path) == b"mine" else "it was overwritten")
    os.remove(path)
    run()
    before = os.stat(path).st_ino
    run()
    tell("an older page is replaced", "" if read(path).startswith(FRONT) and os.stat(path).st_ino != before else "it wasn't")
    left = [it for it in os.listdir(f"{bench.top}/try") if it.startswith(".ssign-keys-")]
    tell("nothing is left", "" if not left else f"{left}")


def many(bench):
    """1,000 files of 5 originators, which an earlier check saw, of 200 days."""
    bench.begin()
    of = next(it["of"] for it in rows_of(f"{bench.memory}/alpha.memory") if it["kind"] == "file")
    logs, memory = f"{bench.top}/try/many", f"{bench.top}/try/many-memory"
    os.makedirs(memory)
    heads = {}
    for name in ("one", "two", "three", "four", "five"):
        os.makedirs(f"{logs}/{name}")
        heads[name] = known(f"{logs}/{name}", f"{memory}/{name}.memory", of)
    checked = {"kind": "check", "time": NOW, "status": 0, "heads": heads, "open": [], "has_status": False}
    write(f"{memory}/runs", chained([{"kind": "begin", "time": NOW, "known": True}, checked]))
    os.remove(f"{logs}/two/m-0050.log.frames")
    path, words = f"{bench.top}/try/many.html", ("--memory", memory, *bench.words)
    spent = {}
    for what, more in (("without", ()), ("with", ("--html", path))):
        before = os.times()
        status, out, err = world.tool("check", logs, *words, *more, now=NOW + 60)
        after = os.times()
        spent[what] = after.children_user + after.children_system - before.children_user - before.children_system
        assert status == 1, (status, out[:500], err)
    page, octets = Page(read(path)), os.path.getsize(path)
    print(f"check_page: 1,000 files take {spent['without']:.2f} seconds, and {spent['with']:.2f} with a page of {octets:,} "
          "octets")
    tell("1,000 files: a page takes a second at most", "" if spent["with"] - spent["without"] < 1 else f"{spent}")
    tell("1,000 files: its size", "" if octets < 500_000 else f"{octets}")
    counted = sum(len(signs(page, name, it[5:])) for it in page.tables if it.startswith("grid-") for name in heads)
    tell("1,000 files: each has a cell", "" if counted == 1000 else f"{counted}")
    tables = [it for it in page.tables if it.startswith("grid-")]
    is_right = tables == sorted(tables, reverse=True) and len(tables) >= 7
    tell("1,000 files: months, the newest first", "" if is_right else f"{tables}")
    tell("1,000 files: older months are folded", "" if sum("finding" in it for it in page.summaries) == len(tables) - 1
         else f"{page.summaries}")
    folds = [it for it in page.summaries if "1 day with findings" in it]
    tell("1,000 files: a fold says what is in it", "" if len(folds) == 1 else f"{page.summaries}")
    tidy("1,000 files", path)


def known(folder, path, of):
    """200 files of an originator that a check saw, one a day. Gives how far its memory goes."""
    rows, before, held = [{"kind": "begin", "time": NOW, "known": True}], None, []
    for number in range(200):
        rsid, name, octets = NOW - (200 - number) * DAY, f"m-{number:04}.log.frames", f"{folder} {number}\n".encode()
        write(f"{folder}/{name}", octets)
        sha = hashlib.sha256(octets).hexdigest()
        seen = os.stat(f"{folder}/{name}")
        stat = [seen.st_size, seen.st_mtime_ns, seen.st_ctime_ns, seen.st_ino, seen.st_mode]
        rows += [{"kind": "read", "name": name, "stat": stat, "sha256": sha},
                 {"kind": "file", "sha256": sha, "name": name, "status": 0, "said": "clean",
                  "session": ["h", "ssign", "-", rsid], "key": "ab" * 32, "link": world.link_text(rsid, before), "of": of,
                  "seen": NOW}]
        before = {"name": name, "rsid": rsid, "sha256": sha}
        held.append(sha)
    rows.append({"kind": "held", "files": held})
    octets = chained(rows)
    write(path, octets)
    return f"{len(rows)}:{hashlib.sha256(octets.splitlines(True)[-1]).hexdigest()}"


def main():
    with tempfile.TemporaryDirectory() as top:
        world.build(top)
        words = [it for name in ("alpha", "beta") for it in ("--key", f"{top}/keys/{name}/public-key.pem")]
        world.warm(words[1::2])
        world.remember_verdicts(f"{top}/verdicts")
        bench = Bench(top, words)
        bench.begin(with_memory=False)
        assert bench.check("--begin")[0] == 0
        copy(bench.memory, f"{top}/memory")
        for test in (grids, hostile, refusals, many):
            test(bench)
    print(f"check_page: {passed} passed, {failed} failed")
    return 1 if failed or not passed else 0


if __name__ == "__main__":
    sys.exit(main())
