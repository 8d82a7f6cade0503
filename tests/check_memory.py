#!/usr/bin/env python3
"""The memory of `ssign-keys check`: begun, lost, torn, edited, older, used twice at once, killed; its turns, limits and size.

    check_memory.py

The last line is `check_memory: N passed, M failed`.
"""
import fcntl
import hashlib
import json
import os
import random
import shutil
import signal
import sys
import tempfile
import time

import check_world as world
from check import Bench, fault_of, night
from check_world import DAY, NOW, START, copy, read, write
from ssign_keys.check.findings import KINDS

passed = failed = 0
ZERO = "0" * 64


def tell(what, fault=""):
    global passed, failed
    if not fault:
        passed += 1
        return
    failed += 1
    print(f"check_memory: {what}: FAILED\n    {fault}")


def refused(what, bench, *words, wanted):
    """A run has to be refused, with these words."""
    status, out, err = world.tool("check", bench.logs, "--memory", bench.memory, *bench.words, *words, now=bench.now + 60)
    is_right = status == 2 and not out and wanted in err and err.count("\n") == 1
    tell(what, "" if is_right else f"status {status}: {out!r} {err!r}")


def rows_of(path):
    return [json.loads(it) for it in read(path).splitlines()]


def chained(rows):
    """These lines, with right numbers and SHA-256: what whoever edits a memory with care writes."""
    text, before = b"", ZERO
    for number, row in enumerate(rows, 1):
        line = json.dumps({**row, "n": number, "previous": before}, separators=(",", ":")).encode() + b"\n"
        before = hashlib.sha256(line).hexdigest()
        text += line
    return text


# ---- begun, lost, torn

def beginnings(bench):
    bench.begin(with_memory=False)
    refused("there is no memory", bench, wanted="there is no memory in")
    tell("nothing was made", "" if not os.path.exists(bench.memory) else f"{os.listdir(bench.memory)}")
    tell("it is begun", fault_of(bench.check("--begin"), 0, ()))
    refused("it is begun twice", bench, "--begin", wanted="there is a memory in")
    for name in ("runs", "alpha.memory", "beta.memory"):
        seen = os.stat(f"{bench.memory}/{name}").st_mode & 0o777
        tell(f"nobody else reads {name}", "" if seen == 0o600 else f"{seen:o}")
    # the chain, by its definition
    for name in ("runs", "alpha.memory"):
        octets = read(f"{bench.memory}/{name}")
        rows = [(it["n"], it["previous"]) for it in map(json.loads, octets.splitlines())]
        sums = [ZERO, *(hashlib.sha256(it).hexdigest() for it in octets.splitlines(True)[:-1])]
        tell(f"{name} is chained", "" if rows == list(enumerate(sums, 1)) else f"{octets[:300]!r}")
    os.remove(f"{bench.memory}/runs")
    refused("the file runs is lost", bench, wanted="there is no memory in")
    refused("the file runs is lost, and another begun", bench, "--begin", wanted="has lost its file runs")
    for what, make in (("a folder", os.mkdir), ("a pipe", os.mkfifo), ("a link", lambda it: os.symlink("/dev/null", it))):
        bench.begin()
        os.remove(f"{bench.memory}/runs")
        make(f"{bench.memory}/runs")
        refused(f"{what} in the place of runs", bench, wanted="can't be read")
    bench.begin()
    os.remove(f"{bench.memory}/alpha.memory")
    os.mkfifo(f"{bench.memory}/alpha.memory")
    refused("a pipe in the place of alpha.memory", bench, wanted="can't be read")


def torn(bench):
    """A kill or a loss of power leaves a front of the last line."""
    for name in ("runs", "alpha.memory"):
        for cut in (1, 30):
            bench.begin()
            path = f"{bench.memory}/{name}"
            before = read(path)
            write(path, before + before.splitlines(True)[-1][:-cut])
            tell(f"{name} is torn {cut} octets before its end", fault_of(bench.check(), 0, ()))
            after = read(path)
            is_whole = after.startswith(before) and all(map(json.loads, after.splitlines()))
            tell(f"{name} goes on after it", "" if is_whole else f"{after[-300:]!r}")
    bench.begin()
    path = f"{bench.memory}/alpha.memory"
    lines = read(path).splitlines(True)
    # the run was killed before it wrote to `runs`: what it had written stands there
    bench.begin(with_memory=False)
    bench.check("--begin")
    runs = read(f"{bench.memory}/runs")
    os.remove(f"{bench.logs}/alpha/{night(3)}")
    bench.check()
    write(f"{bench.memory}/runs", runs)
    tell("a run ended before its line in runs", fault_of(bench.check(), 1, [f"alpha/{night(3)} missing"]))
    assert lines


# ---- edited, older

def edited(bench):
    path = f"{bench.memory}/alpha.memory"
    file = "memory/alpha.memory edited"

    def case(what, change, names, name="alpha.memory", words=()):
        bench.begin()
        good = f"{bench.top}/try/good"
        copy(bench.memory, good)
        change(f"{bench.memory}/{name}")
        result = bench.check(*words)
        tell(what, fault_of(result, 1, names))
        tell(f"{what}, and again", fault_of(bench.check(*words), 1, names))
        accepts = [it for one in names for it in ("--accept", one)]
        tell(f"{what}, and accepted", fault_of(bench.check(*accepts, "--why", "known", *words), 0, (), names))
        after = bench.check(*words)
        tell(f"{what}, and after that", "" if after[0] == 0 and not after[1] else f"{after}")
        copy(good, bench.memory)
        tell(f"{what}, and put back", fault_of(bench.check(*words), 0, ()))

    def cut(path):
        # some of these have the time at which they were written, so the next check writes others
        write(path, b"".join(read(path).splitlines(True)[:-4]))

    def changed(path):
        octets = read(path)
        write(path, octets.replace(b'"status":0', b'"status":1', 1))

    def no_line(path):
        lines = read(path).splitlines(True)
        write(path, b"".join([lines[0], b"hello\n", *lines[1:]]))

    def rechained(path):
        rows = rows_of(path)
        del rows[3]
        write(path, chained(rows))

    def other_kind(path):
        lines = read(path).splitlines(True)
        write(path, b"".join(lines) + b'{"kind":"held","files":7}\n')

    case("a letter of a verdict is changed", changed, [file])
    case("a line is no JSON", no_line, [file])
    case("a line is of no kind", other_kind, [file])
    case("the last lines are cut", cut, [file])
    case("a line is taken out, and the chain made anew", rechained, [file])
    case("the memory of an originator is deleted", os.remove, [file])
    case("a line of runs is changed", changed, ["memory edited"], "runs")
    # a change of a line that hides a loss: a file that had to be there is no more wanted
    bench.begin()
    rows = [it for it in rows_of(path) if it["kind"] != "held"]
    write(path, chained(rows))
    os.remove(f"{bench.logs}/alpha/{night(10)}")
    tell("a loss is hidden by an edit", fault_of(bench.check(), 1, [file]))


def older(bench):
    """The status file knows how far the memory went."""
    status = f"{bench.top}/try/status"
    words = ("--status", status)
    bench.begin()
    tell("a status file is begun", fault_of(bench.check(*words), 0, ()))
    copy(bench.memory, f"{bench.top}/try/old")
    os.remove(f"{bench.logs}/alpha/{night(3)}")
    bench.check(*words)
    tell("a loss is accepted", fault_of(bench.check("--accept", f"alpha/{night(3)} missing", "--why", "lost", *words), 0, (),
                                        [f"alpha/{night(3)} missing"]))
    copy(bench.memory, f"{bench.top}/try/new")
    mark = json.loads(read(status))["memory"]
    copy(f"{bench.top}/try/old", bench.memory)
    tell("an older memory", fault_of(bench.check(*words), 1, ["memory older", f"alpha/{night(3)} missing"]))
    tell("the mark stays", "" if json.loads(read(status))["memory"] == mark else read(status).decode())
    copy(f"{bench.top}/try/new", bench.memory)
    tell("the newest memory is put back", fault_of(bench.check(*words), 0, (), [f"alpha/{night(3)} missing"]))
    copy(f"{bench.top}/try/old", bench.memory)
    bench.check(*words)
    names = ["memory older", f"alpha/{night(3)} missing"]
    accepts = [it for name in names for it in ("--accept", name)]
    tell("an older memory is accepted", fault_of(bench.check(*accepts, "--why", "x", *words), 0, (), names))
    tell("it is no finding any more", fault_of(bench.check(*words), 0, (), names[1:]))
    for what, change in (("deleted", os.remove), ("emptied", lambda it: write(it, b"")),
                         ("no JSON", lambda it: write(it, b"[1]"))):
        change(status)
        tell(f"the status file is {what}", fault_of(bench.check(*words), 1, ["memory status"], names[1:]))
        tell(f"the status file was {what}", fault_of(bench.check(*words), 0, (), names[1:]))
    fields = json.loads(read(status))
    wanted = {"format": 1, "status": 0, "findings": [], "accepted": names[1:], "files": 14}
    tell("what the status file has", "" if all(fields[name] == value for name, value in wanted.items()) else f"{fields}")


# ---- at once, killed

def at_once(bench):
    bench.begin()
    lock = os.open(f"{bench.memory}/lock", os.O_RDWR | os.O_CREAT, 0o600)
    fcntl.flock(lock, fcntl.LOCK_EX)
    refused("another check uses the memory", bench, wanted="another check uses the memory")
    os.close(lock)
    tell("the other check ended", fault_of(bench.check(), 0, ()))


def killed(bench):
    """A check is killed at any moment, with what it started; the next one finds what there is to find."""
    chance = random.Random(1)
    for number in range(12):
        bench.begin(with_memory=number % 3 > 0)
        begin = [] if number % 3 else ["--begin"]
        os.remove(f"{bench.logs}/alpha/{night(4)}")
        pid = os.fork()
        if pid == 0:
            os.setsid()
            out = os.open(os.devnull, os.O_WRONLY)
            os.dup2(out, 1)
            os.dup2(out, 2)
            time.time = lambda: float(NOW)
            status = 99
            try:
                status = world.cli.main(["check", bench.logs, "--memory", bench.memory, *bench.words, *begin])
            finally:
                os._exit(status)
        time.sleep(chance.uniform(0.01, 0.5))
        try:
            os.killpg(pid, signal.SIGKILL)
        except ProcessLookupError:
            pass
        os.waitpid(pid, 0)
        words = ["--begin"] if begin and not os.path.exists(f"{bench.memory}/runs") else []
        tell(f"after kill {number}", fault_of(bench.check(*words), 1, [f"alpha/{night(4)} missing"]))


# ---- turns, limits, trust

def turns(bench):
    """An octet that changes though the system says nothing of it is found within 30 checks, or by --read all."""
    path = f"{bench.logs}/alpha/{night(6)}"

    def rot():
        bench.begin()
        seen = os.stat(path)
        write(path, read(path).replace(b"message 3", b"message 8", 1))
        # as if the disk had lost it: what the memory has of the file stays right
        now = os.stat(path)
        record = f"{bench.memory}/alpha.memory"
        rows = rows_of(record)
        for it in rows:
            if it["kind"] == "read" and it["name"] == night(6):
                it["stat"] = [now.st_size, now.st_mtime_ns, now.st_ctime_ns, now.st_ino, now.st_mode]
        write(record, chained(rows))
        runs = rows_of(f"{bench.memory}/runs")
        for it in runs:
            if it["kind"] == "check" and "alpha" in it["heads"]:
                text = read(record).splitlines(True)
                count = int(it["heads"]["alpha"].partition(":")[0])
                it["heads"]["alpha"] = f"{count}:{hashlib.sha256(text[count - 1]).hexdigest()}"
        write(f"{bench.memory}/runs", chained(runs))
        assert seen.st_size == now.st_size

    rot()
    tell("--read all finds it", fault_of(bench.check("--read", "all"), 1, [f"alpha/{night(6)} damaged"]))
    rot()
    found = 0
    for number in range(1, 31):
        if bench.check()[0] == 1:
            found = number
            break
    tell("a turn finds it", "" if 0 < found <= 30 else f"not within {number} checks")


def limits(bench):
    """--expect and --keep, at the second before and after."""
    def late(words, now):
        bench.begin()
        bench.now = now - 60
        return bench.check(*words)

    newest = START + DAY * 10
    tell("a file came in time", fault_of(late(["--expect", "26h"], newest + 26 * 3600), 0, ()))
    tell("no file came in time", fault_of(late(["--expect", "26h"], newest + 26 * 3600 + 1), 1, ["alpha quiet", "beta quiet"]))
    tell("two days are allowed", fault_of(late(["--expect", "2d"], newest + 48 * 3600), 0, ()))
    bench.begin()
    os.remove(f"{bench.logs}/alpha/{night(10)}")
    bench.now = newest + 3600
    tell("a file that was seen isn't quiet", fault_of(bench.check("--expect", "26h"), 1, [f"alpha/{night(10)} cut"]))
    # --keep is judged by when the memory saw a file first: at its first check
    seen = NOW + 60

    def removed(now, *names):
        bench.begin()
        for it in names:
            os.remove(f"{bench.logs}/alpha/{it}")
        bench.now = now - 60
        return bench.check("--keep", "400d")

    tell("a file is removed in time", fault_of(removed(seen + 400 * DAY + 1, night(1), night(2)), 0, ()))
    tell("a file is removed too early",
         fault_of(removed(seen + 400 * DAY, night(1), night(2)), 1, [f"alpha/{night(2)} missing"]))
    tell("the last line counts them", "" if bench.check("--keep", "100d")[3][-1].endswith(", 2 removed after their time")
         else f"{bench.check('--keep', '100d')}")


def trust(bench):
    """A key that isn't given any more, and one that is given again."""
    bench.begin()
    one = bench.words[:2]
    args = ["check", "--memory", bench.memory]

    def names(words):
        bench.now += 60
        status, out, err = world.tool(*args, *words, bench.logs, now=bench.now)
        return status, sorted(it.partition(": ")[0] for it in out.decode().splitlines()[:-1]), err

    tell("a key isn't given", "" if names(one)[:2] == (1, ["beta damaged"]) else f"{names(one)}")
    tell("it is given again", fault_of(bench.check(), 0, ()))
    stranger = ["--key", f"{bench.top}/keys/stranger/public-key.pem"]
    tell("one more key is given", fault_of(bench.check(*stranger), 0, ()))
    for words, wanted in (([], "no key is given"), (["--key", f"{bench.top}/none"], "none can't be read"),
                          ([*one, "--accept", "alpha new"], "--accept NAME and --why TEXT go together"),
                          ([*one, "--accept", "alpha new", "--why", " "], "--why is empty"),
                          ([*one, "--accept", "alpha new", "--why", "x"], "has no open finding"),
                          ([*one, "--keep", "4"], "is no time such as"), ([*one, "--expect", "0h"], "is no time such as"),
                          ([*one, f"{bench.top}/nowhere"], "there is no folder"),
                          ([*one, "--begin", "--memory", f"{bench.logs}/memory"], "lies among the folders of originators"),
                          ([*one, "--begin", "--memory", f"{bench.logs}/alpha/memory"], "lies among the folders of originators"),
                          ([*one, "--match", "logs/*.log"], "is the pattern of no name of a file"),
                          ([*one, f"{bench.top}/logs/alpha"], "have one name")):
        status, out, err = world.tool(*args, *words, bench.logs, now=NOW)
        is_right = status == 2 and not out and wanted in err
        tell(f"refused: {' '.join(words[-2:])}", "" if is_right else f"{status} {out!r} {err!r}")


def forms(bench):
    """--json and --head."""
    bench.begin()
    newest = hashlib.sha256(read(f"{bench.logs}/alpha/{night(10)}")).hexdigest()
    lines = bench.check("--head")[3]
    wanted = f"newest: alpha: {night(10)}, SHA-256 {newest}"
    tell("--head", "" if wanted in lines else f"{lines}")
    os.remove(f"{bench.logs}/alpha/{night(3)}")
    status, out, _ = world.tool("check", bench.logs, "--memory", bench.memory, *bench.words, "--json", now=NOW + 300)
    rows = [json.loads(it) for it in out.splitlines()]
    finding, alpha, beta, verdict = rows
    is_right = status == 1 and finding["name"] == f"alpha/{night(3)} missing" and finding["accepted"] is None \
        and (alpha["name"], alpha["files"], alpha["findings"]) == ("alpha", 11, 1) \
        and alpha["newest"]["sha256"] == newest and beta["files"] == 3 \
        and (verdict["line"], verdict["status"], verdict["files"], verdict["findings"]) == ("verdict", 1, 14, 1)
    tell("--json", "" if is_right else f"{rows}")


def documents():
    """The table of docs/dev/FORMATS.md has each kind of finding, in the order of the program, and no other."""
    text = read(f"{world.ROOT}/docs/dev/FORMATS.md").decode().partition("## Findings of a check\n")[2].partition("\n## ")[0]
    rows = [it for it in text.splitlines() if it.startswith("| `")]
    wanted = [f"| `{kind}` | {it.means} | {it.act[0].upper()}{it.act[1:]}. |" for kind, it in KINDS.items()]
    tell("the table of findings", "" if rows == wanted else f"{rows}\n    and not {wanted}")


# ---- size

def linear(bench):
    """A check with nothing new, of 1,250 and of 5,000 files: the time of the processor, and what it reads."""
    spent = {}
    for count in (1250, 5000):
        logs, memory = f"{bench.top}/many/logs/alpha", f"{bench.top}/many/memory"
        shutil.rmtree(f"{bench.top}/many", ignore_errors=True)
        os.makedirs(logs)
        os.makedirs(memory)
        known(count, logs, memory, bench)
        before = os.times()
        status, out, err = world.tool("check", logs, "--memory", memory, *bench.words, now=NOW + 60)
        after = os.times()
        spent[count] = after.children_user + after.children_system - before.children_user - before.children_system
        is_right = status == 0 and out.decode() == f"{count:,} files of 1 originator: clean\n"
        tell(f"{count} files", "" if is_right else f"{status} {out[:500]!r} {err[:500]!r}")
    print(f"check_memory: 1,250 files take {spent[1250]:.2f} seconds, and 5,000 {spent[5000]:.2f}")
    tell("four times as many files take at most six times as long", "" if spent[5000] < 6 * spent[1250] + 0.5 else f"{spent}")
    tell("5,000 files take seconds", "" if spent[5000] < 10 else f"{spent}")


def known(count, logs, memory, bench):
    """So many files that an earlier check saw: their octets are a text, because a file that is known isn't verified again."""
    bench.begin()
    of = next(it["of"] for it in rows_of(f"{bench.memory}/alpha.memory") if it["kind"] == "file")
    rows, before, held = [{"kind": "begin", "time": NOW, "known": True}], None, []
    for number in range(count):
        rsid, name, octets = START + number, f"m-{number:05}.log.frames", b"file %d\n" % number
        write(f"{logs}/{name}", octets)
        seen = os.stat(f"{logs}/{name}")
        sha = hashlib.sha256(octets).hexdigest()
        stat = [seen.st_size, seen.st_mtime_ns, seen.st_ctime_ns, seen.st_ino, seen.st_mode]
        rows.append({"kind": "read", "name": name, "stat": stat, "sha256": sha})
        rows.append({"kind": "file", "sha256": sha, "name": name, "status": 0, "said": "clean",
                     "session": ["alpha", "ssign", "-", rsid], "key": "ab" * 32, "link": world.link_text(rsid, before),
                     "of": of, "seen": NOW})
        before = {"name": name, "rsid": rsid, "sha256": sha}
        held.append(sha)
    rows.append({"kind": "held", "files": held})
    write(f"{memory}/alpha.memory", chained(rows))
    mark = f"{len(rows)}:{hashlib.sha256(read(f'{memory}/alpha.memory').splitlines(True)[-1]).hexdigest()}"
    checked = {"kind": "check", "time": NOW, "status": 0, "heads": {"alpha": mark}, "open": [], "has_status": False}
    write(f"{memory}/runs", chained([{"kind": "begin", "time": NOW, "known": True}, checked]))


def main():
    with tempfile.TemporaryDirectory() as top:
        world.build(top)
        words = [it for name in ("alpha", "beta") for it in ("--key", f"{top}/keys/{name}/public-key.pem")]
        world.warm(words[1::2])
        bench = Bench(top, words)
        bench.begin(with_memory=False)
        world.remember_verdicts(f"{top}/verdicts")
        tell("the first check", fault_of(bench.check("--begin", "--jobs", "4"), 0, ()))
        tell("the second check", fault_of(bench.check(), 0, ()))
        copy(bench.memory, f"{top}/memory")
        for test in (beginnings, torn, edited, older, at_once, turns, limits, trust, forms, linear, killed):
            if len(sys.argv) < 2 or test.__name__ in sys.argv[1:]:
                test(bench)
    documents()
    print(f"check_memory: {passed} passed, {failed} failed")
    return 1 if failed or not passed else 0


if __name__ == "__main__":
    sys.exit(main())
