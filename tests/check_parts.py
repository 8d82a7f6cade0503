#!/usr/bin/env python3
"""`ssign-keys check --part`: tasks verify shares of the files, and a check takes what they found: stopped, torn, edited, for
other octets, keys or programs, twice at once, or not at all.

    check_parts.py

The last line is `check_parts: N passed, M failed`.
"""
import glob
import json
import os
import random
import shutil
import signal
import sys
import tempfile
import time

import check_world as world
from check import Bench, fault_of, night
from check_memory import chained, rows_of
from check_world import NOW, copy, read, write
from ssign_keys.check import files, verdicts

passed = failed = 0
TASKS = 3
FILES, OF_ALPHA = 15, 12


def tell(what, fault=""):
    global passed, failed
    if not fault:
        passed += 1
        return
    failed += 1
    print(f"check_parts: {what}: FAILED\n    {fault}")


class Shared(Bench):
    """The world, with tasks. It counts which files each run verifies and reads."""

    def __init__(self, top, words):
        super().__init__(top, words)
        self._count()

    def _count(self):
        judge, taken = verdicts.Pool.judge, files.Reader.digests

        def note(kind, name):
            with open(f"{self.top}/{kind}", "a", encoding="utf-8") as file:
                file.write(f"{name}\n")

        def judged(pool, works):
            for it in works:
                note("verified", it.name)
            return judge(pool, works)

        def summed(reader, it, ends):
            note("read", it.name)
            return taken(reader, it, ends)

        verdicts.Pool.judge, files.Reader.digests = judged, summed

    def work(self):
        """The names of the files that were verified, and of those that were read, since this was asked last. No logs."""
        found = []
        for kind in ("verified", "read"):
            path = f"{self.top}/{kind}"
            names = read(path).decode().splitlines() if os.path.exists(path) else []
            found.append(sorted(it for it in names if ".frames" in it))
            if names:
                os.remove(path)
        return tuple(found)

    def task(self, part, *words):
        self.now += 1
        return world.tool("check", self.logs, "--memory", self.memory, *self.words, "--part", part, *words, now=self.now)

    def tasks(self, count=TASKS, *words):
        """All of them. What is wrong with them."""
        said = [self.task(f"{number}/{count}", *words) for number in range(1, count + 1)]
        return "".join(f"{it}" for it in said if it[0] or it[2])

    def parts(self):
        return sorted(glob.glob(f"{self.memory}/*.part"))


def did(bench, verified, read_now=None):
    """What is wrong with the work of the last runs: how many files they verified, and how many they read."""
    done = tuple(map(len, bench.work()))
    wanted = (verified, verified if read_now is None else read_now)
    return "" if done == wanted else f"{done[0]} were verified and {done[1]} read, not {wanted}"


def refused(what, said, wanted):
    status, out, err = said
    is_right = status == 2 and not out and wanted in err and err.count("\n") == 1
    tell(what, "" if is_right else f"status {status}: {out!r} {err!r}")


# ---- shares

def shares(bench):
    """Each file is of one share, and a check after all tasks verifies nothing."""
    signed = sorted(os.path.basename(it) for it in glob.glob(f"{bench.top}/logs/*/*.frames"))
    for count in (1, 3, 7, 40):
        bench.begin(with_memory=False)
        bench.work()
        tell(f"{count} tasks", bench.tasks(count, "--begin"))
        verified, seen = bench.work()
        tell(f"{count} tasks verify each file once", "" if verified == seen == signed else f"{verified} {seen}")
        tell(f"a check after {count} tasks", fault_of(bench.check("--begin"), 0, ()))
        tell(f"a check after {count} tasks verifies nothing", did(bench, 0))
        tell(f"nothing is left of {count} tasks", "" if not bench.parts() else f"{bench.parts()}")
        tell("the check after it", fault_of(bench.check(), 0, ()))
        # a thirtieth is read again
        verified, seen = bench.work()
        tell("the check after it verifies nothing", "" if not verified and len(seen) <= 2 else f"{verified} {seen}")
    bench.begin(with_memory=False)
    said = bench.task("1/1", "--begin", "--jobs", "3")
    tell("what a task prints", "" if said == (0, b"part 1 of 1: 15 files, 15 verified now\n", "") else f"{said}")
    said = bench.task("1/1", "--begin")
    tell("a task does nothing again", "" if said == (0, b"part 1 of 1: 15 files, 0 verified now\n", "") else f"{said}")
    tell("and leaves no file", "" if len(bench.parts()) == 1 else f"{bench.parts()}")
    seen = os.stat(bench.parts()[0]).st_mode & 0o777
    tell("nobody else reads it", "" if seen == 0o600 else f"{seen:o}")
    # a compressed file is of the same share
    bench.begin(with_memory=False)
    bench.work()
    tell("one task of two", "" if not bench.task("1/2", "--begin")[0] else "it failed")
    first = set(bench.work()[0])
    assert 0 < len(first) < FILES
    for name in first:
        for path in glob.glob(f"{bench.logs}/*/{name}"):
            os.system(f"gzip -n {path}")
    tell("the other one", "" if not bench.task("2/2", "--begin")[0] else "it failed")
    tell("they share all files", "" if set(bench.work()[0]) == set(signed) - first else "they don't")
    bench.check("--begin")
    tell("what was compressed meanwhile is only read", did(bench, 0, len(first)))


def findings(bench):
    """What a check finds after tasks is what it finds alone."""
    def damages(logs):
        path = f"{logs}/alpha/{night(3)}"
        write(path, read(path).replace(b"message 2", b"message 7", 1))
        os.remove(f"{logs}/alpha/{night(7)}")
        write(f"{logs}/beta/odd.frames", b"hello\n")
        write(f"{logs}/beta/empty.frames", b"")
        os.mkfifo(f"{logs}/beta/pipe.frames")
        write(f"{logs}/beta/bad.frames.gz", b"hello\n")

    for begin in (True, False):
        words = ["--begin"] if begin else []
        bench.begin(with_memory=not begin)
        damages(bench.logs)
        alone = bench.check(*words)
        bench.begin(with_memory=not begin)
        damages(bench.logs)
        tell("tasks over damaged files", bench.tasks(TASKS, *words))
        bench.work()
        after = bench.check(*words)
        is_same = after == alone and after[0] == 1 and len(after[1]) == 6
        tell("the findings are the same", "" if is_same else f"{after}\n    {alone}")
        # the pipe and what isn't compressed can't be read, nor verified
        tell("nothing is verified twice", did(bench, 0, 2))


# ---- stopped, torn, edited

def killed(bench):
    """Tasks are killed at any moment, and done again, or not."""
    chance = random.Random(2)
    judge = verdicts.Pool.judge

    def slow(pool, works):
        for it in judge(pool, works):
            time.sleep(0.02)
            yield it

    verdicts.Pool.judge = slow
    from ssign_keys.check import verifying
    pause, verifying.PAUSE = verifying.PAUSE, 0.0
    for number in range(12):
        bench.begin(with_memory=False)
        os.remove(f"{bench.logs}/alpha/{night(4)}")
        pids = []
        for part in range(1, TASKS + 1):
            pid = os.fork()
            if pid == 0:
                os.setpgid(0, 0)
                bench.task(f"{part}/{TASKS}", "--begin")
                os._exit(0)
            os.setpgid(pid, pid)
            pids.append(pid)
        time.sleep(chance.uniform(0.05, 0.4))
        for pid in pids:
            os.killpg(pid, signal.SIGKILL)
            os.waitpid(pid, 0)
        left = len(bench.parts())
        if number % 2:
            bench.work()
            tell(f"after kill {number} the tasks are done again", bench.tasks(TASKS, "--begin"))
            bench.work()
        result = bench.check("--begin")
        tell(f"after kill {number}, of which {left} files were left", fault_of(result, 1, [f"alpha/{night(4)} missing"]))
        if number % 2:
            tell(f"after kill {number} each file was verified", did(bench, 0))
    bench.work()
    verdicts.Pool.judge, verifying.PAUSE = judge, pause


def torn(bench):
    """A front of what a task wrote counts as far as it goes, and is no finding."""
    bench.begin(with_memory=False)
    bench.task("1/1", "--begin")
    copy(bench.memory, f"{bench.top}/try/whole")
    name = os.path.basename(bench.parts()[0])
    whole = read(bench.parts()[0])
    ends = [0]
    for it in whole.splitlines(True):
        ends.append(ends[-1] + len(it))
    lines = whole.splitlines(True)
    bench.work()
    for cut in sorted({0, 1, 200, len(whole) - 1, *ends[1:6], *ends[-4:], ends[-3] - 5, ends[FILES + 3] + 20}):
        copy(f"{bench.top}/try/whole", bench.memory)
        write(f"{bench.memory}/{name}", whole[:cut])
        tell(f"cut after {cut} octets", fault_of(bench.check("--begin"), 0, ()))
        count = max(it for it in range(len(ends)) if ends[it] <= cut)
        # the first line is the task's, and the last one waits for another
        good = [json.loads(it)["kind"] for it in lines[1:max(count - 1, 1)]]
        verified, seen = FILES - good.count("file"), FILES - good.count("read")
        tell(f"cut after {cut} octets, the rest is done", did(bench, verified, seen))
        tell(f"cut after {cut} octets, nothing is left", "" if not bench.parts() else f"{bench.parts()}")


def edited(bench):
    """Whichever octet of what a task wrote is changed: nothing wrong is taken, and what counts is a finding."""
    bench.begin(with_memory=False)
    path = f"{bench.logs}/alpha/{night(3)}"
    write(path, read(path).replace(b"message 2", b"message 7", 1))
    bad = f"alpha/{night(3)} damaged"
    copy(bench.logs, f"{bench.top}/try/damaged")
    bench.task("1/1", "--begin")
    copy(bench.memory, f"{bench.top}/try/whole")
    name = os.path.basename(bench.parts()[0])
    whole = read(bench.parts()[0])
    finding = f"memory/{name} edited"

    def again(octets):
        copy(f"{bench.top}/try/whole", bench.memory)
        write(f"{bench.memory}/{name}", octets)
        return bench.check("--begin")

    tell("as it was", fault_of(again(whole), 1, [bad]))
    chance = random.Random(3)
    last = len(whole) - len(whole.splitlines(True)[-1])
    for place in [*(chance.randrange(last) for _ in range(40)), *(chance.randrange(last, len(whole)) for _ in range(8))]:
        other = chance.choice([it for it in b'019abf"{},: \n' if it != whole[place]])
        result = again(whole[:place] + bytes([other]) + whole[place + 1:])
        names = [finding, bad] if place < last or finding in result[1] else [bad]
        tell(f"octet {place} is changed to {other}", fault_of(result, 1, names))
    # the verdict on the damaged file is made a clean one
    rows = [json.loads(it) for it in whole.splitlines()]
    at = next(number for number, it in enumerate(rows) if it["kind"] == "file" and it["status"])
    lines = whole.splitlines(True)
    clean = lines[at].replace(b'"status":1', b'"status":0')
    assert clean != lines[at]
    tell("a verdict is edited", fault_of(again(b"".join([*lines[:at], clean, *lines[at + 1:]])), 1, [finding, bad]))
    tell("it stays", fault_of(bench.check(), 1, [finding, bad]))
    tell("it is accepted", fault_of(bench.check("--accept", finding, "--why", "x"), 1, [bad], [finding]))
    tell("it is gone then", fault_of(bench.check(), 1, [bad]) or ("" if not bench.parts() else f"{bench.parts()}"))
    tell("a verdict is edited where the task was stopped", fault_of(again(b"".join([*lines[:at], clean])), 1, [bad]))
    again(b"".join([*lines[:at], clean, *lines[at + 1:]]))
    os.remove(bench.parts()[0])
    tell("it is removed", fault_of(bench.check(), 1, [bad]))
    for what, octets in (("hello", b"hello\n"), ("a line too many", whole + b'{"kind":"end"}\n'),
                         ("two files in one", whole + whole),
                         ("the lines of a check", chained([{"kind": "begin", "time": NOW, "known": True}, *rows[1:]])),
                         ("a file of the memory", read(f"{bench.memory}/alpha.memory"))):
        tell(f"{what} in its place", fault_of(again(octets), 1, [finding, bad]))
    for what, make in (("a folder", os.mkdir), ("a pipe", os.mkfifo), ("a link", lambda it: os.symlink("/dev/null", it))):
        copy(f"{bench.top}/try/whole", bench.memory)
        os.remove(bench.parts()[0])
        make(f"{bench.memory}/{name}")
        said = world.tool("check", bench.logs, "--memory", bench.memory, *bench.words, "--begin", now=bench.now)
        refused(f"{what} in its place", said, "can't be read")
    # lines that a task can't have written, in a chain that is right
    for what, change in (("no originator", {"originator": 7}), ("a session of one word", {"session": ["x"]}),
                         ("no list", {"of": []}), ("no such session", {"session": ["a", "b", "c", "d"]}),
                         ("a stat of one list", {"stat": [[1]]})):
        for kind in ("file", "read"):
            made = [{**it, **change} if it["kind"] == kind else it for it in rows]
            tell(f"{what} in each {kind}", fault_of(again(chained(made)), 1, [bad]))


# ---- what isn't taken

def others(bench):
    """A verdict on other octets, by other keys or by another program isn't taken."""
    bench.begin(with_memory=False)
    bench.tasks(TASKS, "--begin")
    path = f"{bench.logs}/alpha/{night(3)}"
    write(path, read(path).replace(b"message 2", b"message 7", 1))
    bench.work()
    tell("a file is changed after its task", fault_of(bench.check("--begin"), 1, [f"alpha/{night(3)} damaged"]))
    tell("it alone is verified", did(bench, 1))

    bench.begin(with_memory=False)
    stranger = ["--key", f"{bench.top}/keys/stranger/public-key.pem"]
    tell("tasks with one more key", bench.tasks(TASKS, "--begin", *stranger))
    left = bench.parts()
    bench.work()
    bench.now += 60
    status, out, err = world.tool("check", bench.logs, "--memory", bench.memory, *bench.words, "--begin", now=bench.now)
    wanted = f"nothing is taken of {len(left)} files of tasks in the memory, made with other keys or another program"
    tell("other keys are named", "" if (status, err.count("\n")) == (0, 1) and wanted in err and out.endswith(b"clean\n") else
         f"{status} {out!r} {err!r}")
    tell("all is verified", did(bench, FILES))
    tell("the files stay", "" if bench.parts() == left else f"{bench.parts()}")
    for it in left:
        os.remove(it)
    said = world.tool("check", bench.logs, "--memory", bench.memory, *bench.words, now=bench.now + 60)
    tell("nothing is said any more", "" if said[0] == 0 and not said[2] else f"{said}")

    bench.begin(with_memory=False)
    program = os.environ["SSIGN"]
    shutil.copy(program, f"{bench.top}/other")
    with open(f"{bench.top}/other", "ab") as file:
        file.write(b"\0")
    tell("tasks by another program", bench.tasks(TASKS, "--begin", "--ssign", f"{bench.top}/other"))
    bench.work()
    status, _, _, lines = bench.check("--begin")
    tell("another program", did(bench, FILES) or ("" if status == 0 else f"{lines}"))


def seen_first(bench):
    """A verdict holds for the time at which the file was seen first: by a task, if that came first."""
    def trust(before):
        lines = [f"{name} ssign * keys/{name}/public-key.pem" for name in ("alpha", "beta")]
        stamp = time.strftime("%Y-%m-%dT%H:%M:%SZ", time.gmtime(before))
        write(f"{bench.top}/trust", f"{lines[0]} valid-before={stamp}\n{lines[1]}\n".encode())
        return ["--trust", f"{bench.top}/trust"]

    words = bench.words
    for what, after, wanted in (("in time", 300, []), ("late", -300, ["alpha damaged"])):
        bench.begin(with_memory=False)
        bench.words = trust(bench.now + after)
        tell(f"tasks {what}", bench.tasks(TASKS, "--begin"))
        bench.work()
        bench.now += 3600
        tell(f"files that tasks saw {what}", fault_of(bench.check("--begin"), 1 if wanted else 0, wanted))
        tell(f"files that tasks saw {what} aren't verified again", did(bench, 0))
    # a check saw the files first, and a verdict for an earlier time isn't taken
    bench.begin(with_memory=False)
    bench.words = trust(bench.now + 300)
    bench.tasks(TASKS, "--begin")
    copy(bench.memory, f"{bench.top}/try/parts")
    shutil.rmtree(bench.memory)
    bench.now += 3600
    tell("a check was late", fault_of(bench.check("--begin"), 1, ["alpha damaged"]))
    for it in glob.glob(f"{bench.top}/try/parts/*.part"):
        shutil.copy(it, bench.memory)
    tell("tasks that saw them earlier are too late", fault_of(bench.check(), 1, ["alpha damaged"]))
    bench.words = words
    bench.work()


# ---- at once, missing, overtaken

def at_once(bench):
    """Two tasks of one share, tasks while a check holds its lock, tasks that never ran, and a check meanwhile."""
    bench.begin(with_memory=False)
    pids = []
    for part in ("1/2", "1/2", "1/2", "2/2"):
        pid = os.fork()
        if pid == 0:
            os._exit(bench.task(part, "--begin")[0])
        pids.append(pid)
    statuses = [os.waitstatus_to_exitcode(os.waitpid(pid, 0)[1]) for pid in pids]
    tell("three tasks of one share", "" if statuses == [0] * 4 else f"{statuses}")
    bench.work()
    tell("the check after them", fault_of(bench.check("--begin"), 0, ()) or did(bench, 0))

    bench.begin(with_memory=False)
    bench.work()
    bench.task("2/3", "--begin")
    mine = len(bench.work()[0])
    assert 0 < mine < FILES
    tell("tasks that never ran", fault_of(bench.check("--begin"), 0, ()) or did(bench, FILES - mine))

    import fcntl
    bench.begin()
    lock = os.open(f"{bench.memory}/lock", os.O_RDWR)
    fcntl.flock(lock, fcntl.LOCK_EX)
    tell("a task needs no lock", bench.tasks(TASKS, "--read", "all"))
    os.close(lock)
    tell("the check after it", fault_of(bench.check(), 0, ()))

    # a check ends while a task works
    bench.begin(with_memory=False)
    judge = verdicts.Pool.judge

    def overtaken(pool, works):
        for it in judge(pool, works):
            for path in bench.parts():
                os.remove(path)
            yield it

    from ssign_keys.check import verifying
    verdicts.Pool.judge, verifying.PAUSE = overtaken, 0.0
    refused("a check ends while a task works", bench.task("1/1", "--begin"), "a check ended meanwhile")
    verdicts.Pool.judge, verifying.PAUSE = judge, 5.0
    bench.work()


def doubted(bench):
    """Where a part of the memory was edited, tasks verify its files anew, and the check takes that."""
    bench.begin()
    path = f"{bench.memory}/alpha.memory"
    write(path, read(path).replace(b'"status":0', b'"status":1', 1))
    bench.work()
    tell("tasks of an edited memory", bench.tasks())
    tell("all files of it are verified", did(bench, OF_ALPHA, FILES))
    tell("the check after them", fault_of(bench.check(), 1, ["memory/alpha.memory edited"]) or did(bench, 0))
    tell("the check after that verifies", fault_of(bench.check(), 1, ["memory/alpha.memory edited"]) or did(bench, OF_ALPHA))


def turns(bench):
    """What tasks read counts as read, so --read all can be shared too."""
    bench.begin()
    bench.work()
    tell("tasks read all", bench.tasks(TASKS, "--read", "all"))
    tell("they verify nothing", did(bench, 0, FILES))
    tell("the check after them", fault_of(bench.check("--read", "all"), 0, ()) or did(bench, 0))
    tell("a check alone reads all", fault_of(bench.check("--read", "all"), 0, ()) or did(bench, 0, FILES))
    # an octet that changed though the system says nothing of it
    path = f"{bench.logs}/alpha/{night(6)}"
    record = f"{bench.memory}/alpha.memory"
    write(path, read(path).replace(b"message 3", b"message 8", 1))
    seen = os.stat(path)
    rows = rows_of(record)
    for it in rows:
        if it["kind"] == "read" and it["name"] == night(6):
            it["stat"] = [seen.st_size, seen.st_mtime_ns, seen.st_ctime_ns, seen.st_ino, seen.st_mode]
    write(record, chained(rows))
    os.remove(f"{bench.memory}/runs")
    write(f"{bench.memory}/runs", chained([{"kind": "begin", "time": NOW, "known": True}]))
    tell("tasks read all of it", bench.tasks(TASKS, "--read", "all"))
    tell("what changed is found", fault_of(bench.check(), 1, [f"alpha/{night(6)} damaged"]))
    bench.work()


def refusals(bench):
    bench.begin(with_memory=False)
    refused("there is no memory", bench.task("1/2"), "there is no memory in")
    tell("nothing was made", "" if not os.path.exists(bench.memory) else f"{os.listdir(bench.memory)}")
    for word in ("0/2", "3/2", "1", "1/", "/2", "01/2", "1/0", "1/2/3", "1 / 2", "a/b", "", "1/1000000", "\u0661/2"):
        refused(f"--part {word}", bench.task(word, "--begin"), "is no share such as 3/20")
    for words in (["--accept", "alpha new", "--why", "x"], ["--expect", "26h"], ["--keep", "400d"], ["--match", "*.txt"],
                  ["--status", f"{bench.top}/status"], ["--head"], ["--json"]):
        refused(f"--part and {words[0]}", bench.task("1/2", "--begin", *words), "--part only verifies")
    bench.begin()
    refused("--begin where there is a memory", bench.task("1/2", "--begin"), "there is a memory in")
    os.chmod(bench.memory, 0o777)
    refused("others may write", bench.task("1/2"), "others may write to the memory")
    os.chmod(bench.memory, 0o700)
    os.remove(f"{bench.memory}/runs")
    refused("the file runs is lost", bench.task("1/2", "--begin"), "has lost its file runs")
    bench.begin()
    words = ("check", f"{bench.top}/nowhere", "--memory", bench.memory, *bench.words, "--part", "1/2")
    refused("there is no such folder", world.tool(*words), "there is no folder")
    # one of which the memory knows is a finding of the check
    shutil.rmtree(f"{bench.logs}/beta")
    words = ("check", f"{bench.logs}/alpha", f"{bench.logs}/beta", "--memory", bench.memory, *bench.words, "--part", "1/1")
    said = world.tool(*words, now=bench.now)
    tell("a folder that is gone", "" if said == (0, b"part 1 of 1: 12 files, 0 verified now\n", "") else f"{said}")


def main():
    with tempfile.TemporaryDirectory() as top:
        world.build(top)
        words = [it for name in ("alpha", "beta") for it in ("--key", f"{top}/keys/{name}/public-key.pem")]
        world.warm(words[1::2])
        world.remember_verdicts(f"{top}/verdicts")
        bench = Shared(top, words)
        bench.begin(with_memory=False)
        tell("the first check", fault_of(bench.check("--begin", "--jobs", "4"), 0, ()))
        copy(bench.memory, f"{top}/memory")
        for test in (shares, findings, torn, edited, others, seen_first, at_once, doubted, turns, refusals, killed):
            if len(sys.argv) < 2 or test.__name__ in sys.argv[1:]:
                test(bench)
    print(f"check_parts: {passed} passed, {failed} failed")
    return 1 if failed or not passed else 0


if __name__ == "__main__":
    sys.exit(main())
