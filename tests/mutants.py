#!/usr/bin/env python3
"""The edits that the proofs have to refuse: those of crates/NAME/must-fail/, which each gate tries, and those of mutants/.

    mutants.py apply          each edit can be applied: one check for each crate, and one for mutants/layers/
    mutants.py try [WORD]     the edits of mutants/ whose path holds WORD, all without one, tried on copies of the crates

The last line is `N passed, M failed`; the status is 0 only where M is 0. mutants/README.md says how an edit is written.

What a crate says to an edit is found by `rt must-fail`, on a copy of the crate that has the edits of mutants/ in place
of its own. One lane a processor works at that, as many as there is memory for, or as many as RT_JOBS says.
"""
import os
import queue
import re
import resource
import shutil
import signal
import subprocess
import sys
import tempfile
import threading
import time
from concurrent.futures import ThreadPoolExecutor

ROOT = os.path.dirname(os.path.dirname(os.path.abspath(__file__)))
LAYERS = "layers"
# what one lane may take
MEMORY = 3 << 30
# A lane's first check of a crate is one from nothing, and `rt must-fail` answers for all edits together at its end.
MOST_AT_ONCE = 30
HEADS = ("strikes: ", "refused by: ")


class BadEdit(Exception):
    pass


class Stopped(Exception):
    """The run ends before its time."""


class Edit:
    """An edit: the crate that it changes, the crate that has to refuse it, and what it changes."""

    def __init__(self, path):
        self.path = path
        self.name = os.path.basename(path)
        self.heads = {}
        # the file, the old text and the new one of each pair
        self.pairs = []
        folder = os.path.basename(os.path.dirname(path))
        self.group = path.split("/")[1]
        self.strikes = self.refuser = self.group
        if not re.fullmatch(r"[A-Za-z0-9_-][A-Za-z0-9_.-]*\.edit", self.name) or folder not in ("must-fail", self.group):
            raise BadEdit("an edit is a file of letters, digits, _, - and . that ends in .edit, right in its crate's folder")
        with open(f"{ROOT}/{path}", encoding="utf-8") as it:
            self.read(it.read().split("\n"))
        if self.group == LAYERS:
            if len(self.heads) != len(HEADS):
                raise BadEdit("an edit of mutants/layers/ has a line 'strikes: CRATE' and a line 'refused by: CRATE'")
            self.strikes, self.refuser = (self.heads[it] for it in HEADS)
            if self.strikes not in below(self.refuser):
                raise BadEdit(f"{self.refuser} doesn't stand on {self.strikes}")
        elif self.heads:
            raise BadEdit("only an edit of mutants/layers/ names crates")

    def read(self, lines):
        file = old = None
        for line in lines:
            head = next((it for it in HEADS if line.startswith(it)), None)
            if head:
                self.heads[head] = line[len(head):].strip()
            elif line.startswith("file: "):
                file = line[len("file: "):].strip()
            elif line.startswith("old: "):
                old = line[len("old: "):]
            elif line == "new:" or line.startswith("new: "):
                if not file or not old:
                    raise BadEdit("a 'new:' line has no 'file:' and 'old:' line before it")
                self.pairs.append((file, old, line[len("new: "):]))
                old = None
        if not self.pairs:
            raise BadEdit("it has no 'old:' and 'new:' lines")

    def texts(self):
        """The files of the struck crate with the edit."""
        changed = {}
        for file, old, new in self.pairs:
            path = f"{ROOT}/crates/{self.strikes}/{file}"
            if file not in changed:
                if not file.startswith(("src/", "specs/", "proofs/")) or not os.path.isfile(path):
                    raise BadEdit(f"{self.strikes} has no file {file}")
                with open(path, encoding="utf-8") as it:
                    changed[file] = it.read()
            found = changed[file].count(old)
            if found != 1:
                raise BadEdit(f"its text stands in {file} {found} times, and not once: {old}")
            changed[file] = changed[file].replace(old, new)
        return changed


def dependencies():
    """The crates of crates.txt, each with those of the repository that it names."""
    named = {}
    with open(f"{ROOT}/crates.txt", encoding="utf-8") as it:
        for line in it:
            left, colon, right = line.partition("#")[0].partition(":")
            if colon:
                named[left.split()[0]] = right.split()
    return {name: [it for it in libraries if it in named] for name, libraries in named.items()}


def below(name):
    """The crates of the repository below this one, each after those that it stands on."""
    found = []
    for it in CRATES.get(name, []):
        found += [lower for lower in [*below(it), it] if lower not in found]
    return found


CRATES = dependencies()


def files_of(folder):
    """The files of a folder of edits, but for notes."""
    found = []
    for at, _, names in sorted(os.walk(f"{ROOT}/{folder}")):
        found += [os.path.relpath(f"{at}/{it}", ROOT) for it in sorted(names) if not it.endswith(".md")]
    return found


def edit_of(path):
    """The edit, once it is seen to apply."""
    group = path.split("/")[1]
    if group != LAYERS and group not in CRATES:
        raise BadEdit(f"{group} is no crate of crates.txt")
    try:
        edit = Edit(path)
        edit.texts()
    except (OSError, UnicodeDecodeError) as fault:
        raise BadEdit(f"it can't be read: {fault}") from None
    return edit


def apply():
    """Sees that each edit applies."""
    groups = {}
    folders = [f"crates/{it}/must-fail" for it in sorted(os.listdir(f"{ROOT}/crates"))]
    for path in [*(it for folder in folders for it in files_of(folder)), *files_of("mutants")]:
        bad = groups.setdefault(path.split("/")[1], [])
        try:
            edit_of(path)
        except BadEdit as fault:
            bad.append(f"{path}: BAD EDIT: {fault}")
    for bad in groups.values():
        for it in bad:
            print(it)
    failed = sum(bool(it) for it in groups.values())
    print(f"edits: {len(groups) - failed} passed, {failed} failed")
    return failed


class Run:
    """The commands of a run, which end with it."""

    def __init__(self, room):
        self.room = room
        self.started = set()
        # (a signal may come while it is held)
        self.lock = threading.RLock()
        self.ended = False
        self.passed = 0
        self.failed = 0

    def say(self, text):
        with self.lock:
            print(text, flush=True)

    def tell(self, edit, refused, text):
        with self.lock:
            self.passed += refused
            self.failed += not refused
            print(f"{edit if isinstance(edit, str) else edit.path}: {text}", flush=True)

    def end(self):
        with self.lock:
            self.ended = True
            for it in self.started:
                it.terminate()

    def rt(self, words, at, shown=None):
        """Runs rt in a folder and returns what it said and its status, calling `shown` every second."""
        temporary = tempfile.mkdtemp(dir=self.room)
        with tempfile.TemporaryFile("w+", errors="replace", dir=self.room) as said:
            how = {"cwd": at, "stdin": subprocess.DEVNULL, "stdout": said, "stderr": subprocess.STDOUT}
            with self.lock:
                if self.ended:
                    raise Stopped
                ran = subprocess.Popen(["rt", *words], env={**os.environ, "TMPDIR": temporary}, **how)
                self.started.add(ran)
            while ran.poll() is None:
                try:
                    ran.wait(1)
                except subprocess.TimeoutExpired:
                    if shown:
                        shown(temporary)
            with self.lock:
                self.started.discard(ran)
                if self.ended:
                    raise Stopped
            said.seek(0)
            return said.read(), ran.returncode


def copied(source, to, *words):
    os.makedirs(os.path.dirname(to), exist_ok=True)
    subprocess.run(["cp", "-a", *words, "--", source, to], check=True)


def copy_crate(name, base, to, *kept):
    """Copies a crate without its edits, and what `out/` keeps under these names: its libraries as links, since rt makes a
    changed one anew and not in place."""
    for part in ("src", "specs", "proofs"):
        if os.path.isdir(f"{base}/crates/{name}/{part}"):
            copied(f"{base}/crates/{name}/{part}", f"{to}/crates/{name}/{part}")
    for part in kept:
        if os.path.isdir(f"{base}/crates/{name}/out/{part}"):
            words = ["-l"] if part == "rlib" and base != ROOT else []
            copied(f"{base}/crates/{name}/out/{part}", f"{to}/crates/{name}/out/{part}", *words)


def begin(to, names):
    """Begins a copy of the repository with these crates alone."""
    os.makedirs(to)
    shutil.copyfile(f"{ROOT}/HANDLES", f"{to}/HANDLES")
    with open(f"{ROOT}/crates.txt", encoding="utf-8") as listed, open(f"{to}/crates.txt", "w", encoding="utf-8") as it:
        it.writelines(line for line in listed if line.split()[:1] and line.split()[0].rstrip(":") in names)


def make_base(run, edits):
    """A copy of the crates that the edits need, with each library below them built, and over the work that is kept."""
    base = f"{run.room}/base"
    lower = []
    for edit in edits:
        lower += [it for it in below(edit.refuser) if it not in lower]
    names = [*lower, *(it.refuser for it in edits)]
    begin(base, names)
    for name in dict.fromkeys(names):
        copy_crate(name, ROOT, base, *(["rlib", "incremental"] if name in lower else []))
    for name in sorted(lower, key=lambda it: len(below(it))):
        run.say(f"mutants: {name} is built where it has changed since it last was")
        said, status = run.rt(["lib", name, "--jobs", "1"], f"{base}/crates/{name}")
        if status:
            run.say("\n".join(said.split("\n")[-12:]))
            raise BadEdit(f"{name} isn't proved as it stands, so no edit was tried")
    return base


def verdicts(said):
    """What rt said of each edit, by the file's name."""
    found = re.findall(r"^rt: must-fail \w+/(\S+\.edit): (.*)$", said, re.M)
    return dict(found)


def tell_verdict(run, edit, said, why):
    text = verdicts(said).get(edit.name)
    if text is None:
        run.tell(edit, False, f"BAD EDIT: {why}")
    elif text.startswith("refused"):
        run.tell(edit, True, text.replace("refused, as it must be", "refused", 1))
    elif text.startswith("NOT REFUSED"):
        run.tell(edit, False, f"SURVIVED: {edit.refuser} is still proved with it")
    else:
        run.tell(edit, False, text)


def try_slice(run, base, edits, number):
    """Tries edits of one crate."""
    name = edits[0].refuser
    at = f"{run.room}/{number}"
    begin(at, [*below(name), name])
    copy_crate(name, base, at)
    for it in below(name):
        copy_crate(it, base, at, "rlib")
    folder = f"{at}/crates/{name}/must-fail"
    os.makedirs(folder)
    for it in edits:
        shutil.copyfile(f"{ROOT}/{it.path}", f"{folder}/{it.name}")
    began, rooms = time.monotonic(), set()

    def shown(temporary):
        """Says how far it is: rt makes a folder for each edit that it tries."""
        new = {it for it in os.listdir(temporary) if it.startswith("rt-edit-")} - rooms
        rooms.update(new)
        if new and 1 < len(rooms) <= len(edits) + 1:
            run.say(f"mutants: {name}, part {number}: {len(rooms) - 1} of {len(edits)} tried after {time.monotonic() - began:.0f} s")

    said, _ = run.rt(["must-fail", name], at, shown)
    for it in edits:
        tell_verdict(run, it, said, f"rt said nothing of it, and last: {said.strip().split(chr(10))[-1][:200]}")
    run.say(f"mutants: {name}, part {number}: {len(edits)} edits in {time.monotonic() - began:.0f} s")
    shutil.rmtree(at)


def unchanged(folder):
    """An edit of a crate that changes a comment alone, so that `rt must-fail` tells whether the crate is proved as it
    stands. It tries no edit that changes nothing at all."""
    for at, _, names in sorted(os.walk(f"{folder}/src")):
        for name in sorted(names):
            with open(f"{at}/{name}", encoding="utf-8") as it:
                text = it.read()
            for line in text.split("\n"):
                if line.startswith("//") and text.count(line) == 1:
                    return f"file: {os.path.relpath(f'{at}/{name}', folder)}\nold: {line}\nnew: {line} It stands.\n"
    raise BadEdit(f"no comment of {folder} stands there once")


def try_layer(run, base, edit, number):
    """Tries an edit of a crate that another one over it has to refuse. All crates between them must still be proved."""
    at = f"{run.room}/{number}"
    begin(at, [*below(edit.refuser), edit.refuser])
    copy_crate(edit.refuser, base, at)
    for it in below(edit.refuser):
        copy_crate(it, base, at, "rlib", "incremental")
    for file, text in edit.texts().items():
        with open(f"{at}/crates/{edit.strikes}/{file}", "w", encoding="utf-8") as it:
            it.write(text)
    folder = f"{at}/crates/{edit.refuser}"
    os.makedirs(f"{folder}/must-fail")
    with open(f"{folder}/must-fail/{edit.name}", "w", encoding="utf-8") as it:
        it.write(unchanged(folder))
    began = time.monotonic()
    said, _ = run.rt(["must-fail", edit.refuser], at)
    fault = re.search(r"^\S+:\d+:\d+: error.*$", said, re.M) or re.search(r"^.*error.*$", said, re.M)
    fault = fault[0] if fault else said.strip().split("\n")[-1]
    tell_verdict(run, edit, said, f"a crate below {edit.refuser} isn't proved with it: {fault[:300]}")
    run.say(f"mutants: {edit.refuser} over {edit.strikes}: an edit in {time.monotonic() - began:.0f} s")
    shutil.rmtree(at)


def free():
    """The memory that is free, in octets, under the limit of the control group too."""
    with open("/proc/meminfo", encoding="utf-8") as it:
        found = [1024 * int(re.search(r"MemAvailable:\s+(\d+)", it.read())[1])]
    try:
        with open("/sys/fs/cgroup/memory.max", encoding="utf-8") as most, open("/sys/fs/cgroup/memory.current", encoding="utf-8") as held:
            found.append(int(most.read()) - int(held.read()))
    except (OSError, ValueError):
        pass
    return min(found)


def lanes():
    number = os.environ.get("RT_JOBS", "")
    if number.isdigit() and int(number):
        return int(number)
    return max(1, min(len(os.sched_getaffinity(0)), free() // MEMORY))


def slices(edits):
    """The edits crate by crate, in parts of about one size, the longest first; then each edit of a boundary."""
    by_crate = {}
    for it in edits:
        if it.group != LAYERS:
            by_crate.setdefault(it.refuser, []).append(it)
    parts = []
    for own in by_crate.values():
        count = -(-len(own) // MOST_AT_ONCE)
        parts += [own[i::count] for i in range(count)]
    parts.sort(key=len, reverse=True)
    return [*(("own", it) for it in parts), *((LAYERS, it) for it in edits if it.group == LAYERS)]


def work(run, base, waiting):
    while True:
        try:
            number, (kind, part) = waiting.get_nowait()
        except queue.Empty:
            return
        if kind == LAYERS:
            try_layer(run, base, part, number)
        else:
            try_slice(run, base, part, number)


def try_all(word):
    with tempfile.TemporaryDirectory(prefix="mutants-") as room:
        run = Run(room)
        edits = []
        paths = [it for it in files_of("mutants") if word in it]
        if not paths:
            run.tell("mutants", False, f"no edit there has {word} in its path")
        for path in paths:
            try:
                edits.append(edit_of(path))
            except BadEdit as fault:
                run.tell(path, False, f"BAD EDIT: {fault}")
        try:
            if edits:
                try_edits(run, edits)
        except BadEdit as fault:
            run.tell("mutants", False, str(fault))
        used = resource.getrusage(resource.RUSAGE_CHILDREN)
        print(f"mutants: {(used.ru_utime + used.ru_stime) / 60:.0f} minutes of one processor")
        print(f"{run.passed} passed, {run.failed} failed", flush=True)
        return run.failed


def try_edits(run, edits):
    # (a signal raises only in the main thread, and the lanes end when their rt does)
    for it in (signal.SIGTERM, signal.SIGINT):
        signal.signal(it, lambda *_: (run.end(), sys.exit(130)))
    base = make_base(run, edits)
    waiting = queue.Queue()
    for it in enumerate(slices(edits), 1):
        waiting.put(it)
    count = min(lanes(), waiting.qsize())
    run.say(f"mutants: {len(edits)} edits in {waiting.qsize()} parts, {count} at a time")
    with ThreadPoolExecutor(count) as pool:
        for it in [pool.submit(work, run, base, waiting) for _ in range(count)]:
            it.result()


def main(words):
    if words == ["apply"]:
        return apply()
    if words[:1] == ["try"] and len(words) <= 2:
        return try_all("".join(words[1:]))
    print(__doc__, end="", file=sys.stderr)
    sys.exit(2)


if __name__ == "__main__":
    sys.exit(1 if main(sys.argv[1:]) else 0)
