#!/usr/bin/env python3
"""Counts what a program does with an input and with one twice as large: at most 2.3 times as much.

    cost.py PROGRAM [--count LIBRARY] [--slow PROGRAM] [--only WORD] [--show] [--instructions]

No clock is read, so the answer is the same on each machine, however busy it is. What a run takes on an empty log is
taken off both counts. They are

  steps    how often a run of instructions was entered that goes on to the next jump, as valgrind counts them. A loop
           takes one for each turn, so this sees a search through a list better than a count of instructions, of which
           a hash has many without a jump. perf counts jumps where there is no valgrind; where neither is there,
           nothing does, and that is said
  calls    how often room was taken or changed
  peak     the most octets that were taken at one time, from which nothing is taken off. There are few for each octet
           that is read or written
  moved    the octets that were copied, filled or kept by a change of room
  taken    the octets of all room that was ever taken, whether it was given back or not
  passed   the octets that were read and written

Some have a bound of their own in each run. Standard input and each file that an option names are read once, by reads of a
whole buffer, up to the first that gives nothing:

  once     what passed is what these files hold and what was written
  reads    there are at most as many reads as buffers and ends
  late     no file is read again after its end
  room     few octets are taken at one time for each that is read or written
  spent    the same of all that is ever taken
  reused   messages of which nothing is kept take no room of their own

A run by known payloads (`--pinned`) takes at most twice the steps and the room of the same run without the option, over logs
into which strangers wrote as many certificate blocks as there are messages.

LIBRARY, made of tests/count.c, counts all but the steps. The inputs are those of cost_logs.py. The program of --slow, made
of tests/slow.c, is one that is too slow in a way that is chosen: it has to be found out. --only takes the shapes whose
name holds a word, --show prints each ratio, and --instructions has callgrind count each instruction as a step, which takes
some minutes. The last line is `cost: N passed, M failed`.
"""
import argparse
import collections
import concurrent.futures
import os
import re
import shutil
import subprocess
import sys
import tempfile

import cost_logs as logs
import skips

MOST = 2.3
# what is too little to have a ratio: a list that grows once more, a number with one digit more
SLACK = {"steps": 3000, "calls": 40, "peak": 4096, "moved": 4096, "taken": 4096, "passed": 0}
# of the C library: so an instruction that copies many octets by itself doesn't count as one step for each
TUNED = {"GLIBC_TUNABLES": "glibc.cpu.x86_rep_movsb_threshold=1000000000:glibc.cpu.x86_rep_stosb_threshold=1000000000"}
# the most octets that are taken at one time: two buffers, of which that of standard output is made before the command line
# is read, and the command line; one buffer more for a file that an option names, and so many more for each octet that is
# read or written
ROOM, ROOM_OF_FILE, ROOM_FOR_EACH = 188 << 10, 1 << 16, 24
# the same of all that is ever taken
SPENT, SPENT_FOR_EACH = 528 << 10, 40
# how much one read asks for
BUFFER = 1 << 16
# how often room is taken at most for messages of which nothing is kept
FEW_CALLS = 100
# a run that takes more seconds hangs, however busy the machine is
PATIENCE = 300
COMMANDS = (REVIEW, WHOLE, KEPT, NIGHT, TALLY, EXTRACT, UNLISTED, UNWRAPPED, QUESTIONS, ONCE, OBJECTS, INSPECT, ORIGINALS, PLAN,
            AHEAD, RESUMED, SIGN, COUNTERS, CARRY, PINNED, ASKED, COUNTED, SALVAGED, LOOKED, SAVED, SHOWN, PLACED, FRONT) = (
    "review", "review --whole", "review --counters", "review --from", "review --tally", "extract", "extract --unlisted",
    "extract --unlisted --unwrap", "questions", "questions --once", "questions --once --json", "inspect", "inspect --unwrap",
    "plan", "plan --ahead", "plan --ahead --resume", "sign", "counters", "carry", "review --pinned", "questions --once --pinned",
    "counters --pinned", "review --salvage", "inspect --salvage", "carry --salvage",
    "inspect --json --facts", "extract --places", "review --brief --blocks --no-sha1 --some-listed")
BY_KNOWN = (PINNED, ASKED, COUNTED)
# those that make a review, and need no file but the log
REVIEWS = [REVIEW, WHOLE, TALLY, FRONT, EXTRACT, UNLISTED, UNWRAPPED, COUNTERS, CARRY, SALVAGED, SAVED]

# each shape, how large its smaller input is, the commands whose steps are counted, and those of which the rest is
SHAPES = [
    (logs.signed, 900, [REVIEW, QUESTIONS, EXTRACT, INSPECT, SALVAGED], [COUNTERS, TALLY, FRONT, CARRY, SAVED]),
    (logs.placed, 900, [SHOWN, PLACED], []),
    (logs.placed_often, 3000, [PLACED], [SHOWN]),
    (logs.unanswered, 900, [CARRY], [REVIEW, FRONT, EXTRACT, UNLISTED]),
    (logs.by_sha256, 900, [], [REVIEW]),
    (logs.falling, 900, [], [WHOLE, QUESTIONS, EXTRACT, CARRY]),
    (logs.equal, 900, [REVIEW], [EXTRACT]),
    (logs.one_hash, 900, [REVIEW], [EXTRACT, CARRY]),
    (logs.hashes_alike, 450, [REVIEW], []),
    (logs.sessions, 900, [FRONT, COUNTERS, QUESTIONS, ONCE], [REVIEW, EXTRACT, CARRY, OBJECTS]),
    (logs.hosts_alike, 900, [REVIEW], [QUESTIONS, ONCE]),
    (logs.payloads_apart, 900, [ONCE], [QUESTIONS, OBJECTS]),
    (logs.groups, 768, [REVIEW, COUNTERS, CARRY], [TALLY]),
    (logs.kept_sessions, 900, [KEPT], []),
    (logs.kept_groups, 768, [KEPT], []),
    (logs.kept_absent, 900, [KEPT], []),
    (logs.kept_equal, 6000, [KEPT], []),
    (logs.nights_of_sessions, 900, [NIGHT], []),
    (logs.nights_of_groups, 1536, [NIGHT], []),
    (logs.idle_nights, 900, [NIGHT], []),
    (logs.outside_of_the_night, 900, [NIGHT], []),
    (logs.apart, 900, [WHOLE], []),
    (logs.far_apart, 900, [WHOLE], []),
    (logs.disputed, 900, [REVIEW], []),
    (logs.one_number, 900, [REVIEW], []),
    (logs.repeated, 900, [WHOLE, QUESTIONS], [EXTRACT]),
    (logs.overlapping, 900, [REVIEW], [CARRY]),
    (logs.lost_often, 900, [CARRY], []),
    (logs.lost_in_each, 1980, [CARRY], [FRONT]),
    (logs.signatures, 900, [WHOLE], []),
    (logs.fragments_rising, 900, [ONCE, OBJECTS], [REVIEW, QUESTIONS, EXTRACT]),
    (logs.large_payload, 24, [ONCE], [OBJECTS, QUESTIONS]),
    (logs.fragments_falling, 1800, [REVIEW], []),
    (logs.fragments_shuffled, 900, [REVIEW], []),
    (logs.copies, 900, [REVIEW], []),
    (logs.copies_joined, 900, [CARRY], [FRONT, REVIEW, QUESTIONS]),
    (logs.fragments_apart, 896, [REVIEW, CARRY], []),
    (logs.scattered, 900, [], [REVIEW, QUESTIONS]),
    (logs.stated, 900, [], [REVIEW]),
    (logs.totals, 900, [], [REVIEW]),
    (logs.strangers_disagree, 900, [PINNED, ASKED], [COUNTED]),
    (logs.strangers_agree, 900, [PINNED], [ASKED, COUNTED]),
    (logs.strangers_apart, 900, [PINNED, ASKED], [COUNTED]),
    (logs.strangers_payloads, 900, [PINNED, ASKED], [COUNTED]),
    (logs.spoilt, 900, [REVIEW], [INSPECT]),
    (logs.shortest, 3000, [REVIEW, INSPECT, LOOKED], [SALVAGED]),
    (logs.damaged_digits, 20_000, [LOOKED], [SALVAGED]),
    (logs.damaged_openings, 8000, [LOOKED], [SALVAGED]),
    (logs.damaged_lengths, 6000, [LOOKED], [SALVAGED]),
    (logs.damaged_brackets, 20_000, [LOOKED], [SALVAGED]),
    (logs.damaged_nuls, 20_000, [LOOKED], [SALVAGED]),
    (logs.damaged_dolls, 1500, [LOOKED], [SALVAGED]),
    (logs.damaged_often, 1500, [LOOKED], [SALVAGED]),
    (logs.damaged_often_long, 1500, [LOOKED], [SALVAGED]),
    (logs.damaged_chain, 600, [LOOKED], [SALVAGED]),
    (logs.damaged_torn, 8000, [LOOKED], [SALVAGED]),
    (logs.wraps, 900, [UNWRAPPED, ORIGINALS], []),
    (logs.long_wrap, 100_000, [ORIGINALS], [UNWRAPPED]),
    (logs.long_text, 100_000, [], [REVIEW, INSPECT]),
    (logs.no_text, 100_000, [REVIEW], [INSPECT]),
    (logs.openings, 20_000, [REVIEW], [INSPECT]),
    (logs.elements, 5000, [INSPECT], [REVIEW]),
    (logs.elements_alike, 10_000, [REVIEW], [INSPECT]),
    (logs.parameters, 12_000, [REVIEW], [INSPECT]),
    (logs.escapes, 30_000, [REVIEW], [INSPECT]),
    (logs.values, 30_000, [INSPECT], [REVIEW]),
    (logs.pieces, 3000, [REVIEW], [INSPECT]),
    (logs.beside, 3000, [REVIEW], [QUESTIONS]),
    (logs.long_sign, 50_000, [REVIEW], [QUESTIONS]),
    (logs.sent, 900, [PLAN, AHEAD, SIGN], []),
    (logs.sent_one_by_one, 900, [SIGN], [PLAN]),
    (logs.sent_equal, 900, [], [SIGN]),
    (logs.sent_in_groups, 1920, [SIGN], [PLAN, AHEAD]),
    (logs.sent_in_ranges, 1920, [], [PLAN]),
    (logs.sent_often, 900, [], [SIGN]),
    (logs.sent_wrapped, 900, [PLAN, AHEAD, SIGN], []),
    (logs.sent_wrapped_long, 12_000, [SIGN], [PLAN]),
    (logs.sent_payload, 900, [SIGN], [PLAN]),
    (logs.sent_on, 900, [RESUMED], []),
    (logs.sent_on_in_groups, 960, [RESUMED], []),
    (logs.yes_lines, 6000, [REVIEW], []),
    (logs.yes_rising, 12_000, [], [REVIEW]),
    (logs.yes_falling, 12_000, [], [REVIEW]),
    (logs.yes_equal, 12_000, [], [REVIEW]),
    (logs.yes_alike, 900, [REVIEW], []),
    (logs.trust_lines, 6000, [REVIEW], []),
    (logs.trust_equal, 12_000, [], [REVIEW]),
    (logs.long_line, 100_000, [REVIEW], []),
    (logs.bad_line, 24_000, [REVIEW], []),
    (logs.seals_beside, 12_000, [], [REVIEW]),
    (logs.seals, 6000, [SIGN], []),
    (logs.seals_alike, 900, [], [SIGN]),
    (logs.seals_equal, 12_000, [], [SIGN]),
]
# those that are read as lines too
IN_LINES = {logs.signed, logs.sent}
# those whose messages are all let go, but for lists of hashes and places
REUSED = {(logs.shortest, it) for it in (REVIEW, INSPECT, SALVAGED, LOOKED)}
# each line repeats the payload: by its format this output grows with the square, and the rest may grow as it does. With
# `--once` it doesn't
AS_WRITTEN = {(logs.fragments_rising, QUESTIONS), (logs.large_payload, QUESTIONS)}

# logs of a few blocks, sessions or groups, over which room that is taken for each of them is more than what they hold
FEW = [
    (logs.shortest, 10, [REVIEW, INSPECT, SALVAGED, LOOKED]),
    (logs.signed, 10, [REVIEW, WHOLE, FRONT, EXTRACT, QUESTIONS, INSPECT, COUNTERS, CARRY, SALVAGED, LOOKED, SAVED]),
    (logs.sessions, 10, [REVIEW, COUNTERS, QUESTIONS, ONCE, CARRY]),
    (logs.one_hash, 10, [REVIEW, CARRY]),
    (logs.groups, 10, [REVIEW, COUNTERS, CARRY]),
    (logs.kept_groups, 10, [KEPT]),
    (logs.sent, 10, [PLAN, AHEAD, SIGN]),
    (logs.sent_one_by_one, 10, [PLAN, SIGN]),
    (logs.sent_in_groups, 192, [PLAN, AHEAD, SIGN]),
]
# those that are reviewed without an answers file, so that no room is allowed for the buffer of one
UNANSWERED = [(logs.nothing, 0, REVIEWS), (logs.shortest, 10, REVIEWS), (logs.unanswered, 10, REVIEWS)]

# logs into which strangers wrote as many certificate blocks as there are messages, and the commands that are run by known
# payloads and without any
BESIDE = [logs.strangers_disagree, logs.strangers_agree]
WITHOUT = {PINNED: REVIEW, ASKED: ONCE, COUNTED: COUNTERS}
# how many times the steps and the room of a run without known payloads one by them may take
MOST_BY_KNOWN = 2

# what each slow stand-in has to be found out by, and on which shape
SLOW = [
    ("", logs.shortest, 3000, None),
    ("looks", logs.shortest, 1500, "steps"),
    ("octets", logs.no_text, 8000, "steps"),
    ("copies", logs.shortest, 3000, "moved"),
    ("keeps", logs.shortest, 1500, "peak"),
    ("takes", logs.shortest, 3000, "calls"),
    ("reads", logs.shortest, 3000, "passed"),
    ("rooms", logs.shortest, 1500, "room"),
    ("twice", logs.shortest, 3000, "once"),
    ("pieces", logs.shortest, 3000, "reads"),
    ("late", logs.shortest, 3000, "late"),
    ("spends", logs.shortest, 3000, "spent"),
    ("renews", logs.shortest, 3000, "reused"),
]

passed = failed = 0


def tell(what, fault=""):
    """One check, passed where there is no fault."""
    global passed, failed
    if not fault:
        passed += 1
        return
    failed += 1
    print("cost: %s: FAILED\n    %s" % (what, fault))


# ---- steps

class Counter:
    """A tool that runs a program and says how many steps it took."""

    def __init__(self, tool, words, said, told):
        self.tool, self.words, self.said, self.told = tool, words, said, told
        # what stands in front of the program
        self.loader = []

    def count(self, words, **how):
        """How many steps a run takes, or None where that isn't told."""
        with tempfile.NamedTemporaryFile() as said:
            subprocess.run([self.tool, *self.words, self.said + said.name, *self.loader, *words], timeout=PATIENCE,
                           stdout=subprocess.DEVNULL, stderr=subprocess.DEVNULL, check=False, **how)
            found = re.search(self.told, said.read().decode(), re.MULTILINE)
        return int(found[1].replace(",", "")) if found else None

    def works(self):
        return shutil.which(self.tool) and self.count(["/bin/true"], stdin=subprocess.DEVNULL)


VALGRIND = Counter(
    "valgrind", ["--tool=none", "--stats=yes", "--vgdb=no", "--vex-iropt-level=1", "--vex-guest-chase=no"],
    "--log-file=", r"scheduler: ([0-9,]+) event checks")
CALLGRIND = Counter("valgrind", ["--tool=callgrind", "--callgrind-out-file=/dev/null"],
                    "--log-file=", r"Collected : (\d+)")
PERF = Counter("perf", ["stat", "-x", ",", "-e", "branches:u"], "--output=", r"^(\d+),,branches")


def without_debug_data(program, folder):
    """The loader of a program with copies of itself and of the C library, by which debug data of them isn't found.

    valgrind reads these data at each start, which takes longer than most runs here. They are found by the build ID.
    """
    listed = subprocess.run(["ldd", program], capture_output=True, text=True, check=False).stdout
    loader = re.search(r"^\s*(/\S+/ld-\S+) \(", listed, re.MULTILINE)
    library = re.search(r"libc\.so\.6 => (\S+)", listed)
    if not loader or not library:
        return []
    note = b"\x04\0\0\0\x14\0\0\0\x03\0\0\0GNU\0"
    for path, name in ((loader[1], "loader"), (library[1], "libc.so.6")):
        with open(path, "rb") as file:
            octets = file.read()
        head, found, rest = octets.partition(note)
        with open(os.path.join(folder, name), "wb") as file:
            file.write(head + found + bytes(20) + rest[20:] if found else octets)
    os.chmod(os.path.join(folder, "loader"), 0o755)
    return [os.path.join(folder, "loader"), "--library-path", folder]


# ---- runs

def run(words, log, library="", environment=None):
    """Status, standard output, standard error, and what the library counts."""
    with tempfile.NamedTemporaryFile() as counts, open(log, "rb") as file:
        loaded = {"LD_PRELOAD": library, "COUNTS": counts.name} if library else {}
        done = subprocess.run(words, stdin=file, capture_output=True, timeout=PATIENCE, check=False,
                              env={**(environment or os.environ), **loaded})
        told = dict(zip(("calls", "peak", "moved", "passed", "behind", "taken", "reads", "late"), map(int, counts.read().split())))
    told.pop("behind", None)
    return done.returncode, done.stdout, done.stderr, told


def count_frames(octets):
    at = count = 0
    while at < len(octets):
        space = octets.index(b" ", at)
        at, count = space + 1 + int(octets[at:space]), count + 1
    return count


def word_of(line):
    """The first word of a line, or that of a JSON object."""
    return line.split(b'"', 4)[3] if line.startswith(b"{") else line.split(maxsplit=1)[0]


def fault_of(said, wanted, of_frames):
    """Whether a run says what the maker of its input says."""
    status, out, err, _ = said
    words = collections.Counter(word_of(line).decode() for line in out.splitlines() if not of_frames)
    told = count_frames(out) if of_frames else dict(words)
    if (status, told) == wanted:
        return ""
    return "it ended with %d %r %r, and not with %r" % (status, told, err[:100], wanted)


class Bench:
    """A program, a folder for its inputs, and what counts."""

    def __init__(self, program, folder, library, counter, environment=None):
        self.program, self.folder, self.library, self.counter = program, folder, library, counter
        self.environment = {**os.environ, **(environment or {})}
        self.bases = {}

    def kinds(self):
        """What is counted, and None."""
        by_library = ["calls", "peak", "room", "moved", "passed", "once", "reads", "late", "spent", "reused"]
        return [None] + (["steps"] if self.counter else []) + (by_library if self.library else [])

    def command(self, command, made, log, of_lines, stepped):
        """What one command takes of an input that was written to a file, the fault of what it says, and the faults of how it
        reads, by their kinds."""
        words = made.options + (["--lines"] if of_lines else [])
        lines, files = list(made.answers), [log]
        if command == SIGN:
            wants = run([self.program, PLAN] + words, log)[1].splitlines()
            lines += [b"seal " + line[5:] + b" AAAA" for line in wants]
        if command in (KEPT, NIGHT, RESUMED):
            with open(log + ".counters", "wb") as file:
                file.write(logs.counters_file(made.counters))
            words, files = [log + ".counters", *words], [*files, log + ".counters"]
        if command in (SHOWN, PLACED):
            with open(log + ".places", "wb") as file:
                file.writelines(b"%d\n" % it for it in made.places)
            words, files = [log + ".places", *words], [*files, log + ".places"]
        if command in BY_KNOWN:
            with open(log + ".known", "wb") as file:
                file.writelines(b"trust %s\n" % it for it in made.known)
            words, files = [log + ".known", *words], [*files, log + ".known"]
        if command == NIGHT:
            with open(log + ".first", "wb") as file:
                file.write(logs.counters_file(made.first))
            words, files = [log + ".first", "--counters", *words], [*files, log + ".first"]
        if made.has_answers_file and command in (*REVIEWS, KEPT, NIGHT, SIGN, PINNED, COUNTED):
            with open(log + ".answers", "wb") as file:
                file.writelines(line + b"\n" for line in lines)
            words, files = words + ["--answers", log + ".answers"], [*files, log + ".answers"]
        words = [self.program, *command.split(), *words]
        said = run(words, log, self.library, self.environment)
        counts = said[3]
        faults = faults_of_files(counts, [os.path.getsize(it) for it in files], len(said[1]) + len(said[2]), said[0] == 2)
        faults.update(faults_of_room(counts, len(files) > 1, window_of(words)))
        if self.counter and stepped:
            with open(log, "rb") as file:
                counts["steps"] = self.counter.count(words, stdin=file, env={**self.environment, **TUNED}) or 0
        fault = fault_of(said, made.told(command), command in (EXTRACT, UNLISTED, UNWRAPPED, SIGN, CARRY, SAVED, PLACED))
        return counts, fault, faults

    def counts(self, made, name, commands, stepped):
        """The same of each command, as frames and as lines."""
        done = {}
        for of_lines in {of_lines for _, of_lines in commands}:
            log = os.path.join(self.folder, "%s.%d" % (name, of_lines))
            with open(log, "wb") as file:
                file.write(made.log(of_lines))
            for command in (command for command, form in commands if form == of_lines):
                done[command, of_lines] = self.command(command, made, log, of_lines, command in stepped)
        return done

    def empty(self, command):
        """Counts what a command takes without an input, and gives the fault of what it says, and the other faults."""
        made = logs.sending(0, 1) if command in (PLAN, AHEAD, RESUMED, SIGN) else logs.nothing()
        counts, fault, faults = self.counts(made, "empty." + command, [(command, False)], [command])[command, False]
        # the most that is taken at one time may be taken at another time than with an input
        self.bases[command] = {**counts, "peak": 0}
        return fault, faults

    def less(self, command, counts):
        return {kind: max(it - self.bases.get(command, {}).get(kind, 0), 0) for kind, it in counts.items()}

    def twice(self, shape, n, stepped, others):
        """Of each command, the counts of an input and of one twice as large, the fault of what is said, and the other faults by
        their kinds."""
        forms = (False, True) if shape in IN_LINES else (False,)
        commands = [(command, form) for command in stepped + others for form in forms if not (form and "--salvage" in command)]
        small, large = (self.counts(shape(size), "%s.%d" % (shape.__name__, size), commands, stepped)
                        for size in (n, 2 * n))
        done = {}
        for it in commands:
            counts = [self.less(it[0], both[it][0]) for both in (small, large)]
            faults = {kind: small[it][2][kind] or fault for kind, fault in large[it][2].items()}
            if (shape, it[0]) in REUSED:
                faults.update(faults_of_reuse(counts[1]))
            done[it] = counts, small[it][1] or large[it][1], faults
        return done


# ---- the checks

def over(counts, as_written=False):
    """The kinds of counts that grow too much, and a sentence on each."""
    small, large = counts
    most = dict.fromkeys(small, MOST)
    if as_written:
        most = {kind: MOST if kind == "peak" else MOST / 2 * large["passed"] / small["passed"] for kind in small}
    return {kind: "%d %s, and %d for twice the input: %.2f times" % (
        small[kind], kind, large[kind], large[kind] / max(small[kind], 1))
        for kind in small if large[kind] > most[kind] * small[kind] + SLACK[kind]}


def window_of(words):
    """The octets of a damaged log that are looked at together."""
    longest = int(words[words.index("--max-len") + 1]) if "--max-len" in words else 65_536
    return 3 * longest + 64 if "--salvage" in words else 0


def faults_of_room(counts, names_file, window=0):
    """Whether more room is taken than for what is read, as for a length that is stated, and never comes; and whether more is
    taken in all. If an option names a file, there is room for one buffer more; and there is room for a window."""
    if "peak" not in counts:
        return {}
    room = window + (ROOM + ROOM_OF_FILE if names_file else ROOM)
    most, in_all = (front + each * counts["passed"] for front, each in ((room, ROOM_FOR_EACH), (window + SPENT, SPENT_FOR_EACH)))
    return {
        "room": "" if counts["peak"] <= most else "%d octets are taken, and at most %d wanted" % (counts["peak"], most),
        "spent": "" if counts["taken"] <= in_all else "%d octets are taken in all, and at most %d wanted" % (
            counts["taken"], in_all)}


def faults_of_reuse(counts):
    """Whether each message takes room of its own."""
    if "calls" not in counts:
        return {}
    return {"reused": "" if counts["calls"] <= FEW_CALLS else "room is taken %d times, and at most %d wanted" % (
        counts["calls"], FEW_CALLS)}


def faults_of_files(counts, sizes, written, is_refused):
    """Whether files of these sizes are read once, by whole buffers, and not after their ends; a run that is refused needn't
    read all of them. Takes the counts of reads."""
    if "reads" not in counts:
        return {}
    reads, late = counts.pop("reads"), counts.pop("late")
    once, most = sum(sizes) + written, sum(-(-size // BUFFER) + 1 for size in sizes)
    return {
        "once": "" if counts["passed"] == once or is_refused and counts["passed"] < once else
                "%d octets are read and written, and not %d" % (counts["passed"], once),
        "reads": "" if reads <= most else "there are %d reads, and at most %d wanted" % (reads, most),
        "late": "" if not late else "there are %d reads after an end" % late}


def shown(counts):
    small, large = counts
    return "  ".join("%s %9d %.2f" % (kind, it, large[kind] / max(it, 1)) for kind, it in sorted(small.items()))


def check_program(bench, pool, word, show):
    for command, (fault, faults) in zip(COMMANDS, pool.map(bench.empty, COMMANDS)):
        tell("%s of the empty log: what it says" % command, fault)
        for kind, it in faults.items():
            tell("%s of the empty log: %s" % (command, kind), it)
    shapes = [it for it in SHAPES if word in it[0].__name__]
    for (shape, *_), done in zip(shapes, [pool.submit(bench.twice, *it) for it in shapes]):
        for (command, of_lines), (counts, fault, faults) in done.result().items():
            what = "%s of %s%s" % (command, shape.__name__, ", as lines" if of_lines else "")
            tell(what + ": what it says", fault)
            too_much = over(counts, (shape, command) in AS_WRITTEN)
            for kind in counts[0]:
                tell(what + ": " + kind, too_much.get(kind, ""))
            for kind, it in faults.items():
                tell(what + ": " + kind, it)
            if show:
                print("%-36s %s" % (what, shown(counts)))


def check_few(bench, pool, word):
    """That a log of a few blocks, sessions or groups takes no room but for what it holds, with an answers file and
    without."""
    few = [("a few " + shape.__name__, shape(n), commands) for shape, n, commands in FEW if word in shape.__name__]
    few += [("%s, without an answers file" % shape.__name__, shape(n).without_answers(), commands)
            for shape, n, commands in UNANSWERED if word in shape.__name__]
    done = [pool.submit(bench.counts, made, "few.%d" % number, [(command, False) for command in commands], [])
            for number, (_, made, commands) in enumerate(few)]
    for (name, _, _), it in zip(few, done):
        for (command, _), (_, fault, faults) in it.result().items():
            tell("%s of %s: what it says" % (command, name), fault)
            for kind, fault in faults.items():
                tell("%s of %s: %s" % (command, name, kind), fault)


def check_known(bench, pool, word):
    """That a run by known payloads costs at most twice as much as one without, whatever strangers wrote."""
    commands = [*WITHOUT, *WITHOUT.values()]
    shapes = [it for it in BESIDE if word in it.__name__]
    done = [pool.submit(bench.counts, shape(900), "known.%s" % shape.__name__, [(it, False) for it in commands], commands)
            for shape in shapes]
    for shape, it in zip(shapes, done):
        counts = {command: found for (command, _), found in it.result().items()}
        for known, without in WITHOUT.items():
            what = "%s of %s" % (known, shape.__name__)
            tell("%s: what it says without known payloads" % what, counts[without][1])
            for kind in {"steps", "peak"} & counts[known][0].keys():
                most = MOST_BY_KNOWN * counts[without][0][kind]
                tell("%s: %s beside those without known payloads" % (what, kind), "" if 0 < counts[known][0][kind] <= most else
                     "%d, and at most %d wanted" % (counts[known][0][kind], most))


def check_slow(benches, pool, show):
    """That a program which is too slow is found out, and that one which isn't passes."""
    runs = [it for it in SLOW if it[3] in benches[it[0]].kinds()]
    done = [pool.submit(benches[name].twice, shape, n, *(([REVIEW], []) if kind in (None, "steps") else ([], [REVIEW])))
            for name, shape, n, kind in runs]
    for (name, shape, _, kind), it in zip(runs, done):
        counts, fault, faults = it.result()[REVIEW, False]
        too_much = {**over(counts), **{kind: it for kind, it in faults.items() if it}}
        tell("the stand-in %s: what it says" % name, fault)
        if kind:
            tell("the stand-in that %s is found out" % name, "" if kind in too_much else "%s: %r" % (kind, counts))
        else:
            tell("the stand-in that is even passes", "; ".join(too_much.values()))
        if show:
            print("the stand-in %-8s of %-10s: %s" % (name, shape.__name__, "; ".join(too_much.values()) or "nothing"))


def main():
    parser = argparse.ArgumentParser(description=__doc__, formatter_class=argparse.RawDescriptionHelpFormatter)
    parser.add_argument("program")
    parser.add_argument("--count", default="")
    parser.add_argument("--slow", default="")
    parser.add_argument("--only", default="")
    parser.add_argument("--show", action="store_true")
    parser.add_argument("--instructions", action="store_true")
    given = parser.parse_args()
    counter = next((it for it in ([CALLGRIND] if given.instructions else [VALGRIND, PERF]) if it.works()), None)
    if not counter:
        skips.skip("cost", "neither valgrind nor perf counts here, so no steps are counted")
    jobs = min(4, os.cpu_count() or 1)
    with tempfile.TemporaryDirectory() as folder, concurrent.futures.ThreadPoolExecutor(jobs) as pool:
        if counter and counter.tool == "valgrind":
            counter.loader = without_debug_data(given.program, folder)
        bench = Bench(given.program, folder, given.count, counter)
        check_program(bench, pool, given.only, given.show)
        check_few(bench, pool, given.only)
        check_known(bench, pool, given.only)
        if given.slow:
            benches = {}
            for name, *_ in SLOW:
                inputs = os.path.join(folder, "slow " + name)
                os.mkdir(inputs)
                benches[name] = Bench(given.slow, inputs, given.count, counter, {"SLOW": name})
            check_slow(benches, pool, given.show)
    print("cost: %d passed, %d failed%s" % (passed, failed, skips.more()))
    return failed > 0 or passed == 0


if __name__ == "__main__":
    sys.exit(main())
