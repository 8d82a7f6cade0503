#!/usr/bin/env python3
"""Counts how often the program calls some of its functions, over small logs: each message is hashed once, and so on.

    calls.py PROGRAM [--show] [--only WORD]

callgrind of valgrind counts the calls by the names of functions, which the program holds. No clock is read, and the counts
are the same at each run. Each has to be exactly what is worked out from the log, so a function that isn't found under its
name fails too. What is counted:

  sha1, sha256   pieces of 64 octets that are hashed (FIPS 180-4): of a message of N octets there are (N + 8) // 64 + 1
  parsed         texts that are read as a message of RFC 5424
  asked          look-ups in the answers
  reviews        reviews that are made
  files          files that are read
  compared       comparisons that put the lines of an answers file in order: of lines in order, at most one and a half each

A review takes both hashes of each message without a block, once. A text without `[ssign` holds no block, so only an
inspection parses it, and whoever signs it. A block is parsed once, as it comes; what is carried over is looked for in it
once more. The answers are asked about the payload of each session that has one; if it is trusted, about each certificate
block of it; and if the session is joined, about each block of it. Equal blocks are asked about once each time.

The last line is `calls: N passed, M failed`.
"""
import argparse
import collections
import concurrent.futures
import os
import re
import subprocess
import sys
import tempfile

from cost import without_debug_data
from signed_log import PAYLOAD, b64, certificate, message, sha1_of, signature

PATIENCE = 300
NAMES = {
    "sha1": ["sha1::compress::compress"],
    "sha256": ["sha2::block256::compress"],
    "parsed": ["ss_message::reading::parse"],
    "asked": ["ss_answers::table::find"],
    "reviews": ["ss_review::report::reporting::reported"],
    "files": ["ss_answers::input::read_all", "ss_answers::reading::read_lines"],
    "compared": ["core::slice::sort::order::ByOrder::less"],
}
SIGN = b"AAAA"
SEALS = object()

passed = failed = 0


def tell(what, fault=""):
    """One check, passed where there is no fault."""
    global passed, failed
    if not fault:
        passed += 1
        return
    failed += 1
    print("calls: %s: FAILED\n    %s" % (what, fault))


class Log:
    """A log, its answers, and what it holds."""

    def __init__(self):
        self.messages, self.answers, self.plain, self.blocks = [], [], [], []

    def put(self, *texts):
        self.messages += texts
        self.plain += texts

    def put_block(self, block, valid=True):
        front, back = block
        text = front + b' SIGN="' + SIGN + b'"' + back
        self.messages.append(text)
        self.blocks.append(text)
        line = b"yes %s %s %s" % (b64(PAYLOAD), b64(front + back), SIGN)
        if valid and line not in self.answers:
            self.answers.append(line)


def hashed(texts):
    """How many pieces of 64 octets are hashed of texts: behind each stand an octet and its length in eight."""
    return sum((len(text) + 8) // 64 + 1 for text in texts)


def texts():
    """Messages of all lengths around the ends of such pieces."""
    return [message(i, octets) for i, octets in enumerate((70, 118, 119, 120, 121, 127, 128, 129, 182, 183, 184, 185, 300))]


def signed(trusted=True, accepted=True, certified=True):
    """A log whose blocks all stand twice, beside messages that nobody signed."""
    log, told = Log(), texts()
    blocks = [(certificate(), accepted)] if certified else []
    blocks += [(signature(1 + i, [sha1_of(text)], gbc=i), True) for i, text in enumerate(told)]
    for block, valid in blocks + blocks:
        log.put_block(block, valid)
    log.put(*told, *told, b"x", b"x" * 5000, b"<13>1 - - - - - - x")
    if trusted:
        log.answers.append(b"trust " + b64(PAYLOAD))
    return log


def in_order(n=200):
    """A log of one block, and answers about it and others in the order of kinds, signatures and octets that are signed."""
    log = Log()
    log.put_block(certificate())
    others = [b"yes %s %s %s" % (b64(b"~"), b64(b"%07d" % i), SIGN) for i in range(n)]
    log.answers = [b"trust " + b64(PAYLOAD), *others, *log.answers]
    return log


# ---- runs

def counted(path):
    """How often each function was called, by what callgrind wrote."""
    names, calls, called = {}, collections.Counter(), None
    with open(path, encoding="utf-8", errors="replace") as file:
        for line in file:
            found = re.match(r"(c?)fn=\((\d+)\)(?: (.*))?", line)
            if found:
                if found[3]:
                    # the end of a name says for which types, and how deep it is called by itself
                    names[found[2]] = re.sub(r"(::<.*|'\d+)$", "", found[3])
                called = found[2] if found[1] else called
            elif line.startswith("calls="):
                calls[called] += int(line[6:].split()[0])
    told = collections.Counter()
    for number, count in calls.items():
        told[names.get(number, "")] += count
    return told


class Runner:
    """Runs a program, and counts its calls."""

    def __init__(self, program, folder):
        self.program, self.folder = program, folder
        self.loader = without_debug_data(program, folder)

    def count(self, number, words, octets, answers, status):
        """What a run calls, and the fault of how it ends: with this status, or if none is given, with a report. Without answers
        there is no file; seals are made of the plan."""
        path = os.path.join(self.folder, str(number))
        if answers is SEALS:
            planned = subprocess.run([self.program, "plan", *words[1:]], input=octets, capture_output=True, check=False).stdout
            answers = [b"seal %s %s" % (line[5:], SIGN) for line in planned.splitlines()]
        if answers is not None:
            with open(path + ".answers", "wb") as file:
                file.writelines(line + b"\n" for line in answers)
            words = [*words, "--answers", path + ".answers"]
        tool = ["valgrind", "-q", "--tool=callgrind", "--callgrind-out-file=" + path]
        done = subprocess.run([*tool, *self.loader, self.program, *words], input=octets, capture_output=True, timeout=PATIENCE,
                              check=False)
        wanted = (0, 1) if status is None else (status,)
        fault = "" if done.returncode in wanted else "it ended with %d %r" % (done.returncode, done.stderr[-200:])
        calls = counted(path) if os.path.exists(path) else collections.Counter()
        return {kind: sum(calls[name] for name in names) for kind, names in NAMES.items()}, fault


def frames(messages):
    return b"".join(b"%d %s" % (len(text), text) for text in messages)


def cases(known):
    """What each run is called, its words, its log, its answers, its status, and what it has to call. Known payloads are
    written to a file."""
    joined, several = signed(), len(texts())
    octets = frames(joined.messages)
    hashes, blocks = hashed(joined.plain), len(joined.blocks)
    reviewed = {"sha1": hashes, "sha256": hashes, "parsed": blocks, "reviews": 1}
    # the certificate block to accept the payload, and each of the blocks to verify it
    asked = {"asked": 1 + 1 + blocks // 2, "files": 1}
    in_front = ["--brief", "--blocks", "--no-sha1", "--some-listed", "--ignore-strangers"]
    for words in (["review"], ["review", "--tally"], ["review", "--whole"], ["review", *in_front], ["extract"], ["counters"],
                  ["carry"]):
        parsed = (2 if words == ["carry"] else 1) * blocks
        yield " ".join(words), words, octets, joined.answers, None, {**reviewed, **asked, "parsed": parsed}
    # a known payload is asked about, and certificate blocks under it, before the review, which then asks as ever
    with open(known, "wb") as file:
        file.write(b"trust %s\n" % b64(PAYLOAD))
    for words in (["review"], ["extract"], ["counters"]):
        yield " ".join(words) + " --pinned", [*words, "--pinned", known], octets, joined.answers, None, {
            "sha1": hashes, "sha256": hashes, "reviews": 1, "files": 2, "asked": asked["asked"] + 2}
    yield "review without answers", ["review"], octets, None, 1, {**reviewed, "asked": 0}
    for name, log, count in (("an untrusted payload", signed(trusted=False), 1),
                             ("a payload that isn't accepted", signed(accepted=False), 2),
                             ("no payload", signed(certified=False), 0)):
        for words in (["review"], ["review", "--whole"], ["extract"], ["counters"], ["carry"]):
            if words == ["review"] or count == 1:
                yield "%s of a log with %s" % (" ".join(words), name), words, frames(log.messages), log.answers, None, {
                    "asked": count, "files": 1, "reviews": 1}
    yield "questions", ["questions"], octets, None, 0, {"sha1": 0, "sha256": 0, "reviews": 0, "parsed": blocks}
    yield "questions --once", ["questions", "--once"], octets, None, 0, {"sha1": 0, "sha256": 0, "reviews": 0, "parsed": blocks}
    yield "inspect", ["inspect"], octets, None, 0, {"sha1": 0, "sha256": 0, "reviews": 0, "parsed": len(joined.messages)}
    told = texts()
    options = ["--payload=" + PAYLOAD.decode(), "--rsid", "7", "--count", "99"]
    for words, answers, count in ((["plan"], None, 0), (["plan", "--ahead"], None, 0), (["sign"], SEALS, 2)):
        yield " ".join(words), [*words, *options], frames(told), answers, 0, {
            "sha1": hashed(told), "sha256": 0, "parsed": several, "reviews": 0, "asked": count}
    lines = in_order()
    count = len(lines.answers)
    yield "review with answers in order", ["review"], frames(lines.messages), lines.answers, 0, {
        "asked": 3, "files": 1, "compared": (count - 1, count + count // 2)}


def main():
    parser = argparse.ArgumentParser(description=__doc__, formatter_class=argparse.RawDescriptionHelpFormatter)
    parser.add_argument("program")
    parser.add_argument("--show", action="store_true")
    parser.add_argument("--only", default="")
    given = parser.parse_args()
    jobs = min(4, os.cpu_count() or 1)
    with tempfile.TemporaryDirectory() as folder, concurrent.futures.ThreadPoolExecutor(jobs) as pool:
        runner = Runner(given.program, folder)
        runs = [(pool.submit(runner.count, number, words, octets, answers, status), name, status, wanted)
                for number, (name, words, octets, answers, status, wanted) in enumerate(cases(os.path.join(folder, "known")))
                if given.only in name]
        for done, name, _, wanted in runs:
            calls, fault = done.result()
            tell(name + ": how it ends", fault)
            for kind, count in wanted.items():
                least, most = count if isinstance(count, tuple) else (count, count)
                tell("%s: %s" % (name, kind), "" if least <= calls[kind] <= most else "%d, and not %s" % (
                    calls[kind], count if least == most else "%d to %d" % count))
            if given.show:
                print("%-50s %s" % (name, "  ".join("%s %d" % it for it in calls.items())))
    print("calls: %d passed, %d failed" % (passed, failed))
    return failed > 0 or passed == 0


if __name__ == "__main__":
    sys.exit(main())
