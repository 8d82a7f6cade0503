#!/usr/bin/env python3
"""Counts the memory of the libraries' calls, over inputs of up to 10,000 messages, against the octets of their input.

    room.py LIBRARY TIMING ORIGINATED REVIEWED SSIGN [--show]

LIBRARY is made of tests/count.c; TIMING, ORIGINATED and REVIEWED are the programs tool_timing, tool_originated and
tool_reviewed, which make the calls, and SSIGN is the program itself. What is counted is the most octets that a program had allocated at one time, less
what it has without an input. A list that grows has its old room and its new one at once, so a list that keeps N octets
may take 3 times N while it grows.

Each check states a bound of its own:

  a reader of frames or lines   no more for 10,000 messages than for 100: its buffer, and room for one message
  a reviewer that is fed        52 octets for each message without a block, three times, and the text of the blocks
  a review                      so many octets for each octet of the log
  joiners                       so many octets for each octet that is stated, and for each joiner of its own
  answers                       where all lines have one payload, far less than where each has its own of that length
  reading on after damage       a window of three messages and 64 octets, and 24 octets and its line for each damaged
                                stretch, three times
  an originator                 no more for 10,000 messages than for 2,000, for an input of the same length: what it
                                keeps are the hashes of the messages that are pending, and its payload

The last line is `room: N passed, M failed`.
"""
import argparse
import base64
import itertools
import subprocess
import sys
import tempfile

import cost_logs as logs

MOST = 10_000
PATIENCE = 300
KIB = 1 << 10
# a buffer of 64 KiB in front of standard input, and what a run of the program takes besides
BUFFERS = 80 * KIB
# what two runs of one size may differ by: a list that grew at another time
SLACK = 4 * KIB
# a large block is counted in whole pages
PAGE = 4 * KIB
HASH_PAIR = 52
# a damaged stretch that is kept, and the window in which what comes next is looked at
STRETCH = 24
WINDOWS, WINDOW_MORE = 3, 64
# a list that grows has its old room, and one twice as large
GROWN = 3
PAYLOAD = b"2009-05-03T14:00:39Z K S0VZ".hex()

passed = failed = 0


def tell(what, fault):
    """One check, passed where there is no fault."""
    global passed, failed
    if not fault:
        passed += 1
        return
    failed += 1
    print("room: %s: FAILED\n    %s" % (what, fault))


class Bench:
    """Runs programs with the library that counts."""

    def __init__(self, library, show):
        self.library, self.show = library, show

    def peak(self, words, octets, wanted, behind=False, status=0):
        """The most octets that were allocated at one time, where the output has what is wanted of it; or those since the
        input was read to its end."""
        with tempfile.NamedTemporaryFile() as counts:
            done = subprocess.run(words, input=octets, capture_output=True, timeout=PATIENCE, check=False,
                                  env={"LD_PRELOAD": self.library, "COUNTS": counts.name})
            numbers = counts.read().split()
        fault = "" if done.returncode == status and wanted(done.stdout) else "it ended with %d %r" % (
            done.returncode, done.stdout[-100:])
        tell("%s over %d octets: what it says" % (" ".join(words[1:]) or words[0], len(octets)), fault)
        return int(numbers[4 if behind else 1])

    def check(self, what, peak, most):
        """One check: a peak is at most this."""
        if self.show:
            print("%-48s %10d of %10d" % (what, peak, most))
        tell(what, "" if peak <= most else "%d octets are allocated at one time, and at most %d wanted" % (peak, most))


def frames(texts):
    return b"".join(b"%d %s" % (len(text), text) for text in texts)


def lines(texts):
    return b"".join(text + b"\n" for text in texts)


def starts(text):
    return lambda said: said.startswith(text)


# ---- frames and lines

def readers(bench, timing):
    """A reader keeps one message, however many it read, and nothing that is only stated."""
    for form, spell in (("frames", frames), ("lines", lines)):
        for length in (1, 200, 65_536):
            for count in (100, MOST if length < 65_536 else 200):
                said = b"%d messages, %d octets, whole" % (count, count * length)
                peak = bench.peak([timing, form], spell([b"x" * length] * count), starts(said))
                bench.check("a reader of %d %s of %d octets" % (count, form, length), peak, BUFFERS + GROWN * length)
    peak = bench.peak([timing, "frames"], b"65536 x", starts(b"0 messages"))
    bench.check("a reader of a length that is only stated", peak, BUFFERS)


# ---- reviewers

def fed(bench, timing):
    """What a reviewer keeps of messages without a block, and of blocks."""
    for count in (100, MOST):
        texts = [b"%d" % it for it in range(count)]
        said = b"%d octets kept" % (HASH_PAIR * count)
        peak = bench.peak([timing, "review", "feed"], frames(texts), starts(said))
        bench.check("a reviewer of %d short messages" % count, peak, BUFFERS + GROWN * HASH_PAIR * count)
        made = logs.one_hash(count // 10)
        octets = frames(made.messages)
        peak = bench.peak([timing, "review", "feed"], octets, lambda said: said.endswith(b" octets kept\n"))
        bench.check("a reviewer of %d blocks" % (count // 10), peak, BUFFERS + 2 * len(octets))


def reviewed(bench, timing, reviewed_by):
    """What a whole review takes, and with its questions."""
    for shape in (logs.signed, logs.equal, logs.one_hash, logs.sessions, logs.repeated, logs.spoilt,
                  logs.fragments_falling, logs.scattered, logs.stated, logs.far_apart):
        for count in (100, 2_000):
            made = shape(count)
            octets = frames(made.messages)
            peak = bench.peak([timing, "review"], octets, lambda said: b" messages, " in said)
            bench.check("a review of %s, %d" % (shape.__name__, count), peak, BUFFERS + 8 * len(octets))
    for shape in (logs.signed, logs.equal):
        for count in (100, 2_000):
            script = [b"t" + b"2009-05-03T14:00:39Z K S0VZ", *(b"m" + text for text in shape(count).messages), b"."]
            octets = frames(script)
            peak = bench.peak([reviewed_by], octets, starts(b"log\n"))
            bench.check("a review and its questions of %s, %d" % (shape.__name__, count), peak, BUFFERS + 32 * len(octets))


# ---- damaged logs

def damaged(bench, ssign):
    """What is kept of a damaged log beside its messages: a window, however long the log is, and each stretch."""
    for command in ("inspect", "review"):
        for count, longest in ((100, 65_536), (MOST, 65_536), (MOST, 100), (100, 1_048_576)):
            pairs = [frames([b"<13>1 - - - - - - %d." % it, b"<13>1 - - - - - - x"]) for it in range(count)]
            offsets = itertools.accumulate(map(len, pairs[:-1]), lambda so_far, it: so_far + it + 1, initial=0)
            said = sum(len("damaged %d %d 1\n" % (2 * it, offset)) for it, offset in enumerate(offsets))
            words = [ssign, command, "--max-len", str(longest)]
            end = lambda said: said.endswith(b"\nend %d\n" % (2 * count))
            status = int(command == "review")
            plain = bench.peak(words, b"".join(pairs), end, status=status)
            whole = bench.peak([*words, "--salvage"], b"".join(pairs), end, status=status)
            read_on = bench.peak([*words, "--salvage"], b"X".join([b"", *pairs]), end, status=1)
            what = "%s of %d messages of at most %d octets" % (command, 2 * count, longest)
            bench.check(what + ", read on", whole, plain + WINDOWS * longest + WINDOW_MORE + PAGE + SLACK)
            bench.check(what + ", a damaged stretch before every two", read_on,
                        whole + GROWN * (STRETCH * count + said) + SLACK)


# ---- payloads

def joined(bench, timing):
    """What joiners take: for each fragment of one octet, each octet of a payload, and each joiner."""
    # of a fragment that stands alone: room for sixteen octets with their marks, and its place in a map
    for order in ("rising", "falling", "shuffled"):
        for count in (100, MOST):
            peak = bench.peak([timing, "joining", order, str(count)], b"", lambda said: b"%d" % count in said)
            bench.check("%d fragments of one octet, %s" % (count, order), peak, BUFFERS + 64 * count)
    for order in ("whole", "pieces"):
        for count in (1_000, 100 * MOST):
            peak = bench.peak([timing, "joining", order, str(count)], b"", lambda said: b"%d" % count in said)
            bench.check("a payload of %d octets, %s" % (count, order), peak, BUFFERS + 8 * count)
    for count in (100, MOST):
        peak = bench.peak([timing, "joining", "joiners", str(count)], b"", lambda said: b"%d" % count in said)
        bench.check("%d joiners" % count, peak, BUFFERS + 768 * count)


# ---- originators

def answers(count, length, own):
    """An answers file: each line has a payload of this length, one for all or one of its own."""
    texts = (b"- K " + b"%07d" % (number if own else 0) * (length // 7) for number in range(count))
    return b"".join(b"yes %s AAAA AAAA\n" % base64.b64encode(text) for text in texts)


def answered(bench, ssign):
    """Reads answers files: a payload that stands in many lines is kept once."""
    for count, length in ((100, 7_000), (1_000, 700), (MOST, 70)):
        peaks = []
        for own in (False, True):
            with tempfile.NamedTemporaryFile() as file:
                file.write(answers(count, length, own))
                file.flush()
                peaks.append(bench.peak([ssign, "review", "--answers", file.name], b"", starts(b"end 0\n")))
        bench.check("answers of %d lines, one payload of %d octets" % (count, length), peaks[0], peaks[1] - count * length // 2)


def script(count, groups, length):
    """So many messages to an originator, in an input of so many octets."""
    config = "config 110 h s - - 0121 1 %s 10 1 20 %s" % (groups, PAYLOAD)
    calls = ["new", "begin - 99 s"]
    calls += ["submit - 9 s " + (b"<%d>1 - - - - - - %d" % (it % 192, it)).hex() for it in range(count)]
    text = "\n".join([config, *calls, "flush - 999 s", ".", ""])
    # a call without an originator is answered, and nothing is kept of it
    front = "flush - 9 s\n"
    times, rest = divmod(length - len(text), len(front))
    assert times > 1
    return (front * (times - 1) + "flush - %s s\n" % "9".zfill(rest + 1) + text).encode()


def originated(bench, originated_by):
    """An originator keeps the same after 100 messages and after 10,000."""
    length = 100 * MOST
    texts = 1 << length.bit_length()
    for groups, count_of_groups in (("one:0", 1), ("pri", 192), ("ranges:63,127,191", 3)):
        # 2,000 messages are more than can be pending in all groups of these
        peaks = [bench.peak([originated_by], script(count, groups, length), lambda said: said.endswith(b"end\n"), True)
                 for count in (2_000, MOST)]
        bench.check("an originator of %d messages, %s" % (MOST, groups), peaks[1], peaks[0] + SLACK)
        # the input, what one call sends, and of each group a few hashes of 33 octets: a block has ten here
        bench.check("an originator of 2000 messages, %s" % groups, peaks[0], texts + 64 * KIB + 512 * count_of_groups)


def main():
    parser = argparse.ArgumentParser(description=__doc__, formatter_class=argparse.RawDescriptionHelpFormatter)
    for it in ("library", "timing", "originated", "reviewed", "ssign"):
        parser.add_argument(it)
    parser.add_argument("--show", action="store_true")
    given = parser.parse_args()
    bench = Bench(given.library, given.show)
    readers(bench, given.timing)
    fed(bench, given.timing)
    reviewed(bench, given.timing, given.reviewed)
    damaged(bench, given.ssign)
    joined(bench, given.timing)
    originated(bench, given.originated)
    answered(bench, given.ssign)
    print("room: %d passed, %d failed" % (passed, failed))
    return failed > 0 or passed == 0


if __name__ == "__main__":
    sys.exit(main())
