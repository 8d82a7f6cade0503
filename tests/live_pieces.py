#!/usr/bin/env python3
"""How `ssign-keys live` reads messages that come in pieces: each message once and whole, and in a time that grows as they do.

    live_pieces.py

The last line is `live_pieces: N passed, M failed`.
"""
import os
import random
import sys
import time

sys.path.insert(0, os.path.join(os.path.dirname(os.path.dirname(os.path.realpath(__file__))), "tools"))

from live_disks import string_of  # noqa: E402

from ssign_keys.live_input import Input, NoMessage  # noqa: E402

LONGEST = 1048576
CASES = 150
passed = failed = 0


def tell(what, fault):
    """One check, passed where there is no fault."""
    global passed, failed
    if not fault:
        passed += 1
        return
    failed += 1
    print(f"live_pieces: {what}: FAILED")
    print(f"    {fault}")


def read_pieces(pieces, are_lines, is_omprog=False):
    """The messages that are read of these pieces, each as its octets and whether it is whole; and the seconds that it took."""
    source, (reader, writer) = Input(are_lines, is_omprog), os.pipe()
    os.dup2(reader, 0)
    os.close(reader)
    found, parts, began = [], b"", time.process_time()
    for piece in [*pieces, b""]:
        if piece:
            os.write(writer, piece)
        else:
            os.close(writer)
        for it in source.read():
            parts += it.octets if it.mark is None else it.mark.value
            if it.is_end:
                found.append((parts, it.is_whole))
                parts = b""
    return found, time.process_time() - began


def cut(octets, rng, most):
    """Octets in pieces of 1 to `most` octets."""
    pieces, at = [], 0
    while at < len(octets):
        size = rng.randint(1, most)
        pieces.append(octets[at:at + size])
        at += size
    return pieces


def random_logs(rng):
    """Each message is given once, in its order, wherever the pieces begin; one that is too long isn't whole."""
    for case in range(CASES):
        sizes = [rng.choice((1, 2, 3, rng.randint(4, 90), rng.randint(100, 9000))) for _ in range(rng.randint(1, 30))]
        if case % 60 == 0:
            sizes.insert(rng.randint(0, len(sizes)), rng.choice((LONGEST, LONGEST + 1, 3 * LONGEST)))
        messages = [bytes(rng.choices(b"abc0123456789 []\xff\x00", k=min(it, 50))) * (it // 50 + 1) for it in sizes]
        messages = [it[:size] for it, size in zip(messages, sizes)]
        wanted = [(it, len(it) <= LONGEST) for it in messages]
        most = rng.choice((1, 2, 7, 100, 65536)) if max(sizes) < LONGEST else 65536
        lines = b"".join(it + b"\n" for it in messages)
        found, _ = read_pieces(cut(lines, rng, most), True)
        tell(f"lines {case}", found != wanted and f"{len(found)} messages, and not {len(wanted)}")
        frames = b"".join(b"%d %s" % (len(it), it) for it in messages)
        found, _ = read_pieces(cut(frames, rng, most), False)
        tell(f"frames {case}", found != wanted and f"{len(found)} messages, and not {len(wanted)}")
        strings = b"".join(string_of(it) + b"\n" for it in messages)
        found, _ = read_pieces(cut(strings, rng, most), False, True)
        tell(f"strings {case}", found != wanted and f"{len(found)} messages, and not {len(wanted)}")


def ends():
    """What stands at the end: a line without its LF is a message, unless the sender repeats it; a part of a frame is none."""
    for most in (1, 3, 100):
        rng = random.Random(most)
        for what, octets, are_lines, is_omprog, wanted in (
                ("a last line", b"one\ntwo", True, False, [(b"one", True), (b"two", True)]),
                ("a last line that comes again", b'"one"\n"two"', False, True, [(b"one", True), (b'"two"', False)]),
                ("marks", b'BEGIN TRANSACTION\n"BEGIN TRANSACTION"\nCOMMIT TRANSACTION\n', False, True,
                 [(b"BEGIN TRANSACTION", True), (b"BEGIN TRANSACTION", True), (b"COMMIT TRANSACTION", True)]),
                ("empty lines", b"\n\none\n\n", True, False, [(b"", True), (b"", True), (b"one", True), (b"", True)]),
                ("a part of a frame", b"3 one5 tw", False, False, [(b"one", True), (b"5 tw", False)]),
                ("a part of a length", b"3 one55", False, False, [(b"one", True), (b"55", False)])):
            found, _ = read_pieces(cut(octets, rng, most), are_lines, is_omprog)
            tell(f"{what} in pieces of {most}", found != wanted and f"{found}, and not {wanted}")
        try:
            found, _ = read_pieces(cut(b"3 onex", rng, most), False)
            tell(f"no frame in pieces of {most}", f"{found}")
        except NoMessage:
            tell(f"no frame in pieces of {most}", "")


def slow_senders():
    """Four times the octets of one message, 16 at a time, take at most eight times the time: a square would take 16 times."""
    for are_lines in (True, False):
        took = []
        for size in (LONGEST // 4, LONGEST):
            octets = b"x" * size + b"\n" if are_lines else b"%d %s" % (size, b"x" * size)
            pieces = [octets[at:at + 16] for at in range(0, len(octets), 16)]
            runs = [read_pieces(pieces, are_lines) for _ in range(3)]
            tell("a message that comes slowly", runs[0][0] != [(b"x" * size, True)] and "it isn't read as it was sent")
            took.append(min(it for _, it in runs))
        tell("the time of one that comes slowly", took[1] > 8 * took[0] and f"{took[1]:.2f} s, and {took[0]:.2f} s for a quarter")


def main():
    """All of them."""
    random_logs(random.Random(5848))
    ends()
    slow_senders()
    print(f"live_pieces: {passed} passed, {failed} failed")
    return 1 if failed else 0


if __name__ == "__main__":
    sys.exit(main())
