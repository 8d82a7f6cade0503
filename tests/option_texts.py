#!/usr/bin/env python3
"""Asks ssign and the tools about the time stamps of options: what ssign refuses with P2, the tools take for no TIMESTAMP.

    option_texts.py PROGRAM

The texts are right ones of RFC 5424, section 6.2.3, these with an octet put in, left out or changed, and texts of few
octets. The last line is `option_texts: N passed, M failed`.
"""
import concurrent.futures
import os
import random
import subprocess
import sys

ROOT = os.path.dirname(os.path.dirname(os.path.abspath(__file__)))
sys.path.insert(0, os.path.join(ROOT, "tools"))

from ssign_keys.live_sure import is_stamp

RIGHT = ["-", "2026-01-15T09:15:07Z", "0000-02-29T00:00:00Z", "1900-02-28T23:59:59.5+23:59", "2000-02-29T12:00:00.123456-00:00",
         "9999-12-31T23:59:59.000001-23:59"]
DATES = ["%04d-%02d-%02dT00:00:00Z" % (year, month, day)
         for year in (0, 1, 4, 100, 400, 1900, 2000, 2023, 2024, 9999) for month in (0, 1, 2, 4, 12, 13) for day in (0, 1, 28, 29, 30, 31, 32)]
TIMES = ["2026-01-15T%02d:%02d:%02dZ" % it for it in ((23, 59, 59), (24, 0, 0), (0, 60, 0), (0, 0, 60), (99, 99, 99))]
TIMES += ["2026-01-15T00:00:00%s%02d:%02d" % it for it in (("+", 23, 59), ("+", 24, 0), ("-", 0, 60), ("-", 23, 59))]
TIMES += ["2026-01-15T00:00:00.%sZ" % ("1" * count) for count in range(9)]
ODD = [" ", "-", "0", "1", "9", ".", "T", "Z", "t", "z", "+", ":", "\t", "\n", "\x7f", "!", "~", "\u00e9", "\u0660", "\uff11"]


def texts(random_of):
    """Time stamps, right ones and wrong ones."""
    yield from [*RIGHT, *DATES, *TIMES, "", *ODD, *(a + b for a in ODD for b in ODD)]
    for _ in range(400):
        text = random_of.choice(RIGHT)
        for _ in range(random_of.choice((1, 1, 1, 2, 3))):
            place = random_of.randrange(len(text) + 1)
            put, leave = random_of.choice(((1, 0), (1, 1), (0, 1)))
            text = text[:place] + random_of.choice(ODD) * put + text[place + leave:]
        yield text


def refuses(program, text):
    """Whether ssign refuses this time stamp with P2; None where it says something else."""
    run = subprocess.run([program, "plan", "--payload=- N", "--rsid=1", "--stamp=" + text], stdin=subprocess.DEVNULL, capture_output=True, timeout=60)
    return {(0, b""): False, (2, b"ssign: P2\n"): True}.get((run.returncode, run.stderr))


def main():
    program = os.path.abspath(sys.argv[1])
    cases = list(texts(random.Random(5424)))
    passed = failed = refused = 0
    with concurrent.futures.ThreadPoolExecutor(min(4, os.cpu_count() or 1)) as pool:
        for text, is_refused in zip(cases, pool.map(lambda it: refuses(program, it), cases)):
            refused += is_refused is True
            is_right = is_refused is not None and is_refused != is_stamp(text.encode("utf-8"))
            passed, failed = passed + is_right, failed + (not is_right)
            if not is_right:
                print("option_texts: %r: FAILED\n    ssign refuses it: %s" % (text, is_refused))
    if not 100 < refused < len(cases) - 100:
        failed += 1
        print("option_texts: of %d texts %d are refused, so one kind is seldom tried" % (len(cases), refused))
    print("option_texts: %d texts, %d of them refused" % (len(cases), refused))
    print("option_texts: %d passed, %d failed" % (passed, failed))
    return failed > 0 or passed == 0


if __name__ == "__main__":
    sys.exit(main())
