#!/usr/bin/env python3
"""Says how quiet this machine is: how many seconds of a processor the same work takes, again and again.

  bench/quiet.py [SECONDS]   for 1 to 86,400 seconds, 60 where none are given

Where the greatest is much more than the least, somebody else uses the processors: other jobs or, on a shared host, other
machines. Processor minutes that are measured meanwhile don't compare with those of another hour. It uses a tenth of one
processor, so it can run beside what is measured."""
import statistics
import sys
import time

ROUNDS = 2_000_000
LONGEST = 86_400


def work():
    """Processor seconds of a fixed number of rounds."""
    begin = time.process_time()
    total = 0
    for number in range(ROUNDS):
        total += number * number % 7
    return time.process_time() - begin


def seconds_of(words):
    if not words:
        return 60
    if len(words) == 1 and words[0].isascii() and words[0].isdigit() and 1 <= int(words[0]) <= LONGEST:
        return int(words[0])
    print("usage: bench/quiet.py [SECONDS]   from 1 to 86400", file=sys.stderr)
    sys.exit(2)


def main():
    end = time.monotonic() + seconds_of(sys.argv[1:])
    taken = [work()]
    while time.monotonic() < end:
        time.sleep(min(9 * taken[-1], max(0.0, end - time.monotonic())))
        taken.append(work())
    print(
        f"least {min(taken):.2f}, middle {statistics.median(taken):.2f}, mean {statistics.mean(taken):.2f}, "
        f"greatest {max(taken):.2f} seconds of a processor, {len(taken)} times"
    )


main()
