#!/usr/bin/env python3
"""What a file of answers costs: seconds and peak memory, against the octets of the file.

    bench/answers.py PROGRAM [--signed COUNT..] [--trust COUNT..] [--short-trust COUNT..] [--short-yes COUNT..]
                              [--alternating COUNT..]

PROGRAM is run as `PROGRAM review --answers FILE` with nothing on standard input, so that reading the answers is
all of its work. `--signed` takes the answers of a signed log of COUNT messages, ten in a block, as tests/signed_log.py
writes them. The others take COUNT lines: `--trust` those of payloads of eight octets, `--short-trust` and `--short-yes`
the shortest that there are, each with a field of three octets that no other line has, up to 16,777,216 of them;
`--alternating` `yes` lines of two payloads of 300 octets in turn, whose octets and signatures begin alike. The peak is
that of the process less that of a run on an empty file, told as a ratio to the file's octets.
"""
import argparse
import base64
import os
import shutil
import subprocess
import sys
import tempfile
import time


def run(program, path):
    """Seconds and peak octets of one run."""
    began = time.monotonic()
    with open(os.devnull) as nothing:
        process = subprocess.Popen(
            [program, "review", "--answers", path], stdin=nothing, stdout=subprocess.DEVNULL
        )
        _, status, usage = os.wait4(process.pid, 0)
    if os.waitstatus_to_exitcode(status) not in (0, 1):
        sys.exit(f"{program} failed on {path}: {status}")
    return time.monotonic() - began, usage.ru_maxrss * 1024


def signed(count, path):
    make = os.path.join(os.path.dirname(os.path.abspath(__file__)), "..", "tests", "signed_log.py")
    with tempfile.TemporaryDirectory() as folder:
        subprocess.run([sys.executable, "-B", make, str(count), folder], check=True)
        shutil.move(os.path.join(folder, "answers"), path)


def field(number, octets):
    """A field of so many octets, in base64: spread, so that the file isn't in order already."""
    spread = number * 0x9E3779B97F4A7C15 % 2**64 % 2 ** (8 * octets)
    return base64.b64encode(spread.to_bytes(octets, "big"))


def trust(count, path):
    with open(path, "wb") as file:
        for number in range(count):
            file.write(b"trust " + field(number, 8) + b"\n")


def short_trust(count, path):
    with open(path, "wb") as file:
        for number in range(count):
            file.write(b"trust " + field(number, 3) + b"\n")


def short_yes(count, path):
    with open(path, "wb") as file:
        for number in range(count):
            file.write(b"yes AAAA " + field(number, 3) + b" AAAA\n")


def alternating(count, path):
    payloads = [base64.b64encode(octet * 300) for octet in (b"a", b"b")]
    with open(path, "wb") as file:
        for number in range(count):
            file.write(b"yes " + payloads[number % 2] + b" " + field(number, 170) + b" " + field(number, 48) + b"\n")


KINDS = {
    "signed": signed,
    "trust": trust,
    "short-trust": short_trust,
    "short-yes": short_yes,
    "alternating": alternating,
}


def positive(text):
    count = int(text)
    if count < 1:
        raise ValueError
    return count


def main():
    parser = argparse.ArgumentParser(description=__doc__.splitlines()[0])
    parser.add_argument("program")
    for kind in KINDS:
        parser.add_argument(f"--{kind}", type=positive, nargs="*", default=[], metavar="COUNT")
    given = vars(parser.parse_args())
    with tempfile.TemporaryDirectory() as folder:
        path = os.path.join(folder, "answers")
        open(path, "wb").close()
        _, bare = run(given["program"], path)
        print(f"{'file':>20} {'lines':>9} {'octets':>12} {'seconds':>8} {'peak':>12} {'ratio':>6}")
        for kind, count in [(kind, count) for kind in KINDS for count in given[kind.replace("-", "_")]]:
            KINDS[kind](count, path)
            octets = os.path.getsize(path)
            with open(path, "rb") as file:
                lines = sum(1 for _ in file)
            seconds, peak = min(run(given["program"], path) for _ in range(3))
            print(
                f"{kind + ' ' + str(count):>20} {lines:>9} {octets:>12} {seconds:>8.2f}"
                f" {peak - bare:>12} {(peak - bare) / octets:>6.2f}"
            )


if __name__ == "__main__":
    main()
