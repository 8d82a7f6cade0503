#!/bin/sh
# Tells how much memory each command needs at most, in MB (1,000,000 octets), and the seconds of a processor, over a log
# of COUNT messages of 187 octets (1,000,000 without one): signed, ten messages in a block, and not signed.
#
#   ./ssign --build            leaves the program behind
#   bench/memory.sh [COUNT]    the numbers are those of /usr/bin/time, of one run each
set -eu
here=$(cd "$(dirname "$0")/.." && pwd)
program=${SSIGN:-$here/crates/ssign/out/ssign}
work=$(mktemp -d)
trap 'rm -rf "$work"' EXIT

if [ ! -x "$program" ]; then
    echo "bench/memory.sh: there is no program $program; ./ssign --build builds one" >&2
    exit 2
fi

PYTHONPATH=$here/tests:$here/bench python3 -B - "$work" "$program" "${1:-1000000}" "$here/tests/signed_log.py" <<'P'
"""Runs each command once, and tells what /usr/bin/time says of it."""
import os
import subprocess
import sys
from typing import List

from measured import Command, once, put_seals
from signed_log import PAYLOAD

work, program, count, maker = sys.argv[1:]
OPTIONS = ["--payload", PAYLOAD.decode(), "--rsid", "7", "--host", "gate", "--app", "signer"]


def make(folder: str, blocks: str) -> str:
    """Makes a log in a folder of its own, since each has its own answers."""
    path = f"{work}/{folder}"
    os.mkdir(path)
    subprocess.run([sys.executable, "-B", maker, count, path, "--blocks", blocks], check=True)
    return path


def tell(name: str, log: str, words: List[str], output: str = os.devnull) -> None:
    """Runs one command over a log, and prints what it took."""
    took = once(Command([program, *words], log, output))
    print(f"{name:32} {took.peak / 1e6:7.0f} MB {took.seconds:6.2f} s", flush=True)


signed, unsigned = make("signed", "yes"), make("unsigned", "no")
for folder, name in ((signed, "signed"), (unsigned, "not signed")):
    log, answers = f"{folder}/log", f"{folder}/answers"
    print(f"{name}: {count} messages, log {os.path.getsize(log) / 1e6:.0f} MB, answers {os.path.getsize(answers) / 1e6:.0f} MB")
    tell("review without answers", log, ["review"])
    tell("review with answers", log, ["review", "--answers", answers])
    tell("extract", log, ["extract", "--answers", answers])
    tell("extract of a place", log, ["extract", "--place", "7"])
    tell("questions", log, ["questions"])
    tell("inspect", log, ["inspect"])
log, wants, seals = f"{unsigned}/log", f"{work}/wants", f"{work}/seals"
tell("plan", log, ["plan", *OPTIONS], wants)
put_seals(wants, seals)
tell("sign", log, ["sign", *OPTIONS, "--answers", seals])
P
