#!/usr/bin/env bash
# Prints one table: what each command takes, what another program takes for the same file, the ratio, and the aim for it. All
# programs that read a file run in turn, three times each, and of each the least counts. The seconds are those of the
# processor, but those of `verify` are by the clock. A signed log has COUNT messages (1,000,000) of 187 octets, ten in a
# block; a plain log has no block.
#
# The aims are for 1,000,000 messages. With fewer, aims for memory are scaled, but for that of `extract --place`; a ratio then
# is greater, because to start a program takes some time. "above" stands after a row with a figure above its aim.
#
# PROGRAM is a yardstick: a program that isn't verified, and does the same work or the core of it. It is called in two ways:
#
#   PROGRAM --step fast LOG                    reads each frame and takes both hashes of its message
#   PROGRAM --step review --answers FILE LOG   prints what `ssign review --answers FILE` prints, which the script compares
#
# Without it the ratios to it are left out. The last lines name what was left out, and why.
#
#   ./ssign --build                             leaves a program behind; without one the recorded program is measured
#   bench/table.sh [--limit PROGRAM] [COUNT]    COUNT from 1,000 to 1,000,000; it needs up to 3 GB in TMPDIR
set -eu
here=$(cd "$(dirname "$0")/.." && pwd)
yardstick=
if [[ ${1-} == --limit ]]; then
    yardstick=${2-}
    [[ -f $yardstick && -x $yardstick ]] || { echo "bench/table.sh: there is no program '$yardstick'" >&2; exit 2; }
    yardstick=$(realpath -- "$yardstick")
    shift 2
fi
count=${1:-1000000}
if [[ $# -gt 1 || ! $count =~ ^[1-9][0-9]{3,6}$ || $count -gt 1000000 ]]; then
    echo "usage: bench/table.sh [--limit PROGRAM] [COUNT]   COUNT from 1000 to 1000000" >&2
    exit 2
fi
[[ -x /usr/bin/time ]] || { echo "bench/table.sh: /usr/bin/time isn't here" >&2; exit 2; }
export SSIGN=${SSIGN:-$("$here/ssign" --which)} || exit 2
work=$(mktemp -d)
trap 'rm -rf "$work"' EXIT

PYTHONPATH=$here/tests:$here/bench python3 -B - "$work" "$SSIGN" "$here" "$yardstick" "$count" <<'P'
"""Measures everything, and prints each row once it is measured."""
import filecmp
import importlib.util
import os
import re
import shutil
import subprocess
import sys
from typing import Dict, Iterator, List, Optional, Tuple

from measured import Command, Took, best_by_turns, once, put_seals
from signed_log import PAYLOAD, make, message

work, program, here, yardstick = sys.argv[1:5]
count = int(sys.argv[5])
SIGNING = ["--payload", PAYLOAD.decode(), "--rsid", "7", "--host", "gate", "--app", "signer"]
UNHARMED: Dict[str, List[int]] = {"change": [], "lose": [], "double": [], "foreign": []}
REVIEW, FAST = "limit review", "limit fast"
COLUMNS = "%-35s %10s  %-12s %10s %6s %5s %8s %6s  %s"
left_out: List[str] = []


# ---- rows

def put(name: str, took: str, beside: str = "", base: str = "", ratio: Optional[float] = None, aim: Optional[float] = None,
        peak: Optional[float] = None, most: Optional[float] = None) -> None:
    """Prints a row."""
    def figure(form: str, number: Optional[float]) -> str:
        return "" if number is None else form % number

    is_above = ratio is not None and aim is not None and ratio > aim or peak is not None and most is not None and peak > most
    figures = figure("%.2f", ratio), figure("%.2f", aim), figure("%.0f", peak), figure("%.0f", most)
    print((COLUMNS % (name, took, beside, base, *figures, "above" if is_above else "")).rstrip(), flush=True)


def compare(name: str, took: Took, beside: str, base: Optional[Took], aim: float, most: Optional[int] = None) -> None:
    """Prints a row of seconds and memory. `most` is the aim for the memory at 1,000,000 messages."""
    wanted = None if most is None else most * count / 1_000_000
    seconds = "%.2f s" % took.seconds
    if base is None:
        left_out.append(f"the ratio of {name} to {beside}: no yardstick was given")
        put(name, seconds, peak=took.peak / 1e6, most=wanted)
    else:
        put(name, seconds, beside, "%.2f s" % base.seconds, took.seconds / base.seconds, aim, took.peak / 1e6, wanted)


def with_yardstick(commands: Dict[str, Command], name: str, words: List[str], output: str = os.devnull) -> Dict[str, Command]:
    """The commands, and the yardstick if there is one."""
    return {**commands, name: Command([yardstick, *words], os.devnull, output)} if yardstick else commands


# ---- logs

def make_signed(folder: str, messages: int) -> Tuple[str, str]:
    """Makes a signed log: its path, and that of its answers."""
    os.mkdir(folder)
    make(folder, messages, 187, 10, False, True, UNHARMED)
    return f"{folder}/log", f"{folder}/answers"


def make_plain(messages: int) -> str:
    """Makes a log without blocks, and gives its path."""
    def frames() -> Iterator[bytes]:
        for number in range(messages):
            text = message(number)
            yield b"%d %s" % (len(text), text)

    with open(f"{work}/plain", "wb", 1 << 20) as log:
        log.writelines(frames())
    return log.name


# ---- what is measured

def measure_signed() -> None:
    """The commands that check, over a signed log."""
    log, answers = make_signed(f"{work}/signed", count)
    report, other = f"{work}/report", f"{work}/other"
    commands = {
        "review": Command([program, "review", "--answers", answers], log, report),
        "extract": Command([program, "extract", "--answers", answers], log),
        "questions": Command([program, "questions"], log),
        "inspect": Command([program, "inspect"], log),
    }
    commands = with_yardstick(commands, REVIEW, ["--step", "review", "--answers", answers, log], other)
    took = best_by_turns(with_yardstick(commands, FAST, ["--step", "fast", log]))
    if yardstick and not filecmp.cmp(report, other, shallow=False):
        sys.exit("bench/table.sh: the yardstick and ssign review print different reports")
    compare("review, signed", took["review"], REVIEW, took.get(REVIEW), 1.6, 200)
    compare("extract, signed", took["extract"], "review", took["review"], 1.05, 330)
    compare("questions, signed", took["questions"], FAST, took.get(FAST), 0.3)
    compare("inspect, signed", took["inspect"], FAST, took.get(FAST), 0.2)
    shutil.rmtree(f"{work}/signed")


def measure_instructions() -> None:
    """The instructions of a review, over a tenth of the messages."""
    if not yardstick or not shutil.which("valgrind"):
        left_out.append("the instructions of a review: " + ("valgrind isn't here" if yardstick else "no yardstick was given"))
        return
    log, answers = make_signed(f"{work}/tenth", count // 10)
    ours = instructions([program, "review", "--answers", answers], log)
    its = instructions([yardstick, "--step", "review", "--answers", answers, log], os.devnull)
    put("review, a tenth, instructions", "%.0f M" % (ours / 1e6), REVIEW, "%.0f M" % (its / 1e6), ours / its, 1.4)


def instructions(words: List[str], source: str) -> int:
    """How many instructions a run takes."""
    with open(source, "rb") as log:
        done = subprocess.run(["valgrind", "--tool=callgrind", "--callgrind-out-file=/dev/null", *words], stdin=log,
                              stdout=subprocess.DEVNULL, stderr=subprocess.PIPE, text=True, check=False)
    said = re.search(r"Collected : (\d+)", done.stderr)
    if done.returncode != 0 or said is None:
        sys.exit(f"bench/table.sh: valgrind of {words[0]} ended with the status {done.returncode}: {done.stderr[-300:]}")
    return int(said[1])


def measure_plain() -> None:
    """The commands that sign, over a log without blocks, and `inspect`."""
    log, wants, seals = make_plain(count), f"{work}/wants", f"{work}/seals"
    plan = Command([program, "plan", *SIGNING], log, wants)
    once(plan)
    put_seals(wants, seals)
    commands = {
        "plan": plan._replace(output=os.devnull),
        "sign": Command([program, "sign", *SIGNING, "--answers", seals], log),
        "inspect": Command([program, "inspect"], log),
    }
    took = best_by_turns(with_yardstick(commands, FAST, ["--step", "fast", log]))
    compare("plan, plain", took["plan"], FAST, took.get(FAST), 1.1, 250)
    compare("sign, plain", took["sign"], FAST, took.get(FAST), 1.1, 300)
    compare("inspect, plain", took["inspect"], FAST, took.get(FAST), 0.2)


def measure_ten_times() -> None:
    """The memory for a log without blocks of ten times the messages, as many as a log may have."""
    log = make_plain(10 * count)
    place = once(Command([program, "extract", "--place", str(5 * count)], log))
    put("extract --place, plain, 10 times", "%.2f s" % place.seconds, peak=place.peak / 1e6, most=20)
    carry = once(Command([program, "carry"], log))
    put("carry, plain, 10 times", "%.2f s" % carry.seconds, peak=carry.peak / 1e6, most=2600 * count / 1_000_000)
    os.remove(log)


def measure_verify() -> None:
    """`ssign-keys verify` by the clock, as beside.sh measures it, over a tenth of the messages."""
    if importlib.util.find_spec("cryptography") is None:
        left_out.append("ssign-keys verify: the Python module cryptography isn't here")
        return
    said = subprocess.run([f"{here}/bench/beside.sh", str(count // 10), "3"], stdout=subprocess.PIPE, text=True, check=True).stdout
    lines = re.findall(r"blocks of +(\d+), (\d+) of the processors: review +(\S+) s, verify +(\S+) s, +(\S+) times", said)
    if len(lines) != 4:
        sys.exit(f"bench/table.sh: beside.sh printed what isn't known here: {said}")
    for per_block, processors, review, verify, ratio in lines:
        # nothing is aimed at on one processor
        aim = None if processors == "1" else {"99": 1.5, "10": 5.0}[per_block]
        put(f"verify, blocks of {per_block}, {processors} processor{'s' * (processors != '1')}", f"{verify} s", "review",
            f"{review} s", float(ratio), aim)


print("%d messages of 187 octets, %d processors, load %.1f" % (count, len(os.sched_getaffinity(0)), os.getloadavg()[0]))
print((COLUMNS % ("", "took", "beside", "took", "ratio", "aim", "peak MB", "aim", "")).rstrip(), flush=True)
measure_signed()
measure_instructions()
measure_plain()
measure_ten_times()
measure_verify()
for line in left_out:
    print(f"left out: {line}")
P
