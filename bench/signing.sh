#!/bin/sh
# Times `ssign plan` and `sign`: over logs of 1,000,000 messages of 187 octets, ten in a block, and of 2,000,000; over
# 150,000 messages in 192 groups, and 300,000; and `sign` of an empty log with an answers file of 5,000,000 of the
# shortest `seal` lines, and of 10,000,000. Twice the input should take at most 2.3 times as long. The seconds of a
# processor and the most memory are told of the best of three runs, whose output goes nowhere.
#
#   ./check                                  leaves the program behind
#   bench/signing.sh [PART [WORD [CMD..]]]   each input is one PARTth as large (1 without one); only the inputs whose
#                                            name holds WORD; and the ratio to CMD.. LOG, which runs over the same log
set -eu
here=$(cd "$(dirname "$0")/.." && pwd)
program=${SSIGN:-$here/crates/ssign/out/ssign}
work=$(mktemp -d)
trap 'rm -rf "$work"' EXIT

if [ ! -x "$program" ]; then
    echo "bench/signing.sh: there is no program $program; ./ssign --build builds one" >&2
    exit 2
fi

PYTHONPATH=$here/tests python3 -B - "$work" "$program" "$@" <<'P'
import os, subprocess, sys

from signed_log import PAYLOAD, b64, message

work, program, *rest = sys.argv[1:]
part, word, mark = int(rest[0]) if rest else 1, rest[1] if rest[1:] else "", rest[2:]
PLAN, ERR = f"{work}/plan", f"{work}/err"
GIVEN = ["--payload", PAYLOAD.decode(), "--rsid", "7"]


def log_of(count):
    return f"{work}/log.{count}"


def answers_of(count):
    return f"{work}/answers.{count}"


def run(words, count, out=os.devnull):
    """Processor seconds and most memory in MiB."""
    with open(log_of(count), "rb") as log, open(out, "wb") as written, open(ERR, "wb") as complaints:
        process = subprocess.Popen(words, stdin=log, stdout=written, stderr=complaints)
        _, status, usage = os.wait4(process.pid, 0)
    if status != 0:
        with open(ERR) as complaints:
            sys.exit(f"bench/signing.sh: {words} ended with {os.waitstatus_to_exitcode(status)}: {complaints.read()}")
    return usage.ru_utime + usage.ru_stime, usage.ru_maxrss / 1024


def best(runs):
    """The best of three of each run, by turns: so a load of the machine meets all of them."""
    rounds = [[run(words, count) for (_, count), words in runs.items()] for _ in range(3)]
    return dict(zip(runs, (min(results) for results in zip(*rounds))))


def put_frames(count, messages):
    with open(log_of(count), "wb", 1 << 20) as log:
        log.writelines(b"%d %s" % (len(text), text) for text in messages)


def put_seals(count, words):
    """A seal line for each line of the plan."""
    run([program, "plan", *words], count, PLAN)
    with open(PLAN, "rb") as plan, open(answers_of(count), "wb", 1 << 20) as answers:
        answers.writelines(b"seal %s AAAA\n" % line.split()[1] for line in plan)


# ---- inputs, each of about so many messages or lines, and the options

def messages(count):
    put_frames(count, (message(i) for i in range(count)))
    words = [*GIVEN, "--count", "10"]
    put_seals(count, words)
    return words


def groups(count):
    put_frames(count, (message(i).replace(b"<13>", b"<%d>" % (i * 7919 % 192), 1) for i in range(count)))
    words = [*GIVEN, "--groups", "pri"]
    put_seals(count, words)
    return words


def seals(count):
    """Lines with fields of one octet, none of which is asked for; the last line is."""
    put_frames(count, [])
    put_seals(count, GIVEN)
    with open(answers_of(count), "rb") as answers:
        last = answers.read()
    fields = [b64(bytes([i * 167 % 256])) for i in range(256)]
    with open(answers_of(count), "wb", 1 << 20) as answers:
        answers.writelines(b"seal %s %s\n" % (fields[i % 256], fields[i // 256 % 256]) for i in range(count))
        answers.write(last)
    return GIVEN


def runs_of(make, count):
    """The runs over an input of so many, by their names."""
    words = make(count)
    runs = {("sign", count): [program, "sign", "--answers", answers_of(count), *words]}
    if make is not seals:
        runs["plan", count] = [program, "plan", *words]
    if make is not seals and mark:
        runs["mark", count] = [*mark, log_of(count)]
    return runs


def tell(make, half, told):
    for (command, count), (seconds, peak) in told.items():
        line = "%-8s %9d %s %8.3f s %8.1f MiB" % (make.__name__, count, command, seconds, peak)
        if ("mark", count) in told and command != "mark":
            line += ", ratio %.2f" % (seconds / told["mark", count][0])
        if count != half:
            line += ", %.2f times its half" % (seconds / max(told[command, half][0], 0.001))
        print(line, flush=True)


for make, half in ((messages, 1_000_000), (groups, 150_000), (seals, 5_000_000)):
    if word in make.__name__:
        half = max(half // part, 1)
        tell(make, half, best(runs_of(make, half) | runs_of(make, 2 * half)))
        for count in (half, 2 * half):
            os.remove(log_of(count))
            os.remove(answers_of(count))
P
