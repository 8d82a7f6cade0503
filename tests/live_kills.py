#!/usr/bin/env python3
"""Kills `ssign-keys live`, as a process of its own, before each of its steps and inside each of its writes.

    live_kills.py SSIGN KEYS [all]

KEYS is a folder of `ssign-keys make`. The sender speaks as omprog of rsyslog does, with transactions, and sends again what
wasn't confirmed. After each kill another process goes on; each third time it is killed too, while it recovers. Wanted: one
session, joined; status 0 up to the kept counters by `ssign-keys verify`, with the real key; each confirmed message listed;
a clean manifest. Without `all` a write is killed inside at each second step. The last line is `live_kills: N passed, M failed`.
"""
import collections
import functools
import json
import os
import signal
import sys
import tempfile

from live_disks import message, original, string_of, used_twice

from ssign_keys import cli, keys, live
from ssign_keys.live_disk import Disk
from ssign_keys.live_engine import split_frames
from ssign_keys.live_loop import Loop

PROGRAM, KEYS = sys.argv[1:3]
IS_ALL = sys.argv[3:] == ["all"]
COUNT = 20
passed = failed = 0


class Steps:
    """The steps of a process, of which one is its last."""

    count = 0
    last = -1
    is_half = False


def die():
    """Ends this process at once."""
    os.kill(os.getpid(), signal.SIGKILL)


def step():
    """Counts a step. The last one isn't done, or a half of it is."""
    Steps.count += 1
    if Steps.count == Steps.last and not Steps.is_half:
        die()
    return Steps.count == Steps.last


class KilledDisk(Disk):
    """Files whose every write, sync and name is a step."""

    def append(self, where, name, octets):
        if step():
            super().append(where, name, octets[:len(octets) // 2])
            die()
        super().append(where, name, octets)

    def overwrite(self, where, name, octets):
        if step():
            super().overwrite(where, name, octets[:len(octets) // 2])
            die()
        super().overwrite(where, name, octets)

    def truncate(self, where, name, size):
        step()
        super().truncate(where, name, size)

    def sync(self, where, name):
        step()
        super().sync(where, name)

    def sync_folder(self, where):
        step()
        super().sync_folder(where)

    def rename(self, where, name, other):
        step()
        super().rename(where, name, other)


class KilledLoop(Loop):
    """An answer is a step too."""

    def _confirm(self, answer):
        step()
        super()._confirm(answer)


live.Disk, live.Loop = KilledDisk, KilledLoop


def begin(words, last, is_half, out):
    """A child that runs ssign-keys. Gives its number, the file to write to it, and the file to read from it."""
    ours, theirs = os.pipe(), os.pipe()
    child = os.fork()
    if child:
        os.close(ours[0])
        os.close(theirs[1])
        return child, os.fdopen(ours[1], "wb", buffering=0), os.fdopen(theirs[0], "rb")
    os.dup2(ours[0], 0)
    os.dup2(theirs[1], 1)
    os.closerange(3, 64)
    said = os.open(out, os.O_WRONLY | os.O_CREAT | os.O_APPEND, 0o600)
    os.dup2(said, 2)
    sys.stderr = os.fdopen(2, "w", closefd=False)
    Steps.count, Steps.last, Steps.is_half = 0, last, is_half
    status = cli.main(words)
    if words[0] == "live":
        with open(out + ".steps", "w", encoding="ascii") as file:
            file.write(str(Steps.count))
    sys.stderr.flush()
    os._exit(status)


class Trial:
    """Folders of a signer."""

    def __init__(self, folder):
        self.folder = folder
        self.confirmed = []

    def path(self, name):
        """A path in the folder."""
        return os.path.join(self.folder, name)

    def run(self, wanted, last=-1, is_half=False):
        """Sends what isn't confirmed. Gives the status; -9 where it was killed."""
        child, to, answers = begin(
            ["live", f"--key={KEYS}/private-key.pem", f"--state={self.path('state')}", f"--out={self.path('out')}", "--omprog",
             "--host=gate.example.org", "--count=5", "--messages=5", "--seconds=100", "--rotate-size=7K",
             f"--ssign={PROGRAM}"], last, is_half, self.path("said"))

        def say(line):
            try:
                to.write(line + b"\n")
            except OSError:
                return b""
            return answers.readline()

        if answers.readline() == b"OK\n":
            while len(self.confirmed) < len(wanted):
                part = wanted[len(self.confirmed):][:3]
                if say(b"BEGIN TRANSACTION") != b"OK\n" or any(say(string_of(it)) != b"DEFER_COMMIT\n" for it in part):
                    break
                if say(b"COMMIT TRANSACTION") != b"OK\n":
                    break
                self.confirmed += part
        to.close()
        answers.close()
        _, ended = os.waitpid(child, 0)
        return os.waitstatus_to_exitcode(ended)

    def steps(self):
        """How many steps the last run had."""
        with open(self.path("said.steps"), encoding="ascii") as file:
            return int(file.read())

    def faults(self, wanted, status):
        """What is wrong at the end, and how many messages are listed twice."""
        faults = [] if status == 0 else [f"status {status}"]
        if self.confirmed != wanted:
            faults.append("not all confirmed")
        out, state = self.path("out"), self.path("state")
        files = [os.path.join(out, it) for it in sorted(os.listdir(out))]
        counters = [it for it in os.listdir(state) if it.startswith("counters-") and not it.endswith(".new")]
        if len(counters) != 1:
            return [*faults, f"counters {counters}"], 0
        verdict, rows = self.keys("verify", f"--key={KEYS}/public-key.pem", f"--counters={os.path.join(state, counters[0])}",
                                  "--json", f"--ssign={PROGRAM}", *files)
        if verdict != 0:
            faults.append(f"verify has status {verdict}: {rows[-1:]}")
        sessions = [it for it in rows if it.get("line") == "session"]
        if [it.get("state") for it in sessions] != ["joined"]:
            faults.append(f"sessions {sessions}")
        stored = []
        for path in files:
            with open(path, "rb") as file:
                stored += split_frames(file.read())[0]
        faults += used_twice(PROGRAM, b"".join(b"%d %s" % (len(it), it) for it in stored))
        listed = collections.Counter(original(stored[it["place"]]) for it in rows if it.get("line") == "ok")
        faults += [f"{it!r} is listed {listed[it]} times" for it in wanted if not listed[it]]
        checked, said = self.keys("manifest", "check", os.path.join(state, "manifest.jsonl"), out, "--json")
        # the last file is no entry yet
        findings = [it for it in said if it.get("line") != "total" and it.get("where") != os.path.basename(files[-1])]
        if findings or checked == 2:
            faults.append(f"the manifest: {findings}")
        return faults, sum(listed.values()) - len(wanted)

    def keys(self, *words):
        """The status and the objects of a command."""
        child, to, answers = begin(list(words), -1, False, self.path("said"))
        to.close()
        rows = [json.loads(it) for it in answers]
        answers.close()
        _, ended = os.waitpid(child, 0)
        return os.waitstatus_to_exitcode(ended), rows


def main():
    """Makes all checks."""
    global passed, failed
    # whether the numbers of the key are right is found out once, before the children begin
    keys.key_fault = functools.lru_cache(keys.key_fault)
    keys.read_private_key(f"{KEYS}/private-key.pem")
    wanted = [message(n) for n in range(COUNT)]
    twice = collections.Counter()
    runs = [(0, False)]
    while runs:
        last, is_half = runs.pop(0)
        with tempfile.TemporaryDirectory() as folder:
            trial = Trial(folder)
            status = trial.run(wanted, last, is_half)
            if not last:
                steps = trial.steps()
                runs += [(it, half) for it in range(1, steps + 1) for half in (False, True) if not half or IS_ALL or it % 2]
                print(f"live_kills: without a kill it has {steps} steps")
            elif (last + is_half) % 3 == 0:
                status = trial.run(wanted, 1 + (last * 5) % 13, last % 2 == 0)
            if status == -9:
                status = trial.run(wanted)
            faults, again = trial.faults(wanted, status)
            twice[again] += 1
            if not faults:
                passed += 1
                continue
            failed += 1
            print(f"live_kills: killed at step {last}{', inside' if is_half else ''}: FAILED")
            for it in faults[:5]:
                print(f"    {it}")
            with open(trial.path("said"), encoding="utf-8") as file:
                print(f"    {file.read()[-300:]}")
    print(f"live_kills: {passed + failed} runs; so many messages listed twice, because they weren't confirmed: "
          f"{dict(sorted(twice.items()))}")
    print(f"live_kills: {passed} passed, {failed} failed")
    return 1 if failed else 0


if __name__ == "__main__":
    sys.exit(main())
