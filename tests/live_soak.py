#!/usr/bin/env python3
"""A soak of `ssign-keys live`: many messages, many files, and a kill every few seconds.

    live_soak.py SSIGN KEYS [MESSAGES [IN-A-FILE [KILLS]]]

KEYS is a folder of `ssign-keys make`. The sender hands transactions over and sends again what wasn't confirmed. A kill comes
after so many confirmed messages as a seed says, without regard to what live does then. Wanted: each night of the manifest is
clean between its own counters; the nights have as many listed messages as the counters count; each confirmed message is
stored; each file ends with a block; the process keeps to 200 MB. The last line is `live_soak: N passed, M failed`.
"""
import json
import os
import random
import re
import signal
import subprocess
import sys
import tempfile
import threading
import time

ROOT = os.path.dirname(os.path.dirname(os.path.realpath(__file__)))
sys.path.insert(0, os.path.join(ROOT, "tools"))

from live_disks import string_of, used_twice

from ssign_keys.live_engine import split_frames

PROGRAM, KEYS = (os.path.abspath(it) for it in sys.argv[1:3])
COUNT, IN_FILE, KILLS = (int(it) for it in [*sys.argv[3:], *("20000", "1000", "5")[len(sys.argv) - 3:]])
TOOL = os.path.join(ROOT, "tools", "ssign-keys")
MOST_MEMORY = 200 << 20
PATIENCE = 60.0
NUMBER = re.compile(rb"soak message (\d+) ")
# the octets of a message with its frame, and of its hash in a block
ON_DISK = 150 + 46


def message(number):
    """A message; each fiftieth can't be signed as it is."""
    text = b"soak message %d " % number
    front = b"<13>Oct 11 22:14:15 app: " if number % 50 == 7 else b"<13>1 - gate.example.org app - - - "
    return front + text + b"x" * (140 - len(front) - len(text))


class Process:
    """A process that signs."""

    def __init__(self, folder, rng):
        words = [sys.executable, TOOL, "live", f"--key={KEYS}/private-key.pem", f"--state={folder}/state", f"--out={folder}/out",
                 "--omprog", "--host=gate.example.org", f"--rotate-size={IN_FILE * ON_DISK}",
                 f"--messages={rng.choice((10, 99, 99, 1000))}", f"--seconds={rng.choice((0.05, 1, 5))}", "--heartbeat=2",
                 f"--status={folder}/status", f"--ssign={PROGRAM}"]
        self.said = open(f"{folder}/said", "ab")
        self.process = subprocess.Popen(words, stdin=subprocess.PIPE, stdout=subprocess.PIPE, stderr=self.said)
        self.is_ready = self.process.stdout.readline() == b"OK\n"

    def hand_over(self, messages):
        """One transaction, all at once. Gives whether it was confirmed."""
        lines = b"".join([b"BEGIN TRANSACTION\n", *(string_of(it) + b"\n" for it in messages), b"COMMIT TRANSACTION\n"])
        writer = threading.Thread(target=self.write, args=(lines,))
        writer.start()
        wanted = [b"OK\n", *[b"DEFER_COMMIT\n"] * len(messages), b"OK\n"]
        answers = []
        for _ in wanted:
            answers.append(self.process.stdout.readline())
            if not answers[-1]:
                break
        writer.join()
        return answers == wanted

    def write(self, octets):
        """Writes as far as it goes."""
        try:
            self.process.stdin.write(octets)
            self.process.stdin.flush()
        except OSError:
            pass

    def memory(self):
        """The most octets that it had in memory."""
        try:
            with open(f"/proc/{self.process.pid}/status", encoding="ascii") as file:
                return int(re.search(r"VmHWM:\s+(\d+) kB", file.read())[1]) << 10
        except (OSError, TypeError):
            return 0

    def end(self):
        """Its status after its input ended."""
        try:
            self.process.stdin.close()
        except OSError:
            pass
        status = self.process.wait(PATIENCE)
        self.process.stdout.close()
        self.said.close()
        return status


def soak(folder, faults):
    """Hands all messages over, with kills. Gives the most memory of a process, how many kills came, and the status."""
    rng = random.Random(COUNT)
    # another second for each life: the moment of a kill has nothing to do with what is done then
    at_kill = sorted(rng.sample(range(COUNT), KILLS))
    process, confirmed, killed, most = Process(folder, rng), 0, 0, 0
    while confirmed < COUNT:
        if not process.is_ready:
            faults.append("it doesn't start")
            return most, killed, process.end()
        timer = None
        if at_kill and confirmed >= at_kill[0]:
            at_kill.pop(0)
            killed += 1
            timer = threading.Timer(rng.random() * .05, process.process.kill)
            timer.start()
        size = rng.choice((1, 30, 200, 700))
        part = [message(it) for it in range(confirmed, min(COUNT, confirmed + size))]
        is_confirmed = process.hand_over(part)
        if is_confirmed:
            confirmed += len(part)
        if timer is not None or not is_confirmed:
            if timer is None:
                faults.append(f"message {confirmed} isn't confirmed")
                return most, killed, process.end()
            timer.join()
            process.end()
            process = Process(folder, rng)
        most = max(most, process.memory())
    # the file is ended too, so that the manifest has all messages
    last = status_of(folder).get("file")
    process.process.send_signal(signal.SIGHUP)
    end = time.monotonic() + PATIENCE
    while status_of(folder).get("file") in (last, None) and time.monotonic() < end:
        time.sleep(.1)
    return most, killed, process.end()


def status_of(folder):
    """What --status says; nothing where it says nothing."""
    try:
        with open(f"{folder}/status", encoding="ascii") as file:
            return json.load(file)
    except (OSError, ValueError):
        return {}


def stored(folder, names, faults):
    """How many ordinary messages and heartbeats each file has, after it was looked which are there."""
    seen, totals = bytearray(COUNT), []
    for name in names:
        with open(os.path.join(folder, "out", name), "rb") as file:
            octets = file.read()
        found, end = split_frames(octets)
        if end != len(octets):
            faults.append(f"{name} has a torn frame")
        if name != names[-1] and b"[ssign" not in found[-1][:200]:
            faults.append(f"{name} doesn't end with a block")
        totals.append(0)
        for it in found:
            number = NUMBER.search(it)
            if number:
                seen[int(number[1])] = 1
            totals[-1] += number is not None or b" heartbeat - RSID " in it
        faults += used_twice(PROGRAM, octets)
    if seen.count(0):
        faults.append(f"{seen.count(0)} confirmed messages aren't stored, the first is {seen.index(0)}")
    return totals


def judged(folder, totals, faults):
    """Has all nights verified. The last file isn't ended, so it is no night yet. Gives how many they are."""
    with open(f"{folder}/state/manifest.jsonl", encoding="ascii") as file:
        entries = [json.loads(it) for it in file]
    ran = subprocess.run([TOOL, "verify", f"--nights={folder}/state/manifest.jsonl", f"--key={KEYS}/public-key.pem", "--json",
                          f"--ssign={PROGRAM}", f"{folder}/out"], capture_output=True, check=False)
    rows = [json.loads(it) for it in ran.stdout.splitlines()]
    nights = [it for it in rows if it["line"] == "night"]
    if ran.returncode or len(nights) != len(entries):
        faults.append(f"verify --nights has status {ran.returncode}: {ran.stdout[-300:]} {ran.stderr[-300:]}")
    listed = sum(it["listed"] or 0 for it in nights)
    counters = [it for it in os.listdir(f"{folder}/state") if re.fullmatch("counters-[0-9]+", it)]
    with open(f"{folder}/state/{counters[0]}", encoding="ascii") as file:
        numbers = sum(int(it.split()[7]) - 1 for it in file if len(it.split()) == 8)
    if len(counters) != 1 or listed != sum(totals[:-1]) or numbers != sum(totals) or len(totals) != len(entries) + 1:
        faults.append(f"{listed} listed, {totals} stored, {numbers} numbers, {counters}")
    return len(entries)


def main():
    """Makes all checks."""
    faults = []
    with tempfile.TemporaryDirectory() as folder:
        begin = time.monotonic()
        most, killed, status = soak(folder, faults)
        took = time.monotonic() - begin
        if status or killed != KILLS:
            faults.append(f"status {status}, {killed} kills")
        if most > MOST_MEMORY:
            faults.append(f"{most:,} octets of memory")
        names = sorted(os.listdir(f"{folder}/out"), key=lambda it: [int(n) for n in it[:-7].split("-")[-2:]])
        totals = stored(folder, names, faults)
        nights = judged(folder, totals, faults)
        print(f"live_soak: {COUNT:,} messages, {killed} kills, {nights} nights in {took:.0f} s; {most >> 20} MiB at most; "
              f"{sum(totals) - COUNT:,} messages more: heartbeats, and such that weren't confirmed before a kill")
        if faults:
            with open(f"{folder}/said", encoding="utf-8", errors="replace") as file:
                faults.append(file.read()[-1500:])
    for it in faults[:8]:
        print(f"live_soak: FAILED\n    {it}")
    print(f"live_soak: {0 if faults else 1} passed, {1 if faults else 0} failed")
    return 1 if faults else 0


if __name__ == "__main__":
    sys.exit(main())
