#!/usr/bin/env python3
"""`ssign-keys live --journal`: journal files that systemd-journal-remote wrote, read by journalctl, with kills in full flow; and
made-up output of journalctl with long, odd and broken entries.

    live_journal.py SSIGN KEYS

KEYS is a folder of `ssign-keys make`. Messages that are wanted were written by hand, by RFC 5424, section 6, and
systemd.journal-fields(7). The last line is `live_journal: N passed, M failed`.
"""
import contextlib
import functools
import os
import random
import shlex
import shutil
import signal
import subprocess
import sys
import time

import live_runs
from live_runs import KEYS, Process, differ, signer, tell
import skips

from ssign_keys import keys, live_journal

REMOTE = next((it for it in ("/lib/systemd/systemd-journal-remote", "/usr/lib/systemd/systemd-journal-remote") if os.path.exists(it)), None)
BEGAN = 1795804252000000
ENTRIES = 3000
KILLS = 5
# fields of an entry, and the message for it
CASES = [
    ([(b"PRIORITY", b"3"), (b"SYSLOG_FACILITY", b"4"), (b"_HOSTNAME", b"gate.example.org"), (b"SYSLOG_IDENTIFIER", b"sshd"),
      (b"_PID", b"811"), (b"MESSAGE", b"Failed password"), (b"_SOURCE_REALTIME_TIMESTAMP", b"1767226364003000")],
     b"<35>1 2026-01-01T00:12:44.003000Z gate.example.org sshd 811 - - Failed password"),
    ([(b"_HOSTNAME", b"h"), (b"_COMM", b"cron"), (b"SYSLOG_PID", b"7"), (b"MESSAGE", b"no priority")],
     b"<14>1 2026-11-27T18:30:52.000000Z h cron 7 - - no priority"),
    ([(b"PRIORITY", b"0"), (b"SYSLOG_FACILITY", b"0"), (b"SYSLOG_IDENTIFIER", b"kernel"), (b"MESSAGE", b"panic")],
     b"<0>1 2026-11-27T18:30:52.000000Z - kernel - - - panic"),
    ([(b"PRIORITY", b"7"), (b"SYSLOG_FACILITY", b"23"), (b"_HOSTNAME", b"h"), (b"SYSLOG_IDENTIFIER", b"two words \xc3\xa9"),
      (b"_PID", b"1"), (b"SYSLOG_PID", b"2"), (b"MESSAGE", b"two\nlines\n")],
     b"<191>1 2026-11-27T18:30:52.000000Z h two_words___ 1 - - two\nlines\n"),
    ([(b"PRIORITY", b"8"), (b"SYSLOG_FACILITY", b"24"), (b"_HOSTNAME", b"h" * 300), (b"SYSLOG_IDENTIFIER", b"a" * 60),
      (b"_PID", b"9" * 200), (b"MESSAGE", b"\x00\xff octets")],
     b"<14>1 2026-11-27T18:30:52.000000Z " + b"h" * 255 + b" " + b"a" * 48 + b" " + b"9" * 128 + b" - - \x00\xff octets"),
    ([(b"MESSAGE_ID", b"39f53479d3a045ac8e11786248231fbf"), (b"_HOSTNAME", b"h"), (b"MESSAGE", b"Started.")],
     b"<14>1 2026-11-27T18:30:52.000000Z h - - 39f53479d3a045ac8e11786248231fbf - Started."),
    ([(b"MESSAGE_ID", b"wrapped"), (b"_HOSTNAME", b"h"), (b"MESSAGE", b"|no wrap")],
     b"<14>1 2026-11-27T18:30:52.000000Z h - - - - |no wrap"),
    ([(b"_HOSTNAME", b"h"), (b"MESSAGE", b"")], b"<14>1 2026-11-27T18:30:52.000000Z h - - - -"),
    ([(b"_HOSTNAME", b"h"), (b"PRIORITY", b"5")], b"<13>1 2026-11-27T18:30:52.000000Z h - - - -"),
    ([(b"_HOSTNAME", b"h"), (b"MESSAGE", b"first"), (b"MESSAGE", b"second")],
     b"<14>1 2026-11-27T18:30:52.000000Z h - - - - first\nsecond"),
    ([(b"_HOSTNAME", b"h"), (b"MESSAGE", b'[a b="c"] no element')], b'<14>1 2026-11-27T18:30:52.000000Z h - - - - [a b="c"] no element'),
]


def entry(number, fields, at=0):
    """An entry in the export format (systemd.io/JOURNAL_EXPORT_FORMATS)."""
    boot = b"0123456789abcdef0123456789abcdef"
    lines = b"__CURSOR=s=%s;i=%x;b=%s;m=%x;t=%x;x=1\n__REALTIME_TIMESTAMP=%d\n__MONOTONIC_TIMESTAMP=%d\n_BOOT_ID=%s\n" % (
        boot, number, boot, number, BEGAN + at, BEGAN + at, number, boot)
    for name, value in fields:
        if b"\n" in value or not value.isascii() or any(it < 32 and it != 9 for it in value):
            lines += name + b"\n" + len(value).to_bytes(8, "little") + value + b"\n"
        else:
            lines += name + b"=" + value + b"\n"
    return lines + b"\n"


def numbered(number):
    """An entry of a flow, and its message."""
    fields = [(b"PRIORITY", b"6"), (b"_HOSTNAME", b"h"), (b"SYSLOG_IDENTIFIER", b"app"), (b"_PID", b"1"), (b"MESSAGE", b"message %d" % number)]
    return fields, b"<14>1 2026-11-27T18:30:52.%06dZ h app 1 - - message %d" % (number, number)


def journal_of(it, octets):
    """Has systemd-journal-remote put entries into a journal file."""
    os.makedirs(it.path("journal"), exist_ok=True)
    subprocess.run([REMOTE, f"--output={it.path('journal/one.journal')}", "-"], input=octets, check=True, capture_output=True)


def reader(it):
    """The option that has journalctl read these files."""
    return f"--journal=journalctl --directory={shlex.quote(it.path('journal'))}"


def wait_signed(it, count):
    """Waits until so many messages have a block."""
    return it.wait_for(lambda status: status["signed"] + status["aside"] >= count and not status["pending"])


def real_entries():
    """Each case, by a real journal file and a real journalctl, and an entry that comes while it is followed."""
    with signer("--seconds=0.1") as it:
        journal_of(it, b"".join(entry(n + 1, fields) for n, (fields, _) in enumerate(CASES)))
        wanted = [message for _, message in CASES]
        process = it.start(reader(it))
        fault = wait_signed(it, len(wanted))
        tell("entries of a journal", fault, differ("messages", it.originals(), wanted))
        fields, message = numbered(1)
        journal_of(it, entry(len(CASES) + 1, fields, 1))
        fault = wait_signed(it, len(wanted) + 1)
        status = process.end(signal.SIGTERM)
        tell("an entry that comes", fault, differ("status", status, 0), *it.clean([*wanted, message]))
        fields, second = numbered(2)
        journal_of(it, entry(len(CASES) + 2, fields, 2))
        process = it.start(reader(it))
        fault = wait_signed(it, 1)
        process.end(signal.SIGTERM)
        tell("a restart goes on after the cursor", fault, *it.clean([*wanted, message, second]))
        shown = subprocess.run(["journalctl", f"--directory={it.path('journal')}", "-n", "1", "--show-cursor"], capture_output=True, check=True)
        tell("the cursor is the one that journalctl shows", differ("cursor", it.kept("journal-cursor"), [shown.stdout.split(b"-- cursor: ")[1]]))


def real_kills():
    """Kills in full flow: no entry is lost, and what wasn't confirmed comes twice."""
    rng = random.Random(3)
    with signer("--seconds=0.1", "--messages=99") as it:
        made = [numbered(n) for n in range(ENTRIES)]
        journal_of(it, b"".join(entry(n + 1, fields, n) for n, (fields, _) in enumerate(made)))
        for at in range(KILLS):
            process = it.start(reader(it))
            it.wait_for(lambda status: status["taken"] > 20 or status["running"] and at == 0)
            time.sleep(rng.random() * .15)
            process.end(signal.SIGKILL)
        process = it.start(reader(it))
        last = made[-1][1]
        end = time.monotonic() + 30
        while time.monotonic() < end and last not in it.originals():
            time.sleep(0.1)
        it.wait_for(lambda status: not status["pending"])
        status = process.end(signal.SIGTERM)
        found = it.originals()
        tell("kills in full flow", differ("status", status, 0), *it.clean(),
             differ("messages", list(dict.fromkeys(found)), [message for _, message in made]))
        print(f"live_journal: {ENTRIES} entries, {KILLS} kills; signed twice, because the cursor wasn't kept: {len(found) - len(set(found))}")
    with signer("--seconds=0.1") as it:
        journal_of(it, b"".join(entry(n + 1, fields, n) for n, (fields, _) in enumerate(made[:5])))

        def before():
            live_journal.JournalLoop.keep_cursor = lambda self, cursor: os.kill(os.getpid(), signal.SIGKILL)

        ended = it.start(reader(it), before=before).end(signal.SIGUSR1)
        process = it.start(reader(it))
        fault = it.wait_for(lambda status: status["signed"] >= 5 and not status["pending"])
        process.end(signal.SIGTERM)
        found = it.originals()
        tell("a kill before the cursor is kept", fault, "it wasn't killed" if ended == 0 else "", *it.clean(),
             differ("messages", list(dict.fromkeys(found)), [message for _, message in made[:5]]))


def made_up():
    """Output of a command in place of journalctl: in pieces, with long fields, and what isn't of the format."""
    long_text, long_line = b"x\n" * 700000, b"y" * 1500000
    fields = [numbered(n)[0] for n in range(4)]
    octets = b"".join([entry(1, fields[0]), entry(2, [*fields[1][:4], (b"MESSAGE", long_text)]), entry(3, fields[1]),
                       entry(4, [*fields[2][:4], (b"MESSAGE", long_line)]), entry(5, fields[2]),
                       entry(6, [*fields[2][:4], (b"MESSAGE", b"z" * 1048570)]), entry(7, fields[3])])
    wanted = [numbered(n)[1].replace(b".%06d" % n, b".000000") for n in range(4)]
    with signer("--seconds=0.1") as it:
        put_command(it, octets)
        process = it.start(f"--journal={it.path('reader')}")
        fault = it.wait_for(lambda status: status["signed"] >= 4)
        status = process.end(signal.SIGTERM)
        aside = b"".join(b"".join(live_runs.split_frames(each)[0]) for each in it.kept("aside-"))
        header = b"<14>1 2026-11-27T18:30:52.000000Z h app 1 - - "
        tell("fields that are too long", fault, differ("status", status, 0), *it.clean(wanted),
             "" if aside == long_text + b"\n" + long_line + b"\n" + header + b"z" * 1048570 else f"aside {len(aside)}, {aside[-40:]}")
    small = b"".join(entry(n + 1, fields) for n, (fields, _) in enumerate(CASES))
    for size in (1, 7, 64):
        with signer("--seconds=0.1") as it:
            put_command(it, small)

            def before(size=size):
                live_journal.PIECE = size

            process = it.start(f"--journal={it.path('reader')}", before=before)
            fault = it.wait_for(lambda status: status["signed"] >= len(CASES), 60)
            process.end(signal.SIGTERM)
            tell(f"entries in pieces of {size}", fault, *it.clean([message for _, message in CASES]))
    for what, text, words in (("no field", b"what\xff is this\n", "it has to be journalctl"), ("no cursor", b"MESSAGE=x\n\n", "without a cursor"),
                              ("nothing", b"", "ended with the status 3"), ("half an entry", entry(2, fields[1])[:-9], "ended with the status 3")):
        with signer("--seconds=0.1") as it:
            put_command(it, entry(1, fields[0]) + text, end="exit 3")
            process = it.start(f"--journal={it.path('reader')}")
            status = process.end_by_itself()
            tell(f"a journal command that writes {what}", differ("status", status, 2), "" if words in process.said else process.said,
                 *([] if what in ("no field", "no cursor") else it.clean(wanted[:1])))
    with signer() as it:
        for words, said in ((["--journal=/nothing/here"], "can't be run"), (["--journal="], "is empty"), (["--journal='"], "can't read it"),
                            (["--journal=cat", "--lines"], "goes without")):
            process = it.start(*words)
            tell(f"the mistake {words}", differ("status", process.end_by_itself(), 2), "" if said in process.said else process.said)
        with open(it.path("state/journal-cursor"), "wb") as file:
            file.write(b"no cursor\n")
        process = it.start("--journal=journalctl")
        tell("a damaged cursor", differ("status", process.end_by_itself(), 2), "" if "holds no cursor" in process.said else process.said)


def put_command(it, octets, end="sleep 100"):
    """A command that writes these octets, whatever its options are, and then ends so."""
    with open(it.path("octets"), "wb") as file:
        file.write(octets)
    with open(it.path("reader"), "w", encoding="utf-8") as file:
        file.write(f"#!/bin/sh\ncat {shlex.quote(it.path('octets'))}\n{end}\n")
    os.chmod(it.path("reader"), 0o755)


def end_by_itself(self):
    """The status of a process that ends while its input is open."""
    _, ended = os.waitpid(self.child, 0)
    self.status = os.waitstatus_to_exitcode(ended)
    with contextlib.suppress(OSError):
        self.to.close()
    self.answers.close()
    return self.status


def main():
    """Makes all checks."""
    Process.end_by_itself = end_by_itself
    keys.key_fault = functools.lru_cache(keys.key_fault)
    keys.read_private_key(f"{KEYS}/private-key.pem")
    if REMOTE is None or shutil.which("journalctl") is None:
        skips.skip("live_journal", "journal files, because systemd-journal-remote or journalctl isn't here (./setup tools)")
    else:
        real_entries()
        real_kills()
    made_up()
    print(f"live_journal: {live_runs.passed} passed, {live_runs.failed} failed{skips.more()}")
    return 1 if live_runs.failed else 0


if __name__ == "__main__":
    sys.exit(main())
