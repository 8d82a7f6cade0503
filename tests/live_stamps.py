#!/usr/bin/env python3
"""Time stamps of `ssign-keys live`, by services of openssl's own: right ones, and such that fail, hang or lie.

    live_stamps.py SSIGN KEYS

KEYS is a folder of `ssign-keys make`. tests/stamps.py makes the services. The last line is
`live_stamps: N passed, M failed`.
"""
import functools
import hashlib
import os
import re
import shlex
import signal
import subprocess
import sys
import tempfile
import time

import live_runs
from live_disks import message
from live_runs import KEYS, PROGRAM, ROOT, Process, differ, framed, signer, tell

from ssign_keys import keys, live_disk
from ssign_keys.live_engine import split_frames

SAID = re.compile(rb"<110>1 (\S+) gate\.example\.org signer - stamp - (\S+) has the SHA-256 ([0-9a-f]{64}), the time (\S+), and is of "
                  rb"counters with the SHA-256 ([0-9a-f]{64})")
OPTIONS = ("--seconds=0.1", "--messages=5")


class Services:
    """Two authorities, each with a service of its own."""

    def __init__(self, folder):
        self.folder = folder
        for name in ("trial", "other"):
            subprocess.run([sys.executable, "-B", f"{ROOT}/tests/stamps.py", "make", folder, name], check=True)

    def command(self, kind="good", name="trial"):
        """A command that answers so."""
        return shlex.join([sys.executable, "-B", f"{ROOT}/tests/stamps.py", "answer", f"{self.folder}/{name}", kind])

    def options(self, command):
        """The options of `live`."""
        return [f"--stamp-command={command}", f"--tsa-ca={self.folder}/trial/ca.pem"]


def turn(it, process, messages):
    """Has messages signed, and the file ended. Gives faults."""
    known = len(it.files())
    signed = it.status()["signed"]
    process.say(framed(messages))
    faults = [it.wait_for(lambda status: status["signed"] >= signed + len(messages) and not status["pending"])]
    os.kill(process.child, signal.SIGHUP)
    end = time.monotonic() + live_runs.PATIENCE
    while len(it.files()) == known and time.monotonic() < end:
        time.sleep(.02)
    return [*faults, differ("files", len(it.files()), known + 1)]


def wait_for_name(it, ending, count, seconds=60.0):
    """Waits for so many files of the state that end so. Gives a fault where they don't come."""
    end = time.monotonic() + seconds
    while time.monotonic() < end:
        found = [name for name in os.listdir(it.path("state")) if name.endswith(ending)]
        if len(found) >= count:
            return ""
        time.sleep(.05)
    return f"{len(found)} files {ending}, and not {count}: {sorted(os.listdir(it.path('state')))}"


def octets_of(path):
    """The octets of a file."""
    with open(path, "rb") as file:
        return file.read()


def messages_about(it):
    """The messages about time stamps: the file where one stands, and of the stamp its name, SHA-256, time, and the counters'
    SHA-256."""
    found = []
    for name in it.files():
        for each in split_frames(octets_of(os.path.join(it.path("out"), name)))[0]:
            said = SAID.fullmatch(each)
            if said:
                found.append((name, *(part.decode() for part in said.groups()[1:])))
    return found


def right(services):
    """Each ended file gets a time stamp of its counters, and a message about it; openssl and verify find both right."""
    wanted = [message(n) for n in range(12)]
    with signer(*OPTIONS, *services.options(services.command())) as it:
        process = it.start()
        faults = [it.wait_for(lambda status: status["running"])]
        for at in (0, 4, 8):
            faults += turn(it, process, wanted[at:at + 4])
            faults.append(wait_for_name(it, ".tsr", at // 4 + 1))
        status = process.end()
        tell("time stamps", *faults, differ("status", status, 0), *it.clean())
        state, said = it.path("state"), messages_about(it)
        names = [name[:-len(".frames")] for name in it.files()]
        tell("messages about time stamps", differ("names", [each[1] for each in said], [f"{name}.counters.tsr" for name in names[:3]]),
             differ("where", [each[0] for each in said], it.files()[1:]),
             *(differ("SHA-256", each[2], hashlib.sha256(octets_of(os.path.join(state, each[1]))).hexdigest()) for each in said))
        for at, (_, name, _, when, of) in enumerate(said):
            stamp, counters = (os.path.join(state, each) for each in (name, name[:-len(".tsr")]))
            by = subprocess.run(["openssl", "ts", "-verify", "-data", counters, "-in", stamp, "-CAfile",
                                 f"{services.folder}/trial/ca.pem"], capture_output=True, check=False)
            text = subprocess.run(["openssl", "ts", "-reply", "-in", stamp, "-text"], capture_output=True, check=False).stdout.decode()
            shown = re.search("^Time stamp: (.*)$", text, re.MULTILINE)[1]
            there = subprocess.run(["date", "-u", "-d", shown, "+%Y-%m-%dT%H:%M:%SZ"], capture_output=True, check=True).stdout
            files = [os.path.join(it.path("out"), each) for each in it.files()[:at + 1]]
            run = Process(["verify", f"--key={KEYS}/public-key.pem", f"--counters={counters}", f"--stamped={stamp}",
                           f"--tsa-ca={services.folder}/trial/ca.pem", f"--ssign={PROGRAM}", *files])
            os.set_blocking(run.answers.fileno(), True)
            verdict = run.answers.read(1 << 20).decode()
            tell(f"the time stamp {at + 1}", differ("openssl", by.returncode, 0), differ("the time", when, there.decode().strip()),
                 differ("of", of, hashlib.sha256(octets_of(counters)).hexdigest()), differ("verify", run.end(), 0), run.said,
                 "" if f"These counters existed at {when}, within 1 second, by the time stamp of CN=trial TSA" in verdict else verdict[-400:])
        # two times for each number: the first stamp whose counters go past it, and the last one that is numbered before it
        numbers = [int(octets_of(os.path.join(state, each[1][:-len(".tsr")])).splitlines()[-2].split()[-1]) for each in said]
        # 4 messages; then a message about the stamp before, and 4 more
        tell("what the counters count", differ("next numbers", numbers, [5, 10, 15]))


def old_file(services):
    """The path of a right time stamp of another file."""
    old, other = (os.path.join(services.folder, each) for each in ("old", "other-file"))
    with open(other, "wb") as file:
        file.write(b"another file")
    query = subprocess.run(["openssl", "ts", "-query", "-data", other, "-sha256", "-cert"], capture_output=True, check=True).stdout
    with open(old, "wb") as file:
        file.write(subprocess.run(services.command(), shell=True, input=query, stdout=subprocess.PIPE, check=True).stdout)
    return old


def wrong(services):
    """A service that fails, hangs or lies stops nothing, and is tried again at the next file."""
    old = old_file(services)
    replay = f"cat > {shlex.quote(old)}.query; cat {shlex.quote(old)}"
    for what, command, words in (("fails", "exit 3", "--stamp-command ended with the status 3"), ("says nothing", ":", "it is empty"),
                                 ("answers another file", replay, "(T1)"), ("is another's", services.command("good", "other"), "(T2)"),
                                 ("is fast", services.command("early"), "(T4)"), ("is vague", services.command("vague"), "(T4)"),
                                 ("has a critical extension", services.command("critical"), "(T3)"),
                                 ("writes without end", "yes", "more than"), ("writes errors without end", "yes >&2", "no whole answer")):
        with signer(*OPTIONS, "--tsa-seconds=3") as it:
            switch = it.path("switch")

            def put(text, switch=switch):
                with open(switch + ".new", "w", encoding="utf-8") as file:
                    file.write(text)
                os.replace(switch + ".new", switch)

            put(command)
            it.options += services.options(f". {shlex.quote(switch)}")
            process = it.start()
            faults = [it.wait_for(lambda status: status["running"])]
            for at in range(0, 8, 4):
                faults += turn(it, process, [message(n) for n in range(at, at + 4)])
                # one attempt ends before the next one begins
                end = time.monotonic() + 20
                while b"no time stamp" not in process.said.encode() and time.monotonic() < end:
                    time.sleep(.05)
            kept = [name for name in os.listdir(it.path("state")) if ".tsr" in name]
            put(services.command())
            time.sleep(.5)
            # the last attempt may go on for its 3 seconds
            end = time.monotonic() + 30
            at = 8
            while not any(name.endswith(".tsr") for name in os.listdir(it.path("state"))) and time.monotonic() < end:
                faults += turn(it, process, [message(at)])
                at += 1
                wait_for_name(it, ".tsr", 1, 4.0)
            status = process.end()
            lines = [line for line in process.said.splitlines() if "no time stamp" in line]
            tell(f"a service that {what}", *faults, differ("status", status, 0), differ("kept before", kept, []),
                 differ("lines on standard error", len(lines), 1), "" if words in "".join(lines) else process.said,
                 "no stamp at a later file" if not messages_about(it) else "", *it.clean())


def hanging(services):
    """A service that never answers: messages are signed, and the end doesn't wait for it."""
    pids = os.path.join(services.folder, "pids")
    with signer(*OPTIONS, *services.options(f"echo $$ >> {shlex.quote(pids)}; sleep 1000")) as it:
        process = it.start()
        faults = [it.wait_for(lambda status: status["running"])]
        for at in range(0, 12, 4):
            faults += turn(it, process, [message(n) for n in range(at, at + 4)])
        end = time.monotonic() + 20
        while not os.path.exists(pids) and time.monotonic() < end:
            time.sleep(.05)
        begin = time.monotonic()
        status = process.end(signal.SIGTERM)
        took = time.monotonic() - begin
        tell("a service that hangs", *faults, differ("status", status, 0), f"the end took {took:.1f} s" if took > 15 else "",
             differ("lines", process.said.count("\n"), 1), "" if "hasn't answered yet" in process.said else process.said, *it.clean(
                 [message(n) for n in range(12)]))
        time.sleep(.5)
        left = []
        for line in octets_of(pids).split():
            try:
                os.kill(int(line), 0)
                # one that nobody waits for has no words any more
                left += [line] if octets_of(f"/proc/{int(line)}/cmdline") else []
            except (OSError, ValueError):
                continue
        tell("nothing of it is left", differ("processes", left, []))


def killed(services):
    """A kill before a time stamp gets its name, and before its message: the next start has both."""
    class KilledDisk(live_disk.Disk):
        """Ends the process before a step about a time stamp."""

        at = ""

        def rename(self, where, name, other):
            if self.at == "rename" and name.endswith(".tsr.new"):
                os.kill(os.getpid(), signal.SIGKILL)
            super().rename(where, name, other)

        def append(self, where, name, octets):
            if self.at == "append" and any(".tsr" in each for each in self.names("state")):
                os.kill(os.getpid(), signal.SIGKILL)
            super().append(where, name, octets)

        def read(self, where, name, offset, most):
            if self.at == "read" and name.endswith(".tsr.new"):
                os.kill(os.getpid(), signal.SIGKILL)
            return super().read(where, name, offset, most)

    for step, most in (("rename", 2), ("append", 1), ("read", 1)):
        with signer(*OPTIONS, *services.options(services.command())) as it:
            def before(step=step):
                live_runs.live.Disk = KilledDisk
                KilledDisk.at = step

            process = it.start(before=before)
            faults = [it.wait_for(lambda status: status["running"])]
            faults += turn(it, process, [message(n) for n in range(4)])
            end = time.monotonic() + 30
            while process.status is None and time.monotonic() < end:
                child, ended = os.waitpid(process.child, os.WNOHANG)
                process.status = os.waitstatus_to_exitcode(ended) if child else None
                time.sleep(.05)
            faults.append(differ("killed", process.status, -signal.SIGKILL))
            process.to.close()
            names = [name for name in os.listdir(it.path("state")) if ".tsr" in name]
            faults.append("" if len(names) == 1 and names[0].endswith(".tsr.new") else f"{names}")
            run = it.run(b"")
            names = [name for name in os.listdir(it.path("state")) if ".tsr" in name]
            said = messages_about(it)
            tell(f"killed before the {step}", *faults, differ("status", run.status, 0),
                 "" if len(names) == 1 and names[0].endswith(".tsr") else f"{names}",
                 "" if 1 <= len(said) <= most else f"{said}", *it.clean())
    with signer(*OPTIONS, *services.options(services.command())) as it:
        it.run(framed([message(0)]))
        name = it.files()[0].replace(".frames", ".counters")
        for ending, text in (("", b"count x x x 1 1\nend 1\n"), (".tsr.new", octets_of(old_file(services)))):
            with open(os.path.join(it.path("state"), name + ending), "wb") as file:
                file.write(text)
        run = it.run(framed([message(1)]))
        names = [each for each in os.listdir(it.path("state")) if ".tsr" in each]
        tell("a stamp of another file that somebody put there", differ("status", run.status, 0), differ("names", names, [f"bad-{name}.tsr.new"]),
             differ("messages", messages_about(it), []), "" if "it is of another file" in run.said else run.said)


def sessions(services):
    """The last file of a session that ends gets a time stamp too."""
    with signer(*OPTIONS, *services.options(services.command())) as it:
        it.run(framed([message(0)]))
        process = it.start("--new-session")
        faults = [it.wait_for(lambda status: status["running"]), wait_for_name(it, ".tsr", 1)]
        faults.append(it.wait_for(lambda status: status["signed"] >= 1))
        status = process.end()
        tell("the last file of a session", *faults, differ("status", status, 0),
             differ("stamped", [each[1] for each in messages_about(it)], [it.files()[0].replace(".frames", ".counters.tsr")]), *it.clean(
                 sessions=2))


def mistakes(services):
    """Options that don't go together."""
    for options, words in (((f"--stamp-command={services.command()}",), "--tsa-ca CA.pem"),
                           ((f"--tsa-ca={services.folder}/trial/ca.pem",), "name the service"),
                           ((f"--tsa-ca-anchor={services.folder}/trial/tsa.pem",), "name the service"),
                           (("--tsa=http://x", f"--tsa-ca={services.folder}/trial/tsa.pem"), "self-issued"),
                           (("--tsa=ftp://x", f"--tsa-ca={services.folder}/trial/ca.pem"), "no address"),
                           (("--tsa=http://x", f"--tsa-ca={services.folder}/none.pem"), "none.pem"),
                           (("--tsa=http://x", "--stamp-command=x", f"--tsa-ca={services.folder}/trial/ca.pem"), "not allowed with")):
        with signer() as it:
            run = it.run(b"", *options)
            tell(f"the mistake {options[0]}", differ("status", run.status, 2), "" if words in run.said else run.said,
                 "a traceback" if "Traceback" in run.said else "", "a state was begun" if os.path.exists(it.path("state")) else "")


def main():
    """Makes all checks."""
    keys.key_fault = functools.lru_cache(keys.key_fault)
    keys.read_private_key(f"{KEYS}/private-key.pem")
    with tempfile.TemporaryDirectory() as folder:
        services = Services(folder)
        for it in (right, wrong, hanging, killed, sessions, mistakes):
            it(services)
    print(f"live_stamps: {live_runs.passed} passed, {live_runs.failed} failed")
    return 1 if live_runs.failed else 0


if __name__ == "__main__":
    sys.exit(main())
