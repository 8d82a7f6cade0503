#!/usr/bin/env python3
"""`ssign-keys check --trust`: two originators by one trust file. A revoked key signs nothing new, and what was seen before stays.

    check_trust.py

The last line is `check_trust: N passed, M failed`.
"""
import os
import tempfile
import time

import check_world as world
from check import Bench, fault_of
from check_world import DAY, NOW, START, read, write

passed = failed = 0


def tell(what, fault=""):
    global passed, failed
    if not fault:
        passed += 1
        return
    failed += 1
    print(f"check_trust: {what}: FAILED\n    {fault}")


def utc(seconds):
    return time.strftime("%Y-%m-%dT%H:%M:%SZ", time.gmtime(seconds))


class Trusting(Bench):
    """The world under a trust file, which is written anew for each row."""

    def trust(self, *lines):
        write(f"{self.top}/trust", "".join(f"{it}\n" for it in lines).encode())

    def verified(self):
        """Which files the memory has a verdict on, and how often."""
        with tempfile.TemporaryDirectory():
            rows = [it for name in ("alpha", "beta") for it in read(f"{self.memory}/{name}.memory").splitlines()
                    if b'"kind":"file"' in it]
        return len(rows)


def night(bench, signers, number=11):
    """Signs one more night of alpha, beside the copies of the bench."""
    alpha = signers["alpha"]
    kept, alpha.folder = (alpha.folder, alpha.before), f"{bench.logs}/alpha"
    alpha.night(number)
    alpha.folder, alpha.before = kept


def rows(bench, signers):
    alpha, beta = "alpha ssign * keys/alpha/public-key.pem", "beta ssign * keys/beta/public-key.pem"
    bench.trust(alpha, beta)
    bench.begin(with_memory=False)
    tell("all keys are named", fault_of(bench.check("--begin"), 0, ()))
    first, verdicts = bench.now, bench.verified()
    tell("nothing is verified twice", fault_of(bench.check(), 0, ()) or ("" if bench.verified() == verdicts else "it was"))

    bench.trust(beta, alpha, "gamma * * keys/stranger/public-key.pem")
    result = bench.check()
    tell("a line more, of another originator", fault_of(result, 0, ()))

    bench.trust(beta, "alpha ssign * keys/stranger/public-key.pem")
    tell("another key is named", fault_of(bench.check(), 1, ["alpha damaged"]))
    bench.trust(beta, "gamma ssign * keys/alpha/public-key.pem")
    tell("the key is named for another session alone", fault_of(bench.check(), 1, ["alpha damaged"]))
    bench.trust(alpha, beta)
    tell("the line is put back", fault_of(bench.check(), 0, ()))

    # revoked after everything was seen: what was seen before stays, and a file that comes then is a finding
    limit = bench.now + 3600
    bench.trust(f"{alpha} revoked-at={utc(limit)}", beta)
    bench.now += 2 * 3600
    tell("a key that is revoked after its files were seen", fault_of(bench.check("--read", "all"), 0, ()))
    night(bench, signers)
    result = bench.check()
    tell("a file that came after that", fault_of(result, 1, ["alpha/m-11.log.frames damaged"]))
    tell("the words name the time that was used", "" if "revoked" in result[3][0] and utc(bench.now) in result[3][0] else result[3][0])
    tell("and again: the time stays that at which it was seen first", fault_of(bench.check("--read", "all"), 1, ["alpha/m-11.log.frames damaged"]))
    bench.trust(alpha, beta)
    tell("the line without its limit", fault_of(bench.check(), 0, ()))

    # revoked before: nothing of it counts, even under a new memory
    bench.begin(with_memory=False)
    bench.trust(f"{alpha} revoked-at={utc(START)}", beta)
    result = bench.check("--begin")
    tell("a key that was revoked before", fault_of(result, 1, ["alpha damaged"]))
    tell("the words say so", "" if "its key is revoked from" in result[3][0] else result[3][0])

    # at the second before, at and after a limit
    for what, offset, status in (("a second before", -1, 1), ("at that second", 0, 1), ("a second after", 1, 0)):
        bench.begin(with_memory=False)
        bench.trust(f"{alpha} revoked-at={utc(NOW + 60 + offset)}", beta)
        result = bench.check("--begin")
        tell(f"the key was revoked {what} that of the check", fault_of(result, status, ["alpha damaged"] if status else ()))
    for what, offset, status in (("a second before", -1, 1), ("at that second", 0, 0), ("a second after", 1, 0)):
        bench.begin(with_memory=False)
        bench.trust(f"{alpha} valid-before={utc(NOW + 60 + offset)}", beta)
        result = bench.check("--begin")
        tell(f"the key ran out {what} that of the check", fault_of(result, status, ["alpha damaged"] if status else ()))

    # what is wrong with the options or the file is refused before anything is read
    for what, words, wanted in (
            ("no key", (), "no key is given: name the trust file with --trust FILE"),
            ("a key beside the file", ("--trust", f"{bench.top}/trust", "--key", f"{bench.top}/keys/alpha/public-key.pem"),
             "--trust doesn't go with a public key"),
            ("a file that isn't there", ("--trust", f"{bench.top}/absent"), "absent")):
        status, out, err = world.tool("check", bench.logs, "--memory", bench.memory, *words, now=bench.now)
        tell(what, "" if status == 2 and not out and wanted in err else f"status {status}: {err}")
    write(f"{bench.top}/trust", b"alpha ssign\n")
    status, out, err = world.tool("check", bench.logs, "--memory", bench.memory, *bench.words, now=bench.now)
    tell("a bad line", "" if status == 2 and not out and "line 1" in err else f"status {status}: {err}")
    assert first and DAY


def main():
    with tempfile.TemporaryDirectory() as top:
        os.chdir(top)
        signers = world.build(top)
        world.remember_verdicts(f"{top}/verdicts")
        rows(Trusting(top, ["--trust", f"{top}/trust"]), signers)
    print(f"check_trust: {passed} passed, {failed} failed")
    return 1 if failed else 0


if __name__ == "__main__":
    raise SystemExit(main())
