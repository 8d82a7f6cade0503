#!/usr/bin/env python3
"""`ssign-keys check` with time stamps beside signed files: what they show, damages to them, and revoked keys by their time.

    check_stamps.py [WORDS..]    only the tests whose names hold one of these words

The time stamps are put together by tests/stamps.py, for any time. What is wanted is written by hand.
The last line is `check_stamps: N passed, M failed`.
"""
import calendar
import gzip
import json
import os
import sys
import tempfile
import time

import check_world as world
import stamps
from check import Bench, fault_of, night
from check_world import DAY, NOW, START, copy, read, write

passed = failed = 0
# ten minutes after night 8
AT = START + 8 * DAY + 600


def tell(what, fault=""):
    global passed, failed
    if not fault:
        passed += 1
        return
    failed += 1
    print(f"check_stamps: {what}: FAILED\n    {fault}")


def utc(seconds):
    return time.strftime("%Y-%m-%dT%H:%M:%SZ", time.gmtime(seconds))


def finding(name):
    return f"alpha/{name}.tsr stamp"


class Stamping(Bench):
    """The world, whose files get time stamps."""

    def stamp(self, name, when=AT, of="", tsa="trial", to="", **given):
        """A time stamp of a file of alpha's beside it, of this time by this service. `of` is another file that it is of."""
        with open(f"{self.logs}/alpha/{of or name}", "rb") as file:
            sha256 = world.sha256(file.read())
        text = time.strftime("%Y%m%d%H%M%S", time.gmtime(int(when))) + f"{when % 1:.1f}Z"[1:].replace(".0Z", "Z")
        write(f"{self.logs}/alpha/{to or name}.tsr", stamps.token(f"{self.top}/{tsa}", sha256, {"time": text, **given}))

    def checked(self, *words):
        """A check that knows the authority of the right service."""
        return self.check("--tsa-ca", f"{self.top}/trial/ca.pem", *words)

    def trust(self, limits=""):
        """The trust file: what its line for alpha's key ends with."""
        text = f"alpha ssign * keys/alpha/public-key.pem {limits}\nbeta ssign * keys/beta/public-key.pem\n"
        write(f"{self.top}/trust", text.encode())


def line_of(result):
    """The lines about time stamps."""
    return [it for it in result[3] if it.startswith("stamp: ")]


def lacking(words, result):
    """What is wrong with a result that should have these words."""
    return "" if words in "\n".join(result[3]) else f"'{words}' isn't in {result[3]}"


def is_line(what, result, wanted):
    tell(what, "" if line_of(result) == [f"stamp: {it}" for it in wanted] else f"{line_of(result)}, not {wanted}")


# ---- what they show

def shown(bench):
    by = "by the time stamp {}.tsr of CN=trial TSA,O=Trial"
    bench.begin()
    before = bench.check("--head")
    tell("no time stamp, and an authority", "" if bench.checked("--head")[3] == before[3] else "the output differs")
    bench.stamp(night(8))
    result = bench.checked()
    tell("a time stamp", fault_of(result, 0, ()))
    wanted = f"alpha: 10 files up to {night(8)} existed at {utc(AT)}, {by.format(night(8))}; 2 later files have none"
    is_line("a time stamp: its line", result, [wanted])
    is_line("a time stamp, and again", bench.checked(), [wanted])
    rows = read(f"{bench.memory}/alpha.memory").count(b'"kind":"stamp"')
    tell("it stands in the memory once", "" if rows == 1 else f"{rows}")
    is_line("all are read", bench.checked("--read", "all"), [wanted])
    result = bench.check()
    tell("no authority is given", fault_of(result, 0, ()))
    wanted_end = "15 files of 2 originators: clean, 1 time stamp not checked without --tsa-ca"
    tell("no authority is given: the last line", "" if result[3] == [wanted_end] else f"{result[3]}")
    status, out, _ = world.tool("check", bench.logs, "--memory", bench.memory, *bench.words, "--json", "--tsa-ca",
                                f"{bench.top}/trial/ca.pem", "--status", f"{bench.top}/try/status", now=bench.now + 60)
    wanted = {"name": night(8), "sha256": world.sha256(read(f"{bench.logs}/alpha/{night(8)}")), "time": utc(AT),
              "service": "CN=trial TSA,O=Trial", "stamp": f"{night(8)}.tsr", "files": 10, "later": 2, "judged": 0}
    rows = [json.loads(it) for it in out.splitlines()]
    tell("as JSON", "" if status == 0 and rows[0].get("stamped") == wanted and "stamped" not in rows[1] else f"{rows}")
    rows = json.loads(read(f"{bench.top}/try/status"))["originators"]
    tell("in the status file", "" if rows[0].get("stamped") == wanted and "stamped" not in rows[1] else f"{rows}")
    # an earlier one covers what it covers, and the newest one is shown
    bench.stamp(night(3), START + 3 * DAY + 60)
    bench.stamp(night(10), START + 10 * DAY + 60, after="all")
    wanted = f"alpha: 12 files up to {night(10)} existed at {utc(START + 10 * DAY + 60)}, within 1.002003 seconds, "
    is_line("three time stamps", bench.checked(), [wanted + by.format(night(10))])
    # of two of one file, the earlier one counts
    bench.begin()
    bench.stamp(night(1), START + DAY + 60)
    bench.stamp(night(1), START + DAY + 30, to=f"{night(1)}.gz")
    wanted = f"alpha: {night(1)} existed at {utc(START + DAY + 30)}, {by.format(night(1) + '.gz')}; 11 later files have none"
    is_line("two of one file, which is the first one", bench.checked(), [wanted])
    # compressed files keep their stamps
    bench.begin()
    bench.stamp(night(8))
    bench.checked()
    path = f"{bench.logs}/alpha/{night(8)}"
    write(f"{path}.gz", gzip.compress(read(path)))
    os.remove(path)
    wanted = f"alpha: 10 files up to {night(8)} existed at {utc(AT)}, {by.format(night(8))}; 2 later files have none"
    result = bench.checked()
    tell("the file is compressed", fault_of(result, 0, ()))
    is_line("the file is compressed: its line", result, [wanted])


# ---- damages

def damages(bench):
    def case(what, damage, words, names=None, seen=False, more=()):
        """A damage to time stamps: the names of its findings, and words of the line. `seen` is whether a check saw them before,
        and `more` has words of each check."""
        names = [finding(night(8))] if names is None else names
        bench.begin()
        bench.stamp(night(8))
        copy(bench.logs, f"{bench.top}/try/good")
        if seen:
            tell(f"{what}: before", fault_of(bench.checked(*more), 0, ()))
        damage()
        result = bench.checked(*more)
        tell(what, fault_of(result, 1, names) or lacking(words, result))
        tell(f"{what}, and again", fault_of(bench.checked(*more), 1, names))
        accepts = [it for one in names for it in ("--accept", one)]
        tell(f"{what}, and accepted", fault_of(bench.checked(*accepts, "--why", "known", *more), 0, (), names))
        tell(f"{what}, accepted before", fault_of(bench.checked(*more), 0, (), names))
        copy(f"{bench.top}/try/good", bench.logs)
        tell(f"{what}, and put back", fault_of(bench.checked(*more), 0, ()))
        damage()
        tell(f"{what}, and once more", fault_of(bench.checked(*more), 1, names))

    there = f"{bench.logs}/alpha/{night(8)}"
    stamp = f"{there}.tsr"
    case("a stamp of another file", lambda: bench.stamp(night(8), of=night(7)), "isn't of the signed file beside it")
    case("a stamp of another file, after the right one was seen", lambda: bench.stamp(night(8), of=night(7)), "(T1)", seen=True)
    case("a stamp by another service", lambda: bench.stamp(night(8), tsa="other"), "no authority of --tsa-ca vouches for")
    case("a stamp after the certificate had run out", lambda: bench.stamp(night(8), tsa="brief"), "certificate has expired",
         more=("--tsa-ca", f"{bench.top}/brief/ca.pem"))
    case("a stamp of a time that isn't yet", lambda: bench.stamp(night(8), NOW + 300 * DAY), "one of the two is wrong (T4)")
    case("a vague stamp", lambda: bench.stamp(night(8), after="more"), "its accuracy is worse than one day (T4)")
    case("an octet of a stamp is changed", lambda: write(stamp, flipped(read(stamp))), "(T2)")
    case("a stamp that was seen is changed", lambda: write(stamp, flipped(read(stamp))), "(T2)", seen=True)
    case("a stamp is cut", lambda: write(stamp, read(stamp)[:-1]), "(T3)", seen=True)
    case("an empty stamp", lambda: write(stamp, b""), "it is empty (T3)")
    case("a page in place of a stamp", lambda: write(stamp, b"<html>"), "(T3)")
    for what, make in (("a pipe", os.mkfifo), ("a folder", os.mkdir)):
        case(f"{what} in place of a stamp", lambda make=make: (os.remove(stamp), make(stamp)), "is no regular file")
        (os.rmdir if os.path.isdir(stamp) else os.remove)(stamp)
    case("a stamp is removed that was seen", lambda: os.remove(stamp),
         f"it isn't there any more: it showed that its file existed at {utc(AT)}", seen=True)
    case("a later stamp in place of an earlier one", lambda: bench.stamp(night(8), AT + 1), "it isn't there any more",
         seen=True)
    case("a stamp without its file", lambda: bench.stamp(night(8), to="m-99.log.frames"), "which isn't there",
         [finding("m-99.log.frames")])
    # what is wrong with the file is one finding, and the time stamp adds none
    case("the file is changed", lambda: write(there, read(there).replace(b"message 2 ", b"message 9 ")), "",
         [f"alpha/{night(8)} damaged"], seen=True)
    case("the file is gone", lambda: os.remove(there), "", [f"alpha/{night(8)} missing"], seen=True)
    bench.begin()
    bench.stamp(night(8))
    os.remove(stamp)
    tell("a stamp that no check saw is removed", fault_of(bench.checked(), 0, ()))
    # a service that the reviewer doesn't trust any more
    bench.begin()
    bench.stamp(night(8))
    bench.checked()
    tell("another authority is given", fault_of(bench.check("--tsa-ca", f"{bench.top}/other/ca.pem"), 1, [finding(night(8))]))
    tell("both are given", fault_of(bench.checked("--tsa-ca", f"{bench.top}/other/ca.pem"), 0, ()))
    # one whose certificate ran out after the stamp
    bench.begin()
    bench.stamp(night(8), int(time.time()), tsa="brief")
    tell("a certificate that ran out after the stamp", fault_of(bench.check("--tsa-ca", f"{bench.top}/brief/ca.pem"), 0, ()))
    # what may be removed because it is old
    bench.begin()
    bench.stamp(night(1), START + DAY + 60)
    bench.checked()
    bench.now += 401 * DAY
    os.remove(f"{bench.logs}/alpha/{night(1)}.tsr")
    tell("an old stamp is removed", fault_of(bench.checked("--keep", "400d"), 0, ()))
    tell("without --keep it is a finding", fault_of(bench.checked(), 1, [finding(night(1))]))
    bench.stamp(night(1), START + DAY + 60)
    os.remove(f"{bench.logs}/alpha/{night(1)}")
    tell("an old file is removed, and its stamp stays", fault_of(bench.checked("--keep", "400d"), 0, ()))
    # what a refusal names
    for what, path, wanted in (("no file of an authority", f"{bench.top}/absent", "absent can't be read"),
                               ("no authority for time stamps", f"{bench.top}/trial/inter.pem",
                                "no certificate of --tsa-ca is self-issued")):
        words = ("--memory", bench.memory, *bench.words, "--tsa-ca", path)
        status, out, err = world.tool("check", bench.logs, *words, now=bench.now)
        tell(what, "" if status == 2 and not out and wanted in err and err.count("\n") == 1 else f"status {status}: {err}")


def flipped(octets):
    """A stamp whose signature has another octet."""
    return octets[:-5] + bytes((octets[-5] ^ 1,)) + octets[-4:]


# ---- keys that are revoked

def revoked(bench):
    limit = START + 9 * DAY
    later = [f"alpha/{night(it)} damaged" for it in (9, 10)]

    def begun(what, names, when=None, name=night(8), words="", **given):
        """A new memory, long after the key was revoked, with a stamp of this time. Gives the result."""
        bench.trust(f"revoked-at={utc(limit)}")
        bench.begin(with_memory=False)
        if when is not None:
            bench.stamp(name, when, **given)
        result = bench.checked("--begin")
        tell(what, fault_of(result, 1 if names else 0, names) or lacking(words, result))
        return result

    begun("no stamp", ["alpha damaged"])
    result = begun("a stamp before the key was revoked", later, AT)
    is_line("a stamp before: its line", result, [
        f"alpha: 10 files up to {night(8)} existed at {utc(AT)}, by the time stamp {night(8)}.tsr of CN=trial TSA,O=Trial; "
        "10 files are judged by time stamps, because a check saw them first later"])
    tell("the words of a later file name the time that was used",
         "" if any(f"judged at {utc(bench.now)}, when a check saw it first" in it for it in result[3]) else f"{result[3]}")
    tell("and again", fault_of(bench.checked("--read", "all"), 1, later))
    verdicts = read(f"{bench.memory}/alpha.memory").count(b'"kind":"file"')
    tell("each was verified once", "" if verdicts == 12 else f"{verdicts}")
    tell("no authority is given", fault_of(bench.check(), 1, ["alpha damaged"]))
    tell("it is given again", fault_of(bench.checked(), 1, later))
    os.remove(f"{bench.logs}/alpha/{night(8)}.tsr")
    tell("the stamp is removed", fault_of(bench.checked(), 1, ["alpha damaged", finding(night(8))]))
    bench.stamp(night(8), AT)
    tell("the stamp is put back", fault_of(bench.checked(), 1, later))
    bench.stamp(night(8), AT, of=night(7))
    tell("it is of another file", fault_of(bench.checked(), 1, ["alpha damaged", finding(night(8))]))
    begun("a stamp after the key was revoked", ["alpha damaged"], limit + 60, words="none of its 12 files is signed by a key")
    begun("a stamp at that second", ["alpha damaged"], limit)
    begun("a stamp a second before", later, limit - 1)
    begun("a stamp half a second before", ["alpha damaged"], limit - 0.5)
    begun("a stamp a second before, that may be a second late", ["alpha damaged"], limit - 1, after="all")
    begun("a stamp of the newest file", (), limit - 1, night(10))
    # the words of a file that is judged by a stamp: here one that comes too late
    bench.trust(f"revoked-at={utc(limit)}")
    bench.begin(with_memory=False)
    bench.stamp(night(7), limit - 60)
    bench.stamp(night(8), limit + 60)
    result = bench.checked("--begin")
    names = [f"alpha/{night(it)} damaged" for it in (8, 9, 10)]
    words = f"its key is revoked from {utc(limit)} on, judged at {utc(limit + 60)}, by the time stamp {night(8)}.tsr"
    # the beat of night 7 comes after its log
    names.append(f"alpha/{world.BEAT} damaged")
    tell("the words name the stamp", fault_of(result, 1, names) or ("" if words in "\n".join(result[3]) else f"{result[3]}"))
    # the same by the end of a key
    bench.trust(f"valid-before={utc(limit)}")
    for what, when, names in (("in time", limit, ()), ("too late", limit + 1, ["alpha damaged"])):
        bench.begin(with_memory=False)
        bench.stamp(night(10), when)
        tell(f"a key that ran out, and a stamp {what}", fault_of(bench.checked("--begin"), 1 if names else 0, names))
    # a stamp that comes after the files were seen, of a time before that
    bench.trust()
    bench.begin(with_memory=False)
    bench.checked("--begin")
    bench.trust(f"revoked-at={utc(limit)}")
    tell("revoked before a check saw the files", fault_of(bench.checked(), 1, ["alpha damaged"]))
    bench.stamp(night(10), limit - 60)
    tell("a stamp comes later", fault_of(bench.checked(), 0, ()))
    # what a check saw before the stamp's time is judged by the earlier time
    bench.trust(f"revoked-at={utc(NOW + DAY)}")
    bench.begin(with_memory=False)
    bench.checked("--begin")
    bench.now += 2 * DAY
    bench.stamp(night(10), NOW + DAY + 60)
    result = bench.checked("--read", "all")
    tell("a stamp after a check saw the file", fault_of(result, 0, ()))
    tell("no file is judged by it", "" if "judged" not in line_of(result)[0] else f"{line_of(result)}")
    # an edit of the memory doesn't make a stamp hold
    bench.trust(f"revoked-at={utc(limit)}")
    bench.begin(with_memory=False)
    bench.stamp(night(8), limit + 60)
    bench.checked("--begin")
    path = f"{bench.memory}/alpha.memory"
    write(path, read(path).replace(f'"latest":{limit + 60}'.encode(), f'"latest":{limit - 60}'.encode()))
    tell("an edit of the memory", fault_of(bench.checked(), 1, ["alpha damaged", "memory/alpha.memory edited"]))


# ---- stamp --folder

def newest(bench):
    """`ssign-keys stamp --folder`, with a service of openssl's own, by the clock of this machine."""
    bench.begin()
    answer = f"{sys.executable} -B {world.ROOT}/tests/stamps.py answer {bench.top}/trial good"
    ca = ("--tsa-ca", f"{bench.top}/trial/ca.pem")
    folder = f"{bench.logs}/alpha"

    def run(*words):
        return world.tool("stamp", *ca, "--tsa-command", answer, *words)

    began = int(time.time())
    status, out, err = run("--folder", folder)
    text = out.decode()
    is_right = status == 0 and text.startswith(f"{folder}/{night(10)} existed at ") and not err
    tell("the newest file is stamped", "" if is_right else f"{status} {out} {err}")
    made = sorted(it for it in os.listdir(folder) if it.endswith(".tsr"))
    tell("it stands beside the file", "" if made == [f"{night(10)}.tsr"] else f"{made}")
    when = calendar.timegm(time.strptime(text.split(" existed at ")[1][:19], "%Y-%m-%dT%H:%M:%S"))
    tell("its time is that of the run", "" if began - 1 <= when <= time.time() + 1 else text)
    octets = read(f"{folder}/{night(10)}.tsr")
    result = run("--folder", folder)
    is_right = result == (0, b"", "") and read(f"{folder}/{night(10)}.tsr") == octets
    tell("a second run has nothing to do", "" if is_right else f"{result}")
    result = bench.checked()
    tell("a check takes it", fault_of(result, 0, ()) or lacking(f"12 files up to {night(10)} existed at {utc(when)}", result))
    # the newest one is compressed: what is stamped are its octets, expanded
    os.remove(f"{folder}/{night(10)}.tsr")
    write(f"{folder}/{night(10)}.gz", gzip.compress(read(f"{folder}/{night(10)}")))
    os.remove(f"{folder}/{night(10)}")
    status, out, err = run("--folder", folder)
    is_right = status == 0 and os.path.exists(f"{folder}/{night(10)}.tsr")
    tell("a compressed file", "" if is_right else f"{status} {out} {err}")
    bench.begin()
    write(f"{folder}/{night(10)}.gz", gzip.compress(read(f"{folder}/{night(10)}")))
    os.remove(f"{folder}/{night(10)}")
    run("--folder", folder)
    tell("a check takes that too", fault_of(bench.checked(), 0, ()))
    empty = f"{bench.top}/try/empty"
    os.makedirs(empty, exist_ok=True)
    status, out, err = run("--folder", empty)
    is_right = (status, out) == (0, b"") and "has no signed file yet" in err
    tell("a folder without a signed file", "" if is_right else f"{status} {out} {err}")
    bench.begin()
    write(f"{folder}/odd.log.frames", b"hello")
    for what, words, wanted in (("no file and no folder", (), "one of the arguments FILE --folder is required"),
                                ("both", (f"{folder}/{night(1)}", "--folder", folder), "not allowed with argument"),
                                ("another name for it", ("--folder", folder, "--out", "x"), "--out doesn't go with --folder"),
                                ("a file nobody names", ("--folder", folder), "no link can be read in it"),
                                ("no folder", ("--folder", f"{bench.top}/absent"), "absent can't be opened")):
        status, out, err = run(*words)
        tell(f"stamp: {what}", "" if status == 2 and not out and wanted in err else f"{status} {out} {err}")


def main():
    with tempfile.TemporaryDirectory() as top:
        signers = world.build(top)
        for it in ("trial", "other"):
            stamps.make(top, it)
        stamps.certify(top, "brief", "brief TSA", 3600)
        words = [it for name in ("alpha", "beta") for it in ("--key", f"{top}/keys/{name}/public-key.pem")]
        world.warm(words[1::2])
        world.remember_verdicts(f"{top}/verdicts")
        bench = Stamping(top, words)
        bench.begin(with_memory=False)
        tell("the first check", fault_of(bench.check("--begin"), 0, ()))
        copy(bench.memory, f"{top}/memory")
        trusting = Stamping(top, ["--trust", f"{top}/trust"])
        assert signers
        for test, given in ((shown, bench), (damages, bench), (newest, bench), (revoked, trusting)):
            if len(sys.argv) < 2 or any(it in test.__name__ for it in sys.argv[1:]):
                test(given)
    print(f"check_stamps: {passed} passed, {failed} failed")
    return 1 if failed or not passed else 0


if __name__ == "__main__":
    sys.exit(main())
