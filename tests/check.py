#!/usr/bin/env python3
"""What `ssign-keys check` finds of damages to signed files, logs and folders, with its memory and where that is lost.

    check.py [WORDS..]       only the damages whose names hold one of these words

Each damage is done to a copy of two originators' folders. The names of the findings are written by hand. Then come the acts:
what was damaged is put back, and nothing is left; or all is accepted, and the status is 0 until it is put back and damaged
again.
The last line is `check: N passed, M failed`.
"""
import collections
import gzip
import lzma
import os
import shutil
import socket
import subprocess
import sys
import tempfile

import check_world as world
from check_world import BEAT, DAY, NOW, START, copy, read, write

passed = failed = 0
WORKERS = 4
SAME = object()
BACK, ACCEPT, BOTH = {"back"}, {"accept"}, {"back", "accept"}
# `left` are the findings where what was put in is accepted and then taken out: what was accepted is known from then on
Row = collections.namedtuple("Row", "what damage found lost acts words left")


def tell(what, fault=""):
    global passed, failed
    if not fault:
        passed += 1
        return
    failed += 1
    print(f"check: {what}: FAILED\n    {fault}")


# ---- damages: each takes the folder of all logs

def night(number):
    return f"m-{number:02}.log.frames"


def rm(*names, originator="alpha"):
    def act(logs):
        for name in names:
            os.remove(f"{logs}/{originator}/{name}")
    return act


def edit(name, change, originator="alpha"):
    def act(logs):
        path = f"{logs}/{originator}/{name}"
        octets = read(path)
        changed = change(octets)
        assert changed != octets, name
        seen = os.stat(path)
        write(path, changed)
        # a log that is damaged looks as old as before
        os.utime(path, (seen.st_atime, seen.st_mtime))
    return act


def rename(name, other):
    return lambda logs: os.rename(f"{logs}/alpha/{name}", f"{logs}/alpha/{other}")


def swap(*names):
    def act(logs):
        folder = f"{logs}/alpha"
        for name in names:
            os.rename(f"{folder}/{name}", f"{folder}/{name}.aside")
        for name, other in zip(names, [*names[1:], names[0]]):
            os.rename(f"{folder}/{name}.aside", f"{folder}/{other}")
    return act


def duplicate(name, other, change=lambda it: it):
    return lambda logs: write(f"{logs}/alpha/{other}", change(read(f"{logs}/alpha/{name}")))


def add(name, octets, when=None):
    def act(logs):
        write(f"{logs}/alpha/{name}", octets)
        if when is not None:
            os.utime(f"{logs}/alpha/{name}", (when, when))
    return act


def pack(name, ending=".gz", after=lambda it: it):
    def act(logs):
        path = f"{logs}/alpha/{name}"
        seen = os.stat(path)
        octets = read(path)
        packed = gzip.compress(octets) if ending == ".gz" else lzma.compress(octets) if ending == ".xz" else \
            subprocess.run(["zstd", "-qc"], input=octets, capture_output=True, check=True).stdout
        os.remove(path)
        write(path + ending, after(packed))
        os.utime(path + ending, (seen.st_atime, seen.st_mtime))
    return act


def replaced(name, make, link=""):
    def act(logs):
        path = f"{logs}/alpha/{name}"
        os.remove(path)
        make(path)
    return act


def make_socket(path):
    with socket.socket(socket.AF_UNIX) as it:
        here = os.getcwd()
        os.chdir(os.path.dirname(path))
        it.bind(os.path.basename(path))
        os.chdir(here)


def both(*acts):
    def act(logs):
        for it in acts:
            it(logs)
    return act


def frames(octets):
    """The frames of a log."""
    found = []
    while octets:
        length, _, rest = octets.partition(b" ")
        found.append(octets[:len(length) + 1 + int(length)])
        octets = rest[int(length):]
    return found


def reframed(change):
    return lambda octets: b"".join(change(frames(octets)))


def message_of(text):
    """Where the frame with this text stands."""
    return lambda them: next(number for number, it in enumerate(them) if text in it)


def dropped(text):
    return reframed(lambda them: [it for it in them if text not in it])


def without_last_block(them):
    last = max(number for number, it in enumerate(them) if b"[ssign " in it)
    return them[:last] + them[last + 1:]


def swapped_messages(them):
    one, two = message_of(b"message 2 ")(them), message_of(b"message 3 ")(them)
    them[one], them[two] = them[two], them[one]
    return them


def doubled(them):
    one = message_of(b"message 2 ")(them)
    return [*them[:one], them[one], *them[one:]]


def inserted(them):
    return [*them[:4], b"40 <13>1 - alpha app - - - a false message...", *them[4:]]


def flipped(octets):
    place = octets.index(b'SIGN="') + 30
    return octets[:place] + (b"B" if octets[place:place + 1] == b"A" else b"A") + octets[place + 1:]


def after_gap(octets, text):
    place = octets.index(text) + len(text) + 20
    return octets[:place] + (b"B" if octets[place:place + 1] == b"A" else b"A") + octets[place + 1:]


# ---- what signers make

class Made:
    """Signed files that damages put in, each made once."""

    def __init__(self, signers):
        self.alpha, self.beta, self.stranger = signers["alpha"], signers["beta"], signers["stranger"]
        self._kept = {}

    def alpha_file(self, number, before, lines=None, host="alpha", signer=None, text=None, log=None, rsid=None):
        """A file of alpha's that names this file before."""
        key = (number, str(before), lines, host, signer, text, log, rsid)
        if key not in self._kept:
            it = {"stranger": self.stranger, "beta": self.beta}.get(signer, self.alpha)
            rsid = rsid or START + DAY * number
            lines = lines if lines is not None else world.lines_of(number)
            log = log or f"m-{number:02}.log"
            if text is None:
                text = world.chain_message(rsid, world.link_text(rsid, before, world.log_part(log, 0, lines, rsid)), host)
            self._kept[key] = it.octets(rsid, text + lines)
        return self._kept[key]


def before_of(logs, number):
    """How the file after this night names it."""
    name = night(number)
    return {"name": name, "rsid": START + DAY * number, "sha256": world.sha256(read(f"{logs}/alpha/{name}"))}


def rows(made, base):
    """All damages: what was done, the names of the findings, those where the memory is lost, and the acts that mend it."""
    at = {number: before_of(base, number) for number in range(1, world.NIGHTS + 1)}
    late = {"name": "m-06.log.late-1.frames", "rsid": START + DAY * 6 + 60,
            "sha256": world.sha256(read(f"{base}/alpha/m-06.log.late-1.frames"))}
    other = made.alpha_file(6, at[5], b"<13>1 - alpha app - - - other lines\n")
    next_night = made.alpha_file(11, at[10])
    found = []

    def row(what, damage, names=(), lost=SAME, acts=BOTH, words="", left=()):
        given = (names, names if lost is SAME else lost, left)
        names, lost, left = ((it,) if isinstance(it, str) else tuple(it) for it in given)
        found.append(Row(what, damage, names, lost, acts, words, left))

    # -- files that are gone
    for number in range(1, 10):
        row(f"night {number} is deleted", rm(night(number)), f"alpha/{night(number)} missing")
    row("the newest night is deleted", rm(night(10)), f"alpha/{night(10)} cut", ())
    # with the memory lost, the log of night 9 is without its signed file for longer than 26 hours; that of night 10 isn't
    row("the last two nights are deleted", rm(night(9), night(10)), f"alpha/{night(10)} cut", "alpha/m-09.log unsigned",
        words="2 files aren't there")
    row("the last two nights are deleted with their logs", rm(night(9), night(10), "m-09.log", "m-10.log"),
        f"alpha/{night(10)} cut", ())
    row("the last three nights are deleted", rm(*map(night, (8, 9, 10))), f"alpha/{night(10)} cut", "alpha/m-09.log unsigned",
        words="m-08.log.frames, m-09.log.frames, m-10.log.frames")
    row("two nights that follow one another are deleted", rm(night(3), night(4)), f"alpha/{night(4)} missing")
    row("two nights apart are deleted", rm(night(2), night(8)), [f"alpha/{night(2)} missing", f"alpha/{night(8)} missing"])
    row("a night and the newest are deleted", rm(night(2), night(10)), [f"alpha/{night(2)} missing", f"alpha/{night(10)} cut"],
        f"alpha/{night(2)} missing")
    row("the first five are deleted", rm(*map(night, range(1, 6))), f"alpha/{night(5)} missing")
    row("all but the newest are deleted", rm(*map(night, range(1, 10)), "m-06.log.late-1.frames", BEAT),
        f"alpha/{night(9)} missing", words="names it as the file before")
    row("every signed file is deleted", rm(*map(night, range(1, 11)), "m-06.log.late-1.frames", BEAT), "alpha gone",
        # a folder of logs that no signer knows
        ["alpha/m-09.log unsigned"])
    row("the beat is deleted", rm(BEAT), f"alpha/{BEAT} missing")
    row("the file of late lines is deleted", rm("m-06.log.late-1.frames"), "alpha/m-06.log.late-1.frames missing")
    row("a night has a hidden name", rename(night(5), f".{night(5)}"), f"alpha/{night(5)} missing")
    row("a night has another ending, which makes it a log", rename(night(4), f"{night(4)}.bak"),
        [f"alpha/{night(4)} missing", f"alpha/{night(4)}.bak unsigned"])
    row("a night lies in a folder below", both(lambda logs: os.mkdir(f"{logs}/alpha/old"), rename(night(4), f"old/{night(4)}")),
        f"alpha/{night(4)} missing")
    row("a night lies in the folder of another originator",
        lambda logs: os.rename(f"{logs}/alpha/{night(4)}", f"{logs}/beta/{night(4)}"),
        [f"alpha/{night(4)} missing", f"beta/{night(4)} begins"], acts=BACK)

    # -- octets
    damaged6 = f"alpha/{night(6)} damaged"
    row("a letter of a message is changed", edit(night(6), lambda it: it.replace(b"message 3", b"message 8", 1)), damaged6)
    row("a letter of the chain message is changed", edit(night(6), lambda it: it.replace(b'"rsid":', b'"rsiD":', 1)), damaged6)
    row("a digit of a link is changed", edit(night(6), lambda it: it.replace(b'"start":0', b'"start":1', 1)), damaged6)
    row("a signature is changed", edit(night(6), flipped), damaged6)
    row("a hash is changed", edit(night(6), lambda it: after_gap(it, b'HB="')), damaged6)
    row("a payload is changed", edit(night(6), lambda it: after_gap(it, b'FRAG="2')), damaged6)
    row("an octet is added at the end", edit(night(6), lambda it: it + b"x"), damaged6)
    row("a line feed is added at the end", edit(night(6), lambda it: it + b"\n"), damaged6)
    row("the first octet is gone", edit(night(6), lambda it: it[1:]), damaged6)
    row("the end is cut", edit(night(6), lambda it: it[:-900]), damaged6)
    row("a file is cut at its half", edit(night(6), lambda it: it[:len(it) // 2]), damaged6)
    row("a file is emptied", edit(night(6), lambda it: b""), damaged6)
    row("zeros stand in the place of all octets", edit(night(6), lambda it: bytes(len(it))), damaged6)
    row("zeros stand in the place of some octets", edit(night(6), lambda it: it[:1500] + bytes(200) + it[1700:]), damaged6)
    row("a message is taken out", edit(night(6), dropped(b"message 3")), damaged6)
    row("the chain message is taken out", edit(night(6), dropped(b" chain - ")), damaged6)
    row("a message stands twice", edit(night(6), reframed(doubled)), damaged6)
    row("two messages are swapped", edit(night(6), reframed(swapped_messages)), damaged6)
    row("a message is put in", edit(night(6), reframed(inserted)), damaged6)
    row("the last signature block is taken out", edit(night(6), reframed(without_last_block)), damaged6)
    row("all blocks are taken out", edit(night(6), dropped(b"[ssign")), damaged6)
    row("a letter of the newest is changed", edit(night(10), lambda it: it.replace(b"message 3", b"message 8", 1)),
        f"alpha/{night(10)} damaged")
    row("a letter of the first is changed", edit(night(1), lambda it: it.replace(b"message 3", b"message 8", 1)),
        f"alpha/{night(1)} damaged")
    row("a letter of late lines is changed", edit("m-06.log.late-1.frames", lambda it: it.replace(b"- late", b"- lATe", 1)),
        "alpha/m-06.log.late-1.frames damaged")
    row("the beat is cut", edit(BEAT, lambda it: it[:-40]), f"alpha/{BEAT} damaged")
    row("a text stands in the place of a night", edit(night(6), lambda it: b"hello\n" * 20), damaged6)
    row("a night is changed, and the one before it is deleted",
        both(edit(night(4), lambda it: it.replace(b"message 3", b"message 8", 1)), rm(night(3))),
        [f"alpha/{night(4)} damaged", f"alpha/{night(3)} missing"])
    row("two nights are changed", both(edit(night(6), lambda it: it[:-900]), edit(night(2), lambda it: it[:-900])),
        [f"alpha/{night(2)} damaged", damaged6])
    row("all nights of an originator are emptied",
        both(*(edit(f"b-{number:02}.log.frames", lambda it: b"", "beta") for number in (8, 9, 10))), "beta damaged")

    # -- other files in the place of one
    row("a stranger signs a night again", edit(night(6), lambda it: made.alpha_file(6, at[5], signer="stranger")), damaged6)
    row("the signer signs a night again with other lines", edit(night(6), lambda it: other), f"alpha/{night(6)} changed",
        words="validly signed")
    row("the newest is signed again with other lines",
        edit(night(10), lambda it: made.alpha_file(10, at[9], b"<13>1 - alpha app - - - x\n")),
        # the log is that of the file that was seen
        f"alpha/{night(10)} changed", "alpha/m-10.log log")
    row("the newest is signed again with other lines, and the signer goes on",
        both(edit(night(10), lambda it: made.alpha_file(10, at[9], b"<13>1 - alpha app - - - x\n")),
             lambda logs: write(f"{logs}/alpha/{night(11)}", made.alpha_file(11, before_of(logs, 10)))),
        f"alpha/{night(10)} changed", "alpha/m-10.log log", acts=ACCEPT, words=f"{night(11)} goes on from it, so keep it")
    row("the newest was signed again, the signer went on, and the first one is put back",
        add(night(11), made.alpha_file(11, {"name": night(10), "rsid": START + DAY * 10 + 7, "sha256": "cd" * 32})),
        f"alpha/{night(10)} missing", f"alpha/{night(10)} changed", acts=ACCEPT, words="another file has its name")
    row("a night is a copy of another", duplicate(night(5), night(4)), f"alpha/{night(4)} changed",
        words="has the octets of m-05")
    row("the newest is a copy of the one before", duplicate(night(9), night(10)), f"alpha/{night(10)} changed",
        [f"alpha/{night(10)} twice"])
    row("two nights are one file", edit(night(4), lambda it: it + read(f"{base}/alpha/{night(5)}")),
        f"alpha/{night(4)} unlinked", words="several sessions")
    row("a night is signed without a chain message",
        edit(night(6), lambda it: made.alpha_file(6, None, text=b"<13>1 - alpha app - - - x\n")), f"alpha/{night(6)} unlinked")
    row("the chain message is the second",
        edit(night(6), lambda it: made.alpha_file(6, None, text=b"<13>1 - alpha app - - - x\n" + world.chain_message(
            START + DAY * 6, world.link_text(START + DAY * 6, at[5])))), f"alpha/{night(6)} unlinked")
    row("the chain message has another HOSTNAME",
        edit(night(6), lambda it: made.alpha_file(6, None, text=world.chain_message(
            START + DAY * 6, world.link_text(START + DAY * 6, at[5]), "beta"))), f"alpha/{night(6)} unlinked")
    row("the chain message has another RSID",
        edit(night(6), lambda it: made.alpha_file(6, None, text=world.chain_message(
            START + DAY * 6, world.link_text(START + DAY * 6 + 1, at[5])))), f"alpha/{night(6)} unlinked")
    row("the chain message has a blank too many",
        edit(night(6), lambda it: made.alpha_file(6, None, text=world.chain_message(
            START + DAY * 6, world.link_text(START + DAY * 6, at[5]).replace(":", ": ")))), f"alpha/{night(6)} unlinked")
    row("a stranger's chain message stands in front",
        edit(night(6), lambda it: b"%d %s" % (len(forged(at[9])), forged(at[9])) + it), damaged6)
    row("two nights change names", swap(night(3), night(4)))
    row("three nights change names", swap(night(3), night(4), night(7)))
    row("a night is gone, and another has its name", both(rm(night(3)), rename(night(4), night(3))),
        f"alpha/{night(3)} missing")

    # -- compressed files
    gz2 = f"alpha/{night(2)}"
    row("a night is compressed by gzip", pack(night(2)))
    row("a night is compressed by xz", pack(night(2), ".xz"))
    if shutil.which("zstd"):
        row("a night is compressed by zstd", pack(night(2), ".zst"))
        row("a night of zstd is cut", pack(night(2), ".zst", lambda it: it[:-9]), f"{gz2} unreadable")
    row("a compressed night is emptied", pack(night(2), after=lambda it: b""), f"{gz2} unreadable", words="it is empty")
    row("a compressed night is cut", pack(night(2), after=lambda it: it[:-9]), f"{gz2} unreadable")
    row("an octet of a compressed night is changed",
        pack(night(2), after=lambda it: it[:100] + bytes([it[100] ^ 4]) + it[101:]),
        f"{gz2} unreadable")
    row("something stands after a compressed night", pack(night(2), after=lambda it: it + b"x"), f"{gz2} unreadable")
    row("a night of xz is cut", pack(night(2), ".xz", lambda it: it[:-9]), f"{gz2} unreadable")
    row("a plain file has the name of a compressed one", rename(night(2), f"{night(2)}.gz"), f"{gz2} unreadable",
        words="it isn't compressed so")
    row("a file of gzip has the name of one of xz", both(pack(night(2)), rename(f"{night(2)}.gz", f"{night(2)}.xz")),
        f"{gz2} unreadable")
    row("a night is compressed by bzip2", rename(night(2), f"{night(2)}.bz2"), f"{gz2} unreadable", words="expand it")
    row("a compressed night lies beside the plain one", duplicate(night(2), f"{night(2)}.gz", gzip.compress),
        f"alpha/{night(2)}.gz twice")
    row("an emptied compressed night lies beside the plain one", add(f"{night(2)}.gz", b""), f"alpha/{night(2)}.gz unreadable")
    row("a compressed night has the octets of another",
        both(duplicate(night(3), f"{night(2)}.gz", gzip.compress), rm(night(2))), f"{gz2} changed")
    row("a letter is changed in a compressed night",
        both(edit(night(2), lambda it: it.replace(b"message 3", b"message 8", 1)), pack(night(2))), f"{gz2} damaged")

    # -- what is no file
    for what, make in (("a folder", os.mkdir), ("a pipe", os.mkfifo), ("a socket", make_socket),
                       ("a link that leads nowhere", lambda path: os.symlink("nowhere", path)),
                       ("a link to another night", lambda path: os.symlink(night(3), path)),
                       ("a link to the log", lambda path: os.symlink("m-09.log", path))):
        row(f"{what} stands in the place of a night", replaced(night(6), make), f"alpha/{night(6)} unreadable")
    row("a pipe has the name of another signed file", lambda logs: os.mkfifo(f"{logs}/alpha/x.log.frames"),
        "alpha/x.log.frames unreadable")

    # -- other files beside them
    row("a night is copied under another name", duplicate(night(5), "m-12.log.frames"), "alpha/m-12.log.frames twice")
    row("a night is copied under a name before it", duplicate(night(5), "a-12.log.frames"), "alpha/a-12.log.frames twice")
    row("a signed file without a link is put in",
        lambda logs: write(f"{logs}/alpha/x.frames", made.alpha_file(20, None, text=b"<13>1 - alpha app - - - x\n")),
        "alpha/x.frames unlinked", left="alpha/x.frames gone")
    row("a file of a stranger is put in",
        lambda logs: write(f"{logs}/alpha/x.frames", made.alpha_file(20, at[10], signer="stranger")), "alpha/x.frames damaged",
        left="alpha/x.frames gone")
    row("a text is put in", add("x.frames", b"hello\n"), "alpha/x.frames damaged", left="alpha/x.frames gone")
    row("an empty file is put in", add("x.frames", b""), "alpha/x.frames damaged", left="alpha/x.frames gone")
    row("the first file of another originator is put in",
        lambda logs: shutil.copy(f"{logs}/beta/b-08.log.frames", f"{logs}/alpha/b-08.log.frames"),
        "alpha/b-08.log.frames begins", words="of another signer, beta ssign -",
        left="alpha/b-08.log.frames cut")
    row("two files of another originator are put in",
        lambda logs: [shutil.copy(f"{logs}/beta/b-{it}.log.frames", f"{logs}/alpha/b-{it}.log.frames") for it in ("08", "09")],
        "alpha/b-08.log.frames begins", left="alpha/b-09.log.frames cut")
    row("a passing file is left", add(".m-11.log.frames.new", b"1234"))
    row("other files and folders lie there", both(add("README", b"x"), lambda logs: os.mkdir(f"{logs}/alpha/tools")))

    # -- the signer
    def older(logs, keep=7):
        for number in range(keep + 1, 11):
            os.remove(f"{logs}/alpha/{night(number)}")
            if number > 8:
                os.remove(f"{logs}/alpha/m-{number:02}.log")

    beat = {"name": BEAT, "rsid": START + DAY * 7 + 3600, "sha256": world.sha256(read(f"{base}/alpha/{BEAT}"))}
    on = made.alpha_file(11, beat)
    again = made.alpha_file(8, beat, b"<13>1 - alpha app - - - again\n")
    row("all is put back to night 7", older, f"alpha/{night(10)} cut", ())
    row("all is put back to night 7, and the signer goes on", both(older, add(night(11), on)),
        f"alpha/{night(10)} cut", (), ACCEPT)
    row("the signer was put back, goes on, and the files are put back", add(night(11), on), f"alpha/{night(11)} fork",
        left=f"alpha/{night(11)} cut")
    row("all is put back to night 7, and the next log has the name of one that is lost", both(older, add(night(8), again)),
        [f"alpha/{night(8)} changed", f"alpha/{night(10)} cut"], (), ACCEPT)
    row("two files say that they follow night 9",
        add("m-10b.log.frames", made.alpha_file(10, at[9], b"", log="m-10b.log", rsid=START + DAY * 10 + 5)),
        "alpha/m-10b.log.frames fork", left="alpha/m-10b.log.frames cut")
    row("two files say that they follow late lines",
        add("m-07b.log.frames", made.alpha_file(7, late, b"", log="m-07b.log", rsid=START + DAY * 7 + 5)),
        "alpha/m-07b.log.frames fork", left="alpha/m-07b.log.frames cut")
    row("the signer begins anew", add(night(11), made.alpha_file(11, None)), f"alpha/{night(11)} begins", acts=ACCEPT)
    row("the signer begins anew and goes on",
        both(add(night(11), made.alpha_file(11, None)),
             lambda logs: write(f"{logs}/alpha/{night(12)}", made.alpha_file(12, before_of(logs, 11)))),
        f"alpha/{night(11)} begins", acts=ACCEPT)
    row("all files are gone, and the signer begins anew", both(lambda logs: older(logs, 0), rm("m-06.log.late-1.frames", BEAT),
        add(night(11), made.alpha_file(11, None))), f"alpha/{night(10)} cut", (), ACCEPT)
    row("an old chain is put in", add("m-00.log.frames", made.alpha_file(0, None)), "alpha/m-00.log.frames begins",
        f"alpha/{night(1)} begins", ACCEPT)
    row("the next night is signed as ever", add(night(11), next_night), acts=set())
    row("the next night names a file that was never here",
        add(night(11), made.alpha_file(11, {"name": "m-10x.log.frames", "rsid": START + DAY * 10 + 7, "sha256": "ab" * 32})),
        "alpha/m-10x.log.frames missing", acts=ACCEPT)

    # -- logs
    row("a letter of a log is changed", edit("m-09.log", lambda it: it.replace(b"message 3", b"message 8")),
        "alpha/m-09.log log")
    row("a log is cut", edit("m-09.log", lambda it: it[:-40]), "alpha/m-09.log log", words="were signed")
    row("a log is emptied", edit("m-09.log", lambda it: b""), "alpha/m-09.log log")
    row("a new log has the name of a signed one, and is empty", add("m-09.log", b"", NOW - 60))
    row("a new log has the name of a signed one", add("m-09.log", b"new\n", NOW - 60))
    dated = add("m.log-20300111.frames", made.alpha_file(11, at[10], log="m.log-20300111"))
    row("a log with a date in its name is emptied", both(dated, add("m.log-20300111", b"", NOW - 60)), "alpha/m.log-20300111 log",
        acts=ACCEPT)
    row("a log with a date in its name is changed today", both(dated, add("m.log-20300111", b"new\n", NOW - 60)),
        "alpha/m.log-20300111 log", acts=ACCEPT)
    row("an old log has the octets of a signed one", add("m-09b.log", world.lines_of(9), NOW - 2 * DAY), "alpha/m-09b.log unsigned")
    row("a compressed log lies beside a signed one of its name, with other octets", add("m-09.log.gz", gzip.compress(b"other\n"),
        NOW - 2 * DAY), "alpha/m-09.log log")
    row("a log was signed twice", add("m-09.log.2.frames", made.alpha_file(11, at[10], world.lines_of(9), log="m-09.log")), acts=set())
    row("two logs of the same octets were signed", both(add("m-09b.log.frames", made.alpha_file(11, at[10], world.lines_of(9), log="m-09b.log")),
        add("m-09b.log", world.lines_of(9), NOW - 2 * DAY)), acts=set())
    row("lines are added to a log that is signed", edit("m-09.log", lambda it: it + b"late\n"), "alpha/m-09.log unsigned",
        words="its last 5 octets have no signed file")
    row("lines are added to a log today", add("m-10.log", world.lines_of(10) + b"late\n", NOW - 60))
    row("an old log has no signed file", add("m-08b.log", b"old\n", NOW - 2 * DAY), "alpha/m-08b.log unsigned")
    row("a new log has no signed file yet", add("m-11.log", b"new\n", NOW - 60))
    row("the name of an old log without a signed file has the ending of one in it", add("q.frames.log", b"old\n", NOW - 2 * DAY),
        "alpha/q.frames.log unsigned")
    row("an old log is empty", add("m-08b.log", b"", NOW - 2 * DAY))
    row("the log is removed", rm("m-09.log"))
    row("the log is compressed", pack("m-09.log"))
    row("the compressed log is emptied", pack("m-09.log", after=lambda it: b""), "alpha/m-09.log unreadable")
    row("logrotate renamed the log", rename("m-09.log", "m.log.1"))
    row("two logs change names", swap("m-09.log", "m-10.log"))
    row("a log's signed file is damaged", edit(night(9), lambda it: it[:-900]), f"alpha/{night(9)} damaged")

    # -- messages that were set aside
    aside = "alpha/m-05.log.set-aside aside"
    row("the file of what was set aside is deleted", rm("m-05.log.set-aside"), aside, words="1 message")
    row("the file of what was set aside is changed", edit("m-05.log.set-aside", lambda it: it[:-1] + b"?"), aside)
    row("the file of what was set aside is emptied", edit("m-05.log.set-aside", lambda it: b""), aside)
    row("the file of what was set aside is compressed", pack("m-05.log.set-aside"))
    row("a folder has the name of what was set aside", replaced("m-05.log.set-aside", os.mkdir),
        "alpha/m-05.log.set-aside unreadable")
    row("a night with what was set aside is deleted", rm(night(5), "m-05.log.set-aside"), f"alpha/{night(5)} missing")

    # -- originators
    row("the folder of an originator is deleted", lambda logs: shutil.rmtree(f"{logs}/beta"), "beta gone", ())
    row("the folder of an originator is emptied",
        lambda logs: [os.remove(f"{logs}/beta/{it}") for it in os.listdir(f"{logs}/beta")], "beta gone", ())
    row("another originator is there", lambda logs: shutil.copytree(f"{logs}/beta", f"{logs}/gamma"),
        ["gamma new", "gamma twice"], "gamma twice", ACCEPT)
    row("the folder of an originator has another name", lambda logs: os.rename(f"{logs}/beta", f"{logs}/delta"),
        ["beta gone", "delta new"], (), left="delta gone")
    row("an empty folder is there", lambda logs: os.mkdir(f"{logs}/gamma"), "gamma new", (), left="gamma gone")
    return found


def forged(before):
    """A chain message that nobody signed."""
    rsid = START + DAY * 6
    return world.chain_message(rsid, world.link_text(rsid, before))[:-1]


# ---- the rows

class Bench:
    """Folders and a memory that are damaged, from those of the world."""

    def __init__(self, top, words, name="try"):
        self.top, self.words = top, words
        self.logs, self.memory = f"{top}/{name}/logs", f"{top}/{name}/memory"
        self.now = NOW
        os.makedirs(f"{top}/{name}", exist_ok=True)

    def begin(self, with_memory=True):
        """All as it was."""
        copy(f"{self.top}/logs", self.logs)
        shutil.rmtree(self.memory, ignore_errors=True)
        if with_memory:
            copy(f"{self.top}/memory", self.memory)
        # the memory was begun a minute after NOW
        self.now = NOW + (600 if with_memory else 0)

    def check(self, *words):
        """Runs a check a minute later: status, open names, accepted names, all lines."""
        self.now += 60
        status, out, err = world.tool("check", self.logs, "--memory", self.memory, *self.words, *words, now=self.now)
        lines = out.decode().splitlines()
        if status > 1 or not lines:
            return status, [], [], [err]
        names = [it.partition(": ")[0] for it in lines[:-1] if not it.startswith(("accepted: ", "stamp: "))]
        accepted = [it.split(": ")[1] for it in lines[:-1] if it.startswith("accepted: ")]
        return status, sorted(names), sorted(accepted), lines


def fault_of(result, status, names, accepted=()):
    """What is wrong with a run."""
    if result[0] == status and result[1] == sorted(names) and result[2] == sorted(accepted):
        count = len(names)
        end = result[3][-1].partition(": ")[2].partition(",")[0]
        wanted = "clean" if not count else "1 finding" if count == 1 else f"{count} findings"
        return "" if end == wanted else f"the last line is {result[3][-1]}"
    seen = f"status {result[0]}, not {status}; {result[1]}, not {sorted(names)}; accepted {result[2]}"
    return "\n    ".join([seen, *result[3]])


def try_row(bench, row):
    """A row, with its acts."""
    status = 1 if row.found else 0
    bench.begin()
    row.damage(bench.logs)
    result = bench.check()
    fault = fault_of(result, status, row.found)
    if not fault and row.words and row.words not in "\n".join(result[3]):
        fault = f"'{row.words}' isn't in {result[3]}"
    tell(row.what, fault)
    if not fault:
        tell(f"{row.what}, and again", fault_of(bench.check(), status, row.found))
    if row.found and "back" in row.acts:
        copy(f"{bench.top}/logs", bench.logs)
        tell(f"{row.what}, and put back", fault_of(bench.check(), 0, ()))
    if row.found and "accept" in row.acts:
        accept_row(bench, row)
    bench.begin(with_memory=False)
    row.damage(bench.logs)
    tell(f"{row.what}, the memory lost", fault_of(bench.check("--begin"), 1 if row.lost else 0, row.lost))


def accept_row(bench, row):
    """All findings are accepted; where it is put back, that lapses, and the next damage is a finding again."""
    bench.begin()
    row.damage(bench.logs)
    bench.check()
    words = [it for name in row.found for it in ("--accept", name)]
    # a new originator that was accepted is no finding any more
    names = [it for it in row.found if not it.endswith(" new")]
    tell(f"{row.what}, and accepted", fault_of(bench.check(*words, "--why", "it is lost"), 0, (), names))
    tell(f"{row.what}, accepted before", fault_of(bench.check(), 0, (), names))
    if "back" in row.acts:
        copy(f"{bench.top}/logs", bench.logs)
        tell(f"{row.what}, accepted and put back", fault_of(bench.check(), 1 if row.left else 0, row.left))
        if not row.left:
            row.damage(bench.logs)
            tell(f"{row.what}, once more", fault_of(bench.check(), 1, row.found))


def goes_on(bench, made, base):
    """A loss that was accepted stays so where a later file names what is lost."""
    bench.begin()
    os.remove(f"{bench.logs}/alpha/{night(10)}")
    bench.check()
    name = f"alpha/{night(10)} cut"
    tell("the newest is accepted as lost", fault_of(bench.check("--accept", name, "--why", "lost"), 0, (), [name]))
    write(f"{bench.logs}/alpha/{night(11)}", made.alpha_file(11, before_of(base, 10)))
    tell("it is accepted where the next night names it", fault_of(bench.check(), 0, (), [name]))
    tell("it is accepted from then on", fault_of(bench.check(), 0, (), [name]))
    copy(f"{base}/alpha/{night(10)}", f"{bench.logs}/alpha/{night(10)}")
    tell("it lapses where the file is put back", fault_of(bench.check(), 0, ()))
    os.remove(f"{bench.logs}/alpha/{night(10)}")
    tell("the next loss is a finding", fault_of(bench.check(), 1, [f"alpha/{night(10)} missing"]))


def share(top, words, table):
    """Tries rows by several processes. Each tells what failed, and at its end how much passed."""
    global passed, failed
    ends = []
    for worker in range(WORKERS):
        end, own = os.pipe()
        if os.fork() == 0:
            passed = failed = 0
            try:
                bench = Bench(top, words, f"try-{worker}")
                for row in table[worker::WORKERS]:
                    try_row(bench, row)
                os.write(own, f"{passed} {failed}".encode())
            finally:
                sys.stdout.flush()
                os._exit(0)
        os.close(own)
        ends.append(end)
    for end in ends:
        with open(end, "rb") as file:
            counts = file.read().decode().split()
        # whoever told nothing ended early
        passed, failed = (passed + int(counts[0]), failed + int(counts[1])) if counts else (passed, failed + 1)
        os.wait()


def main():
    only = sys.argv[1:] or [""]
    with tempfile.TemporaryDirectory() as top:
        signers = world.build(top)
        words = [it for name in ("alpha", "beta") for it in ("--key", f"{top}/keys/{name}/public-key.pem")]
        world.warm(words[1::2])
        world.remember_verdicts(f"{top}/verdicts")
        bench = Bench(top, words)
        bench.begin(with_memory=False)
        tell("the first check", fault_of(bench.check("--begin"), 0, ()))
        tell("the second check", fault_of(bench.check(), 0, ()))
        copy(bench.memory, f"{top}/memory")
        made = Made(signers)
        goes_on(bench, made, f"{top}/logs")
        table = rows(made, f"{top}/logs")
        share(top, words, [row for row in table if any(it in row.what for it in only)])
        unknown = [it.what for it in table if it.found and not it.lost]
        print(f"check: {sum(bool(it.found) for it in table)} damages; with the memory lost nobody can know of {len(unknown)}:")
        for it in unknown:
            print(f"check:   {it}")
    print(f"check: {passed} passed, {failed} failed")
    return 1 if failed or not passed else 0


if __name__ == "__main__":
    sys.exit(main())
