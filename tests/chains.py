#!/usr/bin/env python3
"""Chains of originators, each of which goes on at counters that `plan --ahead` wrote for the one before, against the
originator of `origin_model.py`: 60 chains of up to ten runs, by a seed.

    chains.py PROGRAM

Each run is planned ahead, planned and signed, as frames and as lines, and all have to write what the model does, or be
refused as it is. Half of the chains wrap messages that can't be signed. Of a chain that left no number out, what was signed
is then reviewed: each message is listed, nothing is found, what is listed gives the messages back, and `ssign counters`
writes what the last `plan --ahead` wrote. The last line is `chains: N passed, M failed`.
"""
import collections
import os
import random
import subprocess
import sys
import tempfile

from origin_model import Refused
from review_runs import as_answers
from signing_model import Zeros, messages, output, want_lines
from wrap_model import original

PROGRAM = sys.argv[1]
CHAINS = 2000
PAYLOAD = "2009-05-03T14:00:39Z K S0VZ"
GROUPS = ("one", "pri", "191", "13,100,191", "0,1,2,191", "47,95,143,191")
LIMIT = 10_000_000_000
REACHED = (
    "new", "resumed", "new, no message", "resumed, no message", "skipped", "other sessions' lines", "older lines",
    "groups one", "groups pri", "groups of ranges", "copies 1", "copies 9", "two groups or more",
    "refused C5", "refused C6", "refused O2", "refused O3", "refused O8", "refused O9", "refused O9 at a place",
    "refused O11", "lines", "refused E2", "odd message", "reviewed", "reviewed with wraps")
# messages as real senders write them, none of which an originator signs without a wrap
ODD = (
    b"<34>Oct 11 22:14:15 mymachine su: 'su root' failed for lonvick on /dev/pts/8",
    b"<13>Feb  5 17:32:18 10.0.0.99 Use the BFG!",
    b"<165>Aug 24 05:34:00 CST 1987 mymachine myproc[10]: %% It's time to make the do-nuts.",
    b"<0>1990 Oct 22 10:52:01 TZ-6 scapegoat.dmz.example.org 10.1.2.3 sched[0]: That's All Folks!",
    b"<189>77: *Mar  1 18:48:50.483 UTC: %SYS-5-CONFIG_I: Configured from console by vty2 (10.34.195.36)",
    b"<30>Oct  9 22:33:20 hlfedora auditd[1787]: The audit daemon is exiting.\n",
    b"<14>1 2016-12-31T23:59:60Z leap.example ntpd 12 - - a second that UTC has",
    b"<14>1 2021-05-18T09:12:44.123456789Z k8s.example kubelet 77 - - nine decimals of a second",
    b"<14>1 2021-05-18 09:12:44Z h app - - - a space in the stamp",
    b"<14>1 2021-05-18T09:12:44+0200 h app - - - an offset without its colon",
    b"<14>1 - h com.example.platform.billing.invoices.worker-process-name-of-60 - - - a long APP-NAME",
    b"<14>1 - h\xc3\xa9 app - - - a HOSTNAME that isn't ASCII",
    b"<14>1 - h  - - - an empty APP-NAME",
    b"<14>1 - h app - - [a x=\"1\"][a y=\"2\"] an element twice",
    b"<14>1 - h app - - [a x=\"quote \" in it\"] a value that isn't escaped",
    b"<14>1 - h app - - [a x=1] a value without quotes",
    b"<14>1 - h app - - no structured data",
    b"<192>1 - h app - - - PRI over 191",
    b"<014>1 - h app - - - PRI with a zero before it",
    b"<14>2 - h app - - - another version",
    b"{\"message\": \"JSON\", \"level\": \"info\"}\n",
    b"CEF:0|Security|threatmanager|1.0|100|worm successfully stopped|10|src=10.0.0.1 dst=2.1.2.2",
    b"a line\nand another\n",
    b"\0\xff\xfe\r\n\t",
    b"<14>1 - h app - - - \xef\xbb\xbf\xff a byte order mark before what isn't UTF-8",
    b"<110>1 - h s - - [ssign VER=\"0111\" RSID=\"1\" SG=\"0\" SPRI=\"0\"] somebody else's block",
    b"<13>1 - a b c wrapped - |the form of a wrap",
)

passed = failed = 0
reached = collections.Counter()


def tell(what, wanted, said):
    """One check."""
    global passed, failed
    if wanted == said:
        passed += 1
        return
    failed += 1
    print("chains: %s: FAILED\n    wanted %.600r\n    said   %.600r" % (what, wanted, said))


def run(words, log):
    """The status of a run of the program, and what it wrote on standard output and on standard error."""
    ran = subprocess.run([PROGRAM, *words], input=log, capture_output=True, check=False, timeout=60)
    return ran.returncode, ran.stdout, ran.stderr


def model(command, words, log, signer=None):
    """The same by the model."""
    try:
        return 0, output(command, words, log, signer or Zeros()), b""
    except Refused as refused:
        return 2, b"", b"ssign: %s\n" % str(refused).encode()


def kind_of(said):
    """The code of a refusal, and `at a place` where O9 has one."""
    code, _, place = said[2].decode().removeprefix("ssign: ").strip().partition(" ")
    return code + " at a place" * (code == "O9" and place != "")


def write(path, octets):
    with open(path, "wb") as file:
        file.write(octets)


class Chain:
    """The runs of one session."""

    def __init__(self, folder, seed):
        self.folder, self.dice = folder, random.Random(seed)
        dice = self.dice
        self.name = "seed %d" % seed
        self.groups = dice.choice(GROUPS)
        self.words = ["--payload", PAYLOAD, "--rsid", str(dice.choice((0, 1, 7, 9_999_999_999))), "--groups", self.groups,
                      "--host", dice.choice(("-", "h", "host.example")), "--app", dice.choice(("-", "s")),
                      "--procid", dice.choice(("-", "4711")), "--pri", str(dice.choice((0, 13, 110, 191))),
                      "--ver", dice.choice(("0111", "0121"))]
        self.wraps = seed % 2 == 1
        # the counters that the last run ended with, the frames of all runs, and how many messages were signed
        self.counters, self.signed, self.messages, self.exact = [], b"", [], True

    def path(self, name):
        return os.path.join(self.folder, name)

    def log(self, texts):
        return b"".join(b"%d %s" % (len(text), text) for text in texts)

    def texts(self):
        """The messages of a run: often none; rarely one that can't be signed, and where they are wrapped often."""
        dice = self.dice
        texts = [b"<%d>1 - - - - - - %d" % (dice.choice((0, 1, 13, 100, 191)), dice.randrange(10_000))
                 for _ in range(dice.choice((0, 0, 1, 2, 5, 9, 20)))]
        if self.wraps:
            texts = [dice.choice(ODD) if dice.random() < 0.4 else text for text in texts]
            reached.update(["odd message" for text in texts if text in ODD])
        elif texts and dice.random() < 0.05:
            texts[dice.randrange(len(texts))] = dice.choice((b"<13>no message", b"<13>1 - - - - - [ssign]"))
        return texts

    def kept(self):
        """A counters file that goes on where the last run ended, or further on: with lines of other sessions, and older
        ones of this. Rarely one that is of no use."""
        dice, lines = self.dice, list(self.counters)
        fate = dice.random()
        if fate < 0.25:
            lines = [self.raised(line) for line in lines]
            self.exact, _ = False, reached.update(["skipped"])
        front = lines[0].split()[:5]
        other = [*front[:4], str(int(front[4]) ^ 1)]
        if dice.random() < 0.5:
            lines += [" ".join([*other, "999"]), " ".join([*other, "3 4 5"]), "count x y z 1 2"]
            reached.update(["other sessions' lines"])
        if dice.random() < 0.5:
            lines += [self.lowered(line) for line in lines if line.split()[:5] == front]
            reached.update(["older lines"])
        if fate > 0.97:
            lines = [line for line in lines if line.split()[:5] != front or len(line.split()) > 6] or ["count x y z 1 2"]
        elif fate > 0.93:
            lines.insert(dice.randrange(len(lines)), " ".join([*front, dice.choice(("3 0 1", "0 5 1", "1 13 1", "2 7 9"))]))
        dice.shuffle(lines)
        # a file may be several, one after the other
        cut = dice.randint(0, len(lines)) if dice.random() < 0.3 else 0
        parts = [lines[:cut], lines[cut:]] if cut else [lines]
        return "".join(line + "\n" for part in parts for line in [*part, f"end {len(part)}"]).encode()

    def raised(self, line):
        """The line with a greater counter, at times with one of the last."""
        *front, number = line.split()
        further = self.dice.choice((0, 1, 2, 1_000))
        number = min(int(number) + further, LIMIT) if self.dice.random() < 0.8 else LIMIT - self.dice.randrange(4)
        return " ".join([*front, str(number)])

    def lowered(self, line):
        *front, number = line.split()
        least = 0 if len(front) == 5 else 1
        return " ".join([*front, str(self.dice.randint(least, max(least, int(number))))])

    def go(self, number):
        """One run: planned ahead, planned and signed. Whether the chain goes on."""
        dice = self.dice
        words = [*self.words, "--count", str(dice.choice((1, 2, 3, 10, 99))), "--copies", str(dice.choice((1, 2, 9))),
                 "--frag", str(dice.choice((5, 500))), "--stamp", dice.choice(("-", "2009-05-03T14:00:39Z"))]
        texts = self.texts()
        if self.wraps:
            words += ["--wrap"]
            if texts and dice.random() < 0.04:
                words += ["--max-len", str(max(len(text) for text in texts) + dice.choice((0, 20, 60)))]
        log, what = self.log(texts), "%s, run %d" % (self.name, number)
        if self.counters:
            write(self.path("counters"), self.kept())
            words += ["--resume", self.path("counters")]
        wanted = model("plan", [*words, "--ahead"], log)
        tell(what + ", plan --ahead", wanted, run(["plan", "--ahead", *words], log))
        sealer = Zeros()
        tell(what + ", plan", model("plan", words, log, sealer), run(["plan", *words], log))
        write(self.path("seals"), want_lines(sealer).replace(b"want ", b"seal ").replace(b"\n", b" AAAA\n"))
        signed = run(["sign", "--answers", self.path("seals"), *words], log)
        tell(what + ", sign", model("sign", words, log), signed)
        lines = run(["sign", "--lines-out", "--answers", self.path("seals"), *words], log)
        tell(what + ", sign --lines-out", model("sign", ["--lines-out", *words], log), lines)
        reached.update(["refused E2" if lines[2].startswith(b"ssign: E2 ") else "lines"])
        if wanted[0]:
            reached.update(["refused " + kind_of(wanted)])
            return False
        front = "resumed" if self.counters else "new"
        reached.update([front, *[front + ", no message"] * (texts == []), "copies " + words[words.index("--copies") + 1]])
        self.counters = wanted[1].decode().splitlines()[:-1]
        self.signed += signed[1]
        self.messages += texts
        return True

    def review(self):
        """What was signed is reviewed as it was sent, and its counters are the last ones."""
        reached.update(["groups " + (self.groups if self.groups in ("one", "pri") else "of ranges")])
        reached.update(["two groups or more"] * (len(self.counters) > 2))
        if not self.exact or not self.counters:
            return
        reached.update(["reviewed with wraps" if self.wraps else "reviewed"])
        write(self.path("answers"), as_answers(run(["questions"], self.signed)[1]))
        status, report, _ = run(["review", "--answers", self.path("answers")], self.signed)
        listed = sum(line.startswith(b"ok ") for line in report.splitlines())
        tell(self.name + ", review", (0, len(self.messages)), (status, listed))
        back = messages(run(["extract", "--answers", self.path("answers")], self.signed)[1], False)
        if self.wraps:
            back = [text if original(text) is None else original(text) for text in back]
        tell(self.name + ", what is listed", sorted(self.messages), sorted(back))
        told = run(["counters", "--answers", self.path("answers")], self.signed)[1]
        tell(self.name + ", counters", [*self.counters, f"end {len(self.counters)}"], told.decode().splitlines())


def main():
    """Makes all checks."""
    for seed in range(CHAINS):
        with tempfile.TemporaryDirectory() as folder:
            chain = Chain(folder, seed)
            for number in range(chain.dice.randint(1, 10)):
                if not chain.go(number):
                    break
            chain.review()
    for kind in REACHED:
        print("chains: %6d %s" % (reached[kind], kind))
        tell("some run is " + kind, True, reached[kind] > 0)
    print("chains: %d passed, %d failed" % (passed, failed))
    return 1 if failed or not passed else 0


if __name__ == "__main__":
    sys.exit(main())
