#!/usr/bin/env python3
"""Attacks on `ssign-keys seal`, each of them a run of its command line in this process: prints `passed WHAT`, or
`failed WHAT: WHY`, a line for each.

    seal_attacks.py KEYS PROGRAM     KEYS has the folders `long` and `other`, each with a key pair that `ssign-keys make`
                                     made; PROGRAM is ssign, whose `inspect` says what it reads in accepted octets
"""
from __future__ import annotations

import base64
import os
import random
import re
import resource
import signal
import subprocess
import sys
import time
from typing import Dict, Optional, Tuple

ROOT = os.path.join(os.path.dirname(os.path.abspath(__file__)), "..")
sys.path.insert(0, os.path.join(ROOT, "tools"))

from review_runs import frame  # noqa: E402
from ssign_keys import cli  # noqa: E402
from ssign_keys.blocks import Signature, Written  # noqa: E402
from ssign_keys.describer import Describer  # noqa: E402
from ssign_keys.faults import Fault  # noqa: E402
from ssign_keys.seal import read_written  # noqa: E402

MINE = "h s - 1"
Said = Tuple[int, bytes, str]
NOT_WRITTEN = "the octets aren't a block as `ssign plan` writes it, so they aren't signed"


def block(session: str = MINE, gbc: int = 0, first: int = 1, count: int = 2, letter: str = "A", group: Tuple[int, int] = (0, 0),
          ver: str = "0121", header: str = "<110>1 -", back: str = "") -> bytes:
    """A signature block; `letter` stands for the messages that it announces."""
    host, app, procid, rsid = session.split(" ")
    digest = letter * 42 + "A=" if ver == "0121" else letter * 26 + "A="
    return (f'{header} {host} {app} {procid} - [ssign VER="{ver}" RSID="{rsid}" SG="{group[0]}" SPRI="{group[1]}" GBC="{gbc}" '
            f'FMN="{first}" CNT="{count}" HB="{" ".join([digest] * count)}"]{back}').encode()


def certificate(fragment: str, start: int, total: int, session: str = MINE, length: Optional[int] = None) -> bytes:
    """A certificate block, which states another length of its fragment if one is given."""
    host, app, procid, rsid = session.split(" ")
    return (f'<110>1 - {host} {app} {procid} - [ssign-cert VER="0121" RSID="{rsid}" SG="0" SPRI="0" TPBL="{total}" '
            f'INDEX="{start}" FLEN="{length or len(fragment)}" FRAG="{fragment}"]').encode()


def lines(*blocks: bytes) -> bytes:
    """The lines that want these."""
    return b"".join(b"want %s\n" % base64.b64encode(it) for it in blocks)


def seal(keys: str, wanted: bytes, *options: str, out: str = "sealed", pair: str = "long") -> Said:
    """Runs the command: its status, standard output and standard error."""
    with open("wants", "wb") as file:
        file.write(wanted)
    kept = [os.dup(number) for number in range(3)]
    for number, (name, flags) in enumerate([("wants", os.O_RDONLY), (out, os.O_WRONLY | os.O_CREAT | os.O_TRUNC),
                                            ("said", os.O_WRONLY | os.O_CREAT | os.O_TRUNC)]):
        opened = os.open(name, flags, 0o600)
        os.dup2(opened, number)
        os.close(opened)
    try:
        status = cli.main(["seal", os.path.join(keys, pair, "private-key.pem"), *options])
    finally:
        for number, it in enumerate(kept):
            os.dup2(it, number)
            os.close(it)
    with open("said", encoding="utf-8") as text, open("sealed" if out == "/dev/full" else out, "rb") as file:
        return status, file.read() if out != "/dev/full" else b"", text.read()


class Attacks:
    """The attacks, with what came of each."""

    def __init__(self, keys: str, program: str) -> None:
        self.keys, self.program, self.describer = keys, program, Describer(program)

    def accepted(self, octets: bytes) -> Optional[Written]:
        """The block that is sealed, if these octets are."""
        try:
            return read_written(base64.b64encode(octets), self.describer)
        except Fault as fault:
            assert str(fault) == NOT_WRITTEN
            return None

    def tell(self, what: str, fault: Optional[str]) -> None:
        """One check."""
        print(f"failed {what}: {fault}" if fault else f"passed {what}")

    def takes(self, what: str, wanted: bytes, *options: str) -> None:
        """These lines are sealed."""
        status, out, said = seal(self.keys, wanted, *options)
        right = status == 0 and not said and [it.split()[1] for it in out.splitlines()] == [it.split()[1] for it in wanted.splitlines()]
        self.tell(what, None if right else f"{status} {said!r}")

    def refuses(self, what: str, sentence: str, wanted: bytes, *options: str, pair: str = "long") -> None:
        """These lines aren't sealed, for this reason, and the state file stays what it was."""
        before = files()
        status, out, said = seal(self.keys, wanted, *options, pair=pair)
        right = status == 2 and not out and said == f"ssign-keys: {sentence}\n" and files() == before
        self.tell(what, None if right else f"{status} {out[:50]!r} {said!r}, and not {sentence!r}")

    # ---- what isn't a block of `ssign plan`

    def other_octets(self) -> None:
        """Blocks with something else in them, all of which a reviewer would take for blocks, and other octets."""
        plain = block()
        element = plain[plain.index(b"["):]
        for what, octets in {
            "a MSG": plain + b" text", "an empty MSG": plain + b" ", "a MSG with a block": plain + b" " + element,
            "an element after it": plain + b'[x@1 a="b"]', "an element before it": plain.replace(b"[ssign ", b'[x@1 a="b"][ssign '),
            "two blocks": plain + element, "a SIGN": plain.replace(b'"]', b'" SIGN="AAAA"]'),
            "a parameter more": plain.replace(b'"]', b'" X="1"]'), "a parameter less": plain.replace(b' GBC="0"', b""),
            "another order": plain.replace(b' SG="0" SPRI="0"', b' SPRI="0" SG="0"'), "an LF": plain + b"\n",
            "an LF before it": b"\n" + plain, "a space before it": b" " + plain, "a NUL": plain + b"\0",
            "no octet at its end": plain[:-1], "another element": plain.replace(b"[ssign ", b"[ssign2 "),
            "capitals": plain.replace(b"[ssign ", b"[SSIGN "), "VER 0211": plain.replace(b'"0121"', b'"0211"'),
            "VER and hashes of another": plain.replace(b'"0121"', b'"0111"'), "a leading zero": plain.replace(b'RSID="1"', b'RSID="01"'),
            "a sign": plain.replace(b'GBC="0"', b'GBC="+0"'), "FMN 0": plain.replace(b'FMN="1"', b'FMN="0"'),
            "CNT 3 of 2 hashes": plain.replace(b'CNT="2"', b'CNT="3"'), "CNT 0": plain.replace(b'CNT="2"', b'CNT="0"'),
            "SG 4": plain.replace(b' SG="0"', b' SG="4"'), "SPRI 192": plain.replace(b'SPRI="0"', b'SPRI="192"'),
            "PRI 192": plain.replace(b"<110>", b"<192>"), "PRI 0110": plain.replace(b"<110>", b"<0110>"),
            "version 2 of syslog": plain.replace(b">1 ", b">2 "), "two spaces": plain.replace(b" h ", b"  h "),
            "a last number too great": plain.replace(b'FMN="1"', b'FMN="9999999999"'),
            "RSID of 11 digits": plain.replace(b'RSID="1"', b'RSID="10000000000"'),
            "hashes with two spaces": plain.replace(b"= ", b"=  "), "hashes that aren't strict": plain.replace(b"A= ", b"B= "),
            "a time that is none": block(header="<110>1 2026-02-29T00:00:00Z"), "24 hours": block(header="<110>1 2026-01-01T24:00:00Z"),
            "a leap second": block(header="<110>1 2026-01-01T23:59:60Z"), "no header": element, "nothing but a key": b"K",
            "a HOSTNAME too long": block("h" * 256 + " s - 1"), "an escape": certificate('- K \\"AAA', 1, 30, length=8),
            "a fragment of UTF-8": certificate("\u00e9", 1, 2, length=2),
            "FLEN of another length": certificate("- N", 1, 3).replace(b'FLEN="3"', b'FLEN="2"'),
            "a fragment past its payload": certificate("- N", 2, 3), "INDEX 0": certificate("- N", 0, 3),
            "a plain message": b"<13>1 - h s - - - text", "a text of PGP": b"-----BEGIN PGP SIGNED MESSAGE-----",
        }.items():
            self.refuses(what, f"line 1: {NOT_WRITTEN}", lines(octets))
            self.refuses(f"{what}, after a block", f"line 2: {NOT_WRITTEN}", lines(block(gbc=7, first=70), octets))

    def mutants(self) -> None:
        """What is accepted of blocks with a few octets changed is what `ssign inspect` reads there."""
        dice = random.Random(5848)
        sources = [block(), block(ver="0111", count=3), block(group=(1, 13), gbc=99, first=12), certificate("- U AAAA", 1, 8),
                   certificate("2009-05-03T14:00:39Z K S0VZ", 2, 40), block(header="<0>1 2026-01-15T09:16:30.123456+02:00")]
        changed = []
        for _ in range(20000):
            octets = bytearray(dice.choice(sources))
            for _ in range(dice.choice((1, 1, 2, 3))):
                at, how = dice.randrange(len(octets)), dice.random()
                piece = bytes([dice.choice(b' "]\\[=0159AaZz-:.\n\0\xc3')]) if how < 0.9 else dice.choice(sources)
                if how < 0.3:
                    del octets[at]
                elif how < 0.6:
                    octets[at:at] = piece
                else:
                    octets[at:at + 1] = piece
            changed.append(bytes(octets))
        run = subprocess.run([self.program, "describe"], input=lines(*changed), capture_output=True, check=True)
        described = run.stdout.splitlines()
        exact = [octets for octets, line in zip(changed, described) if b'"exact"' in line]
        accepted = {octets: found for octets in exact for found in [self.accepted(octets)] if found is not None}
        texts = [octets[:-1] + b' SIGN="AAAA"]' for octets in accepted]
        said = subprocess.run([self.program, "inspect"], input=b"".join(map(frame, texts)), capture_output=True, check=False)
        wanted = [inspected(place, *it) for place, it in enumerate(accepted.items())]
        got = said.stdout.decode().splitlines()[:-1]
        wrong = [pair for pair in zip(wanted, got) if pair[0] != pair[1]]
        self.tell(f"{len(accepted)} of {len(described)} blocks with changed octets are accepted, and ssign reads them so",
                  str(wrong[:2] or said.stderr) if wrong or len(wanted) != len(got) or len(wanted) < 100 else None)

    def plans(self) -> None:
        """What `ssign plan` writes is accepted, whatever its options."""
        log = b"".join(frame(b"<%d>1 - - - - - - message %d" % (number % 192, number)) for number in range(120))
        for words in ("", "--rsid=9999999999", "--stamp=0000-02-29T00:00:00Z", "--stamp=9999-12-31T23:59:59.999999-23:59", "--pri=0",
                      "--pri=191", "--groups=pri", "--groups=9,10,99,100,190,191", "--count=1", "--count=99 --ver=0111", "--frag=1",
                      "--frag=9999", "--ver=0111", '--host=!~ --app=" --procid=] --msgid==', "--host=" + "a" * 255, "--app=" + "a" * 48,
                      "--procid=" + "a" * 128, "--msgid=" + "a" * 32, "--groups=" + ",".join(map(str, range(192)))):
            for payload in ("- N", "- U AAAA", "2009-05-03T14:00:39.519005+02:00 U " + "AAAA" * 200):
                given = [f"--payload={payload}", *([] if "--rsid" in words else ["--rsid=1"]), *words.split()]
                plan = subprocess.run([self.program, "plan", *given], input=log, capture_output=True, check=True).stdout
                octets = [base64.b64decode(it.split()[1]) for it in plan.splitlines()]
                self.tell(f"a plan with {words[:40]!r}, {len(octets)} blocks",
                          None if octets and all(map(self.accepted, octets)) else "it isn't accepted")

    # ---- another session, and two blocks that contradict each other

    def sessions(self) -> None:
        """A signer that is bound to a session signs for no other."""
        bound = ["--host", "h", "--app", "s", "--procid", "-", "--rsid", "1"]
        self.takes("the session of the options", lines(block()), *bound)
        for field, name, option, session in (("HOSTNAME", "g", "host", "g s - 1"), ("APP-NAME", "t", "app", "h t - 1"),
                                             ("PROCID", "7", "procid", "h s 7 1"), ("RSID", "2", "rsid", "h s - 2")):
            stated = dict(zip(bound[::2], bound[1::2]))[f"--{option}"]
            self.refuses(f"another {field}", f"line 2: the block has {field} {name}, and --{option} says {stated}",
                         lines(block(), block(session)), *bound)
            self.refuses(f"another {field} of a certificate block",
                         f"line 1: the block has {field} {name}, and --{option} says {stated}",
                         lines(certificate("- N", 1, 3, session)), *bound)
            self.refuses(f"--{option} twice", f"--{option} can be given only once", lines(block()), *bound, f"--{option}", stated)
        self.refuses("RSID 01 is not RSID 1", "line 1: the block has RSID 1, and --rsid says 01", lines(block()), "--rsid", "01")

    def contradictions(self, *options: str) -> None:
        """Within a run two blocks don't contradict each other."""
        said = "another block with GBC 0 was signed already for the session 'h s - 1'"
        self.refuses("one GBC, other messages", f"line 2: {said}", lines(block(), block(letter="B")), *options)
        self.refuses("one GBC, another time", f"line 2: {said}", lines(block(), block(header="<110>1 2026-01-01T00:00:00Z")), *options)
        self.refuses("one GBC, another group", f"line 2: {said}", lines(block(), block(group=(1, 3))), *options)
        self.refuses("one number, another GBC", "line 2: two blocks announce the number 1 of SG 0, SPRI 0 in the session 'h s - 1'",
                     lines(block(), block(gbc=1, letter="B")), *options)
        self.refuses("a number within another block", "line 2: two blocks announce the number 5 of SG 0, SPRI 0 in the session 'h s - 1'",
                     lines(block(count=9), block(gbc=1, first=5, count=1)), *options)
        self.refuses("a block around another one", "line 2: two blocks announce the number 5 of SG 0, SPRI 0 in the session 'h s - 1'",
                     lines(block(first=5, count=1), block(gbc=1, count=9)), *options)
        self.refuses("one INDEX, another fragment", "line 2: another block with INDEX 1 was signed already for the session 'h s - 1'",
                     lines(certificate("- N", 1, 9), certificate("- U", 1, 9)), *options)
        self.refuses("fragments that overlap", "line 2: two blocks have the octet 2 of the payload in the session 'h s - 1'",
                     lines(certificate("- N", 1, 9), certificate("N", 2, 9)), *options)
        self.refuses("two lengths of a payload", "line 2: TPBL is 8, and was 9 before in the session 'h s - 1'",
                     lines(certificate("- N", 1, 9), certificate("N", 4, 8)), *options)
        self.refuses("a payload that is none", "the payload of the session 'h s - 1' is none of RFC 5848, section 5.2.1",
                     lines(certificate("x", 1, 1)), *options)

    # ---- from run to run

    def states(self) -> None:
        """With a state file nothing goes back behind what was signed before."""
        self.refuses("no state file", "there is no state file state: put the one back that was there, or begin one with "
                     "--new-state where none was", lines(block()), "--state", "state")
        self.refuses("--new-state alone", "--new-state goes with --state FILE", lines(block()), "--new-state")
        self.contradictions("--state", "fresh", "--new-state")
        first = lines(certificate("- N", 1, 3), block(), block(gbc=1, first=3))
        self.takes("the first run", first, "--state", "state", "--new-state")
        self.tell("the state file is for its owner alone", None if os.stat("state").st_mode & 0o777 == 0o600 else "it isn't")
        self.refuses("--new-state once more", "there is a state file state already: leave out --new-state", first, "--state", "state",
                     "--new-state")
        state = read("state")
        self.takes("the same lines once more", first, "--state", "state")
        self.tell("and the state is what it was", None if read("state") == state else "it isn't")
        self.takes("one of them", lines(block()), "--state", "state")
        self.refuses("one GBC, other messages, in another run",
                     "line 1: another block with GBC 0 was signed already for the session 'h s - 1'", lines(block(letter="B")),
                     "--state", "state")
        self.refuses("one number, another GBC, in another run",
                     "line 1: two blocks announce the number 3 of SG 0, SPRI 0 in the session 'h s - 1'",
                     lines(block(gbc=2, first=3, letter="B")), "--state", "state")
        self.refuses("another payload in another run", "line 1: another block with INDEX 1 was signed already for the session 'h s - 1'",
                     lines(certificate("- U", 1, 3)), "--state", "state")
        self.refuses("another length of the payload in another run", "line 1: TPBL is 8, and was 3 before in the session 'h s - 1'",
                     lines(certificate("AAAA", 5, 8)), "--state", "state")
        self.takes("the session goes on", lines(block(gbc=2, first=5)), "--state", "state")
        self.takes("a greater RSID", lines(block("h s - 3", letter="C")), "--state", "state")
        older = "line 1: the session 'h s - {}' is older than that with RSID 3, for which a block was signed already"
        for rsid in (0, 1, 2):
            self.refuses(f"RSID {rsid} after 3", older.format(rsid), lines(block(f"h s - {rsid}")), "--state", "state")
        self.refuses("a certificate block of an older session", older.format(2), lines(certificate("- N", 1, 3, "h s - 2")),
                     "--state", "state")
        self.refuses("a smaller RSID in one run", "line 2: the session 'h s - 4' is older than that with RSID 5, for which a block "
                     "was signed already", lines(block("h s - 5"), block("h s - 4")), "--state", "state")
        self.takes("another HOSTNAME has its own RSIDs", lines(block("g s - 1"), block("h t - 0"), block("h s 9 0")), "--state", "state")
        self.tell("older sessions are forgotten", None if read("state").count(b"session h s - ") == 1 else "they aren't")
        self.refuses("a state of another key", "the state file state is that of another key", lines(block("h s - 9")),
                     "--state", "state", pair="other")

    def damaged_states(self) -> None:
        """A state file that isn't whole is refused."""
        state = read("state")
        text = state.splitlines(keepends=True)
        for what, damaged in {
            "empty": b"", "without its last line": b"".join(text[:-1]), "without its last octet": state[:-1],
            "without a block": b"".join(text[:2] + text[3:]), "with a line twice": b"".join(text[:3] + text[2:]),
            "with another number": state.replace(b" 1 2 ", b" 1 9 ", 1), "with CR": state.replace(b"\n", b"\r\n"),
            "with a line after its end": state + b"\n", "twice": state + state, "of another form": b"x" + state,
            "of NULs": bytes(len(state)), "of one long line": b"A" * 100000, "with an older version": state.replace(b" 1 ", b" 0 ", 1),
            "cut in the middle": state[:len(state) // 2],
        }.items():
            write("damaged", damaged)
            before = files()
            status, out, said = seal(self.keys, lines(block("h s - 9")), "--state", "damaged")
            right = status == 2 and not out and re.fullmatch(
                "ssign-keys: (the state file damaged is damaged.*|damaged is no state file of ssign-keys seal|"
                "the state file damaged is that of another key)\n", said) and files() == before
            self.tell(f"a state file {what}", None if right else f"{status} {said!r}")
        cuts = [it for it in range(0, len(state), 7) if not self.is_refused(state[:it])]
        self.tell(f"a state file cut at {len(range(0, len(state), 7))} places", str(cuts) if cuts else None)
        flips = [it for it in range(0, len(state), 11) if not self.is_refused(state[:it] + bytes([state[it] ^ 1]) + state[it + 1:])]
        self.tell(f"a state file with a bit changed at {len(range(0, len(state), 11))} places", str(flips) if flips else None)

    def is_refused(self, state: bytes) -> bool:
        """Whether a state file is refused."""
        write("damaged", state)
        status, out, _ = seal(self.keys, lines(block("h s - 9")), "--state", "damaged")
        return status == 2 and not out and read("damaged") == state

    def places(self) -> None:
        """A state file where none can be, or that is no plain file."""
        os.mkdir("folder")
        os.symlink("state", "link")
        os.link("state", "twin")
        seen = "has to be a plain file with one name"
        self.refuses("a name without a letter", "--state has an empty name", lines(block("h s - 9")), "--state", "")
        self.refuses("a file that isn't there", "there is no state file none: put the one back that was there, or begin one with "
                     "--new-state where none was", lines(block("h s - 9")), "--state", "none")
        self.refuses("a folder", f"the state file folder {seen}", lines(block("h s - 9")), "--state", "folder")
        self.refuses("a file with two names", f"the state file twin {seen}", lines(block("h s - 9")), "--state", "twin")
        os.unlink("twin")
        self.refuses("no folder for it", "the state file no/state can't be locked by no/state.lock: No such file or directory",
                     lines(block("h s - 9")), "--state", "no/state", "--new-state")
        self.takes("a link", lines(block("h s - 4")), "--state", "link")
        self.tell("which stays one", None if os.path.islink("link") and b"session h s - 4\n" in read("state") else "it doesn't")
        self.takes("a name with an octet that isn't printable", lines(block()), "--state", "a\nb\udcff", "--new-state")
        os.symlink("victim", "-s.lock")
        self.refuses("a lock that is a link", "the state file -s can't be locked by -s.lock: it is a link",
                     lines(block()), "--state=-s", "--new-state")
        self.tell("nothing is made by that link", None if not os.path.exists("victim") else "it is")

    # ---- a full disk, and runs that are killed

    def full(self) -> None:
        """Without room for the state no seal is written, and without room for the seals the state stands."""
        state = read("state")
        limits = resource.getrlimit(resource.RLIMIT_FSIZE)
        signal.signal(signal.SIGXFSZ, signal.SIG_IGN)
        many = lines(*(block("h s - 6", number, 2 * number + 1) for number in range(30)))
        with open("wants", "wb") as file:
            file.write(many)
        resource.setrlimit(resource.RLIMIT_FSIZE, (2000, limits[1]))
        said = subprocess.run([sys.executable, os.path.join(ROOT, "tools", "ssign-keys"), "seal",
                               os.path.join(self.keys, "long", "private-key.pem"), "--state", "state"],
                              stdin=open("wants", "rb"), capture_output=True, check=False)
        resource.setrlimit(resource.RLIMIT_FSIZE, limits)
        right = (said.returncode, said.stdout, said.stderr) == (
            2, b"", b"ssign-keys: the state file state can't be written: File too large\n")
        self.tell("no room for the state", None if right and read("state") == state else f"{said}")
        self.tell("no passing file is left", None if not os.path.exists("state.new") else "one is")
        wanted = lines(block("h s - 7"))
        status, _, complaint = seal(self.keys, wanted, "--state", "state", out="/dev/full")
        self.tell("no room for the seals", None if status == 2 and "No space left" in complaint else complaint)
        self.tell("the state has what they would have been", None if b"session h s - 7\n" in read("state") else "it hasn't")
        self.refuses("and other messages aren't signed", "line 1: another block with GBC 0 was signed already for the session 'h s - 7'",
                     lines(block("h s - 7", letter="B")), "--state", "state")
        self.takes("but the same are", wanted, "--state", "state")

    def killed(self) -> None:
        """A run that is killed leaves a whole state file: that of before or that of after, and one after where it wrote."""
        words = [sys.executable, os.path.join(ROOT, "tools", "ssign-keys"), "seal", os.path.join(self.keys, "long", "private-key.pem"),
                 "--state", "state"]
        outcomes = set()
        for turn in range(12):
            before = read("state")
            with open("wants", "wb") as file:
                file.write(lines(*(block(f"h s - {turn + 100}", number, 2 * number + 1) for number in range(200))))
            with open("wants", "rb") as wants, open("given", "wb") as given, \
                    subprocess.Popen(words, stdin=wants, stdout=given) as child:
                # half of them at some time, and half as soon as the state is there, before most of the seals are
                inode, end = os.stat("state").st_ino, time.monotonic() + (0.3 + turn * 0.3 if turn < 6 else 60)
                while time.monotonic() < end and child.poll() is None and (turn < 6 or os.stat("state").st_ino == inode):
                    time.sleep(0.001)
                child.kill()
                child.wait()
            after, given_out = read("state"), read("given")
            whole = after == before or f"session h s - {turn + 100}\n".encode() in after
            if not whole or (given_out and after == before):
                self.tell(f"killed, turn {turn}", "the state isn't whole, or seals are out that it doesn't know")
                return
            outcomes.add("after" if after != before else "before")
            status, _, said = seal(self.keys, lines(block(f"h s - {turn + 100}", 0, 1)), "--state", "state")
            if status != 0:
                self.tell(f"killed, turn {turn}, and the next run", said)
                return
        self.tell(f"12 runs that were killed, with the state of {' and '.join(sorted(outcomes))}", None)

    def locked(self) -> None:
        """Two runs don't use one state file at once."""
        words = [sys.executable, os.path.join(ROOT, "tools", "ssign-keys"), "seal", os.path.join(self.keys, "long", "private-key.pem"),
                 "--state", "state"]
        ours = b"h s - 1000"
        with subprocess.Popen(words, stdin=subprocess.PIPE, stdout=subprocess.PIPE) as child:
            assert child.stdin is not None
            # a run that began before the child has the lock would have the child refuse
            while child.poll() is None and not has_open(child.pid, "state.lock"):
                time.sleep(0.05)
            for _ in range(200):
                status, out, said = seal(self.keys, b"", "--state", "link")
                if status == 2:
                    break
                time.sleep(0.05)
            right = (status, out, said) == (2, b"", "ssign-keys: the state file link can't be locked: another run uses it\n")
            self.tell("a second run, by another name of the file", None if right else f"{status} {said!r}")
            child.stdin.write(lines(block(ours.decode())))
            child.stdin.close()
            child.wait()
            self.tell("the first run ends well", None if child.returncode == 0 else "it doesn't")
        self.takes("and then the next", lines(block(ours.decode())), "--state", "state")


def inspected(place: int, octets: bytes, found: Written) -> str:
    """The line of `ssign inspect` for a block that was read."""
    if isinstance(found, Signature):
        return f"signature {place} {found.session} {found.group[0]} {found.group[1]} {found.gbc} {found.first} {found.hashes}"
    group = re.search(rb' SG="([0-9]+)" SPRI="([0-9]+)" TPBL="', octets)
    assert group is not None
    return (f"certificate {place} {found.session} {int(group[1])} {int(group[2])} {found.total} {found.start} "
            f"{len(found.fragment)}")


def has_open(process: int, name: str) -> bool:
    """Whether a process has a file of this name open."""
    folder = f"/proc/{process}/fd"
    try:
        return any(os.path.basename(os.readlink(f"{folder}/{it}")) == name for it in os.listdir(folder))
    except OSError:
        # the process has ended, or has closed what was listed
        return False


def files() -> Dict[str, bytes]:
    """Each state file with its contents, and the locks of files that are refused."""
    return {it: read(it) for it in ("state", "fresh", "damaged", "folder.lock", "none.lock") if os.path.isfile(it)}


def read(name: str) -> bytes:
    """What stands in a file."""
    with open(name, "rb") as file:
        return file.read()


def write(name: str, octets: bytes) -> None:
    """Puts octets into a file."""
    with open(name, "wb") as file:
        file.write(octets)


def main(keys: str, program: str) -> None:
    """Runs all attacks, in the present folder."""
    attacks = Attacks(os.path.abspath(keys), program)
    for attack in (attacks.other_octets, attacks.mutants, attacks.plans, attacks.sessions, attacks.contradictions, attacks.states,
                   attacks.damaged_states, attacks.places, attacks.full, attacks.killed, attacks.locked):
        attack()


if __name__ == "__main__":
    main(*sys.argv[1:])
