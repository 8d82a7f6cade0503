"""A made-up disk for `ssign-keys live`, which loses what wasn't synced, and lives of a signer on it (tests/live_power.py).

A file has octets that a process sees, and octets that are sure. A name is sure once its folder was synced. The blocks come
from ssign itself. Only the signatures are made up: each is three octets, which the review is to accept as valid.
"""
import argparse
import base64
import collections
import hashlib
import os
import random
import subprocess
import sys
import tempfile

sys.path.insert(0, os.path.join(os.path.dirname(os.path.dirname(os.path.realpath(__file__))), "tools"))

from review_runs import as_answers
from ssign_keys import live_log, live_state
from ssign_keys.live_disk import OUT, STATE, Disk, NoRoom
from ssign_keys.live_engine import Engine, split_frames
from ssign_keys.live_session import Starter
from ssign_keys.session_file import KEPT

HOST, APP = "gate.example.org", "signer"
PAYLOAD = "- U " + "QUJD" * 300
WAYS = ("none", "all", "front", "zeros", "gap")
MESSAGES_IN_BLOCK, IN_TRANSACTION, ROTATE_SIZE = 5, 3, 4000


def message(number):
    """A message; each seventh one can't be signed as it is."""
    if number % 7 == 3:
        return b"<13>Oct 11 22:14:15 app: odd message %d" % number
    return b"<13>1 - gate.example.org app %d - - message %d" % (number, number)


ESCAPED = {8: b"\\b", 9: b"\\t", 10: b"\\n", 12: b"\\f", 13: b"\\r", 34: b'\\"', 47: b"\\/", 92: b"\\\\"}


def string_of(octets):
    """A message as rsyslog 8.2302 writes it with the option json, for omprog: control characters are escaped, and all else
    stays, whether it is UTF-8 or not."""
    return b'"%s"' % b"".join(ESCAPED.get(it) or (b"\\u%04X" % it if it < 32 else bytes([it])) for it in octets)


class PowerCut(Exception):
    """The power went before a step."""


class MadeUpDisk(Disk):
    """Files of which only what was synced is sure."""

    def __init__(self, image, cut_at=-1, full_at=-1):
        super().__init__(STATE, OUT)
        self.seen, self.sure, self.names_seen, self.names_sure = {}, {}, {}, {}
        for key, octets in image.items():
            number = len(self.seen)
            self.seen[number], self.sure[number] = bytearray(octets), bytes(octets)
            self.names_seen[key] = self.names_sure[key] = number
        self.steps, self.cut_at = 0, cut_at
        self.full_at, self.full_left = full_at, 3
        self.appends = []

    def step(self):
        """Counts a step."""
        self.steps += 1
        if self.steps == self.cut_at:
            raise PowerCut

    def names(self, where):
        return sorted(name for folder, name in self.names_seen if folder == where)

    def size(self, where, name):
        number = self.names_seen.get((where, name))
        return None if number is None else len(self.seen[number])

    def read(self, where, name, offset, most):
        return bytes(self.seen[self.names_seen[where, name]][offset:offset + most])

    def octets(self, where, name):
        """The octets of a file, which is made where it isn't there."""
        if (where, name) not in self.names_seen:
            number = len(self.seen)
            self.names_seen[where, name] = number
            self.seen[number], self.sure[number] = bytearray(), b""
        return self.seen[self.names_seen[where, name]]

    def append(self, where, name, octets):
        self.step()
        self.appends.append(self.steps)
        file = self.octets(where, name)
        self.fill(file, len(file), octets)
        file += octets

    def overwrite(self, where, name, octets):
        self.step()
        self.appends.append(self.steps)
        file = self.octets(where, name)
        self.fill(file, 0, octets)
        file[:len(octets)] = octets

    def fill(self, file, at, octets):
        """Where the disk is full: writes a half, and fails. The third time after it there is room again."""
        if self.full_at < 0 or self.steps < self.full_at or not self.full_left:
            return
        self.full_left -= 1
        file[at:at + len(octets) // 2] = octets[:len(octets) // 2]
        raise NoRoom("No space left on device")

    def hold(self, where, name):
        """Nobody else is there."""

    def truncate(self, where, name, size):
        self.step()
        del self.octets(where, name)[size:]

    def sync(self, where, name):
        self.step()
        file = self.octets(where, name)
        self.sure[self.names_seen[where, name]] = bytes(file)

    def sync_folder(self, where):
        self.step()
        self.names_sure = {key: it for key, it in self.names_sure.items() if key[0] != where}
        self.names_sure.update({key: it for key, it in self.names_seen.items() if key[0] == where})

    def rename(self, where, name, other):
        self.step()
        self.names_seen[where, other] = self.names_seen.pop((where, name))

    def image(self):
        """All files, as a process sees them."""
        return {key: bytes(self.seen[number]) for key, number in self.names_seen.items()}

    def after_the_cut(self, way, are_names_kept, seed):
        """What stands on the disk once the power is back."""
        rng = random.Random(seed)
        image = {}
        for key, number in sorted((self.names_seen if are_names_kept else self.names_sure).items()):
            sure, seen = self.sure[number], bytes(self.seen[number])
            if seen.startswith(sure):
                more = seen[len(sure):]
                front = more[:rng.randrange(len(more) + 1)]
                end = rng.randrange(len(front), len(more) + 1)
                image[key] = sure + {"none": b"", "all": more, "front": front, "zeros": front + bytes(len(more) - len(front)),
                                     "gap": front + bytes(end - len(front)) + more[end:]}[way]
            else:
                # written over, or cut off: what is the same stays, and after it stands old and new
                same = len(os.path.commonprefix([sure, seen]))
                cut = rng.randrange(same, len(seen) + 1)
                image[key] = {"none": sure, "all": seen, "front": seen[:cut] + sure[cut:],
                              "zeros": seen[:cut] + bytes(max(0, len(sure) - cut)),
                              "gap": seen[:same] + bytes(cut - same) + seen[cut:]}[way]
        return image


class KnownEngine(Engine):
    """Runs ssign once for each question, because the lives ask the same ones. Counts how often it is asked."""

    answers = {}
    asked = 0

    def _ask(self, words, log, files):
        KnownEngine.asked += 1
        key = tuple(words), log, tuple(files)
        if key not in self.answers:
            self.answers[key] = super()._ask(words, log, files)
        return self.answers[key]


class Key:
    """What is asked of a public key."""

    fingerprint = "ab" * 32

    class numbers:
        """Its q has 256 bits."""

        q = 1 << 255


class MadeUpSealer:
    """Signs with three octets of a hash. A far one refuses other octets under a GBC that it has signed, as `seal --each` does."""

    def __init__(self, is_far, known):
        self.public, self.is_far, self.known, self.wants = Key(), is_far, known, []

    def ask(self, wants, room, are_certificates):
        for want in wants:
            octets = base64.b64decode(want)
            name = octets.partition(b' FRAG="')[0].partition(b' CNT="')[0]
            name = name.split(b" ", 2)[2] if self.is_far else octets
            if self.known.setdefault(name, octets) != octets:
                raise AssertionError(f"{name} was signed before with other octets")
        self.wants = wants

    def poll(self):
        return [base64.b64encode(hashlib.sha256(it).digest()[:3]) for it in self.wants]

    def number(self):
        return None

    deadline = number

    def close(self):
        """Nothing was started."""


class Outside:
    """A clock that is set by hand, and reports that are kept."""

    def __init__(self):
        self.said = []

    def now(self):
        return 0.0

    def stamp(self):
        return "-"

    def day(self):
        return "2026-11-27"

    def tell(self, kind, sentence):
        self.said.append(sentence)

    def wait(self, seconds):
        """No time passes."""


class Signer:
    """Whoever runs `ssign-keys live` on made-up disks, boot after boot."""

    def __init__(self, program, is_far=False, wraps=True, keeps_session=False, confirms=True, **options):
        self.program, self.wraps, self.confirms = program, wraps, confirms
        self.known, self.is_far = {}, is_far
        given = {it: None for it in KEPT}
        given.update(host=[HOST], app=[APP], payload=[PAYLOAD], ver=["0121"], count=[str(MESSAGES_IN_BLOCK)], stamp=None)
        given.update(options)
        self.arguments = argparse.Namespace(new_session=False, keep_session=keeps_session, **given)
        self.boot = 0
        # what was confirmed, what wasn't answered, and how many were given to the signer
        self.confirmed, self.sent = [], 0
        self.seconds = 1000
        self.outside = Outside()

    def live(self, disk):
        """A process that has begun."""
        terms = live_log.Terms(self.wraps, ROTATE_SIZE, False, f"boot-{self.boot}", "machine")
        live = live_log.Live(disk, KnownEngine(self.program), MadeUpSealer(self.is_far, self.known), self.outside, terms)
        Starter(live, self.arguments, self.program, "/nonexistent/manifest", self.seconds).start()
        return live

    def run(self, disk, wanted):
        """Sends what isn't confirmed, in transactions. Gives whether the power went before all was signed.

        Without confirmations a message is known to be on the disk once its block was written, and nothing is synced before."""
        try:
            live = self.live(disk)
            taken = len(self.confirmed)
            while taken < len(wanted):
                part = wanted[taken:][:IN_TRANSACTION]
                live.take(part)
                taken += len(part)
                if self.confirms:
                    live.sync()
                    # the answer is a step of its own
                    disk.step()
                    self.confirmed = wanted[:taken]
                if len(live.pending) < MESSAGES_IN_BLOCK:
                    continue
                if self.is_far and live.batch is None and taken < len(wanted):
                    # more messages come while the other machine signs
                    live.patiently(live.begin_batch)
                    continue
                self.seal(live)
                self.confirmed = wanted[:taken]
            self.seal(live)
            self.confirmed = wanted[:taken]
            live.sync()
            live.save_counters()
            return False
        except PowerCut:
            return True

    @staticmethod
    def seal(live):
        """Has blocks written, and the file ended where it is due."""
        while live.pending or live.batch is not None:
            live.patiently(live.begin_batch)
            live.finish_batch()
        if live.is_due():
            live.open_next()


def log_of(image):
    """The whole log, file after file. A file that broke off is taken up to its last whole frame."""
    names = sorted((name for where, name in image if where == OUT), key=lambda it: [int(n) for n in it[:-7].split("-")[-2:]])
    parts = [image[OUT, it] for it in names]
    return b"".join(it[:split_frames(it)[1]] for it in parts)


def counters_of(image):
    """The counters of all sessions: those that were kept, and those of the state."""
    kept = [octets for (where, name), octets in sorted(image.items()) if where == STATE and name.startswith("counters-")
            and not name.endswith(".new")]
    saved = live_state.newest(lambda name: image.get((STATE, name)))
    return b"".join(kept) + (saved.session.ends.file(saved.session.session) if saved and saved.session.certificates else b"")


def used_twice(program, log):
    """The GBCs of a log that two signature blocks have. A review doesn't look for those."""
    ran = subprocess.run([program, "inspect", "--findings", "--max-len=1048576"], input=log, capture_output=True, check=False)
    stored, blocks = split_frames(log)[0], collections.defaultdict(set)
    for line in ran.stdout.decode().splitlines():
        words = line.split(" ")
        if words[0] == "signature":
            # HOSTNAME to RSID, and the GBC after SG and SPRI
            blocks[tuple(words[2:6]), words[8]].add(stored[int(words[1])])
    return [f"the GBC {gbc} of {session} stands in {len(texts)} blocks" for (session, gbc), texts in blocks.items() if len(texts) > 1]


class Review:
    """The report on a log, where each signature counts as valid."""

    known = {}

    def __init__(self, program, image):
        log, counters = log_of(image), counters_of(image)
        key = log, counters
        if key not in self.known:
            self.known[key] = self.review(program, log, counters)
        self.status, self.lines, self.twice = self.known[key]
        stored = split_frames(log)[0]
        self.listed = collections.Counter(original(stored[int(it.split(" ")[-1])]) for it in self.lines if it.startswith("ok "))
        self.sessions = [it.split(" ") for it in self.lines if it.startswith("session ")]
        self.findings = [it for it in self.lines if not it.startswith(("ok ", "session ", "end "))]

    @staticmethod
    def review(program, log, counters):
        """The status and the lines of a review, and the GBCs that are there twice."""
        with tempfile.TemporaryDirectory() as folder:
            paths = [os.path.join(folder, it) for it in ("answers", "counters")]
            questions = subprocess.run([program, "questions"], input=log, capture_output=True, check=False).stdout
            for path, octets in zip(paths, (as_answers(questions), counters)):
                with open(path, "wb") as file:
                    file.write(octets)
            ran = subprocess.run([program, "review", f"--answers={paths[0]}", f"--counters={paths[1]}"], input=log,
                                 capture_output=True, check=False)
        return ran.returncode, ran.stdout.decode().splitlines(), used_twice(program, log)


def original(text):
    """The message for which a text was signed."""
    front, bar, rest = text.partition(b" wrapped - |")
    return rest if bar else front
