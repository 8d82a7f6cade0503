#!/usr/bin/env python3
"""Reviews logs night by night, by the model of review_model.py, and sees whether the nights together say what one review
of the whole log says.

    nights.py PROGRAM [COUNT]     over logs by hand, COUNT logs by a seed, 10,000 without a number, and over the program

A night's log is what the nights before carried over, then the night's own file. `carried` says what a night carries over.
A number is *settled* by a night that lists it and carries over no block that announces it. The premises are

  joined     no session is disputed later, of which a night left behind a verified block
  hash       no settled number is announced later with another hash
  again      no settled number is listed later
  lost       no number that is lost in the end comes before a settled one whose message has the hash that is lost
  collision  no message that a number wants later by its hash differs from an earlier, settled one with that hash

Where all hold, the nights together have to say what the whole says: states, listed numbers with their texts, gaps, holes,
unlisted texts, refused and spoilt places, and the count. Equal messages may be exchanged, and nothing else. If no two texts
have one SHA-1, the nights have to differ from the whole in each log where some premise fails, so none can be weaker. The
last premise speaks of such texts alone. `checked_facts` has what holds of every log.

`ssign carry` has to carry over what the model does: night by night, and of logs by a seed, as frames and as lines, whole and
torn. The last line is `nights: N passed, M failed`.
"""
import base64
import collections
import copy
import hashlib
import os
import pathlib
import random
import subprocess
import sys
import tempfile

from review_examples import A, ALL, B, C, CI, M1, M2, S, S7, S7I, certificate, h, signature
from review_logs import Made, Maker, SAME_SHA1, make
from review_model import Log, review
from review_runs import answers_text, answers_to, frame, line, read_frames, read_lines, report_text

LOGS, OVER_PROGRAM, CARRIED_BY_PROGRAM = 10_000, 100, 400
SHOWN = 3
PREMISES = ["joined", "hash", "again", "lost", "collision"]
KINDS = ["certificates", "unjudged", "gaps", "listed", "unlisted"]
# what some logs have to be like
REACHED = ["all hold, in 2 nights", "all hold, in 3 nights", "all hold, in 4 nights", "all hold, and some number is settled",
           "all hold, and a later night lists what it was left", "all hold, and a later night joins a session",
           "all hold, and a settled number is announced again", "all hold, and the reports show it",
           "all hold, and more blocks are carried over",
           *("all hold, and some %s" % it for it in ("is lost", "is disputed", "is unlisted", "block is refused", "is spoilt")),
           *("without %s alone, and the nights differ" % it for it in PREMISES)]

passed = failed = 0


def tell(what, wanted, said):
    """One check."""
    global passed, failed
    if wanted == said:
        passed += 1
        return
    failed += 1
    print("nights: %s: FAILED" % what)
    if failed <= SHOWN:
        print("    wanted %s\n    said   %s" % (wanted, said))


# ---- a review at places of the whole

def at_places(log, places):
    """The messages of a log at some places, which keep their places."""
    part = copy.copy(log)
    part.pairs = {place: pair for place, pair in log.pairs.items() if place in places}
    part.blocks = [block for block in log.blocks if block.place in places]
    part.spoilt = [it for it in log.spoilt if it[0] in places]
    part.sessions = sorted({block.session for block in part.blocks})
    part.count = len(places)
    return part


class Told:
    """What the report on a log says. A key is a session, a group and a number."""

    def __init__(self, log, answers):
        self.log = log
        self.states, self.listed, self.gaps, self.unlisted, self.refused = {}, {}, {}, [], []
        order = iter(log.sessions)
        for row in review(log, *answers):
            word, *fields = row.split(" ")
            if word == "session":
                session = next(order)
                self.states[session] = fields[-1]
            elif word == "group":
                group = tuple(map(int, fields))
            elif word == "listed":
                self.listed[session, group, int(fields[0])] = int(fields[1])
            elif word == "gap":
                self.gaps[session, group, int(fields[0])] = fields[1]
            elif word in ("unlisted", "refused"):
                getattr(self, word).append(int(fields[0]))
        refused = set(self.refused)
        self.verified = [block for block in log.blocks if block.place not in refused]
        self.hashes = collections.defaultdict(set)
        for block in self.verified:
            for key, hash_of in announced(block):
                self.hashes[key].add(hash_of)

    def keys(self):
        return self.listed.keys() | self.gaps.keys()

    def wanted(self):
        """Each hash that alone is announced for some key, and the first place whose message has it."""
        for hashes in self.hashes.values():
            places = [place for it in hashes for place, pair in self.log.pairs.items() if has(pair, it)]
            if len(hashes) == 1 and places:
                yield *hashes, min(places)


def announced(block):
    """The keys of a signature block, each with its hash."""
    return [] if block.is_certificate else [((block.session, block.group, it[0]), it[1:]) for it in block.rows]


def has(pair, hash_of):
    algorithm, octets = hash_of
    return pair[algorithm == "sha256"] == octets


# ---- what is carried over

def carried(told, kinds=KINDS, more=frozenset()):
    """The places that a night carries over, and the keys that the carried blocks announce. In the order of their places:

    certificates   of a joined session, each verified certificate block, but for one with the INDEX and FLEN of one before it
    unjudged       of any other session, all blocks
    gaps           each verified signature block with a number that is lost or disputed, and more of them, if somebody likes
    listed         each message that is listed under a number of such a block
    unlisted       each message that is unlisted"""
    places, keys, known = set(), set(), set()
    if "unlisted" in kinds:
        places.update(told.unlisted)
    if "unjudged" in kinds:
        places.update(block.place for block in told.log.blocks if told.states[block.session] != "joined")
    for block in told.verified:
        if block.is_certificate:
            extent = (block.session, block.index, len(block.fragment))
            if extent not in known and "certificates" in kinds:
                places.add(block.place)
            known.add(extent)
        elif block.place in more or any(key in told.gaps for key, _ in announced(block)) and "gaps" in kinds:
            places.add(block.place)
            keys.update(key for key, _ in announced(block))
    if "listed" in kinds:
        places.update(told.listed[key] for key in keys if key in told.listed)
    return places, keys


class Nights:
    """A log that is reviewed night by night, each night with what the nights before carried over."""

    def __init__(self, log, answers, files, kinds=KINDS, more=frozenset()):
        self.log = log
        self.nights, self.carried = [], []
        # of each settled key the night, the place and the hash
        self.settled = {}
        refused, places = set(), set()
        for number, file in enumerate(files):
            told = Told(at_places(log, places | set(file)), answers)
            self.nights.append(told)
            places, keys = carried(told, kinds, more)
            self.carried.append(sorted(places))
            if number < len(files) - 1:
                for key, place in told.listed.items():
                    if key not in keys:
                        self.settled.setdefault(key, (number, place, *told.hashes[key]))
                refused.update(place for place in told.refused if place not in places)
        last = self.nights[-1]
        self.states, self.unlisted = last.states, last.unlisted
        self.listed = {**last.listed, **{key: place for key, (_, place, _) in self.settled.items()}}
        self.gaps = {key: why for key, why in last.gaps.items() if key not in self.settled}
        self.refused = sorted(refused.union(last.refused))
        self.spoilt = sorted(it for told in self.nights for it in told.log.spoilt)
        self.count = sum(len(it.log.pairs) + len(it.log.blocks) + len(it.log.spoilt) for it in self.nights) \
            - sum(map(len, self.carried[:-1]))

    def keys(self):
        return self.listed.keys() | self.gaps.keys()

    def announced(self):
        """All keys that some night's report tells, of sessions that are joined in the end."""
        return {key for told in self.nights for key in told.keys() if self.states[key[0]] == "joined"}

    # ---- the premises

    def later(self):
        """Each settled key with its place and hash, and each later night."""
        for key, (number, place, hash_of) in self.settled.items():
            for told in self.nights[number + 1:]:
                yield key, place, hash_of, told

    def broken(self):
        """The premises that don't hold."""
        pairs = self.log.pairs
        if any(self.states[block.session] != "joined" for told, places in zip(self.nights, self.carried[:-1])
               for block in told.verified if block.place not in places):
            yield "joined"
        if any(told.hashes.get(key, set()) - {hash_of} for key, _, hash_of, told in self.later()):
            yield "hash"
        if any(key in told.listed for key, _, _, told in self.later()):
            yield "again"
        lost = [(key, it) for key, why in self.gaps.items() if why == "lost" for it in self.nights[-1].hashes[key]]
        if any(key < settled and has(pairs[place], it) for key, it in lost for settled, (_, place, _) in self.settled.items()):
            yield "lost"
        if any(place < other and pairs[place] != pairs[other] and has(pairs[place], it) for _, place, _, told in self.later()
               for it, other in told.wanted()):
            yield "collision"

    def reports_show(self):
        """Whether the reports alone show that all premises but `collision` hold: each session that is joined stays joined,
        no settled number is told again, and none is lost in the last report."""
        joined = {session for told in self.nights for session, state in told.states.items() if state == "joined"}
        return (all(self.states[session] == "joined" for session in joined)
                and not any(key in told.keys() for key, _, _, told in self.later())
                and "lost" not in self.nights[-1].gaps.values())


# ---- the nights against the whole

def holes(keys):
    """The runs of numbers that nobody announces, each by the keys around it."""
    rising = sorted({(*key[:2], 0) for key in keys}.union(keys))
    return [it for it in zip(rising, rising[1:]) if it[0][:2] == it[1][:2] and it[0][2] + 1 < it[1][2]]


def differences(log, whole, nights):
    """In what the nights together differ from the whole. Messages are compared by their texts."""
    def texts(listed):
        return {key: log.pairs[place] for key, place in listed.items()}
    return [what for what, wanted, said in [
        ("states", whole.states, nights.states), ("listed", texts(whole.listed), texts(nights.listed)),
        ("gaps", whole.gaps, nights.gaps), ("holes", holes(whole.keys()), holes(nights.keys())),
        ("unlisted", sorted(map(log.pairs.get, whole.unlisted)), sorted(map(log.pairs.get, nights.unlisted))),
        ("refused", whole.refused, nights.refused), ("spoilt", log.spoilt, nights.spoilt), ("count", log.count, nights.count),
    ] if wanted != said]


def checked_facts(what, log, whole, nights, broken):
    """What needs no premise, or not all of them."""
    tell("%s: states" % what, whole.states, nights.states)
    tell("%s: what is announced" % what, whole.keys(), nights.announced())
    verified = {block.place for block in whole.verified}
    wrong = [block.place for told in nights.nights for block in told.verified
             if nights.states[block.session] == "joined" and block.place not in verified]
    tell("%s: verified blocks" % what, [], wrong)
    wrong = [key for told in nights.nights for key, place in told.listed.items() if nights.states[key[0]] == "joined"
             and not any(has(log.pairs[place], it) for it in whole.hashes[key])]
    tell("%s: a listed message has an announced hash" % what, [], wrong)
    if not set(broken) - {"lost"}:
        count = [collections.Counter(log.pairs[place] for place in it.listed.values()) for it in (whole, nights)]
        tell("%s: how often each text is listed" % what, *count)
    if nights.reports_show():
        tell("%s: what the reports show" % what, [], [it for it in broken if it != "collision"])


# ---- logs by a seed

class Keeper(Maker):
    """Makes a log of some sessions, and cuts it into the files of two to four nights."""

    def made(self):
        """Messages, answers, and the places of each night's file."""
        chance = self.chance
        messages, trusted, valid = [], set(), set()
        for _ in range(chance.choice([0, 0, 0, 1, 1, 2])):
            more = self.make()
            messages += more[0]
            trusted |= more[1]
            valid |= more[2]
        for rsid in range(chance.choice([0, 1, 1, 2, 3]) if messages else chance.choice([1, 1, 2, 3])):
            messages += self.own(rsid, trusted, valid)
        if chance.random() < 0.3:
            chance.shuffle(messages)
        cuts = sorted(chance.randint(0, len(messages)) for _ in range(chance.choice([1, 1, 2, 3])))
        return messages, (trusted, valid), [range(*it) for it in zip([0, *cuts], [*cuts, len(messages)])]

    def own(self, rsid, trusted, valid):
        """What an originator sent: messages and then their block, and again, all of it validly signed. A few messages are
        lost, stand twice or are late, a few blocks are sent twice or late, and some messages are equal."""
        chance = self.chance
        payload, session = b"- N", (b"own", b"s", b"-", rsid)
        whose = self.often(rsid, 0, 1, odds=0.7)
        log = [self.certificate(session, len(payload), 1, payload)]
        first = 1
        for number in range(chance.choice([1, 2, 3])):
            texts = [b"<13>1 - own s - - - %d of %d" % (self.often(first + it, 1, 2, odds=0.8), whose) for it in range(chance.choice([1, 2, 3]))]
            log += [*texts, self.signature(session, (0, 0), first, texts)]
            first += len(texts)
        blocks = [it for it in log if isinstance(it, Made)]
        trusted.add(payload)
        valid |= {(payload, it.signed, base64.b64decode(it.sign)) for it in blocks}
        log = [it.text if isinstance(it, Made) else it for it in log for _ in range(self.often(1, 0, 2, odds=0.93))]
        for _ in range(chance.choice([0, 0, 1, 2]) if log else 0):
            log.insert(chance.randint(0, len(log)), log.pop(chance.randrange(len(log))))
        if chance.random() < 0.15:
            log.insert(chance.randint(0, len(log)), chance.choice(blocks).text)
        return log


def has_twins(log):
    """Whether two texts have one SHA-1."""
    pairs = set(log.pairs.values())
    return len({sha1 for sha1, _ in pairs}) < len(pairs)


def made(seed):
    return Keeper("nights %d" % seed).made()


def kinds_of(log, whole, nights):
    """What a log shows whose nights say what the whole does."""
    yield "in %d nights" % len(nights.nights)
    if nights.settled:
        yield "and some number is settled"
    before = [set(it) for it in nights.carried]
    if any(place in places and place in told.unlisted for places, told, after in zip(before, nights.nights, nights.nights[1:])
           for place in after.listed.values()):
        yield "and a later night lists what it was left"
    if any(told.states.get(session, "joined") != "joined" and state == "joined"
           for told, after in zip(nights.nights, nights.nights[1:]) for session, state in after.states.items()):
        yield "and a later night joins a session"
    if any(key in told.gaps for key, _, _, told in nights.later()):
        yield "and a settled number is announced again"
    if nights.settled and nights.reports_show():
        yield "and the reports show it"
    if whole.listed != nights.listed:
        yield "and equal messages are exchanged"
    for name, some in [("is lost", "lost" in whole.gaps.values()), ("is disputed", "disputed" in whole.gaps.values()),
                       ("is unlisted", whole.unlisted), ("block is refused", whole.refused), ("is spoilt", log.spoilt)]:
        if some:
            yield "and some %s" % name


def compare(seed, reached):
    messages, answers, files = made(seed)
    log = Log(messages)
    chance = random.Random(seed)
    more = {block.place for block in log.blocks if chance.random() < 0.5} if chance.random() < 0.2 else set()
    whole, nights = Told(log, answers), Nights(log, answers, files, more=more)
    broken, differ = list(nights.broken()), differences(log, whole, nights)
    checked_facts("seed %d" % seed, log, whole, nights, broken)
    if not broken:
        reached["all hold"] += 1
        tell("seed %d" % seed, [], differ)
        reached.update({"all hold, %s" % it for it in kinds_of(log, whole, nights)})
        reached["all hold, and more blocks are carried over"] += bool(more)
    if not has_twins(log):
        tell("seed %d: without %s" % (seed, broken), broken != [], differ != [])
    if len(broken) == 1:
        reached["without %s alone, and the nights %s" % (broken[0], "differ" if differ else "agree")] += 1


# ---- by hand

def h2(text):
    return base64.b64encode(hashlib.sha256(text).digest())


ANOTHER_LENGTH = certificate(total=28)
# the first and the second number, each in a block of its own
ONE, TWO, THREE = S7, signature(B, gbc=1, first=2), signature(A, gbc=2, first=3)
SHA1_TWINS = [it + b"tail" for it in SAME_SHA1]
# the files of each night, the premises that don't hold, and in what the nights differ from the whole
BY_HAND = [
    ("each night has its own messages and blocks", [[C, M1, ONE], [M2, TWO]], [], []),
    ("the block comes a night later", [[C, M1, M2, ONE], [TWO]], [], []),
    ("the message comes a night later", [[C, M1, S], [M2]], [], []),
    ("the message comes two nights later", [[C, M1, S], [], [M2]], [], []),
    ("the certificate block comes a night later", [[M1, ONE], [C, M2, TWO]], [], []),
    ("a copy of a settled block comes a night later", [[C, M1, ONE], [M2, TWO, ONE]], [], []),
    ("an equal message, with a number of its own", [[C, M1, ONE], [M1, THREE]], [], []),
    ("an equal message, with no number", [[C, M1, ONE], [M1]], [], []),
    ("a message is gone for good", [[C, M1, ONE, TWO], [M1, THREE]], [], []),
    ("a session is disputed after it was joined", [[C, M1, ONE], [ANOTHER_LENGTH]],
     ["joined"], ["listed", "unlisted", "refused"]),
    ("a settled number has another hash later", [[C, M1, ONE], [signature(B, gbc=1)]], ["hash"], ["listed", "gaps", "unlisted"]),
    ("a copy of a settled block, and an equal message", [[C, M1, ONE], [ONE, M1]], ["again"], ["unlisted"]),
    ("a copy of a settled block, and an equal message a night later", [[C, M1, ONE], [ONE], [M1]], ["again"], ["unlisted"]),
    ("a lost number before a settled one with its hash", [[CI, M1, S7I], [C, ONE]], ["lost"], ["listed", "gaps"]),
    ("a lost number behind a settled one with its hash", [[C, M1, ONE], [CI, S7I]], [], []),
    ("two texts with one SHA-1", [[C, SHA1_TWINS[0], signature(h(SHA1_TWINS[0]))],
                                  [SHA1_TWINS[1], signature(h(SHA1_TWINS[0]), gbc=1, first=2)]],
     ["collision"], ["listed", "gaps", "unlisted"]),
    ("two texts with one SHA-1, and a number that is lost since it wants the other",
     [[C, SHA1_TWINS[0], signature(h(SHA1_TWINS[0]))],
      [*SHA1_TWINS[::-1], signature(h2(SHA1_TWINS[1]), ver=b"0121", gbc=1, first=2), signature(h(SHA1_TWINS[0]), gbc=2, first=3)]],
     ["collision"], ["listed", "gaps", "unlisted"]),
]
# what goes wrong if one kind isn't carried over, though all premises hold
WITHOUT_KIND = [
    ("certificates", [[C, M1, ONE], [M2, TWO]]),
    ("unjudged", [[M1, ONE], [C]]),
    ("gaps", [[C, M1, S], [M2]]),
    ("listed", [[C, M1, S], [M2]]),
    ("unlisted", [[C, M1], [ONE]]),
]


def log_of(files):
    """The log of these files, answers that say yes to all, and the places of each file."""
    messages = [text for file in files for text in file]
    ends = [sum(map(len, files[:it])) for it in range(len(files) + 1)]
    return messages, answers_to(Log(messages), ALL), [range(*it) for it in zip(ends, ends[1:])]


def by_hand():
    for name, files, broken, differ in BY_HAND:
        messages, answers, places = log_of(files)
        # a session that is disputed in the end is asked about before it is
        for count in range(len(files)):
            answers = tuple(a | b for a, b in zip(answers, answers_to(Log(messages[:places[count].stop]), ALL)))
        log = Log(messages)
        whole, nights = Told(log, answers), Nights(log, answers, places)
        tell("%s: the premises" % name, broken, list(nights.broken()))
        tell("%s: the differences" % name, differ, differences(log, whole, nights))
        checked_facts(name, log, whole, nights, broken)
        yield name, messages, answers, places
    for kind, files in WITHOUT_KIND:
        messages, answers, places = log_of(files)
        log = Log(messages)
        for kinds, differ in [(KINDS, False), ([it for it in KINDS if it != kind], True)]:
            nights = Nights(log, answers, places, kinds)
            tell("%s, carried over: %s" % (kind, not differ), differ, differences(log, Told(log, answers), nights) != [])


# ---- over the program

def say(program, folder, words, octets):
    said = subprocess.run([program, *words, "--answers", "answers"], input=octets, cwd=folder, capture_output=True, timeout=60)
    return said.returncode, said.stdout, said.stderr


def over_program(name, program, folder, messages, answers, files):
    """The reports of the program night by night, and what it carries over, against the model."""
    nights = Nights(Log(messages), answers, files)
    (folder / "answers").write_bytes(answers_text(*answers))
    front = b""
    for number, file in enumerate(files):
        before = nights.carried[number - 1] if number else []
        own = [messages[place] for place in [*before, *file]]
        log = front + b"".join(frame(messages[place]) for place in file)
        report = say(program, folder, ["review"], log)[1].decode().splitlines()
        tell("%s, night %d: the report" % (name, number + 1), report_text(review(Log(own), *answers)), report)
        front = b"".join(frame(messages[place]) for place in nights.carried[number])
        tell("%s, night %d: what is carried over" % (name, number + 1), (0, front, b""), say(program, folder, ["carry"], log))


def carries(seed, program, folder):
    """What the program carries over of a log, as frames or as lines, whole or torn. If no two texts have one SHA-1, all of it
    is carried over again by a night with an empty file."""
    chance = random.Random(seed)
    messages, *answers = make(seed)
    of_lines = chance.random() < 0.3
    # a frame has an octet, and a line has no LF in it
    messages = [it for it in messages if it and not (of_lines and b"\n" in it)]
    torn = chance.random() < 0.2
    octets = b"".join(map(line if of_lines else frame, messages)) + (b"y" if of_lines else b"12") * torn
    read, tear = (read_lines if of_lines else read_frames)(octets)
    tell("seed %d: the log" % seed, (messages, torn), (read, tear is not None))
    (folder / "answers").write_bytes(answers_text(*answers))
    places = carried(Told(Log(messages), answers))[0]
    wanted = b"".join(frame(messages[place]) for place in sorted(places))
    words = ["carry", *(["--lines"] if of_lines else [])]
    tell("seed %d: carry" % seed, (int(torn), wanted, b""), say(program, folder, words, octets))
    if not has_twins(Log(messages)):
        tell("seed %d: carry once more" % seed, (0, wanted, b""), say(program, folder, ["carry"], wanted))


def main():
    program = os.path.abspath(sys.argv[1])
    count = int(sys.argv[2]) if len(sys.argv) > 2 else LOGS
    reached = collections.Counter()
    for seed in range(count):
        compare(seed, reached)
    for kind in sorted(reached.keys() | set(REACHED)):
        print("nights: %6d %s" % (reached[kind], kind))
    for kind in REACHED:
        tell("some log: %s" % kind, True, reached[kind] > 0)
    with tempfile.TemporaryDirectory() as scratch:
        folder = pathlib.Path(scratch)
        for it in by_hand():
            over_program(it[0], program, folder, *it[1:])
        # a frame isn't empty
        logs = [(seed, *it) for seed in range(2 * OVER_PROGRAM) for it in [made(seed)] if all(it[0])]
        for seed, *it in logs[:OVER_PROGRAM]:
            over_program("seed %d" % seed, program, folder, *it)
        for seed in range(CARRIED_BY_PROGRAM):
            carries(seed, program, folder)
    print("nights: %d passed, %d failed" % (passed, failed))
    return failed > 0 or passed == 0


if __name__ == "__main__":
    sys.exit(main())
