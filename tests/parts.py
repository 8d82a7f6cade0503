#!/usr/bin/env python3
"""Reviews logs in parts, by the model of review_model.py, and sees whether the reports on the parts are that on the whole.

    parts.py [COUNT]     over COUNT logs by a seed, 10,000 without a number, and over some by hand

Each message of a log belongs to one part, and a part keeps the order of its messages. The premises are

  (a)  all blocks of a session belong to one part
  (b)  a message without a block, that has a hash which a verified block announces, belongs to the part of that block

Where both hold, the report on the whole has to be the reports on the parts put together, place by place. Where (a) holds,
so have its counters, and what is missing of it up to counters that were kept (kept.py): each part is given all of them, or
those of its sessions. Without a premise some logs have to differ, or it wouldn't be needed. The last line is
`parts: N passed, M failed`.
"""
import base64
import collections
import sys

from counters import counters_text
from kept import kept_text, some_counters
from review_examples import ALL, C, M1, M2, S
from review_logs import Maker
from review_model import Log, review, state
from review_runs import answers_to, report_text

LOGS = 10_000
# how many differences are shown
SHOWN = 3
# what some logs have to be like
REACHED = ["both hold, in 2 parts", "both hold, in 3 parts", "both hold, and several parts have a session",
           "both hold, and two parts have an equal message", "both hold, and the report is clean", "both hold, and it isn't",
           "without (a), and the reports differ", "without (b), and the reports differ",
           "(a) holds, and several parts give counters", "(a) holds, and a tail is missing", "(a) holds, and blocks are missing",
           "(a) holds, and a session is absent", "(a) holds, and a part has a session that another reports as absent",
           "without (a), and the counters differ", "without (a), and what is missing differs",
           *("both hold, and some line says %s" % it for it in (
               "listed", "lost", "disputed", "hole", "unlisted", "refused", "spoilt", "joined", "incomplete", "malformed",
               "untrusted", "unaccepted"))]

passed = failed = 0


def tell(what, wanted, said):
    """One check."""
    global passed, failed
    if wanted == said:
        passed += 1
        return
    failed += 1
    print("parts: %s: FAILED" % what)
    if failed <= SHOWN:
        for line in wanted:
            print("    wanted %s" % line)
        for line in said:
            print("    said   %s" % line)


# ---- reports that are put together

class Part:
    """The report on some messages of a log, with the places that these have in the whole."""

    def __init__(self, messages, places, answers):
        log = Log([messages[place] for place in places])
        order = iter(log.sessions)
        self.sessions, self.singles, self.count = [], [], log.count
        for line in review(log, *answers):
            word, *fields = line.split(" ")
            if word == "session":
                self.sessions.append((next(order), []))
            if word in ("unlisted", "refused", "spoilt"):
                self.singles.append((word, places[int(fields[0])], *fields[1:]))
            elif word == "listed":
                self.sessions[-1][1].append("listed %s %d" % (fields[0], places[int(fields[1])]))
            elif word != "count":
                self.sessions[-1][1].append(line)


def together(parts):
    """The lines of the reports on parts, in the order of one report. A session of two parts stands there twice."""
    sessions = sorted((it for part in parts for it in part.sessions), key=lambda it: it[0])
    lines = [line for _, own in sessions for line in own]
    for word in ("unlisted", "refused", "spoilt"):
        lines += [" ".join(map(str, it)) for it in sorted(it for part in parts for it in part.singles) if it[0] == word]
    return [*lines, "count %d" % sum(part.count for part in parts)]


def is_clean(lines):
    """Whether a report leaves nothing to look into, at a clean end."""
    words = [line.split(" ") for line in lines]
    return all(it[0] in ("group", "listed", "count") or it[0] == "session" and it[-1] == "joined" for it in words)


def parts_of(messages, answers, part_of):
    """The report on each part, by its number."""
    places = {part: [place for place, it in enumerate(part_of) if it == part] for part in sorted(set(part_of))}
    return [Part(messages, own, answers) for own in places.values()]


# ---- counters, and what is missing, put together

def session_in(line):
    """The session of a line of a report or of counters."""
    _, host, app, procid, rsid = line.split(" ")[:5]
    return host.encode(), app.encode(), procid.encode(), int(rsid)


def by_session(counters):
    """Counters by their sessions, and those of a session as they stand."""
    return sorted(counters, key=session_in)


class Missing:
    """What is missing of each session of a log that has a block, and of each absent one."""

    def __init__(self, text):
        self.known, self.absent = {}, {}
        for line in text:
            word = line.split(" ")[0]
            if word == "session":
                own = self.absent if line.endswith(" absent") else self.known
                own[session_in(line)] = []
            elif word in ("tail", "blocks"):
                own[session_in(line)].append(line)

    def lines(self):
        return missing_lines(self.known.items(), self.absent.items())


def missing_lines(known, absent):
    """A line for each of these sessions, and what is missing of it."""
    return ["%s %s %s" % (kind, *it) for kind, sessions in (("known", known), ("absent", absent)) for it in sessions]


def missing_together(parts):
    """The lines of parts put together: each session once, and no absent one that some part has."""
    known = sorted((it for part in parts for it in part.known.items()), key=lambda it: it[0])
    there = {session for session, _ in known}
    absent = {session: own for part in parts for session, own in part.absent.items() if session not in there}
    return missing_lines(known, sorted(absent.items()))


# ---- the premises

class Whole:
    """A log, its report, and which sessions announce the hashes of its messages."""

    def __init__(self, messages, answers):
        self.messages, self.answers = messages, answers
        self.log = Log(messages)
        self.report = review(self.log, *answers)
        announcing = collections.defaultdict(set)
        for session in self.log.sessions:
            for block in state(self.log, session, *answers)[1]:
                for _, algorithm, octets in [] if block.is_certificate else block.rows:
                    announcing[algorithm, octets].add(session)
        # of each message without a block, by its place
        self.announced_by = {place: announcing.get(("sha1", sha1), set()) | announcing.get(("sha256", sha256), set())
                             for place, (sha1, sha256) in self.log.pairs.items()}

    def premises(self, part_of):
        """Whether (a) holds, and whether (b) does."""
        parts = collections.defaultdict(set)
        for block in self.log.blocks:
            parts[block.session].add(part_of[block.place])
        return (all(len(it) == 1 for it in parts.values()),
                all(parts[session] <= {part_of[place]} for place, sessions in self.announced_by.items() for session in sessions))


# ---- logs and parts by a seed

class Cutter(Maker):
    """Makes a log of up to six sessions, and cuts it into two or three parts."""

    def whole(self):
        """The logs of one to three makers as one, where sessions with one name become one session, and mostly the log of an
        originator whose messages nobody else announces."""
        chance = self.chance
        messages, trusted, valid = [], set(), set()
        for _ in range(chance.choice([0, 1, 1, 2, 2, 3])):
            more = self.make()
            messages += more[0]
            trusted |= more[1]
            valid |= more[2]
        for rsid in range(chance.choice([0, 1, 1, 2, 3])):
            messages += self.own(rsid, trusted, valid)
        if chance.random() < 0.5:
            chance.shuffle(messages)
        return Whole(messages, (trusted, valid))

    def own(self, rsid, trusted, valid):
        """What an originator sent, but for messages that were lost, doubled or changed. Its blocks are validly signed."""
        chance = self.chance
        payload, session = b"- N", (b"own", b"s", b"-", rsid)
        texts = [b"<13>1 - own s - - - %d of %d" % (chance.randrange(6), rsid) for _ in range(chance.randint(1, 4))]
        blocks = [self.certificate(session, len(payload), 1, payload), self.signature(session, (0, 0), 1, texts)]
        trusted.add(payload)
        valid |= {(payload, it.signed, base64.b64decode(it.sign)) for it in blocks}
        if chance.random() < 0.3:
            texts = [chance.choice([it, it + b"?"]) for it in chance.choices(texts, k=len(texts))]
        return [*(it.text for it in blocks), *texts]

    def part_of(self, whole):
        """The part of each message: that of its session, or of those that announce it, mostly."""
        chance = self.chance
        parts = range(chance.choice([2, 2, 3]))
        # sessions that announce one stored message stay together, mostly
        group = {session: session for session in whole.log.sessions}
        if chance.random() < 0.7:
            for sessions in whole.announced_by.values():
                for session in sorted(sessions)[1:]:
                    old, new = group[session], group[min(sessions)]
                    group = {it: new if own == old else own for it, own in group.items()}
        own = {session: chance.choice(parts) for session in whole.log.sessions}
        astray = chance.choice([0, 0, 0, 0.1])
        sessions = {block.place: {block.session} for block in whole.log.blocks}
        sessions.update(whole.announced_by)
        part_of = []
        for place in range(whole.log.count):
            its = sessions.get(place) if chance.random() >= astray else None
            part_of.append(own[group[min(its)]] if its else chance.choice(parts))
        return part_of


def kinds_of(whole, parts, part_of):
    """What a log shows whose parts add up."""
    yield "in %d parts" % len(parts)
    if sum(bool(part.sessions) for part in parts) > 1:
        yield "and several parts have a session"
    texts = {(whole.messages[place], part_of[place]) for place in whole.log.pairs}
    if len(texts) > len({text for text, _ in texts}):
        yield "and two parts have an equal message"
    yield "and the report is clean" if is_clean(whole.report) else "and it isn't"
    for line in whole.report:
        words = line.split(" ")
        yield "and some line says %s" % (words[-1] if words[0] in ("session", "gap") else words[0])


def given_to(chance, counters, whole, part_of, parts):
    """The counters that each part is given: all, or those of its sessions. A session without a block has any part."""
    if chance.random() < 0.5:
        return {part: counters for part in parts}
    home = {block.session: part_of[block.place] for block in whole.log.blocks}
    for it in counters:
        home.setdefault(session_in(it), chance.choice(parts))
    return {part: [it for it in counters if home[session_in(it)] == part] for part in parts}


def compare_kept(seed, cutter, whole, part_of, is_whole, reached):
    """Compares the counters, and what is missing up to some, where all blocks of a session are in one part."""
    logs = {part: Log([text for text, own in zip(whole.messages, part_of) if own == part]) for part in sorted(set(part_of))}
    given = [counters_text(log, *whole.answers) for log in logs.values()]
    wanted, said = counters_text(whole.log, *whole.answers), by_session(it for own in given for it in own)
    kept = some_counters(cutter.chance, wanted)
    own = given_to(cutter.chance, kept if logs else [], whole, part_of, list(logs))
    lacked = [Missing(kept_text(log, *whole.answers, own[part])) for part, log in logs.items()]
    missing = Missing(kept_text(whole.log, *whole.answers, kept if logs else []))
    if not is_whole:
        reached["without (a), and the counters %s" % ("agree" if said == wanted else "differ")] += 1
        agrees = missing_together(lacked) == missing.lines()
        reached["without (a), and what is missing %s" % ("agrees" if agrees else "differs")] += 1
        return
    tell("seed %d: the counters" % seed, wanted, said)
    tell("seed %d: what is missing" % seed, missing.lines(), missing_together(lacked))
    words = {line.split(" ")[0] for own in (missing.known, missing.absent) for lines in own.values() for line in lines}
    reached["(a) holds, and several parts give counters"] += sum(map(bool, given)) > 1
    reached["(a) holds, and a tail is missing"] += "tail" in words
    reached["(a) holds, and blocks are missing"] += "blocks" in words
    reached["(a) holds, and a session is absent"] += bool(missing.absent)
    reached["(a) holds, and a part has a session that another reports as absent"] += any(
        session in missing.known for part in lacked for session in part.absent)


def compare(seed, reached):
    """Cuts the log of a seed, and compares the reports where both premises hold."""
    cutter = Cutter("parts %d" % seed)
    whole = cutter.whole()
    part_of = cutter.part_of(whole)
    parts = parts_of(whole.messages, whole.answers, part_of)
    said = together(parts)
    a, b = whole.premises(part_of)
    compare_kept(seed, cutter, whole, part_of, a, reached)
    if a and b:
        tell("seed %d" % seed, whole.report, said)
        reached.update({"both hold, %s" % it for it in kinds_of(whole, parts, part_of)})
    elif a or b:
        reached["without (%s), and the reports %s" % ("b" if a else "a", "agree" if said == whole.report else "differ")] += 1


# ---- by hand

# two messages with the session that announces them, and one that nobody signed
BY_HAND = [M1, M2, C, S, b"<13>1 - - - - - - nobody signed this"]
JOINED = "session h s - 1 joined"
# the part of each of them, whether (a) and (b) hold, and the report on each part
ROWS = [
    ("both hold", [0, 0, 0, 0, 1], (True, True), [
        [JOINED, "ok h s - 1 0 0 1 0", "ok h s - 1 0 0 2 1", "end 4"], ["unlisted 0", "end 1"]]),
    ("without (a)", [0, 0, 1, 0, 0], (False, False), [
        ["session h s - 1 incomplete", "unlisted 0", "unlisted 1", "unlisted 3", "refused 2", "end 4"], [JOINED, "end 1"]]),
    ("without (b)", [1, 1, 0, 0, 1], (True, False), [
        [JOINED, "gap h s - 1 0 0 1 lost", "gap h s - 1 0 0 2 lost", "end 2"], ["unlisted 0", "unlisted 1", "unlisted 2", "end 3"]]),
]


def by_hand():
    """What each part says of the log that was made by hand."""
    whole = Whole(BY_HAND, answers_to(Log(BY_HAND), ALL))
    for name, part_of, premises, wanted in ROWS:
        tell("%s, by hand: the premises" % name, [premises], [whole.premises(part_of)])
        logs = [Log([text for text, own in zip(BY_HAND, part_of) if own == part]) for part in (0, 1)]
        for log, lines in zip(logs, wanted):
            tell("%s, by hand: a report" % name, lines, report_text(review(log, *whole.answers)))


def main():
    reached = collections.Counter()
    by_hand()
    count = int(sys.argv[1]) if len(sys.argv) > 1 else LOGS
    for seed in range(count):
        compare(seed, reached)
    for kind in REACHED:
        print("parts: %6d %s" % (reached[kind], kind))
        tell("some log: %s" % kind, [True], [reached[kind] > 0])
    print("parts: %d passed, %d failed" % (passed, failed))
    return failed > 0 or passed == 0


if __name__ == "__main__":
    sys.exit(main())
