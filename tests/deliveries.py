#!/usr/bin/env python3
"""Compares the review of what originators sent, with all that can happen on the way, with the law of the two ends.

    deliveries.py ORIGINATED REVIEWED     the programs that play an originator and review a log

The last line is `deliveries: N passed, M failed`.
"""
import collections
import subprocess
import sys

from delivery_logs import deliver, scripts
from delivery_model import Chain, Delivery, said, signed

CHAINS = 20_000
AT_ONCE = 2_000
# how many differences are shown
SHOWN = 3
REACHED = ["joined", "incomplete", "not told of", "listed", "gap", "hole", "unlisted", "refused", "whole", "resumed", "repeated", "a number beyond its text's places",
           "another session", "spoilt", "SG 0", "SG 1", "SG 2"]
passed = failed = 0


def tell(what, wanted, found):
    """One check."""
    global passed, failed
    if wanted == found:
        passed += 1
        return
    failed += 1
    print("deliveries: %s: FAILED" % what)
    if failed > SHOWN:
        return
    for line in wanted:
        print("    wanted %s" % line)
    for line in found:
        print("    said   %s" % line)


# ---- originators

def play(program, all_scripts):
    """What the originator answers to each line of each script but `config`: the lines of the answer."""
    lines = [line for script in all_scripts for line in [*script, "."]]
    done = subprocess.run([program], input="\n".join(lines).encode() + b"\n", stdout=subprocess.PIPE, timeout=300, check=True)
    answers, said_so_far = [[]], []
    for line in done.stdout.decode().splitlines():
        if line == "end":
            answers.append([])
            continue
        said_so_far.append(line)
        # a call that is answered ends with the counters
        if line.startswith("counters "):
            answers[-1].append(said_so_far)
            said_so_far = []
    return answers[:-1]


def spri_of(groups, pri):
    kind, _, numbers = groups.partition(":")
    if kind == "pri":
        return pri
    bounds = [int(number) for number in numbers.split(",")]
    return bounds[0] if kind == "one" else min(bound for bound in bounds if pri <= bound)


def chain_of(script, answers):
    """What the calls of a script were given and sent."""
    words = script[0].split(" ")
    fields = ["-" if field == "-" else field.encode().hex() for field in words[2:5]]
    groups = words[8]
    chain = Chain(" ".join([*fields, words[7]]), ["one", "pri", "ranges"].index(groups.partition(":")[0]), bytes.fromhex(words[12]))
    for line, answer in zip(script[1:], answers):
        name, *words = line.split(" ")
        sent = [bytes.fromhex(it[5:]) for it in answer if it.startswith("sent ")]
        if name in ("new", "resume", "behind") or answer[0].startswith("O"):
            continue
        if name == "begin":
            chain.begin(sent)
        elif name == "flush":
            chain.flush(sent)
        else:
            message = bytes.fromhex(words[3])
            assert sent[0] == message
            chain.submit(spri_of(groups, int(message[1:message.index(b">")])), message, sent[1:])
    assert len(answers) == len(script) - 1
    return chain


# ---- reviews

def frame(kind, octets=b""):
    return b"%d %s%s" % (len(octets) + 1, kind, octets)


def told(log, chains, trusted, valid):
    """A log as the program reads it; each payload is trusted or none, and each signature of a sent block is valid or none."""
    frames = []
    for chain in chains:
        frames += [frame(b"t", chain.payload)] * trusted + [frame(b"p", chain.payload)]
        for block in chain.sent_blocks() * valid:
            octets, signature = signed(block)
            frames += [frame(b"o", octets), frame(b"s", signature)]
    return b"".join(frames + [frame(b"m", text) for text in log] + [frame(b".")])


def reports(program, cases, trusted=True, valid=True):
    """The lines of each report."""
    done = subprocess.run([program], input=b"".join(told(log, chains, trusted, valid) for log, chains in cases), stdout=subprocess.PIPE, timeout=300, check=True)
    found = []
    for line in done.stdout.decode().splitlines():
        if line == "log":
            found.append([])
        elif not line.startswith(("trust ", "yes ")):
            found[-1].append(line)
    assert len(found) == len(cases)
    return found


def own_part(chain, log, report):
    """What a report says of the chain's session: its lines, and the places of its messages and blocks that are told of."""
    session, own = "session %s " % chain.session, set(chain.sent_blocks()) | set(chain.submitted())
    part, inside = [], False
    for line in report:
        word, *fields = line.split(" ")
        if word in ("session", "unlisted", "refused", "spoilt", "count"):
            inside = line.startswith(session)
        if inside or word in ("unlisted", "refused", "spoilt") and log[int(fields[0])] in own:
            part.append(line)
    return part


def see(what, chain, delivery, report, reached, whole=False):
    wanted = said(chain, delivery)
    tell(what, wanted, own_part(chain, delivery.log, report))
    if whole:
        tell(what + ", which is whole", [], [line for line in report if line.split(" ")[0] not in ("session", "group", "listed", "count") or line.endswith("incomplete")])
    reached.update(line.split(" ")[0] for line in wanted)
    reached.update([wanted[0].split(" ")[-1] if wanted and wanted[0].startswith("session") else "not told of"])


# ---- the ten messages of an originator of two groups

SCRIPT = ["config 110 h s - - 0111 1 pri 2 1 20 " + b"2009-05-03T14:00:39Z K S0VZ".hex(), "new", "begin - 9 s",
          *("submit - 9 s " + (b"<%d>1 - - - - - - %c" % it).hex() for it in ((13, b"a"), (14, b"b"), (13, b"c"), (14, b"d"), (13, b"e"))), "flush - 9 s"]
RESUMED = [*SCRIPT[:6], "behind", SCRIPT[6], "flush - 9 s"]
FOREIGN = b"abc"
# by their numbers among the ten: two fragments, a, b, c, the block of a and c, d, the block of b and d, e, the block of e
LOGS = [
    ("all ten", SCRIPT, range(10), ["session 68 73 - 1 joined", "group 1 13", "listed 1 2", "listed 2 4", "listed 3 8", "group 1 14", "listed 1 3", "listed 2 6", "count 10"]),
    ("some, in another order", SCRIPT, [1, 0, 0, 8, 9, 6, 2, 7, FOREIGN],
     ["session 68 73 - 1 joined", "group 1 13", "hole 1 2", "listed 3 3", "group 1 14", "gap 1 lost", "listed 2 5", "unlisted 6", "unlisted 8", "count 9"]),
    ("one fragment", SCRIPT, [0, 2, 4, 5], ["session 68 73 - 1 incomplete", "unlisted 1", "unlisted 2", "refused 0", "refused 3", "count 4"]),
    ("a resumed originator", RESUMED, range(8),
     ["session 68 73 - 1 joined", "group 1 13", "listed 1 2", "listed 2 4", "group 1 14", "hole 1 1", "listed 2 6", "unlisted 3", "count 8"]),
]


# What goes wrong without a premise of the law: scripts, a log by the script and the number of the message that it sent, what
# isn't answered of payloads and signatures, and the report.
CONFIG, BEGIN, FLUSH = SCRIPT[0], SCRIPT[2], SCRIPT[-1]
SUBMIT_A, SUBMIT_E = SCRIPT[3], SCRIPT[7]
FIRST = CONFIG.replace(" h s ", " a s ")
OTHER_KEY = CONFIG.replace(b"S0VZ".hex(), b"S0Va".hex())
OWN = "session 68 73 - 1 "
WITHOUT = [
    ("a block of the session that somebody else sent", [[CONFIG, "new"], [CONFIG, "new", BEGIN]], [(1, 0), (1, 1)], {}, [OWN + "joined", "count 2"]),
    ("a payload that isn't trusted", [[CONFIG, "new", BEGIN]], [(0, 0), (0, 1)], {"trusted": False}, [OWN + "untrusted", "refused 0", "refused 1", "count 2"]),
    ("a checker that says yes to nothing", [[CONFIG, "new", BEGIN, SUBMIT_A, FLUSH]], [(0, it) for it in range(4)], {"valid": False},
     [OWN + "unaccepted", "unlisted 2", "refused 0", "refused 1", "refused 3", "count 4"]),
    ("another session that announces the same message, and stands before", [[CONFIG, "new", BEGIN, SUBMIT_A, FLUSH], [FIRST, "new", BEGIN, SUBMIT_A, FLUSH]],
     [(0, 0), (0, 1), (0, 2), (0, 3), (1, 0), (1, 1), (1, 3)], {},
     ["session 61 73 - 1 joined", "group 1 13", "listed 1 2", OWN + "joined", "group 1 13", "gap 1 lost", "count 7"]),
    ("equal messages, of which one is lost", [[CONFIG, "new", BEGIN, SUBMIT_A, SUBMIT_A]], [(0, 0), (0, 1), (0, 2), (0, 4)], {},
     [OWN + "joined", "group 1 13", "listed 1 2", "gap 2 lost", "count 4"]),
    ("a message that is pending", [[CONFIG, "new", BEGIN, SUBMIT_A]], [(0, 0), (0, 1), (0, 2)], {}, [OWN + "joined", "unlisted 2", "count 3"]),
    ("no `begin`", [[CONFIG, "resume 0", SUBMIT_A, FLUSH]], [(0, 0), (0, 1)], {}, [OWN + "incomplete", "unlisted 0", "refused 1", "count 2"]),
    ("a lost message", [[CONFIG, "new", BEGIN, SUBMIT_A, FLUSH]], [(0, 0), (0, 1), (0, 3)], {}, [OWN + "joined", "group 1 13", "gap 1 lost", "count 3"]),
    ("a message once too often", [[CONFIG, "new", BEGIN, SUBMIT_A, FLUSH]], [(0, 0), (0, 1), (0, 2), (0, 2), (0, 3)], {},
     [OWN + "joined", "group 1 13", "listed 1 2", "unlisted 3", "count 5"]),
    ("a lost block", [[CONFIG, "new", BEGIN, SUBMIT_A, FLUSH]], [(0, 0), (0, 1), (0, 2)], {}, [OWN + "joined", "unlisted 2", "count 3"]),
    ("an originator that is resumed elsewhere", [[CONFIG, "new", BEGIN, SUBMIT_A, FLUSH, "resume 0", SUBMIT_E, FLUSH]], [(0, it) for it in range(6)], {},
     [OWN + "joined", "group 1 13", "gap 1 disputed", "unlisted 2", "unlisted 4", "count 6"]),
    ("an originator that is resumed with another payload", [[CONFIG, "new", BEGIN, SUBMIT_A, FLUSH], [OTHER_KEY, "resume 1 13:2", SUBMIT_E, FLUSH]],
     [(0, 0), (0, 1), (0, 2), (0, 3), (1, 0), (1, 1)], {}, [OWN + "joined", "group 1 13", "listed 1 2", "unlisted 4", "refused 5", "count 6"]),
    ("a second new originator of the session, with another payload", [[CONFIG, "new", BEGIN], [OTHER_KEY, "new", BEGIN]], [(0, 0), (0, 1), (1, 0), (1, 1)], {},
     [OWN + "disputed", "refused 0", "refused 1", "refused 2", "refused 3", "count 4"]),
]


def sent_in_order(answers):
    return [bytes.fromhex(line[5:]) for answer in answers for line in answer if line.startswith("sent ")]


def worked_logs(originated, reviewed):
    """The logs that were worked out by hand."""
    for name, script, numbers, wanted in LOGS:
        (answers,) = play(originated, [script])
        sent = sent_in_order(answers)
        log = [sent[it] if isinstance(it, int) else it for it in numbers]
        (report,) = reports(reviewed, [(log, [chain_of(script, answers)])])
        tell("the log of " + name, wanted, report)


def premises(originated, reviewed):
    """What a review says where a premise of the law doesn't hold."""
    for name, scripts_of_it, numbers, unanswered, wanted in WITHOUT:
        answers = play(originated, scripts_of_it)
        sent = list(map(sent_in_order, answers))
        chains = list(map(chain_of, scripts_of_it, answers))
        (report,) = reports(reviewed, [([sent[script][number] for script, number in numbers], chains)], **unanswered)
        tell(name, wanted, report)


def subsets(originated, reviewed):
    """Each of the 1,024 subsets of the ten messages, in order, and reversed with its first message repeated."""
    (answers,) = play(originated, [SCRIPT])
    sent = sent_in_order(answers)
    chain, cases = chain_of(SCRIPT, answers), []
    for subset in range(1 << len(sent)):
        log = [text for bit, text in enumerate(sent) if subset >> bit & 1]
        cases += [("the subset %d" % subset, log), ("the subset %d, reversed" % subset, log[:0:-1] + log[:1] * 2)]
    for (name, log), report in zip(cases, reports(reviewed, [(log, [chain]) for _, log in cases])):
        see(name, chain, Delivery(log, set(chain.submitted())), report, collections.Counter())


# ---- chains by a seed

def kinds_of(chain, other, delivery, whole, script):
    if whole:
        yield "whole"
    if script.count("behind"):
        yield "resumed"
    yield "SG %d" % chain.sg
    counts = collections.Counter(delivery.log)
    if any(counts[text] > 1 for text in chain.sent_blocks()):
        yield "repeated"
    if any(0 < counts[text] < chain.submitted().count(text) for text in chain.submitted()):
        yield "a number beyond its text's places"
    if any(text in counts for text in other.sent_blocks()):
        yield "another session"
    if any(text not in delivery.normal and text not in chain.sent_blocks() and text not in other.sent_blocks() for text in delivery.log):
        yield "spoilt"


def compare(originated, reviewed, seeds, reached):
    pairs = [scripts(seed) for seed in seeds]
    answers = play(originated, [script for pair in pairs for script in pair])
    cases = []
    for at, (seed, pair) in enumerate(zip(seeds, pairs)):
        chain, other = (chain_of(script, answer) for script, answer in zip(pair, answers[2 * at:2 * at + 2]))
        delivery, whole = deliver(seed, chain, other)
        cases.append((seed, chain, other, delivery, whole))
        reached.update(kinds_of(chain, other, delivery, whole, pair[0]))
    found = reports(reviewed, [(delivery.log, [chain, other]) for _, chain, other, delivery, _ in cases])
    for (seed, chain, _, delivery, whole), report in zip(cases, found):
        see("the delivery of seed %d" % seed, chain, delivery, report, reached, whole)


def main():
    originated, reviewed = sys.argv[1:3]
    reached = collections.Counter()
    worked_logs(originated, reviewed)
    premises(originated, reviewed)
    subsets(originated, reviewed)
    for first in range(0, CHAINS, AT_ONCE):
        compare(originated, reviewed, range(first, first + AT_ONCE), reached)
    for kind in REACHED:
        print("deliveries: %6d %s" % (reached[kind], kind))
        tell("some delivery has " + kind, [True], [reached[kind] > 0])
    print("deliveries: %d passed, %d failed" % (passed, failed))
    return failed > 0 or passed == 0


if __name__ == "__main__":
    sys.exit(main())
