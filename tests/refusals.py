#!/usr/bin/env python3
"""Refuses each allocation of the built program in turn, in runs of every command.

    refusals.py PROGRAM [LIBRARY] [--show]

LIBRARY is made of tests/refuse.c; without it there are only runs with memory. First a run with memory has to say what
another program says: review_runs.py, kinds.py, signing_model.py, or what was worked out by hand. Then its first
allocation is refused, its second one, and so on, until a run has none left to refuse. Each of these runs has to end
with status 2, nothing on standard output and one line on standard error. That is a code of the command for being out
of memory. The codes have to come in the order of the run, and F4 at most as often as messages need room. So V1 can't be
reported as F4, nor F4 as V1. A review that does without some list may also say all that it says with memory, and a run
that is refused anyway its own refusal. Of logs whose output is longer than a buffer some allocations are refused, the
last ones among them. The last line is `refusals: N passed, M failed`.
"""
import argparse
import base64
import collections
import concurrent.futures
import itertools
import os
import re
import subprocess
import sys
import tempfile
import threading

import cost_logs as logs
from between import between_text
from brief import OPTIONS as IN_FRONT, brief_text, front_text, verified_places
from counters import counters_text
from kept import kept_text, status_of as kept_status_of
from nights import Told, carried
from review_examples import A, A2, ALL, B, C, CX, C9A, C9B, H, M1, M2, P1, READINGS, S, S7, certificate, signature
from review_model import Log, review
from review_runs import answers_text, answers_to, ended, frame, joined, line, read_frames, read_lines, report_text, run
from salvage_model import Salvaged
from tally import tally_text
from whole import status_of, whole_text

HERE = os.path.dirname(os.path.abspath(__file__))
# the codes of each command, in their order: what belongs to counters and answers comes before the log
CODES = {
    "review": "(W2 )+(C4 )*(A4 )*((F4|V1|W2) )*",
    "asked": "(W2 )+(C4 )*(A4 )*((F4|V1) )*(W2 )*(V1 )*(A4 )*((V1|W2) )*",
    "extract": "(W2 )+(N4 )*(A4 )*((F4|V1|W2) )*",
    "carry": "(W2 )+(A4 )*((F4|V1|W2) )*",
    "counters": "(W2 )+(A4 )*((F4|V1|W2) )*",
    "questions": "(W2 )*(A4 )*((F4|V1|W2) )*",
    "inspect": "(W2 )*(N4 )*((F4|W2) )*",
    "plan": "(W2 )*(C4 )*((F4|O10|W2) )*((F4|O10 p|W2) )*((O10|W2) )*",
    "sign": "(W2 )*(C4 )*(A4 )*((F4|O10|W2) )*((F4|O10 p|W2) )*((O10|W2) )*",
    "explain": "(W2 )*",
}
# those that review each message once it is read, and then use its room for the next one
REUSE = ("review", "asked", "counters", "questions")
# those that do without a list that they couldn't make as long as it will be
DO_WITHOUT = ("review", "asked", "extract", "carry", "counters")
# fewer allocations than reading any command line takes: these are tried once for each command line
WORDS_ALONE = 80
BUFFER = 65536

# `wanted` is all that a run says, or its status; `some` is whether some allocations are refused alone; `counters` are those up
# to which a log is reviewed, and those at which an originator goes on; `first` are those at which a night begins; `places` are
# those of an extract, or of the messages that an inspection shows
Case = collections.namedtuple("Case", "name words log wanted answers some counters first pinned places",
                              defaults=[None, False, None, None, None, None])
Said = collections.namedtuple("Said", "status out err")

passed = failed = 0


def tell(what, fault=""):
    """One check, passed where there is no fault."""
    global passed, failed
    if not fault:
        passed += 1
        return
    failed += 1
    print("refusals: %s: FAILED\n    %s" % (what, fault))


def refused(code):
    return Said(2, b"", b"ssign: " + code.encode() + b"\n")


# ---- inputs, and what a run with memory says

def beside(rsid, *texts):
    """The texts of the session 1 in another session."""
    return [text.replace(b'RSID="1"', b'RSID="%d"' % rsid) for text in texts]


OTHER = certificate(fragment=b"2009-05-03T14:00:40Z K S0VZ")
# a session in each state, and each kind of line of a report
EVERYTHING = [
    M1, M1, M2, b"<13>1 - - - - - - nobody signed this", C9B, C9A,
    signature(A, A), signature(A, first=3), signature(B, first=3), signature(B, base64.b64encode(b"x" * 20), first=8),
    signature(A2, ver=b"0121", first=11), signature(A2, ver=b"0121", gbc=7, sg=1, spri=13),
    *beside(2, C, certificate(total=28)), *beside(3, S7), *beside(4, CX), *beside(5, OTHER, S7), *beside(6, C, S),
    signature(A, gbc=9), S.replace(b"0111", b"0211"), C + S[len(H):],
]
WORDS = ["session .* %s" % state for state in
         ("disputed", "incomplete", "malformed", "untrusted", "unaccepted", "joined")]
WORDS += ["ok .*", "gap .* lost", "gap .* disputed", "hole .*", "blocks .*", "unlisted .*", "refused .*", "spoilt .*",
          "torn .*", "end .*"]
EXAMPLE = [M1, M2, C, S]


def accepted(payload, signed, sign):
    """Whether a signature of EVERYTHING is valid: not those of session 6, and not that of the block with GBC 9."""
    return b'RSID="6"' not in signed and b'GBC="9"' not in signed


def answers_of(messages, answers):
    return answers_to(Log(messages), answers)


def with_missing_blocks(octets, answers, of_lines):
    """A review with --whole, as the second review says."""
    messages, torn = (read_lines if of_lines else read_frames)(octets)
    text = whole_text(Log(messages), *answers, torn)
    return Said(status_of(text), joined(text), b"")


def counted(octets, answers, of_lines, **limits):
    """The counters, as the second review says. A log is refused as by `questions`."""
    said = Said(*run("questions", octets, of_lines, **limits))
    if said.status == 2:
        return said
    messages, torn = (read_lines if of_lines else read_frames)(octets)
    return Said(int(torn is not None), ended(counters_text(Log(messages), *answers)), b"")


def carried_over(octets, answers, of_lines, **limits):
    """What is carried over, as the second review says. A log is refused as by `questions`."""
    said = Said(*run("questions", octets, of_lines, **limits))
    if said.status == 2:
        return said
    messages, torn = (read_lines if of_lines else read_frames)(octets)
    places = carried(Told(Log(messages), answers))[0]
    return Said(int(torn is not None), b"".join(frame(messages[place]) for place in sorted(places)), b"")


def reviewed(name, command, octets, answers, *words, of_lines=False, **limits):
    """A review, extract, questions, counters or what is carried over, as the second review says."""
    trusted, valid = answers
    if command == "counters":
        wanted = counted(octets, answers, of_lines, **limits)
    elif command == "carry":
        wanted = carried_over(octets, answers, of_lines, **limits)
    elif "--whole" in words:
        wanted = with_missing_blocks(octets, answers, of_lines)
    else:
        wanted = Said(*run(command, octets, of_lines, trusted=trusted, valid=valid, **limits))
    text = None if command.startswith("questions") else answers_text(trusted, valid)
    words = [*command.split(" "), *(["--lines"] if of_lines else []), *words]
    for option, value in limits.items():
        words += ["--" + option.replace("_", "-"), str(value)]
    return Case("%s of %s" % (command, name), words, octets, wanted, text)


def reviews():
    everything = answers_of(EVERYTHING, (lambda payload: payload == P1, accepted))
    example, nobody = answers_of(EXAMPLE, ALL), (frozenset(), frozenset())
    for unit, of_lines in ((frame, False), (line, True)):
        log = b"".join(map(unit, EVERYTHING))
        for command in ("review", "extract", "questions", "questions --once", "questions --once --json", "counters",
                        "carry"):
            words = ["--whole"] if command == "review" and not of_lines else []
            yield reviewed("everything" + ", as lines" * of_lines, command, log + unit(M1)[:-1], everything, *words,
                           of_lines=of_lines)
    log = b"".join(map(frame, EXAMPLE))
    for command in ("review", "extract", "questions", "questions --once", "questions --json", "carry"):
        yield reviewed("a clean log", command, log, example, max_len=1048576, max_messages=10000000)
        yield reviewed("an empty log", command, b"", nobody)
        yield reviewed("a log with no digit behind it", command, log + b"x", example)
        yield reviewed("a log with a message that is too long", command, log, example, max_len=158)
        yield reviewed("a log with a message too many", command, log, example, max_messages=3)
        yield reviewed("a log with an empty line", command, b"abc\n\n", nobody, of_lines=True)
    yield reviewed("a log that nobody answers for", "review", log, nobody, "--whole")
    yield reviewed("a clean log", "counters", log, example)
    yield reviewed("a log with no digit behind it", "counters", log + b"x", example)


# what was kept of EVERYTHING and of a session that it hasn't: in any order, one twice, and less and more than is there
KEPT = ["count i s - 7 2", "count h s - 1 0 0 20", "count h s - 1 9", "count h s - 1 1 14 4", "count i s - 7 0 0 3", "count h s - 1 3",
        "count h s - 1 1 13 2"]


def kept_reviews():
    """Reviews up to counters that were kept, and refusals of their files."""
    everything = answers_of(EVERYTHING, (lambda payload: payload == P1, accepted))
    text = answers_text(*everything)
    for unit, words in ((frame, []), (line, ["--lines"])):
        octets = b"".join(map(unit, EVERYTHING)) + unit(M1)[:-1]
        messages, torn = (read_lines if words else read_frames)(octets)
        wanted = kept_text(Log(messages), *everything, KEPT, torn)
        yield Case("review of everything, up to counters" + ", as lines" * bool(words), ["review", *words], octets,
                   Said(kept_status_of(wanted), joined(wanted), b""), text, counters=ended(KEPT))
    octets = b"".join(map(frame, EXAMPLE))
    text = answers_text(*answers_of(EXAMPLE, ALL))
    own = ["count h s - 1 1", "count h s - 1 0 0 3"]
    wanted = kept_text(Log(EXAMPLE), *answers_of(EXAMPLE, ALL), own)
    yield Case("review of a clean log, up to its counters", ["review"], octets, Said(0, joined(wanted), b""), text, counters=ended(own))
    yield Case("review of an empty log, up to counters", ["review"], b"", 1, None, counters=ended(own * 20))
    for name, lines in (("an empty line", ["count h s - 1 1", ""]), ("a leading zero", [*own, "count h s - 1 01"])):
        yield Case("counters: " + name, ["review"], octets, refused("C1 %d" % len(lines)), text, counters=joined(lines))
    yield Case("counters: cut off", ["review"], octets, refused("C3"), text, counters=joined(own))
    yield Case("counters: none", ["review", "--counters", os.devnull], octets, refused("C3"), text)
    yield Case("counters: a folder", ["review", "--counters", HERE], octets, refused("C2"), text)
    yield Case("counters: a bad line, and one of the answers", ["review"], octets, refused("C1 1"), b"want\n", counters=b"count\n")


# what was kept before: with numbers of EVERYTHING below it, and of a session that sent nothing in the night
FIRST = ["count h s - 1 2", "count i s - 7 2", "count h s - 1 0 0 9", "count i s - 7 0 0 3", "count h s - 1 0 0 4"]


def night_reviews():
    """Reviews of one night, and refusals of the files of its counters."""
    everything = answers_of(EVERYTHING, (lambda payload: payload == P1, accepted))
    text = answers_text(*everything)
    for unit, words in ((frame, []), (line, ["--lines"])):
        octets = b"".join(map(unit, EVERYTHING)) + unit(M1)[:-1]
        messages, torn = (read_lines if words else read_frames)(octets)
        for kept in (KEPT, None):
            wanted = between_text(Log(messages), *everything, FIRST, kept, torn)
            yield Case("review of a night of everything" + ", to its end" * (kept is not None) + ", as lines" * bool(words),
                       ["review", *words], octets, Said(1, joined(wanted), b""), text, counters=kept and ended(kept), first=ended(FIRST))
    yield Case("review of an empty night", ["review"], b"", 0, None, counters=ended(FIRST * 20), first=ended(FIRST * 20))
    octets, own = b"".join(map(frame, EXAMPLE)), b"count h s - 1 1\nend 1\n"
    yield Case("a night: a bad line", ["review"], octets, refused("C1 3"), text, counters=own, first=own + b"\n")
    yield Case("a night: a bad line of its end", ["review"], octets, refused("C1 3"), text, counters=own + b"\n", first=own)
    yield Case("a night: two bad lines", ["review"], octets, refused("C1 1"), text, counters=own + b"\n", first=b"\n")
    yield Case("a night: a folder", ["review", "--from", HERE], octets, refused("C2"), text, counters=b"count\n")


def known_reviews():
    """Runs by payloads that are known beforehand, and refusals of their file. A session without a dispute stays as it is."""
    answers, octets = answers_of(EXAMPLE, ALL), b"".join(map(frame, EXAMPLE))
    text = answers_text(*answers)
    for command in ("review", "extract", "questions", "questions --once --json", "counters"):
        case = reviewed("a clean log, by known payloads,", command, octets, answers)
        yield case._replace(pinned=text)
        yield case._replace(name=case.name + " of which there are none", pinned=b"")
    yield Case("known payloads: a bad line", ["review"], octets, refused("A1 2"), text, pinned=text.splitlines(True)[0] + b"\n")
    yield Case("known payloads: a bad line, and one of the answers", ["counters"], octets, refused("A1 1"), b"trust QQ==\nwant\n",
               pinned=b"want\n")
    yield Case("known payloads: a bad line, and one of the counters", ["review"], octets, refused("C1 1"), text, counters=b"count\n",
               pinned=b"want\n")
    yield Case("known payloads: a folder", ["questions", "--pinned", HERE], octets, refused("A2"))
    yield Case("known payloads: an extract of a place", ["extract", "--place", "0"], octets, Said(0, frame(EXAMPLE[0]), b""), pinned=text)


def asked_first():
    """Reviews that write their questions, and read the answers after the log."""
    answers, octets = answers_of(EXAMPLE, ALL), b"".join(map(frame, EXAMPLE))
    ask = ["review", "--ask", os.devnull]
    case = reviewed("a clean log, whose questions are asked,", "review", octets, answers)
    yield case._replace(words=ask)
    yield case._replace(words=ask, name=case.name + " by known payloads", pinned=answers_text(*answers))
    yield Case("questions as JSON, and what is missing", [*ask, "--json", "--whole"], octets, 0, answers_text(*answers))
    yield Case("a night whose questions are asked", ask, octets, 1, answers_text(*answers), counters=ended(KEPT), first=ended(FIRST))
    yield Case("questions that can't be written", ["review", "--ask", HERE], octets, refused("Q1"), b"want\n")
    yield Case("a bad line of the answers, after the questions", ask, octets, refused("A1 1"), b"want\n")
    yield Case("no log for questions", ask, b"x", refused("F1 0"), b"want\n")


def tallies():
    """Tallies of what is reviewed above, and reports in the other forms."""
    everything = answers_of(EVERYTHING, (lambda payload: payload == P1, accepted))
    octets, text = b"".join(map(frame, EVERYTHING)), answers_text(*everything)
    wanted = tally_text(report_text(review(Log(EVERYTHING), *everything)))
    yield Case("review --tally of everything", ["review", "--tally"], octets, Said(1, joined(wanted), b""), text)
    for words in (["--tally", "--json", "--whole"], ["--json"], ["--findings", "--json"]):
        yield Case("review %s of everything" % " ".join(words), ["review", *words], octets, 1, text, counters=ended(KEPT))
    yield Case("counters --json of everything", ["counters", "--json"], octets, 0, text)


def in_front():
    """Reviews in brief, with all lines in front of the report."""
    everything = answers_of(EVERYTHING, (lambda payload: payload == P1, accepted))
    octets, text, log = b"".join(map(frame, EVERYTHING)), answers_text(*everything), Log(EVERYTHING)
    plain = report_text(review(log, *everything))
    front = front_text(log.blocks, verified_places(log, *everything), plain, IN_FRONT)
    wanted = Said(1, joined(front + brief_text(plain)), b"")
    yield Case("review in brief of everything", ["review", *IN_FRONT], octets, wanted, text)
    yield Case("review in brief, whose questions are asked", ["review", "--ask", os.devnull, *IN_FRONT], octets, wanted, text)
    yield Case("review in brief of everything, as objects", ["review", "--json", "--whole", *IN_FRONT], octets, 1, text)
    yield Case("review in brief of an empty log", ["review", *IN_FRONT], b"", Said(1, b"none-listed\nend 0\n", b""))


def salvaged():
    """Runs that read on after damage, and refusals of their logs."""
    everything = answers_of(EVERYTHING, (lambda payload: payload == P1, accepted))
    text, damaged = answers_text(*everything), b"X" + b"".join(frame(it) + b"X" * (place % 3 > 0) for place, it in enumerate(EVERYTHING))
    whole = b"".join(map(frame, EVERYTHING))
    for name, log, limits in (("a damaged log", damaged, {}), ("a log of which nothing is read", b"".join(map(line, EVERYTHING)), {}),
                              ("a log that is torn, read on,", whole + b"9 <", {}), ("an empty log, read on,", b"", {}),
                              ("a damaged log with a message too many", damaged, {"max_messages": 3})):
        for command in ("review", "extract", "questions --once --json", "counters", "carry"):
            model = Salvaged(log, **limits)
            case = reviewed(name, command, model.plain(), everything)
            words = [*case.words, "--salvage", *(["--max-messages", "3"] if limits else [])]
            yield case._replace(words=words, log=log, wanted=Said(*model.put_into(case.wanted, words)))
        inspected = 2 if limits else int(model.torn is not None or bool(model.stretches))
        yield Case("inspect of %s" % name, ["inspect", *words[len(case.words):]], log, inspected)
    model = Salvaged(damaged)
    wanted = model.put_into((1, joined(tally_text(report_text(review(Log(model.messages), *everything)))), b""), ["review", "--tally"])
    yield Case("review --tally of a damaged log", ["review", "--tally", "--salvage"], damaged, Said(*wanted), text)
    yield Case("extract --place of a damaged log", ["extract", "--place", "1", "--salvage"], damaged, Said(1, frame(model.messages[1]), b""))


def extracts():
    """Extracts of unlisted messages and of places, as frames and as lines, and their refusals."""
    answers, log = answers_of(EXAMPLE, ALL), [*EXAMPLE, b"x\r", b"nobody"]
    octets, text = b"".join(map(frame, log)), answers_text(*answers)
    for unit, words in ((frame, []), (line, ["--lines-out"])):
        name = " ".join(words)
        yield Case("extract %s" % name, ["extract", *words], octets, Said(1, unit(M1) + unit(M2), b""), text)
        yield Case("extract --unlisted %s" % name, ["extract", "--unlisted", *words], octets,
                   Said(1, unit(b"x\r") + unit(b"nobody"), b""), text)
        places = [it for place in (5, 0, 2, 5, 0) for it in ("--place", str(place))]
        yield Case("extract of places %s" % name, ["extract", *places, *words], octets, Said(0, unit(M1) + unit(C) + unit(b"nobody"), b""))
        yield Case("extract of a place past the end %s" % name, ["extract", *places, "--place", "6", *words], octets, refused("E1 6"))
        given = b"5\n0\n2\n5\n0\n"
        yield Case("extract of the places of a file %s" % name, ["extract", *words], octets,
                   Said(0, unit(M1) + unit(C) + unit(b"nobody"), b""), places=given)
        yield Case("extract of the places of a file past the end %s" % name, ["extract", *words], octets, refused("E1 6"), text,
                   places=given + b"6\n")
    yield Case("extract of no place", ["extract"], octets, Said(0, b"", b""), places=b"")
    yield Case("extract of a bad place, and a bad line of the answers", ["extract"], octets, refused("N1 2"), b"want\n", places=b"0\nx\n")
    yield Case("extract of a cut place", ["extract"], octets, refused("N3"), places=b"0\n1")
    yield Case("extract of the places of a folder", ["extract", "--places", HERE], octets, refused("N2"), b"want\n")
    octets += frame(b"a\nb")
    yield Case("extract of a message with LF as a line", ["extract", "--unlisted", "--lines-out"], octets, refused("E2 6"), text)
    yield Case("extract of its place as a line", ["extract", "--place", "6", "--lines-out"], octets, refused("E2 6"))
    wraps = [b"<13>1 - h s - wrapped - |" + it for it in (b"a", b"b\nc", C)]
    octets, places = b"".join(map(frame, wraps)), [it for place in range(3) for it in ("--place", str(place))]
    yield Case("extract of wraps", ["extract", *places, "--unwrap"], octets,
               Said(0, frame(b"a") + frame(b"b\nc") + frame(C), b""))
    yield Case("extract of a wrap with LF as a line", ["extract", *places, "--unwrap", "--lines-out"], octets, refused("E2 1"))


def inspected(name, messages, torn=b""):
    """An inspection, as kinds.py says."""
    octets = b"".join(map(frame, messages))
    told = subprocess.run([sys.executable, "-B", os.path.join(HERE, "kinds.py"), "tell"], input=octets,
                          capture_output=True, check=True).stdout
    end = b"end %d\n" % len(messages)
    told = told.removesuffix(end) + (b"torn %d\n" % len(octets) if torn else b"") + end
    return Case("inspect of " + name, ["inspect"], octets + torn, Said(int(bool(torn)), told, b""))


def inspections():
    long = b"x" * 300
    faults = [b"abc", b"<13>2 ", b"<13>1 x ", b"<13>1 - " + long + b" ", b"<13>1 - - " + long, b"<13>1 - - - " + long,
              b"<13>1 - - - - " + long, b"<13>1 - - - - - x", b"<13>1 - - - - - [=]", b'<13>1 - - - - - [a b="\xff"]',
              b"<13>1 - - - - - [a][a]", b"<13>1 - - - - - - \xef\xbb\xbf\xff"]
    plain = [b'<13>1 - - - - - [a@1 b="\\]\\"\\\\" b=""][c@1] text', b"<191>1 2009-05-03T14:00:39.25-07:00 h a p m -"]
    yield inspected("each fault of a message", faults)
    yield inspected("each kind of message", [*plain, *(text for text, _ in READINGS)])
    yield inspected("everything", EVERYTHING, torn=b"12")
    log = b"".join(map(frame, EXAMPLE))
    yield Case("inspect of a log with no digit behind it", ["inspect"], log + b"x", refused("F1 %d" % len(log)))
    yield Case("inspect of lines", ["inspect", "--lines", "--max-len", "99", "--max-messages", "9"],
               b"abc\n<13>1 - - - - - -\n", Said(0, b"unparsed 0 M1 0\nplain 1\nend 2\n", b""))
    wraps = [b"<13>1 - h s - wrapped - |" + it for it in (b"a", b"<13>1 - - - - - -", b"<13>1 - - - - - [ssign]")]
    yield Case("inspect of wraps", ["inspect", "--unwrap"], b"".join(map(frame, wraps)),
               Said(0, b"wrapped-unparsed 0 M1 0\nwrapped-plain 1\nwrapped-spoilt 2 S2\nend 3\n", b""))
    shown = (b'{"line":"plain","place":0,"octets":26,"timestamp":"-","text":"%s","original":"YQ=="}\n'
             % base64.b64encode(wraps[0]))
    rest = [b'{"line":"plain","place":1,"octets":42,"timestamp":"-"}\n', b'{"line":"plain","place":2,"octets":48,"timestamp":"-","marked":1}\n']
    yield Case("facts about wraps", ["inspect", "--json"], b"".join(map(frame, wraps)),
               Said(0, shown + b"".join(rest) + b'{"line":"end","count":3}\n', b""), places=b"9\n0\n")
    yield Case("facts about everything", ["inspect", "--json", "--unwrap"], b"".join(map(frame, [*EVERYTHING, *wraps])), 0,
               places=b"".join(b"%d\n" % it for it in range(len(EVERYTHING) + 3)))
    yield Case("facts: a bad place", ["inspect", "--json"], b"x", refused("N1 1"), places=b"\n")
    yield Case("facts: a folder", ["inspect", "--json", "--facts", HERE], b"x", refused("N2"))
    yield Case("inspect of a long line", ["inspect", "--lines", "--max-len", "3"], b"abc\nabcd\n", refused("F2 7"))


# ---- answers

def answering(name, lines, wanted=None, command="review"):
    """The clean log with an answers file of these lines, all of which it says where no refusal is wanted."""
    trusted, valid = answers_of(EXAMPLE, ALL)
    log = b"".join(map(frame, EXAMPLE))
    wanted = wanted or Said(*run(command, log, trusted=trusted, valid=valid))
    return Case("answers: " + name, [command], log, wanted, b"".join(lines))


def answers():
    said = answers_text(*answers_of(EXAMPLE, ALL)).splitlines(keepends=True)
    field = base64.b64encode(b"y" * 3000)
    yield answering("each line twice, in another order", [*reversed(said), *said])
    yield answering("a seal beside them", [b"seal %s AAAA\n" % field, *said])
    yield answering("many others", [*(b"yes %s AAA%c AAAA\n" % (field, c) for c in b"AEIMQUYcgkosw048"), *said])
    yield answering("the last LF missing", [b"".join(said)[:-1]])
    for name, bad in (("an empty line", b"\n"), ("a CR", b"trust AAAA\r\n"), ("bad base64", b"trust AAA\n"),
                      ("spare bits", b"trust AAB=\n"), ("another word", b"trusts AAAA\n"), ("a question", b"trust? AAAA\n"),
                      ("a question about a block", b"yes? AAAA AAAA AAAA\n"), ("no field", b"yes"),
                      ("a field too few", b"yes AAAA AAAA\n"), ("a field too many", b"seal AAAA AAAA AAAA\n"),
                      ("two spaces", b"trust  AAAA\n")):
        yield answering(name, [*said, bad], refused("A1 %d" % (len(said) + 1)))
    yield answering("a bad line, for an extract", [b"want AAAA\n"], refused("A1 1"), "extract")
    yield Case("answers: a folder", ["review", "--answers", HERE], b"", refused("A2"))
    missing = os.path.join(HERE, "no such file")
    yield Case("answers: no such file", ["extract", "--answers", missing], b"", refused("A2"))


# ---- plans and signed logs

PAYLOAD = ["--payload", P1.decode(), "--rsid", "1"]
TOLD = [b"<%d>1 - - - - - - %d" % (pri, i) for i, pri in enumerate((13, 14, 13, 110, 191, 0))]


def modelled(command, words, octets, counters=None):
    """What the model writes; with counters, as it goes on there."""
    with tempfile.NamedTemporaryFile() as file:
        file.write(counters or b"")
        file.flush()
        words = [*words, *(["--resume", file.name] if counters else [])]
        return subprocess.run([sys.executable, "-B", os.path.join(HERE, "signing_model.py"), command, *words], input=octets,
                              capture_output=True, check=True).stdout


def seals_of(plan):
    return b"".join(b"seal " + it.split()[1] + b" AAAA\n" for it in plan.splitlines())


def signings():
    long = ["--host", "h" * 255, "--app", "a" * 48, "--procid", "p" * 128, "--msgid", "m" * 32, "--pri", "0",
            "--stamp", "2009-05-03T14:00:39.123456-07:00", "--ver", "0121"]
    for name, words in (("one group", []), ("no message", []), ("two in a block", ["--count", "2", "--frag", "20"]),
                        ("a group for each PRI", ["--groups", "pri", "--count", "1"]),
                        ("ranges", ["--groups", "13,100,191", "--count", "2", "--copies", "3"]),
                        ("192 ranges", ["--groups", ",".join(map(str, range(192)))]),
                        ("nine copies", ["--copies", "9", "--frag", "9"]),
                        ("long texts", long)):
        octets = b"" if name == "no message" else b"".join(map(frame, TOLD))
        plan, signed = (modelled(command, PAYLOAD + words, octets) for command in ("plan", "sign"))
        if "--copies" not in words:
            yield Case("plan: " + name, ["plan", *PAYLOAD, *words], octets, Said(0, plan, b""))
        yield Case("sign: " + name, ["sign", *PAYLOAD, *words], octets, Said(0, signed, b""), seals_of(plan))
    octets = b"".join(map(frame, TOLD))
    lines = b"".join(map(line, TOLD))
    plan = modelled("plan", PAYLOAD, octets)
    yield Case("plan: lines", ["plan", "--lines", *PAYLOAD], lines, Said(0, plan, b""))
    yield Case("sign: lines", ["sign", "--lines", *PAYLOAD], lines, Said(0, modelled("sign", PAYLOAD, octets), b""),
               seals_of(plan))


# those of the session, and of others; one twice, and in any order
STARTS = ended(["count - - - 1 0 0 7", "count - - - 1 3", "count h s - 1 1 13 5", "count - - - 1 9", "count - - - 1 0 0 8"])
SPENT = ["count - - - 1 10000000000", "count - - - 1 0 0 10000000000"]


def resumed_signings():
    """Originators that go on, the counters with which they end, and refusals of their counters."""
    octets = b"".join(map(frame, TOLD))
    by_pri = ended(["count - - - 1 3", *("count - - - 1 1 %d 5" % pri for pri in range(191, 0, -10))])
    for name, words, log, counters in (
            ("one group", [], octets, STARTS), ("no message", [], b"", STARTS), ("new", [], octets, None),
            ("a group for each PRI", ["--groups", "pri", "--count", "1"], octets, by_pri)):
        plan, signed, ahead = (modelled(command, [*PAYLOAD, *words, *flags], log, counters)
                               for command, flags in (("plan", []), ("sign", []), ("plan", ["--ahead"])))
        yield Case("plan --ahead: " + name, ["plan", "--ahead", *PAYLOAD, *words], log, Said(0, ahead, b""), counters=counters)
        if counters:
            yield Case("plan --resume: " + name, ["plan", *PAYLOAD, *words], log, Said(0, plan, b""), counters=counters)
            yield Case("sign --resume: " + name, ["sign", *PAYLOAD, *words], log, Said(0, signed, b""), seals_of(plan), counters=counters)
    for name, words, lines, code in (
            ("a line that is none", [], ["count - - - 1 3", "count"], "C1 2"),
            ("none of the session", [], ["count - - - 1 0 0 7", "count - - - 2 7"], "C5"),
            ("another group", [], ["count - - - 1 3", "count - - - 1 1 13 1"], "C6 2"),
            ("no number left", [], SPENT, "O8 0"), ("no block left", ["--count", "1"], SPENT[:1], "O9 0")):
        for command in (["plan"], ["plan", "--ahead"], ["sign"]):
            yield Case("%s --resume: %s" % (" ".join(command), name), [*command, *PAYLOAD, *words], octets, refused(code),
                       b"" if command == ["sign"] else None, counters=ended(lines))
    yield Case("plan --resume: no block left at the end", ["plan", *PAYLOAD], octets, refused("O9"), counters=ended(SPENT[:1]))
    yield Case("plan --resume: cut off", ["plan", *PAYLOAD], octets, refused("C3"), counters=joined(SPENT[:1]))
    yield Case("plan --resume: a folder", ["plan", "--resume", HERE, *PAYLOAD], octets, refused("C2"))


# messages that are wrapped, among one that isn't
ODD = [b"hello", TOLD[0], b"<34>Oct 11 22:14:15 gate su: failed", C, b"<13>1 - h s - wrapped - |m", b"a line\nand another"]


def wrapped_signings():
    """Messages that are wrapped, signed logs as lines, and what is refused of both."""
    octets, told, wrap = b"".join(map(frame, ODD)), b"".join(map(frame, TOLD)), [*PAYLOAD, "--wrap"]
    plan, signed, ahead = (modelled(command, [*wrap, *flags], octets)
                           for command, flags in (("plan", []), ("sign", []), ("plan", ["--ahead"])))
    yield Case("plan --wrap", ["plan", *wrap], octets, Said(0, plan, b""))
    yield Case("plan --wrap --ahead", ["plan", "--ahead", *wrap], octets, Said(0, ahead, b""))
    yield Case("sign --wrap", ["sign", *wrap], octets, Said(0, signed, b""), seals_of(plan))
    plan, lines = modelled("plan", PAYLOAD, told), modelled("sign", [*PAYLOAD, "--lines-out"], told)
    yield Case("sign --lines-out", ["sign", "--lines-out", *PAYLOAD], told, Said(0, lines, b""), seals_of(plan))
    yield Case("sign --lines-out: LF", ["sign", "--lines-out", *wrap], octets, refused("E2 5"), b"")
    # the wrap of `hello` has 30 octets, and that of the block more than all others
    for command in (["plan"], ["plan", "--ahead"], ["sign"]):
        for name, log, most, code in (("a long wrap", frame(b"hello"), "29", "O11 0"), ("another", octets, str(len(C)), "O11 3"),
                                      ("a torn log", octets + b"9 ab", str(len(C)), "P1 %d" % len(octets))):
            yield Case("%s --wrap: %s" % (" ".join(command), name), [*command, *wrap, "--max-len", most], log, refused(code),
                       b"" if command == ["sign"] else None)


def refused_signings():
    octets, two = b"".join(map(frame, TOLD)), ["--count", "2"]
    plan = modelled("plan", PAYLOAD + two, octets)
    seals = seals_of(plan).splitlines(keepends=True)
    long = b" %s\n" % base64.b64encode(b"s" * 1025)
    for name, log, code, lines in (
            ("a torn log", octets + b"9 ab", "P1 %d" % len(octets), seals),
            ("no digit", octets + b"x", "F1 %d" % len(octets), seals),
            ("a message that is none", octets + b"3 abc", "O2 6", seals), ("a block", octets + frame(C), "O3 6", seals),
            ("no seal", octets, "O6", []), ("no seal for a block", octets, "O6 3", [*seals[:2], *seals[3:]]),
            ("a long signature", octets, "O7 1", [*seals[:1], seals[1][:-6] + long, *seals[2:]]),
            ("a bad line", octets, "A1 2", [*seals[:1], b"want AAAA\n"])):
        yield Case("sign: " + name, ["sign", *PAYLOAD, *two], log, refused(code), b"".join(lines))
        if code[:2] in ("P1", "F1", "O3"):
            yield Case("plan: " + name, ["plan", *PAYLOAD, *two], log, refused(code))
    for words in (["--stamp", "x"], ["--host", "h" * 256], ["--groups", "1,0,191"]):
        yield Case("plan: " + " ".join(words)[:20], ["plan", *PAYLOAD, *words], b"", refused("P2"))
    yield Case("plan: --payload x", ["plan", "--rsid", "1", "--payload", "x"], b"", refused("P2"))


def others():
    """Runs whose text isn't in a format: there the words with memory are taken as they are, but for the status."""
    for words, status in ((["explain", "S3"], 0), (["explain", "X"], 2), (["explain", "--json"], 0),
                          (["explain", "--json", "S3"], 0), (["explain", "--json", "X"], 2), (["explain"], 2),
                          (["--help"], 0), (["sign", "--help"], 0), (["--version"], 0), (["review", "--nope"], 2), (["plan"], 2),
                          ([], 2)):
        yield Case("words: " + " ".join(words), words, b"", status)


def long_outputs():
    """Runs whose output is longer than a buffer, and begins to be written before its end is known."""
    made = logs.signed(5000)
    log, text = b"".join(map(frame, made.messages)), b"".join(it + b"\n" for it in made.answers)
    for words in (["review", "--whole"], ["extract"], ["carry"], ["questions"], ["inspect"], ["questions", "--json"],
                  ["questions", "--once"], ["questions", "--once", "--json"], ["inspect", "--json"]):
        asks = words[0] in ("review", "extract")
        yield Case("%s of a long log" % " ".join(words), words, log, 0, text if asks else None, True)
    log = b"".join(map(frame, logs.sent(800).messages))
    plan = modelled("plan", [*PAYLOAD, "--count", "2"], log)
    yield Case("plan: a long log", ["plan", *PAYLOAD, "--count", "2"], log, Said(0, plan, b""), None, True)
    yield Case("sign: a long log", ["sign", *PAYLOAD, "--count", "2"], log, 0, seals_of(plan), True)


# ---- runs

def fault_of_order(kind, codes):
    """Whether the codes come in the order of a run, and their places rise."""
    places = [int(it.split()[1]) for it in codes if " " in it]
    if places != sorted(places):
        return "the places don't rise: %s" % places
    text = "".join(re.sub(r" \d+", " p", it) + " " for it in codes)
    return "" if re.fullmatch(CODES[kind], text) else "the codes come in another order: %s" % text


def fault_of_reading(kind, words, log, codes):
    """Whether F4 comes only where a message needs more room than there is, and V1 where messages are reviewed. Whoever reads on
    after damage has a window, and a list of the stretches."""
    others = 0
    if "--salvage" in words:
        model = Salvaged(log)
        messages, torn, others = model.messages, model.torn, 1 + len(model.stretches).bit_length()
    else:
        messages, torn = (read_lines if "--lines" in words else read_frames)(log)
    sizes, is_torn = [len(it) for it in messages], torn is not None
    most = sum(size > max(sizes[:i], default=0) for i, size in enumerate(sizes)) if kind in REUSE else len(sizes)
    reading, reviewing = codes.count("F4"), codes.count("V1")
    if not min(len(sizes), 1) <= reading <= most + is_torn + others:
        return "F4 comes %d times, but there are %d messages that need room" % (reading, most + is_torn + others)
    reviews = kind in REUSE or kind == "carry" or (kind == "extract" and not {"--place", "--places"} & set(words))
    return "V1 comes %d times" % reviewing if sizes and reviews != (reviewing > 0) else ""


class Runner:
    """Runs a program with an allocation refused."""

    def __init__(self, program, library, folder):
        self.program, self.library, self.folder = program, library, folder
        self.own = threading.local()

    def path(self, name):
        return os.path.join(self.folder, "%s.%d" % (name, threading.get_ident()))

    def run(self, words, log, refused_number):
        """What a run says, and how many allocations it asked for."""
        out, err = self.path("out"), self.path("err")
        write = os.O_WRONLY | os.O_CREAT | os.O_TRUNC
        loaded = {"LD_PRELOAD": self.library, "REFUSED": str(refused_number)} if self.library else {}
        child = os.posix_spawn(
            self.program, ["ssign", *words], {**os.environ, **loaded},
            file_actions=[(os.POSIX_SPAWN_OPEN, 0, log, os.O_RDONLY, 0), (os.POSIX_SPAWN_OPEN, 1, out, write, 0o600),
                          (os.POSIX_SPAWN_OPEN, 2, err, write, 0o600)])
        status = os.waitstatus_to_exitcode(os.waitpid(child, 0)[1])
        with open(out, "rb") as file:
            out = file.read()
        with open(err, "rb") as file:
            text, count = file.read(), 0
        if self.library:
            text, _, count = text.rpartition(b"allocations ")
        return Said(status, out, text), int(count or 0)

    def case(self, place, case, first):
        """Faults, the codes, and how often the run did without memory; `first` is the first allocation to refuse."""
        log, answers, counters, first_ones, pinned, places = (os.path.join(self.folder, "%d.%s" % (place, end))
                                                              for end in ("log", "answers", "counters", "first", "pinned", "places"))
        for path, octets in ((log, case.log), (answers, case.answers), (counters, case.counters), (first_ones, case.first),
                             (pinned, case.pinned), (places, case.places)):
            if octets is not None:
                with open(path, "wb") as file:
                    file.write(octets)
        words = case.words + ([] if case.answers is None else ["--answers", answers])
        option = "--resume" if case.words and case.words[0] in ("plan", "sign") else "--counters"
        words += [] if case.counters is None else [option, counters]
        words += [] if case.first is None else ["--from", first_ones]
        words += [] if case.pinned is None else ["--pinned", pinned]
        words += [] if case.places is None else ["--places" if case.words[0] == "extract" else "--facts", places]
        clean, count = self.run(words, log, 0)
        wanted = clean._replace(status=case.wanted) if isinstance(case.wanted, int) else case.wanted
        faults = ["" if clean == wanted else "it says %r, and not %r" % (clean, wanted)]
        if case.some:
            faults.append("" if len(clean.out) > BUFFER else "its output fits into a buffer")
        if not self.library:
            return faults, [], 0
        kind = case.words[0] if case.words and case.words[0] in CODES else "explain"
        kind = "asked" if "--ask" in case.words else kind
        codes, without = [], 0
        for number in numbers(first, count, case.some):
            said, asked = self.run(words, log, number)
            code = said.err[7:-1].decode(errors="replace")
            if said == clean and (number == count + 1 or clean.status == 2 or kind in DO_WITHOUT):
                without += number <= count
                faults.append("" if number <= count or asked == count else "it asks for %d allocations" % asked)
            elif number <= count and said == refused(code) and re.fullmatch(r"F4|A4|C4|N4|V1|W2|O10( \d+)?", code):
                codes.append(code)
                faults.append("")
            else:
                faults.append("allocation %d of %d: %r" % (number, count, said))
        faults.append(fault_of_order(kind, codes))
        if kind != "explain" and clean.status != 2 and not case.some:
            faults.append(fault_of_reading(kind, words, case.log, codes))
        return faults, codes, without


def numbers(first, count, some):
    """The allocations that are refused, and one more than there are."""
    if not some:
        return range(first, count + 2)
    return sorted({*range(1, count, max(count // 20, 1)), *range(count - 20, count + 2)})


def firsts(cases):
    """The first allocation to refuse of each case."""
    seen = set()
    for case in cases:
        words = (*case.words, case.answers is None, case.counters is None, case.first is None, case.pinned is None, case.places is None)
        yield WORDS_ALONE if words in seen else 1
        seen.add(words)


def shown(codes):
    """Codes in a row, each with how often it came."""
    return " ".join("%s*%d" % (code, len(list(found)))
                    for code, found in itertools.groupby(it.split()[0] for it in codes))


def main():
    parser = argparse.ArgumentParser(description=__doc__, formatter_class=argparse.RawDescriptionHelpFormatter)
    parser.add_argument("program")
    parser.add_argument("library", nargs="?", default="")
    parser.add_argument("--show", action="store_true")
    given = parser.parse_args()
    cases = [case for make in (reviews, kept_reviews, night_reviews, known_reviews, asked_first, tallies, in_front, salvaged, extracts,
                               inspections, answers, signings, resumed_signings, wrapped_signings, refused_signings, others, long_outputs)
             for case in make()]
    first = cases[0].wanted.out.decode().splitlines()
    for word in WORDS:
        tell("everything has a line %s" % word, "" if any(re.fullmatch(word, it) for it in first) else "it has none")
    jobs = min(4, os.cpu_count() or 1)
    with tempfile.TemporaryDirectory() as folder, concurrent.futures.ThreadPoolExecutor(jobs) as pool:
        runner = Runner(given.program, given.library, folder)
        for case, it in zip(cases, pool.map(runner.case, range(len(cases)), cases, firsts(cases))):
            faults, codes, without = it
            for fault in faults:
                tell(case.name, fault)
            if given.show:
                print("%-50s %5d refused, %d done without  %s" % (case.name, len(codes), without, shown(codes)))
    print("refusals: %d passed, %d failed" % (passed, failed))
    return failed > 0 or passed == 0


if __name__ == "__main__":
    sys.exit(main())
