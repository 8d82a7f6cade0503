#!/usr/bin/env python3
"""The forms of a review, an inspection, questions and counters: each line of JSON, read by Python's `json` and spelled as
docs/dev/FORMATS.md has it, is the plain line. The findings are the plain text without its `ok` or `plain` lines. And the
status is the same in every form.

    forms.py PROGRAM

The logs are the shapes of cost_logs.py, sessions whose names have every character that a header may have, and logs that
break off. The last line is `forms: N passed, M failed`.
"""
import base64
import inspect
import itertools
import json
import os
import subprocess
import sys
import tempfile

import cost_logs as logs
from report_objects import ABOUT, KEYS, OTHER_KEYS, fault_of, words_seen
from review_runs import as_answers, frame

PROGRAM = sys.argv[1]
ROOT = os.path.dirname(os.path.dirname(os.path.abspath(__file__)))
SIZE = 6

# how the lines begin that the findings of a command leave out
LEFT_OUT = {"review": b"ok ", "inspect": b"plain ", "inspect --unwrap": b"plain "}

passed = failed = 0


def tell(what, fault=""):
    """One check, passed where there is no fault."""
    global passed, failed
    if fault:
        failed += 1
        print(f"forms: {what}: FAILED\n    {fault}")
    else:
        passed += 1


def run(command, log, *options):
    """The status of a command over a log, and what it wrote."""
    ran = subprocess.run([PROGRAM, *command.split(" "), *options], input=log, capture_output=True, check=False, timeout=60)
    if ran.stderr:
        return ran.returncode, ran.stderr
    return ran.returncode, ran.stdout


def review(log, *options):
    """The same of a review."""
    return run("review", log, *options)


def check_command(command, what, log, *options):
    """The checks of one log with a command. The word of what its findings leave out is in `LEFT_OUT`, if it has any."""
    status, plain = run(command, log, *options)
    if status not in (0, 1):
        tell(f"{what}: {command}", f"status {status}: {plain[:300]!r}")
        return
    forms = [(["--json"], plain)]
    if command in LEFT_OUT:
        told = b"".join(it for it in plain.splitlines(keepends=True) if not it.startswith(LEFT_OUT[command]))
        forms += [(["--findings"], told), (["--json", "--findings"], told)]
    for words, wanted in forms:
        other, made = run(command, log, *words, *options)
        fault = f"status {other}, and not {status}" if other != status else ""
        if not fault and "--json" in words:
            fault = fault_of(wanted, made)
        elif not fault and made != wanted:
            fault = f"{made[:300]!r}, and not {wanted[:300]!r}"
        tell(f"{what}: {command} {' '.join(words)}", fault)


def check(what, log, *options):
    """The checks of one log with each command. Inspections and questions take no answers."""
    of_log = options[:options.index("--answers")] if "--answers" in options else options
    for command in ("review", "counters"):
        check_command(command, what, log, *options)
    for command in ("inspect", "inspect --unwrap", "questions", "questions --once"):
        check_command(command, what, log, *of_log)
    check_once(what, log, *of_log)
    check_details(what, log, *of_log)


def resolved(once):
    """The plain questions that lines of `--once` ask, each index by the payload line in front of it."""
    payloads, lines = [], []
    for word, index, *fields in (line.split(b" ") for line in once.splitlines()):
        if word == b"payload":
            if int(index) != len(payloads) or fields[0] in payloads:
                raise ValueError(f"payload {index!r} behind {len(payloads)} others")
            payloads += fields
        else:
            lines.append(b" ".join([word, payloads[int(index)], *fields]) + b"\n")
    return b"".join(lines)


def check_once(what, log, *options):
    """With each payload once, and the payload put for each index, the questions are the same."""
    wanted, (status, made) = run("questions", log, *options), run("questions --once", log, *options)
    try:
        said = (status, resolved(made))
    except (IndexError, ValueError) as fault:
        said = fault
    tell(f"{what}: questions --once, resolved", "" if said == wanted else f"{said!r:.300}, and not {wanted!r:.300}")


def messages_of(log):
    """The messages of a log of frames."""
    while log:
        size, _, log = log.partition(b" ")
        yield log[:int(size)]
        log = log[int(size):]


def check_details(what, log, *options):
    """What the objects of questions say of a block is what the object of an inspection says of its message."""
    inspected = map(json.loads, run("inspect", log, "--json", *options)[1].splitlines())
    places = {it["place"]: it for it in inspected if "place" in it and it["line"] != "damaged"}
    for words in (["--json"], ["--json", "--once"]):
        for asked in map(json.loads, run("questions", log, *words, *options)[1].splitlines()):
            if asked["line"] == "yes?":
                told = {key: value for key, value in asked.items() if key not in (*ABOUT, "octets", "signature", "ver")}
                block = base64.b64decode(asked["octets"])
                fits = (places[asked["place"]] == {**told, "line": places[asked["place"]]["line"]}
                        and b' VER="%s" ' % asked["ver"].encode() in block)
                tell(f"{what}: questions {' '.join(words)}, place {asked['place']}", "" if fits else f"{asked}")


def answered(folder, answers):
    """The options of a file with these answers."""
    path = os.path.join(folder, "answers")
    with open(path, "wb") as file:
        file.write(b"".join(line + b"\n" for line in answers))
    return ["--answers", path]


def shapes():
    """The logs of cost_logs.py that have a report."""
    for name, function in sorted(inspect.getmembers(logs, inspect.isfunction)):
        if function.__module__ == logs.__name__ and list(inspect.signature(function).parameters) == ["n"]:
            made = function(SIZE)
            if isinstance(made, logs.Input) and made.says.get("review", (2,))[0] != 2:
                yield name, made


def sign(folder, messages, *options):
    """A log that the program signed, and answers that call each of its blocks valid."""
    given = ["--payload", "2009-05-03T14:00:39Z K S0VZ", "--rsid", "1", *options]
    log = b"".join(map(frame, messages))
    plan = subprocess.run([PROGRAM, "plan", *given], input=log, capture_output=True, check=True)
    seals = [line.replace(b"want ", b"seal ", 1) + b" AAAA" for line in plan.stdout.splitlines()]
    signed = subprocess.run([PROGRAM, "sign", *answered(folder, seals), *given], input=log, capture_output=True, check=True)
    questions = subprocess.run([PROGRAM, "questions"], input=signed.stdout, capture_output=True, check=True)
    return signed.stdout, as_answers(questions.stdout).splitlines()


def objects_by_hand():
    """The objects of inspections, questions and counters."""
    with open(os.path.join(ROOT, "examples", "kinds.frames"), "rb") as file:
        log = file.read()
    inspected = (b'{"line":"plain","place":0}\n{"line":"unparsed","place":1,"part":"M1","offset":0}\n'
                 b'{"line":"certificate","place":2,"host":"h","app":"s","procid":"-","rsid":1,"sg":0,"spri":0,"total":27,"index":1,"length":27}\n'
                 b'{"line":"signature","place":3,"host":"h","app":"s","procid":"-","rsid":1,"sg":0,"spri":0,"gbc":0,"first":1,"count":2}\n'
                 b'{"line":"spoilt","place":4,"cause":"S3"}\n{"line":"torn","offset":531}\n{"line":"end","count":5}\n')
    for words, wanted in ((["--json"], inspected), (["--findings", "--json"], inspected.split(b"\n", 1)[1])):
        said = run("inspect", log, *words)
        tell(f"by hand: inspect {' '.join(words)}", "" if said == (1, wanted) else repr(said))
    said = run("inspect", b"", "--json", "--findings")
    tell("by hand: an empty log", "" if said == (0, b'{"line":"end","count":0}\n') else repr(said))
    with open(os.path.join(ROOT, "examples", "four-messages.frames"), "rb") as file:
        log = file.read()
    status, made = run("questions", log, "--json")
    payload = b"MjAwOS0wNS0wM1QxNDowMDozOVogSyBTMFZa"
    names = b'"host":"h","app":"s","procid":"-","rsid":1'
    asked = [line.split(b" ") for line in run("questions", log)[1].splitlines()]
    _, certificate, signature = ([] if len(it) < 4 else it[2:] for it in asked)
    block = b'"octets":"%s","signature":"%s","place":%d,' + names + b',"ver":"0111","sg":0,"spri":0,'
    blocks = [block % (*certificate, 2) + b'"total":27,"index":1,"length":27}\n',
              block % (*signature, 3) + b'"gbc":0,"first":1,"count":2}\n']
    front = b'{"line":"yes?","payload":"%s",' % payload
    wanted = b'{"line":"trust?","payload":"%s",%s}\n' % (payload, names) + b"".join(front + it for it in blocks)
    tell("by hand: questions", "" if (status, made) == (0, wanted) else repr(made))
    status, made = run("questions", log, "--json", "--once")
    front = b'{"line":"yes?","payload_index":0,'
    wanted = (b'{"line":"payload","payload_index":0,"payload":"%s"}\n' % payload
              + b'{"line":"trust?","payload_index":0,%s}\n' % names + b"".join(front + it for it in blocks))
    tell("by hand: questions --once", "" if (status, made) == (0, wanted) else repr(made))
    wanted = b'{"line":"count",%s,"gbc":1}\n{"line":"count",%s,"sg":0,"spri":0,"number":3}\n{"line":"end","count":2}\n' % (names, names)
    said = run("counters", log, "--json", "--answers", os.path.join(ROOT, "examples", "four-messages.answers"))
    tell("by hand: counters", "" if said == (0, wanted) else repr(said))


def main():
    """Makes all checks."""
    visible = "".join(map(chr, range(33, 127)))
    assert len(KEYS) == 14
    with tempfile.TemporaryDirectory() as folder:
        count = 0
        for name, made in shapes():
            count += 1
            log = b"".join(map(frame, made.messages))
            options = [*made.options, *answered(folder, made.answers)]
            check(name, log, *options)
            check(f"{name}, unanswered", log, *made.options)
            check(f"{name}, torn", log + b"9 <", *options)
            check(f"{name}, damaged", b"X" + log + b"XX", "--salvage", *options)
        tell("shapes", "" if count >= 40 else f"{count} shapes")
        messages = [b"<13>1 - - - - - - %d" % i for i in range(3)]
        for names in ((visible, visible[:48], visible), ('"', "\\", '\\"'), ("\\\\", '""', "-"), ("-", "a\\", '"b')):
            options = [it for pair in zip(("--host", "--app", "--procid"), names) for it in pair]
            log, answers = sign(folder, messages, *options)
            check(f"names {names[0][:4]}", log, *answered(folder, answers))
            status, plain = review(log, *answered(folder, answers))
            front = " ".join(["session", *names, "1", "joined"]).encode()
            tell(f"names {names[0][:4]}: joined", "" if status == 0 and plain.startswith(front + b"\n") else repr(plain[:400]))
        # the example of the book
        with open(os.path.join(ROOT, "examples", "four-messages.frames"), "rb") as file:
            log = file.read().replace(b"abc", b"abd", 1)
        with open(os.path.join(ROOT, "docs", "user", "reference", "json.md"), "rb") as file:
            text = file.read()
        words = ["--findings", "--json", "--answers"]
        call = " ".join(["./ssign review", *words, "examples/four-messages.answers"])
        status, made = review(log, *words, os.path.join(ROOT, "examples", "four-messages.answers"))
        shown = b"| %s\n\nprints, with status %d,\n\n    %s\n\n" % (call.encode(), status, b"\n    ".join(made.splitlines()))
        tell("json.md: --findings --json", "" if shown in text else f"not in json.md: {shown!r}")
        # the objects by hand
        log, answers = sign(folder, messages[:1], "--host", 'a"b\\c', "--count", "1")
        status, made = review(log, "--json", *answered(folder, answers))
        host = rb'"host":"a\"b\\c","app":"-","procid":"-","rsid":1'
        wanted = (rb'{"line":"session",' + host + b',"state":"joined"}\n{"line":"ok",' + host
                  + b',"sg":0,"spri":0,"number":1,"place":1}\n{"line":"end","count":3}\n')
        tell("objects by hand", "" if (status, made) == (0, wanted) else f"status {status}: {made!r}")
        for word, value in (("--json", "x"), ("--findings", "")):
            ran = subprocess.run([PROGRAM, "review", f"{word}={value}"], input=log, capture_output=True, check=False)
            tell(f"{word} with a value", "" if ran.returncode == 2 and ran.stderr and not ran.stdout else repr(ran))
        for words in (["extract", "--json"], ["extract", "--findings"], ["questions", "--findings"], ["counters", "--findings"],
                      *([it, f"--{word}"] for it in ("inspect", "counters", "extract") for word in ("brief", "blocks", "no-sha1", "some-listed", "ignore-strangers")),
                      ["review", "--once"], ["extract", "--once"], ["inspect", "--once"], ["counters", "--once"],
                      ["questions", "--once=x"], ["questions", "--once", "--once"], ["inspect", "--pinned", os.devnull],
                      ["plan", "--pinned", os.devnull], ["carry", "--pinned", os.devnull],
                      ["extract", "--facts", os.devnull], ["review", "--json", "--facts", os.devnull], ["inspect", "--facts", os.devnull],
                      ["inspect", "--json", "--facts", os.devnull, "--facts", os.devnull], ["inspect", "--json", "--places", os.devnull],
                      ["extract", "--places", os.devnull, "--places", os.devnull],
                      ["carry", "--json"], ["carry", "--findings"], ["explain", "--json", "--json"], ["explain", "--findings", "F1"],
                      ["explain", "--json=x", "F1"], ["inspect", "--json", "--json"]):
            ran = subprocess.run([PROGRAM, *words], input=log, capture_output=True, check=False)
            tell(" ".join(words), "" if ran.returncode == 2 and ran.stderr and not ran.stdout else repr(ran))
        objects_by_hand()
        # messages of all kinds
        kinds = subprocess.run([sys.executable, "-B", os.path.join(ROOT, "tests", "kinds.py"), "make", "5", "4000"],
                               capture_output=True, check=True).stdout
        check_command("inspect", "messages of all kinds", kinds)
        wraps = b"".join(frame(b"<13>1 - h s - wrapped - |" + it) for it in messages_of(kinds))
        check_command("inspect --unwrap", "wraps of messages of all kinds", wraps)
        for command, words in itertools.product(("review", "inspect"), (["--json"], ["--findings"], ["--json", "--findings"])):
            said = run(command, b"x" + log, *words)
            tell(f"a refusal of {command} {' '.join(words)}", "" if said == (2, b"ssign: F1 0\n") else repr(said))
        for command in ("questions", "questions --once", "counters"):
            said = run(command, b"x" + log, "--json")
            tell(f"a refusal of {command}", "" if said == (2, b"ssign: F1 0\n") else repr(said))
        # the lines `blocks` are those of `--whole`, `tail` of `--counters`, `early` and `beyond` of `--from`, counts those of
        # `--tally`, and `disorder`, `empty` and those in front of a report those of their options: tests/whole.py, kept.py,
        # between.py, tally.py, order.py and brief.py
        wanted = {*KEYS, *OTHER_KEYS} - {"blocks", "tail", "early", "beyond", "tally", "unlisted-count", "refused-count",
                                         "spoilt-count", "damaged-count", "disorder", "empty", "signature-block",
                                         "certificate-block", "sha1", "not-ignored", "none-listed"}
        tell("each kind of line was seen", "" if words_seen == wanted else f"{wanted ^ words_seen}")
    print(f"forms: {passed} passed, {failed} failed")
    return 1 if failed else 0


if __name__ == "__main__":
    sys.exit(main())
