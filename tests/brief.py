#!/usr/bin/env python3
"""What `ssign review` makes of `--brief`, `--blocks`, `--no-sha1`, `--some-listed` and `--ignore-strangers`, by the definition in
docs/dev/FORMATS.md.

    brief.py PROGRAM

The lines are made again from the report without these options, which the program writes too and which has tests of its own.
The blocks come of a second reading of the log (review_model.py), and are what `inspect` reports. The logs are those of
brief_logs.py by hand, and 1,000 by a seed: with VER 0111 and 0121, as frames and as lines, whole, torn and damaged, and with
strangers' blocks. Each is read in some of the forms, beside some of the other options. The last line is
`brief: N passed, M failed`.
"""
from __future__ import annotations

import collections
import itertools
import os
import random
import sys
import tempfile
from typing import Any, Counter, Iterable, Iterator, List, Mapping, NamedTuple, Optional, Sequence, Set, Tuple

import brief_logs
import counted_logs
import pinned_logs
from brief_logs import BY_HAND, OBJECTS, TOLD
from report_objects import fault_of
from review_model import Block, Log, kept, state
from review_runs import answers_text, answers_to, ended, frame, joined, line, read_frames, read_lines
from salvage_model import Salvaged
from tally import tally_of
from whole import Program

SEEDS = 1_000
# the greatest counter
MOST = 10_000_000_000
# how many differences are shown
SHOWN = 5
ENTRIES = ("ok", "gap", "hole")
OPTIONS = ["--brief", "--blocks", "--no-sha1", "--some-listed", "--ignore-strangers"]
ADDED = [list(it) for size in range(1, 6) for it in itertools.combinations(OPTIONS, size)]
FORMS: List[List[str]] = [[], ["--json"], ["--findings"], ["--findings", "--json"], ["--tally"], ["--tally", "--json"],
                          ["--tally", "--findings"]]
# the last line of the questions of `--ask`
ENDS = {False: b"end\n", True: b'{"line":"end"}\n'}

passed = failed = 0


def tell(what: str, fault: str = "") -> None:
    """One check, passed where there is no fault."""
    global passed, failed
    if not fault:
        passed += 1
        return
    failed += 1
    if failed <= SHOWN:
        print(f"brief: {what}: FAILED\n    {fault}")


# ---- the definition

def brief_entries(entries: Sequence[List[str]]) -> Iterator[List[str]]:
    """The entries of a group that stay: those without a listed message, the listed ones beside them, and the last one."""
    missing = [it[0] != "ok" for it in entries]
    for it, before, is_missing, after in zip(entries, [False, *missing], missing, [*missing[1:], True]):
        if before or is_missing or after:
            yield it


def group_of(words: List[str]) -> Optional[List[str]]:
    """The group whose entry this line is, or nothing."""
    return words[1:7] if words[0] in ENTRIES else None


def brief_text(report: Iterable[str]) -> List[str]:
    """The lines of a report in brief."""
    text: List[str] = []
    for group, lines in itertools.groupby((it.split(" ") for it in report), group_of):
        entries = list(lines)
        text += map(" ".join, entries if group is None else brief_entries(entries))
        text += [] if group is None else [tally_of(group, entries)]
    return text


def claimed_by(block: Block) -> Tuple[str, ...]:
    """The session that a block claims, as a line spells it."""
    return (*(it.decode() for it in block.session[:3]), str(block.session[3]))


def is_known_to(block: Block, own: Sequence[Block]) -> bool:
    """Whether these signature blocks have a GBC that isn't below that of a block, and such a last number of its group."""
    last = block.first + block.count
    return any(it.gbc >= block.gbc for it in own) and any(it.group == block.group and it.first + it.count >= last for it in own)


def suspicion(block: Block, own: Mapping[Tuple[str, ...], Sequence[Block]]) -> str:
    """Why a refused block isn't to be ignored, or nothing: `own` has the verified signature blocks of each joined session."""
    claimed = claimed_by(block)
    if claimed not in own:
        return "unjoined"
    fellows = [it for it in own if it[:3] == claimed[:3]]
    return "" if block.is_certificate or all(is_known_to(block, own[it]) for it in fellows) else "late"


def not_ignored(blocks: Sequence[Block], verified: Set[int], report: Sequence[str]) -> Iterator[str]:
    """The lines of the refused blocks that aren't to be ignored."""
    sessions = [it.split(" ") for it in report if it.startswith("session ")]
    known = [it for it in blocks if it.place in verified and not it.is_certificate]
    own = {tuple(it[1:5]): [block for block in known if claimed_by(block) == tuple(it[1:5])] for it in sessions if it[5] == "joined"}
    for block in blocks:
        why = "" if block.place in verified else suspicion(block, own)
        if why:
            yield f"not-ignored {block.place} {why}"


def is_finding(words: Sequence[str]) -> bool:
    """Whether a line of a report is a finding, where refused blocks aren't."""
    return words[-1] != "joined" if words[0] == "session" else words[0] not in ("ok", "refused", "end")


def block_line(block: Block, is_verified: bool) -> str:
    """The line of a block."""
    fields = [block.place, "yes" if is_verified else "no", *claimed_by(block), block.version, *block.group]
    if block.is_certificate:
        return " ".join(map(str, ["certificate-block", *fields, block.total, block.index, len(block.fragment)]))
    return " ".join(map(str, ["signature-block", *fields, block.gbc, block.first, block.count]))


def front_text(blocks: Sequence[Block], verified: Set[int], report: Sequence[str], words: Sequence[str]) -> List[str]:
    """The lines in front of a report with these options: `verified` has the places of verified blocks."""
    text = [block_line(it, it.place in verified) for it in blocks] if "--blocks" in words else []
    weak = [it.place for it in blocks if it.place in verified and not it.is_certificate and it.version == "0111"]
    text += [f"sha1 {it}" for it in weak[:1] if "--no-sha1" in words]
    text += not_ignored(blocks, verified, report) if "--ignore-strangers" in words else []
    is_listed = any(it.startswith("ok ") for it in report)
    return text + ([] if is_listed or "--some-listed" not in words else ["none-listed"])


def verified_places(log: Log, trusted: Any, valid: Any, known: Sequence[bytes] = ()) -> Set[int]:
    """The places of the verified blocks, by the model."""
    part = kept(log, trusted, valid, known)
    return {block.place for session in part.sessions for block in state(part, session, trusted, valid)[1]}


# ---- the program

class Case(NamedTuple):
    """A log, how it is reviewed, and what its report has without the options that are tried."""

    what: str
    octets: bytes
    reading: List[str]
    """Options that say how the log is read, of `inspect` too."""
    words: List[str]
    """The other options of the review."""
    blocks: Sequence[Block]
    verified: Set[int]
    status: int
    plain: List[str]
    tallied: List[str]


def lines_of(said: Tuple[int, bytes, bytes]) -> List[str]:
    """The lines of an output."""
    return said[1].decode().splitlines()


def begun(program: Program, what: str, octets: bytes, reading: List[str], words: List[str], read: Tuple[Log, Set[int]]) -> Case:
    """A case: the report without the options, also as a tally, and what `inspect` reports of the blocks."""
    log, verified = read
    plain = program.run(["review", *words, *reading], octets)
    tallied = program.run(["review", "--tally", *words, *reading], octets)
    fault = "" if plain[0] == tallied[0] < 2 and not plain[2] else f"status {plain[0]}: {plain[2][:300]!r}"
    case = Case(what, octets, reading, words, log.blocks, verified, plain[0], lines_of(plain), lines_of(tallied))
    refused = [int(it.split(" ")[1]) for it in case.plain if it.startswith("refused ")]
    wanted = [it.place for it in log.blocks if it.place not in verified]
    tell(f"{what}: the blocks that are refused", fault or ("" if refused == wanted else f"{refused}, and not {wanted}"))
    inspected = [it.split(" ") for it in lines_of(program.run(["inspect", *reading], octets))]
    told = [it for it in inspected if it[0] in ("signature", "certificate")]
    claimed = [it.split(" ") for it in front_text(log.blocks, verified, [], ["--blocks"])]
    claims = [[it[0].partition("-")[0], it[1], *it[3:7], *it[8:]] for it in claimed]
    tell(f"{what}: what inspect reports of the blocks", "" if told == claims else f"{told}, and not {claims}")
    return case


def wanted_of(case: Case, added: Sequence[str], form: Sequence[str]) -> Tuple[int, List[str]]:
    """The status and the lines of a review with these options, in a form."""
    front = front_text(case.blocks, case.verified, case.plain, added)
    text = brief_text(case.plain) if "--brief" in added else case.plain
    text = front + (case.tallied if "--tally" in form else text)
    text = [it for it in text if not it.startswith("ok ")] if "--findings" in form else text
    is_found = any(it.split(" ")[0] in ("sha1", "not-ignored", "none-listed") for it in front)
    return max(status_without(case, added), int(is_found)), text


def status_without(case: Case, added: Sequence[str]) -> int:
    """The status of a review with these options, as far as the lines in front don't decide it."""
    return int(any(is_finding(it.split(" ")) for it in case.plain)) if "--ignore-strangers" in added else case.status


def fault_in(said: Tuple[int, bytes, bytes], wanted: Tuple[int, List[str]], form: Sequence[str]) -> str:
    """What is wrong with what a review says in a form."""
    status, text = wanted[0], joined(wanted[1])
    if said[0] != status or said[2]:
        return f"status {said[0]}, and not {status}: {said[2][:300]!r}"
    if "--json" in form:
        return fault_of(text, said[1])
    return "" if said[1] == text else f"{said[1][:1000]!r}\n    and not {text[:1000]!r}"


def check(program: Program, case: Case, added: Sequence[str], form: Sequence[str]) -> List[str]:
    """The check of one run. Gives the lines that it has to write."""
    wanted = wanted_of(case, added, form)
    said = program.run(["review", *added, *form, *case.words, *case.reading], case.octets)
    tell(f"{case.what}: {' '.join([*added, *form, *case.words, *case.reading])}", fault_in(said, wanted, form))
    return wanted[1]


def check_ask(program: Program, case: Case, added: Sequence[str], form: Sequence[str], folder: str) -> None:
    """The same with `--ask`: the report is the same, and the questions are those of another run."""
    asked = os.path.join(folder, "asked")
    said = program.run(["review", *added, *form, "--ask", asked, *case.words, *case.reading], case.octets)
    fault = fault_in(said, wanted_of(case, added, form), form)
    pinned = case.words.index("--pinned") if "--pinned" in case.words else len(case.words)
    words = ["--once", *(it for it in form if it == "--json"), *case.words[pinned:pinned + 2], *case.reading]
    questions = program.run(["questions", *words], case.octets)[1] + ENDS["--json" in form]
    with open(asked, "rb") as file:
        octets = file.read()
    tell(f"{case.what}: --ask {' '.join([*added, *form])}", fault or ("" if octets == questions else f"{octets[:500]!r}"))


def put(folder: str, name: str, octets: bytes) -> str:
    """Makes a file, and gives its path."""
    path = os.path.join(folder, name)
    with open(path, "wb") as file:
        file.write(octets)
    return path


# ---- logs by hand

def by_hand(program: Program, folder: str) -> None:
    """Each log by hand, with its lines; then each set of options in each form, and beside each other option."""
    for it in BY_HAND:
        log, octets = Log(it.messages), b"".join(map(frame, it.messages))
        trusted, valid = answers_to(log, it.answers)
        words = program.put_answers(answers_text(trusted, valid))
        said = program.run(["review", *it.words, *words], octets)
        tell(f"by hand: {it.name}", "" if said == (it.status, joined(it.lines), b"") else f"{said}")
        read = log, verified_places(log, trusted, valid)
        case = begun(program, it.name, octets, [], words, read)
        for added, form in itertools.product(ADDED, FORMS):
            check(program, case, added, form)
        check_ask(program, case, OPTIONS, [], folder)
        check_ask(program, case, OPTIONS, ["--findings", "--json"], folder)
        for reading, other in beside(folder, it.messages):
            unit = line if "--lines" in reading else frame
            near = begun(program, it.name, b"".join(map(unit, it.messages)), reading, [*other, *words], read)
            check(program, near, ["--brief"], [])
            check(program, near, ["--blocks", "--some-listed"], ["--json"])
            for form in ([], ["--tally"]):
                check(program, near, OPTIONS, form)
        torn = begun(program, f"{it.name}, torn", octets + b"9 <", [], words, read)
        check(program, torn, OPTIONS, [])
    said = program.run(["review", *BY_HAND[-1].words, "--json", *words], octets)
    tell("objects by hand", "" if said[0] == 1 and said[1].startswith(OBJECTS) else f"{said}")
    for given in itertools.permutations(OPTIONS):
        tell(" ".join(given), fault_in(program.run(["review", *given, *words], octets), wanted_of(case, given, []), []))


def beside(folder: str, messages: Sequence[bytes]) -> Iterator[Tuple[List[str], List[str]]]:
    """Options of a reading, and others of a review, of which one night and known payloads come by files."""
    first = put(folder, "first", ended(["count h s - 1 1", "count h s - 1 0 0 3", "count h s - 1 1 13 2"]))
    second = put(folder, "second", ended(["count h s - 1 3", "count h s - 1 0 0 7", "count h s - 2 1"]))
    known = put(folder, "known", answers_text({b"2009-05-03T14:00:39Z K S0VZ"}, set()))
    yield ["--lines"], []
    yield ["--salvage"], []
    for it in (["--whole"], ["--in-order"], ["--counters", second], ["--from", first], ["--from", first, "--counters", second],
               ["--pinned", known], ["--in-order", "--not-empty", "--whole"]):
        yield [], it


# ---- mistakes

def mistakes(program: Program) -> None:
    """Mistakes with each option, refusals beside it, and an explanation of each word."""
    for word in ("signature-block", "certificate-block", "sha1", "not-ignored", "none-listed"):
        status, out, err = program.run(["explain", word])
        tell(f"explain {word}", "" if status == 0 and out.endswith(b".\n") and not err else f"status {status} {out!r} {err!r}")
    log = frame(TOLD[0])
    for option in OPTIONS:
        said = program.run(["review", option], b"x" + log)
        tell(f"a refusal: {option}", "" if said == (2, b"", b"ssign: F1 0\n") else f"{said}")
        wrong = [["review", it] for it in (f"{option}=x", f"{option}=", option[:-1], f"{option}s", f"--no{option[1:]}")]
        wrong += [["review", option, option], ["review", option, "x"], *program.others("review", option)]
        for words in wrong:
            status, out, err = program.run(words, log)
            tell(" ".join(words), "" if status == 2 and err and not out else f"status {status} {out!r} {err!r}")


# ---- logs by a seed

KINDS = ["a message that is left out", "a neighbour before", "a neighbour after", "one between two gaps",
         "a last message alone", "a hole", "a disputed number", "sha1", "no sha1 of a joined session",
         "SHA-1 that isn't verified alone", "none-listed", "a finding by SHA-1 alone", "a finding because nothing is listed",
         "both kinds of block, yes", "both kinds of block, no", "a block that is left out by --pinned", "a block that may be the last",
         "a block of a session that isn't joined", "a finding that is ignored", "a block that is ignored beside a finding", "--from",
         "--salvage",
         "--lines", "torn", "damaged", "disorder", "tail", "early"]


def kinds_of(case: Case) -> Iterator[str]:
    """What is in a log and its report."""
    front = front_text(case.blocks, case.verified, case.plain, OPTIONS)
    words = [it.split(" ") for it in [*case.plain, *front]]
    yield from {it[0] for it in words} | set(case.words) | set(case.reading)
    yield from {"a hole" for it in words if it[0] == "hole"}
    yield from {"a disputed number" for it in words if it[0] == "gap" and it[-1] == "disputed"}
    for flag in ("yes", "no"):
        if {it[0] for it in words if it[0].endswith("-block") and it[2] == flag} == {"signature-block", "certificate-block"}:
            yield f"both kinds of block, {flag}"
    by_sha1 = [it for it in case.blocks if not it.is_certificate and it.version == "0111"]
    has_weak = any(it[0] == "sha1" for it in words)
    if not has_weak and any(it.place in case.verified and not it.is_certificate for it in case.blocks):
        yield "no sha1 of a joined session"
        if by_sha1:
            yield "SHA-1 that isn't verified alone"
    if case.status == 0 and has_weak:
        yield "a finding by SHA-1 alone"
    if case.status == 0 and ["none-listed"] in words:
        yield "a finding because nothing is listed"
    yield from kinds_of_brief(case)
    yield from kinds_of_strangers(case)


def kinds_of_strangers(case: Case) -> Iterator[str]:
    """Which refused blocks a log has."""
    suspects = list(not_ignored(case.blocks, case.verified, case.plain))
    has_others = any(is_finding(it.split(" ")) for it in case.plain)
    ignored = sum(it.startswith("refused ") for it in case.plain) - len(suspects)
    yield from {"a block that may be the last" for it in suspects if it.endswith(" late")}
    yield from {"a block of a session that isn't joined" for it in suspects if it.endswith(" unjoined")}
    if ignored and not suspects and not has_others:
        yield "a finding that is ignored"
    if ignored and has_others:
        yield "a block that is ignored beside a finding"


def kinds_of_brief(case: Case) -> Iterator[str]:
    """What is in a report in brief."""
    stays = brief_text(case.plain)
    kinds = "".join({"ok": "o", "gap": "g", "hole": "g", "tally": "t"}.get(it.split(" ")[0], " ") for it in stays)
    if sum(it.startswith("ok ") for it in case.plain) > kinds.count("o"):
        yield "a message that is left out"
    for what, shape in (("a neighbour before", "og"), ("a neighbour after", "go"), ("one between two gaps", "gog"),
                        ("a last message alone", " ot")):
        if shape in kinds:
            yield what


def night(program: Program, chance: random.Random, folder: str, octets: bytes, words: List[str]) -> List[str]:
    """Options of what is missing: up to counters, in a night between two, or none. The counters are near those of the log."""
    counters = lines_of(program.run(["counters", *words], octets))[:-1]

    def moved(name: str) -> str:
        """A file with counters beside these."""
        fields = [it.rsplit(" ", 1) for it in counters if chance.random() < 0.9]
        counts = [(front, int(number) - chance.randint(-2, 4)) for front, number in fields]
        return put(folder, name, ended([f"{front} {min(max(1, number), MOST)}" for front, number in counts]))
    return chance.choice([[], [], ["--whole"], ["--counters", moved("second")], ["--from", moved("first")],
                          ["--from", moved("first"), "--counters", moved("second")]])


def stored(seed: int, chance: random.Random) -> Tuple[List[bytes], Any, Any, List[bytes]]:
    """A log by a seed, its answers, and the payloads that are known beforehand."""
    if seed % 4 == 2:
        attack = pinned_logs.make(seed)
        return attack.messages, attack.trusted, attack.valid, attack.known
    messages, trusted, valid = (brief_logs if seed % 4 == 0 else counted_logs).make(seed)
    if chance.random() < 0.3:
        chance.shuffle(messages)
    return messages, trusted, valid, []


def logged(seed: int, chance: random.Random, messages: List[bytes]) -> Tuple[bytes, List[str], List[bytes]]:
    """The octets of a log, how it is read, and the messages that are read: it may be lines, torn, or damaged."""
    if seed % 3 == 1:
        octets = b"".join(line(it) for it in messages if it and b"\n" not in it)
        octets = octets[:chance.randint(0, len(octets))] if seed % 5 == 0 else octets
        return octets, ["--lines"], read_lines(octets)[0]
    octets = b"".join(map(frame, filter(None, messages)))
    if seed % 3 == 2:
        at = chance.randint(0, len(octets))
        octets = octets[:at] + chance.choice([b"", b"x", b"\n\n"]) + octets[at + chance.randint(0, 3):]
        return octets, ["--salvage"], Salvaged(octets).messages
    octets = octets[:chance.randint(0, len(octets))] if seed % 5 == 0 else octets
    return octets, [], read_frames(octets)[0]


def of_seed(program: Program, folder: str, seed: int) -> Case:
    """A log by a seed, without the options that are tried."""
    chance = random.Random(-seed)
    messages, trusted, valid, known = stored(seed, chance)
    octets, reading, messages = logged(seed, chance, messages)
    words = program.put_answers(answers_text(trusted, valid))
    words += ["--pinned", put(folder, "known", answers_text(set(known), set()))] if known else []
    words += night(program, chance, folder, octets, [*words, *reading])
    words += chance.choice([[], ["--in-order"], ["--in-order", "--not-empty"]])
    log = Log(messages)
    return begun(program, f"seed {seed}", octets, reading, words, (log, verified_places(log, trusted, valid, known)))


def by_seed(program: Program, folder: str) -> None:
    """Some sets of options, in some forms, of each log."""
    reached: Counter[str] = collections.Counter()
    for seed in range(SEEDS):
        chance, case = random.Random(seed), of_seed(program, folder, seed)
        check(program, case, OPTIONS, [])
        for form in (chance.choice(FORMS), FORMS[seed % len(FORMS)]):
            check(program, case, chance.choice(ADDED), form)
        if seed % 10 == 0:
            check_ask(program, case, chance.choice(ADDED), chance.choice(FORMS), folder)
        reached.update(set(kinds_of(case)))
        claims = {block.place for block in case.blocks} - case.verified
        reached["a block that is left out by --pinned"] += "--pinned" in case.words and bool(claims and case.verified)
    for kind in KINDS:
        print(f"brief: {reached[kind]:6} {kind}")
        tell(f"some log has {kind}", "" if reached[kind] > 4 else f"{reached[kind]} have")


def main() -> int:
    """Makes all checks."""
    with tempfile.TemporaryDirectory() as folder:
        program = Program(sys.argv[1], folder)
        by_hand(program, folder)
        mistakes(program)
        by_seed(program, folder)
    print(f"brief: {passed} passed, {failed} failed")
    return int(failed > 0 or passed == 0)


if __name__ == "__main__":
    sys.exit(main())
