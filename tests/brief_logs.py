"""Logs for tests/brief.py: some by hand, with the lines that were worked out from docs/dev/FORMATS.md, and some by a seed.

`make(seed)` gives what that of counted_logs.py does, of one session with long runs of numbers: some of its messages and
blocks were lost, some numbers are disputed, and some blocks aren't valid. Two in five are whole. Most logs have one VER.
"""
from __future__ import annotations

import base64
from typing import Any, Callable, List, NamedTuple, Sequence, Set, Tuple

from counted_logs import Counting
from review_examples import A2, ALL, C, NO_SIGNATURE, NO_TRUST, TOLD, always, certificate, h, signature
from review_logs import GROUPS, PAYLOADS

ONE, TWO, THREE, FOUR, FIVE = TOLD
FIVE_OF_THEM = signature(*map(h, TOLD))
# two groups of the session, with the numbers 1 to 3 and 2 to 3
THREE_OF_THEM = signature(h(ONE), h(TWO), h(THREE))
OTHERS = signature(h(FOUR), h(FIVE), sg=1, spri=13, gbc=1, first=2)
# the one number of the message `abc`, by SHA-256
BY_SHA256 = signature(A2, ver=b"0121")
CERTIFICATE_256 = certificate(ver=b"0121")
J = "session h s - 1 joined"
C0, C3 = ("certificate-block %d yes h s - 1 0111 0 0 27 1 27" % it for it in (0, 3))
Answers = Tuple[Callable[..., bool], Callable[..., bool]]


def none_by(*versions: bytes) -> Answers:
    """Each payload is trusted, and each block valid but signature blocks of these versions."""
    return always, lambda payload, signed, sign: b"[ssign " not in signed or not any(
        b'VER="%s"' % it in signed for it in versions)


def but_forged(payload: bytes, signed: bytes, sign: bytes) -> bool:
    """Whether a signature isn't the forged one."""
    return sign != base64.b64decode(b"BBBB")


class Hand(NamedTuple):
    """A log that was worked out by hand."""

    name: str
    messages: Sequence[bytes]
    answers: Answers
    words: Sequence[str]
    lines: Sequence[str]
    status: int


def ok(number: int, place: int, group: str = "0 0") -> str:
    """The line of a listed message of the session."""
    return f"ok h s - 1 {group} {number} {place}"


def gap(number: int, why: str = "lost") -> str:
    """The line of a number of the session without a listed message."""
    return f"gap h s - 1 0 0 {number} {why}"


def tally(counts: str, group: str = "0 0") -> str:
    """The line of a group's counts."""
    return f"tally h s - 1 {group} {counts}"


BRIEF, BLOCKS, NO_SHA1, SOME, IGNORE = (["--" + it] for it in ("brief", "blocks", "no-sha1", "some-listed", "ignore-strangers"))
# in place of a signature that is valid
FORGED = b' SIGN="BBBB"'
BY_HAND = [
    Hand("all are listed", [*TOLD, C, FIVE_OF_THEM], ALL, BRIEF, [J, ok(5, 4), tally("5 0 0 0 1 5"), "end 7"], 0),
    Hand("one listed message", [ONE, C, signature(h(ONE))], ALL, BRIEF, [J, ok(1, 0), tally("1 0 0 0 1 1"), "end 3"], 0),
    Hand("two are lost in the middle", [ONE, FOUR, FIVE, C, FIVE_OF_THEM], ALL, BRIEF,
         [J, ok(1, 0), gap(2), gap(3), ok(4, 1), ok(5, 2), tally("3 2 0 0 1 5"), "end 5"], 1),
    Hand("the first is lost", [TWO, THREE, FOUR, FIVE, C, FIVE_OF_THEM], ALL, BRIEF,
         [J, gap(1), ok(2, 0), ok(5, 3), tally("4 1 0 0 1 5"), "end 6"], 1),
    Hand("the last is lost", [ONE, TWO, THREE, FOUR, C, FIVE_OF_THEM], ALL, BRIEF,
         [J, ok(4, 3), gap(5), tally("4 1 0 0 1 5"), "end 6"], 1),
    Hand("every other one is lost", [ONE, THREE, FIVE, C, FIVE_OF_THEM], ALL, BRIEF,
         [J, ok(1, 0), gap(2), ok(3, 1), gap(4), ok(5, 2), tally("3 2 0 0 1 5"), "end 5"], 1),
    Hand("the second and the fourth are listed", [TWO, FOUR, C, FIVE_OF_THEM], ALL, BRIEF,
         [J, gap(1), ok(2, 0), gap(3), ok(4, 1), gap(5), tally("2 3 0 0 1 5"), "end 4"], 1),
    Hand("all are lost", [C, FIVE_OF_THEM], ALL, BRIEF, [J, *map(gap, range(1, 6)), tally("0 5 0 0 1 5"), "end 2"], 1),
    Hand("two hashes for one number", [*TOLD, C, FIVE_OF_THEM, signature(h(FIVE), first=3, gbc=1)], ALL, BRIEF,
         [J, ok(2, 1), gap(3, "disputed"), ok(4, 3), ok(5, 4), tally("4 0 1 0 1 5"), "unlisted 2", "end 8"], 1),
    Hand("a hole in front, and the group before has none", [*TOLD, C, THREE_OF_THEM, OTHERS], ALL, BRIEF,
         [J, ok(3, 2), tally("3 0 0 0 1 3"), "hole h s - 1 1 13 1 1", ok(2, 3, "1 13"), ok(3, 4, "1 13"),
          tally("2 0 0 1 2 3", "1 13"), "end 8"], 1),
    Hand("out of order, in brief", [TWO, ONE, THREE, FOUR, FIVE, C, FIVE_OF_THEM], ALL, [*BRIEF, "--in-order"],
         [J, ok(5, 4), tally("5 0 0 0 1 5"), "disorder h s - 1 0 0 1 2 0", "end 7"], 1),
    Hand("a block of each kind", [ONE, TWO, THREE, C, THREE_OF_THEM], ALL, BLOCKS,
         [C3, "signature-block 4 yes h s - 1 0111 0 0 0 1 3", J, ok(1, 0), ok(2, 1), ok(3, 2), "end 5"], 0),
    Hand("a block twice, and one of another group", [C, THREE_OF_THEM, OTHERS, C], ALL, [*BLOCKS, "--tally"],
         [C0, "signature-block 1 yes h s - 1 0111 0 0 0 1 3", "signature-block 2 yes h s - 1 0111 1 13 1 2 2", C3, J,
          tally("0 3 0 0 1 3"), tally("0 2 0 1 2 3", "1 13"), "unlisted-count 0", "refused-count 0", "spoilt-count 0",
          "end 4"], 1),
    Hand("blocks of an untrusted session", [C, THREE_OF_THEM], NO_TRUST, BLOCKS,
         [C0.replace("yes", "no"), "signature-block 1 no h s - 1 0111 0 0 0 1 3", "session h s - 1 untrusted", "refused 0",
          "refused 1", "end 2"], 1),
    Hand("a spoilt block has no line", [C, THREE_OF_THEM.replace(b'CNT="3"', b'CNT="4"')], ALL, BLOCKS,
         [C0, J, "spoilt 1 S5", "end 2"], 1),
    Hand("SHA-1", [ONE, TWO, THREE, C, THREE_OF_THEM], ALL, NO_SHA1,
         ["sha1 4", J, ok(1, 0), ok(2, 1), ok(3, 2), "end 5"], 1),
    Hand("SHA-1 twice", [C, OTHERS, THREE_OF_THEM], ALL, [*NO_SHA1, "--tally"],
         ["sha1 1", J, tally("0 3 0 0 1 3"), tally("0 2 0 1 2 3", "1 13"), "unlisted-count 0", "refused-count 0",
          "spoilt-count 0", "end 3"], 1),
    Hand("SHA-256, and a certificate block of VER 0111", [b"abc", C, BY_SHA256], ALL, NO_SHA1, [J, ok(1, 0), "end 3"], 0),
    Hand("SHA-1 after SHA-256", [b"abc", C, BY_SHA256, THREE_OF_THEM.replace(b'SG="0"', b'SG="3"')], ALL, [*NO_SHA1, *BRIEF],
         ["sha1 3", J, ok(1, 0), tally("1 0 0 0 1 1"), *(f"gap h s - 1 3 0 {it} lost" for it in (1, 2, 3)),
          tally("0 3 0 0 1 3", "3 0"), "end 4"], 1),
    Hand("SHA-1 that isn't verified", [b"abc", C, BY_SHA256, THREE_OF_THEM], none_by(b"0111"), [*NO_SHA1, *BLOCKS],
         ["certificate-block 1 yes h s - 1 0111 0 0 27 1 27", "signature-block 2 yes h s - 1 0121 0 0 0 1 1",
          "signature-block 3 no h s - 1 0111 0 0 0 1 3", J, ok(1, 0), "refused 3", "end 4"], 1),
    Hand("nothing is signed", [ONE, TWO], ALL, SOME, ["none-listed", "unlisted 0", "unlisted 1", "end 2"], 1),
    Hand("no message", [], ALL, SOME, ["none-listed", "end 0"], 1),
    Hand("no message, and each finding", [], ALL, [*SOME, *NO_SHA1, *BLOCKS, *BRIEF, "--not-empty"],
         ["none-listed", "empty", "end 0"], 1),
    Hand("a session without a signature block", [CERTIFICATE_256], ALL, [*SOME, *NO_SHA1, *BLOCKS],
         ["certificate-block 0 yes h s - 1 0121 0 0 27 1 27", "none-listed", J, "end 1"], 1),
    Hand("a block of a stranger", [*TOLD[:3], C, THREE_OF_THEM, signature(h(FIVE), sign=FORGED)], (always, but_forged), IGNORE,
         [J, ok(1, 0), ok(2, 1), ok(3, 2), "refused 5", "end 6"], 0),
    Hand("a certificate block of a stranger", [C, certificate(sign=FORGED)], (always, but_forged), [*IGNORE, *BLOCKS],
         [C0, C0.replace(" 0 yes", " 1 no"), J, "refused 1", "end 2"], 0),
    Hand("a greater GBC, and a greater number", [*TOLD[:3], C, THREE_OF_THEM, signature(h(FIVE), gbc=1, sign=FORGED),
                                                 signature(h(FIVE), first=4, sign=FORGED)],
         (always, but_forged), [*IGNORE, *BRIEF],
         ["not-ignored 5 late", "not-ignored 6 late", J, ok(3, 2), tally("3 0 0 0 1 3"), "refused 5", "refused 6", "end 7"], 1),
    Hand("a later session reaches less", [*TOLD[:3], C, THREE_OF_THEM, signature(h(FIVE), sign=FORGED), certificate(rsid=2)],
         (always, but_forged), [*IGNORE, "--findings"],
         ["not-ignored 5 late", J, "session h s - 2 joined", "refused 5", "end 7"], 1),
    Hand("a session that isn't joined", [*TOLD[:3], C, THREE_OF_THEM, signature(h(FIVE), rsid=3)], ALL, [*IGNORE, "--tally"],
         ["not-ignored 5 unjoined", J, tally("3 0 0 0 1 3"), "session h s - 3 incomplete", "unlisted-count 0", "refused-count 1",
          "spoilt-count 0", "end 6"], 1),
    Hand("a block of a stranger, and a lost message", [ONE, TWO, C, THREE_OF_THEM, signature(h(FIVE), sign=FORGED)],
         (always, but_forged), IGNORE, [J, ok(1, 0), ok(2, 1), gap(3), "refused 4", "end 5"], 1),
    Hand("one message is listed", [ONE, C, FIVE_OF_THEM], ALL, [*SOME, "--findings"],
         [J, *map(gap, range(2, 6)), "end 3"], 1),
    Hand("all in front", [C, FIVE_OF_THEM], NO_SIGNATURE, [*SOME, *NO_SHA1, *BLOCKS, *BRIEF],
         [C0.replace("yes", "no"), "signature-block 1 no h s - 1 0111 0 0 0 1 5", "none-listed", "session h s - 1 unaccepted",
          "refused 0", "refused 1", "end 2"], 1),
    Hand("all in front, verified", [C, FIVE_OF_THEM], ALL, [*SOME, *NO_SHA1, *BLOCKS, "--findings"],
         [C0, "signature-block 1 yes h s - 1 0111 0 0 0 1 5", "sha1 1", "none-listed", J, *map(gap, range(1, 6)), "end 2"], 1),
]
# the objects of the last log
OBJECTS = b"""\
{"line":"certificate-block","place":0,"verified":"yes","host":"h","app":"s","procid":"-","rsid":1,"ver":"0111","sg":0,"spri":0,"total":27,"index":1,"length":27}
{"line":"signature-block","place":1,"verified":"yes","host":"h","app":"s","procid":"-","rsid":1,"ver":"0111","sg":0,"spri":0,"gbc":0,"first":1,"count":5}
{"line":"sha1","place":1}
{"line":"none-listed"}
"""


class Long(Counting):  # type: ignore[misc]
    """A maker of logs with long runs of numbers."""

    def __init__(self, seed: int) -> None:
        super().__init__(seed)
        self.version = self.chance.choice([b"", b"0121", b"0121", b"0111", b"0111"])
        self.is_whole = self.chance.random() < 0.4
        self.stored: List[bytes] = []
        self.blocks: List[Any] = []

    def often(self, usual: Any, *others: Any, odds: float = 0.9) -> Any:
        """What `usual` is most of the time, or the VER of this log."""
        if usual == b"0111" and self.version:
            return self.version
        return super().often(usual, *others, odds=odds)

    def announce(self, session: Tuple[Any, ...], group: Tuple[int, int], number: int) -> int:
        """Stores messages from this number on, with their block. Gives the number after them."""
        chance = self.chance
        texts = [b"<13>1 - - - - - - %d" % chance.getrandbits(64) for _ in range(chance.randint(1, 9))]
        self.stored += [it for it in texts if self.is_whole or chance.random() > 0.08]
        blocks = [self.signature(session, group, number, texts)] if self.is_whole or chance.random() > 0.1 else []
        if not self.is_whole and chance.random() < 0.08:
            blocks.append(self.signature(session, group, number + chance.randrange(len(texts)), [b"another text"]))
        self.stored += [it.text for it in blocks]
        self.blocks += blocks
        return number + len(texts)

    def make(self) -> Tuple[List[bytes], Set[bytes], Set[Tuple[bytes, bytes, bytes]]]:
        """A log, the payloads that are trusted, and the signatures that are valid."""
        chance = self.chance
        session, payload = (b"h", b"s", b"-", 1), chance.choice(PAYLOADS)
        self.blocks.append(self.certificate(session, len(payload), 1, payload))
        self.stored.append(self.blocks[0].text)
        numbers = dict.fromkeys(chance.sample(GROUPS, 2), 1)
        for _ in range(chance.randint(0, 7)):
            group = chance.choice(sorted(numbers))
            numbers[group] = self.announce(session, group, numbers[group])
        if self.is_whole and chance.random() < 0.5:
            again = chance.choice(self.blocks).text.replace(b'SIGN="', b'SIGN="AAAA')
            self.stored.insert(chance.randint(0, len(self.stored)), again)
        odds = 1 if self.is_whole else chance.choice([1, 1, 1, 0.9, 0])
        valid = {(payload, it.signed, base64.b64decode(it.sign)) for it in self.blocks if chance.random() < odds}
        return self.stored, {payload}, valid


def make(seed: int) -> Tuple[List[bytes], Set[bytes], Set[Tuple[bytes, bytes, bytes]]]:
    """A log by a seed."""
    return Long(seed).make()
