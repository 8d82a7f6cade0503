"""A model of how the tools show a text, by Unicode's own tables, and its checks.

    letters.py check TOOLS      each character, and random texts, are shown as the model has them; cuts and time too
    letters.py show             what a person reads of standard input
"""
import functools
import os
import random
import re
import sys
import time
import unicodedata
from typing import Callable

# letters, marks and symbols by their category that leave no ink
UNSEEN = re.compile("^(HALFWIDTH )?HANGUL (CHOSEONG |JUNGSEONG )?FILLER|^KHITAN SMALL SCRIPT FILLER|^BRAILLE PATTERN BLANK"
                    "|^EGYPTIAN HIEROGLYPH (FULL|HALF) BLANK|VARIATION SELECTOR|VOWEL INHERENT"
                    "|^COMBINING GRAPHEME JOINER|^MUSICAL SYMBOL NULL NOTEHEAD|^OBJECT REPLACEMENT CHARACTER")


@functools.lru_cache(maxsize=None)
def kind(letter: str) -> str:
    """`s` for what is seen by itself, `m` for what is drawn onto the letter before it, and else `x`."""
    category, name = unicodedata.category(letter), unicodedata.name(letter, "")
    if letter != " " and category in ("Cc", "Cf", "Cs", "Co", "Cn", "Zs", "Zl", "Zp") or letter == "\\" or UNSEEN.search(name):
        return "x"
    return "m" if category in ("Mn", "Me", "Mc") or re.match("HANGUL (JUNGSEONG|JONGSEONG) ", name) else "s"


def spelled(octets: bytes) -> str:
    """Each octet by itself."""
    return "".join(chr(it) if 32 <= it < 127 and it != 92 else "\\x%02x" % it for it in octets)


def shown(octets: bytes) -> str:
    """What a person reads: letters, each with four marks at most, and all else octet by octet."""
    text = octets.decode("utf-8", "surrogateescape")
    kinds = "".join(map(kind, text))
    said, at = "", 0
    for found in re.finditer("sm{0,4}", kinds):
        said += spelled(text[at:found.start()].encode("utf-8", "surrogateescape")) + text[found.start():found.end()]
        at = found.end()
    return said + spelled(text[at:].encode("utf-8", "surrogateescape"))


def restored(text: str) -> bytes:
    """The octets of a text that is shown: nothing else than they is shown so."""
    return re.sub(rb"\\x([0-9a-f]{2})", lambda it: bytes.fromhex(it[1].decode()), text.encode("utf-8"))


def check(tools: str) -> None:
    """Compares the tools with the model."""
    sys.path.insert(0, tools)
    from ssign_keys import words
    kinds = ""
    # planes 3 to 13, and what is private, have next to nothing: some of them stand for all
    for start in (*range(0, 0x32000, 256), *range(0x32000, sys.maxunicode, 0x3700), *range(0xe0000, 0xe1000, 256)):
        letters = list(map(chr, range(start, start + 256)))
        kinds += "".join(map(kind, letters))
        # each after a letter, and after what is spelled
        octets = b"".join(b"a%s\n%s" % (it, it) for it in (it.encode("utf-8", "surrogatepass") for it in letters))
        wanted = shown(octets)
        assert words.shown(octets) == wanted, (hex(start), words.shown(octets), wanted)
        # the others differ in what they do with octets
        if start < 0x3100 or start >= 0xe0000:
            text = octets.decode()
            assert words.shown_name(text) == words.shown_text(text) == wanted, hex(start)
            assert words.shown_line(text) == wanted.replace("\\x5c", "\\"), hex(start)
    assert kinds.count("s") > 130000 and kinds.count("m") > 2000, (kinds.count("s"), kinds.count("m"))
    check_random(words.shown, words.shown_front, words.octets_for)
    check_time(words.shown)
    # each surrogate may stand in a name or in a text of JSON
    assert words.shown_name("\udcff") == words.shown_line("\udcff") == "\\xff" and words.shown_line("\ud800") == "\\xed\\xa0\\x80"


def check_random(show: Callable[[bytes], str], front: Callable[..., object], octets_for: Callable[[int], int]) -> None:
    """Random texts: as the model has them, no two alike, and cut between two characters."""
    some = random.Random(5848)
    letters = ["a", " ", "\\", "日", "é", "ש", "\u0301", "\u20e0", "\u093e", "\u1161", "\ufe0f", "\u200f", "\u3000",
               "\U0001f600"]
    pieces = [*(it.encode() for it in letters), b"\xff", b"\xe6\x97", b"\xed\xa0\x80", b"\x1b", b"x41", b"\xc0\x80", b"\xf4\x90\x80\x80"]
    seen = {}
    for _ in range(3000):
        octets = b"".join(some.choices(pieces, k=some.randrange(12)))
        said = show(octets)
        assert said == shown(octets), (octets, said, shown(octets))
        assert restored(said) == octets == seen.setdefault(said, octets), (octets, said)
        most, room = some.randrange(12), some.choice((some.randrange(40), 10**9))
        text, taken = front(octets[:octets_for(most)], most, room)  # type: ignore
        assert text == shown(octets[:taken]) and said.startswith(text) and len(text) <= room, (octets, most, room, text, taken)
        rest = octets[taken:].decode("utf-8", "surrogateescape")
        whole = octets.decode("utf-8", "surrogateescape")
        count = len(whole) - len(rest)
        assert octets[:taken].decode("utf-8", "surrogateescape") + rest == whole and count <= most, (octets, most, taken)
        # as much as can be: the next character comes with its marks, and hasn't got room
        step = re.match("sm{0,4}|.", "".join(map(kind, rest)), re.DOTALL)
        if step is not None and count + step.end() <= most:
            more = octets[:taken] + rest[:step.end()].encode("utf-8", "surrogateescape")
            assert len(shown(more)) > room, (octets, most, room, text)


def check_time(show: Callable[[bytes], str]) -> None:
    """Eight times the text takes about eight times as long, and not 64 times."""
    for piece in (b"\xff", "é".encode(), "\u0301".encode(), "\u202e".encode(), b"\\"):
        taken = []
        for count in (2500, 20000):
            spent = []
            for _ in range(3):
                start = time.process_time()
                show(b"a" + piece * count)
                spent.append(time.process_time() - start)
            taken.append(min(spent))
        assert taken[1] < 24 * taken[0], (piece, taken)


def main(command: str, *words: str) -> None:
    """Does one of the commands."""
    if command == "check":
        check(*words)
    elif command == "show":
        os.write(1, shown(sys.stdin.buffer.read()).encode("utf-8"))
    else:
        raise AssertionError(command)


if __name__ == "__main__":
    main(*sys.argv[1:])
