"""How texts of a log and names of files are shown to a person, so that neither sends a terminal a command or hides something."""
from __future__ import annotations

import os
import re
import sys
import unicodedata
from typing import Callable, Iterator, Tuple

_SPELLED = {octet: chr(octet) if 32 <= octet < 127 and octet != 92 else f"\\x{octet:02x}" for octet in range(256)}
_PLAIN = re.compile(r"[ -\[\]-~]*")
# what Unicode's categories call a letter, a mark or a symbol, and can't be seen: most of Default_Ignorable_Code_Point, fillers,
# blanks of Braille and of hieroglyphs, a note without a head, and what stands in place of an object
UNSEEN = frozenset(map(chr, (0x34f, 0x115f, 0x1160, 0x17b4, 0x17b5, *range(0x180b, 0x1810), 0x2800, 0x3164,
                             *range(0xfe00, 0xfe10), 0xffa0, 0xfffc, 0x13441, 0x13442, 0x16fe4, 0x1d159,
                             *range(0xe0100, 0xe01f0))))
# vowels and last consonants of Hangul that are drawn into the letter before them, as a mark is
_DRAWN_ON = frozenset(map(chr, (*range(0x1160, 0x1200), *range(0xd7b0, 0xd7fc))))
# a letter has so many marks at most (UTS #39, section 5.4)
MOST_MARKS = 4
# so many octets a character of UTF-8 has at most
LONGEST_CHARACTER = 4
# of a text without a limit
ROOM = sys.maxsize


def is_seen(letter: str) -> bool:
    """Whether a character can be seen where it is printed, and doesn't turn the direction of writing.

    These are none: controls, format characters, surrogates, and what is private or unassigned (all categories C), and what
    separates (all categories Z), but for the space.
    """
    return letter == " " or unicodedata.category(letter)[0] not in "CZ" and letter not in UNSEEN


def is_mark(letter: str) -> bool:
    """Whether a character is drawn onto the one before it."""
    return letter > "\u02ff" and (unicodedata.category(letter)[0] == "M" or letter in _DRAWN_ON)


def spelled(octets: bytes) -> str:
    """Octets as printable ASCII: each other octet, and the backslash, as `\\xNN`, so that two texts never look alike."""
    return "".join(map(_SPELLED.__getitem__, octets))


def _octets(text: str) -> bytes:
    """The octets of which this was decoded."""
    return text.encode("utf-8", "surrogateescape")


def _passed(text: str) -> bytes:
    """The octets of a text that wasn't decoded of octets, in which any surrogate may stand."""
    return text.encode("utf-8", "surrogatepass")


def _pieces(text: str, octets_of: Callable[[str], bytes], kept: str = "") -> Iterator[Tuple[str, int]]:
    """What is shown of each character, and how many characters that are: a letter comes with its marks.

    What can't be seen is spelled, also a backslash that isn't to be kept, a mark after no letter, and one too many.
    """
    piece, room = "", 0
    for letter in text:
        is_one = is_mark(letter)
        is_shown = is_seen(letter) and (letter != "\\" or letter in kept)
        if is_one and is_shown and room:
            piece, room = piece + letter, room - 1
            continue
        if piece:
            yield piece, len(piece)
        piece, room = "", 0
        if is_shown and not is_one:
            piece, room = letter, MOST_MARKS
        else:
            yield spelled(octets_of(letter)), 1
    if piece:
        yield piece, len(piece)


def _front(text: str, octets_of: Callable[[str], bytes], most: int, room: int) -> Tuple[str, int]:
    """What is shown of the first characters, and how many these are: so many at most, which are shown in so much room."""
    said, taken = [], 0
    for piece, count in _pieces(text[:most + MOST_MARKS + 1], octets_of):
        if taken + count > most or len(piece) > room:
            break
        said.append(piece)
        taken += count
        room -= len(piece)
    return "".join(said), taken


def _all_of(text: str, octets_of: Callable[[str], bytes], kept: str = "") -> str:
    """What is shown of a text."""
    return text if _PLAIN.fullmatch(text) else "".join(it for it, _ in _pieces(text, octets_of, kept))


def shown(octets: bytes) -> str:
    """Octets as a person reads them: letters of every language stay. What can't be seen, what isn't UTF-8, and each backslash
    become `\\xNN`, octet by octet."""
    return _all_of(octets.decode("utf-8", "surrogateescape"), _octets)


def octets_for(most: int) -> int:
    """How many octets have so many first characters, and the marks of the last one."""
    return LONGEST_CHARACTER * (most + MOST_MARKS + 1)


def shown_front(octets: bytes, most: int, room: int = ROOM) -> Tuple[str, int]:
    """The first characters of octets as `shown` has them, and how many octets these are.

    They are so many at most, and what is shown has so many characters at most. An octet that isn't UTF-8 is one character. No
    character is cut in two, and no letter from its marks, where the octets are all or as many as `octets_for` says.
    """
    text = octets.decode("utf-8", "surrogateescape")
    said, taken = _front(text, _octets, most, room)
    return said, len(_octets(text[:taken]))


def shown_name(name: str, room: int = ROOM) -> str:
    """The name of a file, in the same way, or as much of it as is shown in this room."""
    return _all_of(name, os.fsencode) if room == ROOM else _front(name, os.fsencode, room, room)[0]


def shown_text(text: str, room: int = ROOM) -> str:
    """A text of a certificate or of another program, in the same way, or as much of it as is shown in this room."""
    return _all_of(text, _passed) if room == ROOM else _front(text, _passed, room, room)[0]


def shown_line(text: str) -> str:
    """A sentence in which names may stand that weren't shown before: the same, but each backslash stays."""
    return _all_of(text, lambda it: _octets(it) if "\udc80" <= it <= "\udcff" else _passed(it), kept="\\")


def counted(count: int, one: str, many: str = "") -> str:
    """A number with its noun: `1 message`, `2 messages`."""
    return f"{count} {one}" if count == 1 else f"{count} {many or one + 's'}"


def grouped(count: int, one: str, many: str = "") -> str:
    """A number with its noun, and with commas where it is long: `1 message`, `1,003 messages`."""
    return f"{count} {one}" if count == 1 else f"{count:,} {many or one + 's'}"
