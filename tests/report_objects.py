"""The objects that `--json` of `ssign` writes, read by Python's `json`, and the plain lines that they are.

`fault_of(plain, made)` says what is wrong with JSON that was made for a plain text.
"""
import itertools
import json

SESSION = ["host", "app", "procid", "rsid"]
GROUP = [*SESSION, "sg", "spri"]
# what a question is about: the payload, or with `--once` its index
ABOUT = ["payload", "payload_index"]
# the keys of each line of a report, in their order, as docs/dev/FORMATS.md has them
KEYS = {
    "session": [*SESSION, "state"],
    "ok": [*GROUP, "number", "place"],
    "gap": [*GROUP, "number", "why"],
    "hole": [*GROUP, "first", "last"],
    "early": [*GROUP, "first", "last"],
    "beyond": [*GROUP, "first", "last"],
    "tail": [*GROUP, "first", "last"],
    "blocks": [*SESSION, "first", "last"],
    "unlisted": ["place"],
    "refused": ["place"],
    "spoilt": ["place", "cause"],
    "damaged": ["place", "offset", "length"],
    "torn": ["offset"],
    "end": ["count"],
}
# those of the other lines; two kinds have one word
OTHER_KEYS = {
    "signature-block": [["place", "verified", *SESSION, "ver", "sg", "spri", "gbc", "first", "count"]],
    "certificate-block": [["place", "verified", *SESSION, "ver", "sg", "spri", "total", "index", "length"]],
    "sha1": [["place"]],
    "not-ignored": [["place", "why"]],
    "none-listed": [[]],
    "tally": [[*GROUP, "ok", "lost", "disputed", "holes", "first", "last"]],
    "disorder": [[*GROUP, "count", "number", "place"]],
    "empty": [[]],
    "unlisted-count": [["count"]],
    "refused-count": [["count"]],
    "spoilt-count": [["count"]],
    "damaged-count": [["count", "octets"]],
    "payload": [["payload_index", "payload"]],
    "trust?": [[about, *SESSION] for about in ABOUT],
    "yes?": [[about, "octets", "signature", "place", *SESSION, "ver", "sg", "spri", *rest] for about in ABOUT
            for rest in (["gbc", "first", "count"], ["total", "index", "length"])],
    "count": [[*SESSION, "gbc"], [*GROUP, "number"]],
    "plain": [["place"]],
    "unparsed": [["place", "part", "offset"]],
    "signature": [["place", *GROUP, "gbc", "first", "count"]],
    "certificate": [["place", *GROUP, "total", "index", "length"]],
}
# of a wrap, what its original is
OTHER_KEYS.update({f"wrapped-{word}": keys for word, keys in [*OTHER_KEYS.items(), ("spoilt", [KEYS["spoilt"]])]
                   if word in ("plain", "unparsed", "signature", "certificate", "spoilt")})
TEXTS = {"line", "host", "app", "procid", "state", "why", "cause", "part", "payload", "octets", "signature", "ver", "verified"}
# the octets of a stretch are counted, and those of a question are a text
NUMBERS = {("damaged-count", "octets")}
# how many of its values a plain question has, the word among them
PLAIN = {"trust?": 2, "yes?": 4}

# the words of the lines that were read
words_seen = set()


def no_such_number(text):
    """Refuses what RFC 8259 has no word for, and numbers that aren't whole."""
    raise ValueError(f"{text} is no number of a line")


def plain_of(line):
    """The plain line that this object is, and what is wrong with it."""
    if not line.isascii() or any(octet < 32 for octet in line):
        return b"", "an octet that isn't printable ASCII"
    pairs = json.loads(line, object_pairs_hook=list, parse_float=no_such_number, parse_constant=no_such_number)
    word = pairs[0][1]
    words_seen.add(word)
    if [key for key, _ in pairs] not in [["line", *keys] for keys in OTHER_KEYS.get(word) or [KEYS[word]]]:
        return b"", f"the keys {[key for key, _ in pairs]}"
    for key, value in pairs:
        if type(value) is not (str if key in TEXTS and (word, key) not in NUMBERS else int):
            return b"", f"{key} is {value!r}"
    if json.dumps(dict(pairs), separators=(",", ":")).encode() != line:
        return b"", "an escape or a space that isn't needed"
    return " ".join(str(value) for _, value in pairs[:PLAIN.get(word)]).encode(), ""


def fault_of(plain, made):
    """What is wrong with JSON that was made for a plain text."""
    if not made.endswith(b"\n") and made:
        return "the last line has no LF"
    lines = made.splitlines()
    for line, wanted in itertools.zip_longest(lines, plain.splitlines()):
        if line is None or wanted is None:
            return f"{len(lines)} lines, and not {len(plain.splitlines())}"
        try:
            said, fault = plain_of(line)
        except (ValueError, KeyError, IndexError, TypeError) as found:
            said, fault = b"", repr(found)
        if fault or said != wanted:
            return f"{line!r} for {wanted!r}: {fault}"
    return ""
