#!/usr/bin/env python3
"""A second reading of block messages, written from the tables in docs/ and with nothing of the program in it.

    kinds.py make SEED COUNT   writes a log of COUNT frames: messages in the grammar, and ones with a few octets changed
    kinds.py tell              reads a log of frames, and writes what `ssign inspect` should

Messages and their elements are read by rfc5424.py. Regular expressions and Python's own base64 and UTF-8 do the work
here, a scan over spans in the program; where the two differ, one of them is wrong.
"""
import base64
import binascii
import random
import re
import sys

from rfc5424 import NoMessage, read, unescaped

SIGNATURE = [b"VER", b"RSID", b"SG", b"SPRI", b"GBC", b"FMN", b"CNT", b"HB", b"SIGN"]
CERTIFICATE = [b"VER", b"RSID", b"SG", b"SPRI", b"TPBL", b"INDEX", b"FLEN", b"FRAG", b"SIGN"]
TEN = 9_999_999_999


class Fault(Exception):
    """The block is spoilt; the text is its cause."""


def strict(text):
    """The octets that a text spells in strict base64, or none."""
    try:
        octets = base64.b64decode(text, validate=True)
    except binascii.Error:
        return None
    return octets if octets and base64.b64encode(octets) == text else None


def number(text, least, most):
    if not re.fullmatch(rb"0|[1-9][0-9]*", text) or not least <= int(text) <= most:
        raise Fault("S4")
    return int(text)


def block(kind, names, parameters):
    if [it.name for it in parameters] != names:
        raise Fault("S2")
    values = [it.value for it in parameters]
    size = {b"0111": 20, b"0121": 32}.get(values[0])
    if size is None:
        raise Fault("S3")
    tops = [(0, TEN), (0, 3), (0, 191)]
    tops += [(0, TEN), (1, TEN), (1, 99)] if kind == "signature" else [(1, 99_999_999), (1, 99_999_999), (1, 9999)]
    rsid, *numbers = [number(text, *top) for text, top in zip(values[1:7], tops)]
    if kind == "signature":
        pieces = values[7].split(b" ")
        if len(pieces) != numbers[-1]:
            raise Fault("S5")
        if any(len(strict(it) or b"") != size for it in pieces):
            raise Fault("S6")
    if strict(values[8]) is None:
        raise Fault("S7")
    if kind == "certificate" and (numbers[3] + numbers[4] - 1 > numbers[2] or len(values[7]) != numbers[4]):
        raise Fault("S8")
    if kind == "signature" and numbers[3] + numbers[4] - 1 > TEN:
        raise Fault("S9")
    return rsid, numbers


def tell(message, place):
    try:
        _, fields, elements = read(message)
    except NoMessage as fault:
        return b"unparsed %d M%d %d" % (place, *fault.args)
    kinds = [(kind, names, elements[sd_id]) for kind, names, sd_id in
             (("signature", SIGNATURE, b"ssign"), ("certificate", CERTIFICATE, b"ssign-cert")) if sd_id in elements]
    if not kinds:
        return b"plain %d" % place
    try:
        if len(kinds) == 2:
            raise Fault("S1")
        rsid, numbers = block(*kinds[0])
    except Fault as fault:
        return b"spoilt %d %s" % (place, fault.args[0].encode())
    words = [kinds[0][0].encode(), b"%d" % place, *fields[:3], b"%d" % rsid, *(b"%d" % it for it in numbers)]
    return b" ".join(words)


# ---- texts to tell

FIELD = [b"-", b"h", b"host.example.org", b"x" * 255, b"x" * 256, b"--", b'"]\\']
STAMPS = [b"-", b"2009-05-03T14:00:39Z", b"2024-02-29T23:59:59.123456+05:30", b"2023-02-29T00:00:00Z", b"1900-02-29T00:00:00Z",
          b"2000-02-29T00:00:00-00:00", b"2009-05-03T24:00:00Z", b"2009-05-03T14:00:60Z", b"2009-05-03t14:00:39Z", b"2009-05-03T14:00:39.Z"]
HASHES = {b"0111": b"qZk+NkcGgWq6PiVxeFDCbJzQ2J0=", b"0121": b"ungWv48Bz+pBQUDeXa4iI7ADYaOWF3qctBD/YfIAFa0="}
NUMBERS = [b"0", b"1", b"2", b"3", b"4", b"99", b"100", b"191", b"192", b"9999", b"10000", b"99999999", b"100000000", b"9999999998",
           b"9999999999", b"10000000000", b"01", b"", b"+1", b" 1", b"1 ", b"-1", b"x", b"18446744073709551617", b"\\]"]
SIGNS = [b"AAAA", b"AAA=", b"AA==", b"AAB=", b"AB==", b"AAA", b"", b"AAAA ", b"AA=A", b"A===", b"AAAA====", b"_-==", b"\\\\"]
FRAGMENTS = [b"x", b"2009-05-03T14:00:39Z K S0VZ", b'\\"', b"\\\\", b"\\]", b"\\x", b"", b"\xc3\xa9", b"\xc3", b"a b", b"=", b"\\\\\\x"]
MARKS = b'<>[]"\\= -1\x00\xef\xbb\xbf\xffZ\n'


def usual(chance, value, others):
    return value if chance.random() < 0.93 else chance.choice(others)


def element(chance):
    pick = chance.random()
    if pick < 0.4:
        ver = usual(chance, chance.choice([b"0111", b"0121"]), [b"0211", b"", b"111", b"0112"])
        count = chance.randint(1, 4)
        parts = [usual(chance, HASHES.get(ver, b"AAAA"), [b"AAAA", b"", HASHES[b"0111"], HASHES[b"0121"], b"qZk+NkcGgWq6PiVxeFDCbJzQ2J0"]) for _ in range(count)]
        values = [ver, *(usual(chance, b"1", NUMBERS) for _ in range(3)), usual(chance, b"0", NUMBERS), usual(chance, b"1", NUMBERS),
                  usual(chance, b"%d" % count, NUMBERS), chance.choice([b" "] * 30 + [b"  ", b","]).join(parts), usual(chance, b"AAAA", SIGNS)]
        names, sd_id = SIGNATURE, b"ssign"
    elif pick < 0.8:
        fragment = chance.choice(FRAGMENTS)
        size = len(unescaped(fragment))
        values = [usual(chance, b"0111", [b"0121", b"0112", b"0211"]), *(usual(chance, b"1", NUMBERS) for _ in range(3)), usual(chance, b"27", NUMBERS),
                  usual(chance, b"1", NUMBERS + [b"27", b"28"]), usual(chance, b"%d" % size, NUMBERS), fragment, usual(chance, b"AAAA", SIGNS)]
        names, sd_id = CERTIFICATE, b"ssign-cert"
    else:
        values = [chance.choice(FRAGMENTS + SIGNS) for _ in range(chance.randint(0, 3))]
        names, sd_id = [b"SIGN", b"a", b"VER"], chance.choice([b"x@1", b"y@1", b"SSIGN", b"ssign-", b"a" * 32, b"a" * 33])
    pairs = list(zip(names, values))
    if chance.random() < 0.05 and len(pairs) > 1:
        i, j = chance.randrange(len(pairs)), chance.randrange(len(pairs))
        change = chance.randint(0, 3)
        if change == 0:
            pairs[i], pairs[j] = pairs[j], pairs[i]
        elif change == 1:
            del pairs[i]
        elif change == 2:
            pairs.insert(j, pairs[i])
        else:
            pairs[i] = (pairs[i][0].lower(), pairs[i][1])
    return b"[" + sd_id + b"".join(b' %s="%s"' % it for it in pairs) + b"]"


def message(chance):
    pri = usual(chance, b"%d" % chance.randint(0, 191), [b"192", b"00", b"007", b"", b"1000", b"-1"])
    head = b"<%s>%s " % (pri, usual(chance, b"1", [b"2", b"", b"11"])) + usual(chance, b"-", STAMPS)
    head += b"".join(b" " + (usual(chance, chance.choice([b"-", b"h"]), FIELD)) for _ in range(4))
    text = head + b" " + (usual(chance, b"".join(element(chance) for _ in range(chance.choice([1] * 8 + [2, 3]))), [b"-", b"", b"--"]))
    text += chance.choice([b"", b"", b"", b" ", b" a MSG", b" \xef\xbb\xbf\xc3\xa9", b" \xef\xbb\xbf\xc3", b"x"] if chance.random() < 0.3 else [b""])
    for _ in range(chance.choice([0] * 6 + [1, 1, 2])):
        i = chance.randrange(len(text) + 1)
        new = bytes([chance.choice(MARKS) if chance.random() < 0.7 else chance.randrange(256)])
        text = text[:i] + chance.choice([b"", new, new + text[i:i + 1]]) + text[i + 1:]
    return text or b"x"


def main():
    out = sys.stdout.buffer
    if sys.argv[1] == "make":
        chance = random.Random(int(sys.argv[2]))
        for _ in range(int(sys.argv[3])):
            text = message(chance)
            out.write(b"%d %s" % (len(text), text))
        return
    log, place = sys.stdin.buffer.read(), 0
    while log:
        size, _, log = log.partition(b" ")
        out.write(tell(log[:int(size)], place) + b"\n")
        log, place = log[int(size):], place + 1
    out.write(b"end %d\n" % place)


main()
