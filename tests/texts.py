"""Texts by hand, and what `ssign inspect` finds in each: messages (RFC 5424, section 6) and blocks (RFC 5848, sections 4.2 and
5.3.2) at both ends of each range, and beside it. kinds.py is a second reading, over generated logs.

    texts.py SSIGN

The last line is `texts: N passed, M failed`.
"""
import itertools
import subprocess
import sys

# messages of RFC 5424
MESSAGES = (
    b'<0>1 - - - - - -', b'<9>1 - - - - - -', b'<10>1 - - - - - -', b'<99>1 - - - - - -', b'<100>1 - - - - - -',
    b'<191>1 - - - - - -', b'<13>1 2024-02-29T00:00:00Z - - - - -', b'<13>1 2023-12-31T23:59:59.999999+23:59 - - - - -',
    b'<13>1 - ! - - - -', b'<13>1 - ~ - - - -', b'<13>1 - -- - - - -', b'<13>1 - [ ] " = -', b'<13>1 - - - - - - ',
    b'<13>1 - - - - - -  ', b'<13>1 - - - - - - x', b'<13>1 - - - - - - \xff', b'<13>1 - - - - - - \xef\xbb',
    b'<13>1 - - - - - - \xef\xbb\xbf', b'<13>1 - - - - - - \xef\xbb\xbf\xc3\xa9', b'<13>1 - - - - - - x\xef\xbb\xbf\xff',
    b'<13>1 - - - - - [a]', b'<13>1 - - - - - [a] ', b'<13>1 - - - - - [a] - x', b'<13>1 - - - - - [a][b]',
    b'<13>1 - - - - - [a][A]', b'<13>1 - - - - - [a][aa][aaa]', b'<13>1 - - - - - [a b=""]',
    b'<13>1 - - - - - [a b="c" b="c"]', b'<13>1 - - - - - [a a="a"]', b'<13>1 - - - - - [! ~=""]',
    b'<13>1 - - - - - [a[ b[="["]', b'<13>1 - - - - - [a b="\\""]', b'<13>1 - - - - - [a b="\\]"]',
    b'<13>1 - - - - - [a b="\\\\"]', b'<13>1 - - - - - [a b="\\\\\\""]', b'<13>1 - - - - - [a b="\\x"]',
    b'<13>1 - - - - - [a b="x=y [z"]', b'<13>1 - - - - - [a b="\xc3\xa9"]', b'<13>1 - - - - - [a b="\xf4\x8f\xbf\xbf"]',
    b'<13>1 - - - - - [a b="\x00\n"]',
)

# texts that are none: the part that is out of form, the octet there, and the texts (docs/messages.md)
REFUSED = (
    (1, 0, (
        b'', b'<', b'<>1 - - - - - -', b'13>1 - - - - - -', b' <13>1 - - - - - -', b'<13', b'<192>1 - - - - - -',
        b'<200>1 - - - - - -', b'<999>1 - - - - - -', b'<1000>1 - - - - - -', b'<00>1 - - - - - -', b'<013>1 - - - - - -',
        b'<1x>1 - - - - - -', b'<-1>1 - - - - - -',
    )),
    (2, 4, (
        b'<13>', b'<13>1', b'<13>2 - - - - - -', b'<13>0 - - - - - -', b'<13>11 - - - - - -', b'<13> 1 - - - - - -',
    )),
    (2, 3, (
        b'<0>2 - - - - - -',
    )),
    (2, 5, (
        b'<191>2 - - - - - -',
    )),
    (3, 6, (
        b'<13>1 ', b'<13>1 -', b'<13>1  - - - - - -', b'<13>1 -- - - - - -', b'<13>1 2023-02-29T00:00:00Z - - - - -',
        b'<13>1 2024-02-29T00:00:00Z',
    )),
    (3, 5, (
        b'<0>1 x - - - - -',
    )),
    (4, 8, (
        b'<13>1 - ', b'<13>1 - h', b'<13>1 -  - - - -', b'<13>1 - \x7f - - - -', b'<13>1 - \x1f - - - -',
        b'<13>1 - h\xc3\xa9 - - - -',
    )),
    (4, 27, (
        b'<13>1 2024-02-29T00:00:00Z \t - - - -',
    )),
    (5, 10, (
        b'<13>1 - - ', b'<13>1 - - a', b'<13>1 - -  - - -', b'<13>1 - - \x80 - - -',
    )),
    (5, 13, (
        b'<13>1 - host a\x7f - - -',
    )),
    (6, 12, (
        b'<13>1 - - - ', b'<13>1 - - - p', b'<13>1 - - -  - -', b'<13>1 - - - \n - -',
    )),
    (7, 14, (
        b'<13>1 - - - - ', b'<13>1 - - - - -', b'<13>1 - - - -  -', b'<13>1 - - - - \x00 -',
    )),
    (8, 16, (
        b'<13>1 - - - - - ', b'<13>1 - - - - - x', b'<13>1 - - - - - ]', b'<13>1 - - - - -  [a]',
    )),
    (8, 17, (
        b'<13>1 - - - - - -x', b'<13>1 - - - - - -[a]', b'<13>1 - - - - - --',
    )),
    (8, 18, (
        b'<13>1 - - - - - [a', b'<13>1 - - - - - [a=', b'<13>1 - - - - - [a"', b'<13>1 - - - - - [a\x7f]',
    )),
    (8, 19, (
        b'<13>1 - - - - - [a]x', b'<13>1 - - - - - [a]]', b'<13>1 - - - - - [a]-',
    )),
    (8, 20, (
        b'<13>1 - - - - - [a b', b'<13>1 - - - - - [a b]', b'<13>1 - - - - - [a b =""]',
    )),
    (8, 21, (
        b'<13>1 - - - - - [a b=', b'<13>1 - - - - - [a b=c]',
    )),
    (8, 22, (
        b'<13>1 - - - - - [a b="', b'<13>1 - - - - - [a b="]"]',
    )),
    (8, 24, (
        b'<13>1 - - - - - [a b="\\\\]"]', b'<13>1 - - - - - [a b="\\"',
    )),
    (8, 23, (
        b'<13>1 - - - - - [a b="\xc3', b'<13>1 - - - - - [a b="\xc3]"]', b'<13>1 - - - - - [a b=""',
        b'<13>1 - - - - - [a b=""c=""]', b'<13>1 - - - - - [a b="\\',
    )),
    (9, 17, (
        b'<13>1 - - - - - [', b'<13>1 - - - - - []', b'<13>1 - - - - - [=', b'<13>1 - - - - - [ a]',
    )),
    (9, 19, (
        b'<13>1 - - - - - [a ', b'<13>1 - - - - - [a ]', b'<13>1 - - - - - [a  b=""]',
    )),
    (9, 24, (
        b'<13>1 - - - - - [a b="" =]',
    )),
    (9, 20, (
        b'<13>1 - - - - - [a][',
    )),
    (10, 22, (
        b'<13>1 - - - - - [a b="\xc3"]', b'<13>1 - - - - - [a b="\xed\xa0\x80" =]',
    )),
    (11, 20, (
        b'<13>1 - - - - - [a][a]',
    )),
    (11, 23, (
        b'<13>1 - - - - - [a][b][a',
    )),
    (11, 51, (
        b'<13>1 - - - - - [aaaaaaaaaaaaaaaaaaaaaaaaaaaaaaaa][aaaaaaaaaaaaaaaaaaaaaaaaaaaaaaaa]',
    )),
    (9, 51, (
        b'<13>1 - - - - - [aaaaaaaaaaaaaaaaaaaaaaaaaaaaaaaa][aaaaaaaaaaaaaaaaaaaaaaaaaaaaaaaaa]',
    )),
    (12, 18, (
        b'<13>1 - - - - - - \xef\xbb\xbf\xff',
    )),
    (12, 20, (
        b'<13>1 - - - - - [a] \xef\xbb\xbf\xff',
    )),
)

# what stands before a run of octets and after it, the most that the run may have, and the part and octet of a longer one
LIMITS = (
    (b"<13>1 - ", b" - - - -", 255, 4, 8),
    (b"<13>1 - - ", b" - - -", 48, 5, 10),
    (b"<13>1 - - - ", b" - -", 128, 6, 12),
    (b"<13>1 - - - - ", b" -", 32, 7, 14),
    (b"<13>1 - - - - - [", b"]", 32, 9, 17),
    (b"<13>1 - - - - - [a ", b'=""]', 32, 9, 19),
)

# TIMESTAMPs (section 6.2.3), and texts that are none
STAMPS = (
    b'2023-01-31T00:00:00Z', b'2023-02-28T00:00:00Z', b'2023-03-31T00:00:00Z', b'2023-04-30T00:00:00Z',
    b'2023-05-31T00:00:00Z', b'2023-06-30T00:00:00Z', b'2023-07-31T00:00:00Z', b'2023-08-31T00:00:00Z',
    b'2023-09-30T00:00:00Z', b'2023-10-31T00:00:00Z', b'2023-11-30T00:00:00Z', b'2023-12-31T00:00:00Z',
    b'0000-02-29T00:00:00Z', b'0000-01-01T00:00:00Z', b'2000-02-29T00:00:00Z', b'2024-02-29T00:00:00Z',
    b'9999-12-31T23:59:59Z', b'1985-04-12T23:20:50.52Z', b'1985-04-12T19:20:50.52-04:00', b'2003-10-11T22:14:15.003Z',
    b'2003-08-24T05:14:15.000003-07:00', b'2009-05-03T14:00:39.0Z', b'2009-05-03T14:00:39.999999Z',
    b'2009-05-03T14:00:39+00:00', b'2009-05-03T14:00:39-00:00', b'2009-05-03T14:00:39+23:59',
)
NO_STAMPS = (
    b'2023-01-32T00:00:00Z', b'2023-02-29T00:00:00Z', b'2023-02-30T00:00:00Z', b'2024-02-30T00:00:00Z',
    b'1900-02-29T00:00:00Z', b'2100-02-29T00:00:00Z', b'2023-04-31T00:00:00Z', b'2023-06-31T00:00:00Z',
    b'2023-09-31T00:00:00Z', b'2023-11-31T00:00:00Z', b'2023-12-32T00:00:00Z', b'2023-00-01T00:00:00Z',
    b'2023-13-01T00:00:00Z', b'2023-01-00T00:00:00Z', b'2023-01-01T24:00:00Z', b'2023-01-01T23:60:00Z',
    b'2023-01-01T23:59:60Z', b'2023-01-01t00:00:00Z', b'2023-01-01T00:00:00z', b'2023-01-01 00:00:00Z',
    b'2023-01-01T00:00:00', b'2023-01-01T00:00:00.Z', b'2023-01-01T00:00:00,5Z', b'2023-01-01T00:00:00.1234567Z',
    b'2023-01-01T00:00:00.5', b'2023-01-01T00:00:00+24:00', b'2023-01-01T00:00:00-24:00', b'2023-01-01T00:00:00+00:60',
    b'2023-01-01T00:00:00+0000', b'2023-01-01T00:00:00+00', b'2023-01-01T00:00:00ZZ', 
    b' 2023-01-01T00:00:00Z', b'23-01-01T00:00:00Z', b'02023-01-01T00:00:00Z', b'2023-1-01T00:00:00Z', b'2023-01-01T0:00:00Z',
    b'+023-01-01T00:00:00Z',
)

# a parameter, the cause that makes a block with each of these values spoilt (docs/dev/FORMATS.md), or None, and the values
SIGNATURE_VALUES = (
    ("VER", None, (
        b'0111',
    )),
    ("VER", 3, (
        b'0211', b'0112', b'0131', b'011', b'01111', b'0111 ', b'', b'\\0111',
    )),
    ("VER", 6, (
        b'0121',
    )),
    ("RSID", None, (
        b'0', b'10', b'9999999999',
    )),
    ("RSID", 4, (
        b'10000000000', b'18446744073709551617', b'100000000000000000000000000000001', b'', b'00', b'01', b'-1', b'+1', b' 1',
        b'1 ', b'1.0', b'0x1', b'1\\]', b'\xd9\xa1',
    )),
    ("SG", None, (
        b'1', b'2', b'3',
    )),
    ("SG", 4, (
        b'4', b'256', b'00', b'',
    )),
    ("SPRI", None, (
        b'191',
    )),
    ("SPRI", 4, (
        b'192', b'256', b'00', b'-0',
    )),
    ("GBC", None, (
        b'9999999999',
    )),
    ("GBC", 4, (
        b'10000000000', b'00', b'a',
    )),
    ("FMN", None, (
        b'9999999998',
    )),
    ("FMN", 9, (
        b'9999999999',
    )),
    ("FMN", 4, (
        b'10000000000', b'0', b'01',
    )),
    ("CNT", 5, (
        b'1', b'3', b'99',
    )),
    ("CNT", 4, (
        b'100', b'258', b'0', b'02',
    )),
    ("HB", 5, (
        b'', b'qZk+NkcGgWq6PiVxeFDCbJzQ2J0=', b'qZk+NkcGgWq6PiVxeFDCbJzQ2J0=  hJg+RBw70m66rkqh+VEp5eVGcPE=',
        b'qZk+NkcGgWq6PiVxeFDCbJzQ2J0= hJg+RBw70m66rkqh+VEp5eVGcPE= ',
        b'qZk+NkcGgWq6PiVxeFDCbJzQ2J0=\thJg+RBw70m66rkqh+VEp5eVGcPE=',
    )),
    ("HB", 6, (
        b' ', b' qZk+NkcGgWq6PiVxeFDCbJzQ2J0=', b'qZk+NkcGgWq6PiVxeFDCbJzQ2J0= ',
    )),
    ("HB", None, (
        b'qZk+NkcGgWq6PiVxeFDCbJzQ2J0= qZk+NkcGgWq6PiVxeFDCbJzQ2J0=',
    )),
    ("HB", 6, (
        b'qZk+NkcGgWq6PiVxeFDCbJzQ2J0 hJg+RBw70m66rkqh+VEp5eVGcPE=',
        b'qZk+NkcGgWq6PiVxeFDCbJzQ2J0= hJg+RBw70m66rkqh+VEp5eVGcPE',
    )),
    ("HB", 6, (
        b'qZk+NkcGgWq6PiVxeFDCbJzQ2J1= hJg+RBw70m66rkqh+VEp5eVGcPE=',
    )),
    ("HB", 6, (
        b'qZk+NkcGgWq6Pi\nVxeFDCbJzQ2J0= hJg+RBw70m66rkqh+VEp5eVGcPE=',
        b'qZk-NkcGgWq6PiVxeFDCbJzQ2J0= hJg+RBw70m66rkqh+VEp5eVGcPE=',
    )),
    ("HB", 6, (
        b'qZk+NkcGgWq6PiVxeFDCbJzQ2A== hJg+RBw70m66rkqh+VEp5eVGcPE=',
        b'qZk+NkcGgWq6PiVxeFDCbJzQ2J0A hJg+RBw70m66rkqh+VEp5eVGcPE=',
        b'ungWv48Bz+pBQUDeXa4iI7ADYaOWF3qctBD/YfIAFa0= hJg+RBw70m66rkqh+VEp5eVGcPE=',
    )),
    ("SIGN", None, (
        b'+/+/', b'AAA=', b'AA==', b'AAAAAAA=',
    )),
    ("SIGN", 7, (
        b'', b'A', b'AA', b'AAA', b'AA=', b'A===', b'====', b'AAAA=', b'AAB=', b'AB==', b'AA==AA==', b' AAAA', b'AA AA',
        b'AAAA\n', b'-_-_', b'AA\\]A',
    )),
)

CERTIFICATE_VALUES = (
    ("VER", None, (
        b'0111', b'0121',
    )),
    ("VER", 3, (
        b'0211', b'',
    )),
    ("RSID", None, (
        b'0', b'9999999999',
    )),
    ("RSID", 4, (
        b'10000000000', b'01', b'',
    )),
    ("SG", None, (
        b'3',
    )),
    ("SG", 4, (
        b'4', b'00',
    )),
    ("SPRI", None, (
        b'191',
    )),
    ("SPRI", 4, (
        b'192', b'00',
    )),
    ("TPBL", 8, (
        b'26', b'1',
    )),
    ("TPBL", None, (
        b'28', b'99999999',
    )),
    ("TPBL", 4, (
        b'100000000', b'4294967323', b'0', b'027', b'',
    )),
    ("INDEX", 8, (
        b'2', b'99999999',
    )),
    ("INDEX", 4, (
        b'100000000', b'4294967297', b'0', b'01', b'',
    )),
    ("FLEN", 8, (
        b'26', b'28', b'1', b'9999',
    )),
    ("FLEN", 4, (
        b'10000', b'4294967323', b'0', b'027', b'',
    )),
    ("FRAG", 8, (
        b'', b'2009-05-03T14:00:39Z K S0V', b'2009-05-03T14:00:39Z K S0VZ ',
    )),
    ("FRAG", None, (
        b'anything that is 27 octets.',
    )),
    ("FRAG", None, (
        b'2009-05-03T14:00:39Z \\" S0VZ', b'2009-05-03T14:00:39Z \\\\ S0VZ', b'2009-05-03T14:00:39Z \\] S0VZ',
    )),
    ("FRAG", 8, (
        b'2009-05-03T14:00:39Z \\x S0VZ',
    )),
    ("FRAG", None, (
        b'2009-05-03T14:00:39Z \\x S0V',
    )),
    ("FRAG", 8, (
        b'2009-05-03T14:00:39Z \\"S0VZ',
    )),
    ("SIGN", None, (
        b'AA==',
    )),
    ("SIGN", 7, (
        b'', b'AAA', b'AAB=', b'AB==', b'AA AA', b'AAAA\n', b'-_-_',
    )),
)

HEAD = b"<110>1 - h s - - "
HASHES = b"qZk+NkcGgWq6PiVxeFDCbJzQ2J0= hJg+RBw70m66rkqh+VEp5eVGcPE="
SHA256 = b"ungWv48Bz+pBQUDeXa4iI7ADYaOWF3qctBD/YfIAFa0="
SIGNATURE = {"VER": b"0111", "RSID": b"1", "SG": b"0", "SPRI": b"0", "GBC": b"0", "FMN": b"1", "CNT": b"2", "HB": HASHES,
             "SIGN": b"AAAA"}
CERTIFICATE = {"VER": b"0111", "RSID": b"1", "SG": b"0", "SPRI": b"0", "TPBL": b"27", "INDEX": b"1", "FLEN": b"27",
               "FRAG": b"2009-05-03T14:00:39Z K S0VZ", "SIGN": b"AAAA"}
# an edit for each cause, by its number; None takes the parameter away
SIGNATURE_CAUSES = {2: ("SG", None), 3: ("VER", b"0211"), 4: ("RSID", b"01"), 5: ("CNT", b"3"),
                    6: ("HB", HASHES.replace(b"= ", b" ")), 7: ("SIGN", b""), 9: ("FMN", b"9999999999")}
CERTIFICATE_CAUSES = {2: ("SG", None), 3: ("VER", b"0211"), 4: ("RSID", b"01"), 7: ("SIGN", b""), 8: ("FRAG", b"x")}
# a fragment as it is written, of which each stands for three octets
ESCAPED = (b'a\\"b', b"a\\\\b", b"a\\]b", b"\\xb", b'\\\\\\"\\]', b"\xc3\xa9[")


def element(name, parameters):
    """An element, of pairs."""
    return b"[" + name + b"".join(b' %s="%s"' % (it.encode(), value) for it, value in parameters if value is not None) + b"]"


def block(parameters, edits=()):
    """The message of a block, some of whose parameters have other values."""
    name = b"ssign" if "HB" in parameters else b"ssign-cert"
    return HEAD + element(name, {**parameters, **dict(edits)}.items())


def line_of(parameters, edits=()):
    """What is found in it where nothing is wrong: the session, the group and three numbers."""
    name = "signature" if "HB" in parameters else "certificate"
    values = {**parameters, **dict(edits)}
    counts = ("GBC", "FMN", "CNT") if "HB" in parameters else ("TPBL", "INDEX", "FLEN")
    return " ".join([f"{name} h s -", *(values[it].decode() for it in ("RSID", "SG", "SPRI", *counts))])


def messages():
    """Messages, and texts that are none."""
    yield from ((it, "plain") for it in MESSAGES)
    for part, octet, texts in REFUSED:
        yield from ((it, f"unparsed M{part} {octet}") for it in texts if it)
    for before, after, most, part, octet in LIMITS:
        yield before + b"n" * most + after, "plain"
        yield before + b"n" * (most + 1) + after, f"unparsed M{part} {octet}"
    yield from ((b"<13>1 %s - - - - -" % it, "plain") for it in STAMPS)
    yield from ((b"<13>1 %s - - - - -" % it, "unparsed M3 6") for it in NO_STAMPS)


def values_of(parameters, rows):
    """Each form in which a parameter may stand, or may not."""
    for name, cause, values in rows:
        for edit in ((name, it) for it in values):
            yield block(parameters, [edit]), line_of(parameters, [edit]) if cause is None else f"spoilt S{cause}"


def causes_of(parameters, causes):
    """Each cause beside each other: the smaller number is the one that is found."""
    for (one, edit), (other, second) in itertools.product(causes.items(), repeat=2):
        yield block(parameters, [edit, second]), f"spoilt S{min(one, other)}"


def names_of(parameters):
    """Parameters that are left out, stand twice or later than they should, and have other names."""
    name, pairs = b"ssign" if "HB" in parameters else b"ssign-cert", list(parameters.items())
    for at, (key, value) in enumerate(pairs):
        front, back = pairs[:at], pairs[at + 1:]
        for wrong in ([], [pairs[at]] * 2, [(key + "2", value)], [(key[1:], value)], [(key.lower(), value)]):
            yield HEAD + element(name, [*front, *wrong, *back]), "spoilt S2"
        if back:
            yield HEAD + element(name, [*front, back[0], pairs[at], *back[1:]]), "spoilt S2"


def blocks():
    """Blocks, and what is nearly one."""
    both = element(b"ssign", SIGNATURE.items()), element(b"ssign-cert", CERTIFICATE.items())
    largest = [("VER", b"0121"), ("RSID", b"9999999999"), ("SG", b"3"), ("SPRI", b"191"), ("GBC", b"9999999999"),
               ("FMN", b"9999999999"), ("CNT", b"1"), ("HB", SHA256)]
    last = [("TPBL", b"99999999"), ("INDEX", b"99999999")]
    yield block(SIGNATURE), line_of(SIGNATURE)
    yield block(CERTIFICATE), line_of(CERTIFICATE)
    yield block(SIGNATURE, largest), line_of(SIGNATURE, largest)
    yield block(CERTIFICATE, [*last, ("FLEN", b"1"), ("FRAG", b"x")]), line_of(CERTIFICATE, [*last, ("FLEN", b"1")])
    yield block(CERTIFICATE, [*last, ("FLEN", b"2"), ("FRAG", b"xx")]), "spoilt S8"
    yield HEAD + b'[x@1 SIGN="AAAA"]' + both[0] + b'[y@1 a="\\]"] hello SIGN="AAAA"', line_of(SIGNATURE)
    for raw in ESCAPED:
        yield block(CERTIFICATE, [("TPBL", b"3"), ("FLEN", b"3"), ("FRAG", raw)]), "certificate h s - 1 0 0 3 1 3"
        yield block(CERTIFICATE, [("TPBL", b"4"), ("FLEN", b"4"), ("FRAG", raw)]), "spoilt S8"
    yield HEAD + element(b"ssign", CERTIFICATE.items()), "spoilt S2"
    yield HEAD + element(b"ssign-cert", SIGNATURE.items()), "spoilt S2"
    for pair in (both, both[::-1], (b"[ssign]", b"[x][ssign-cert]")):
        yield HEAD + b"".join(pair), "spoilt S1"
    yield b"<13>1 - - - - - [ssign][ssign]", "unparsed M11 24"
    for text in (b"[ssign-certs]", b"[Ssign][SSIGN-CERT]", b'[x@1 SIGN="AAAA"]', b"- ssign", b"- " + both[0]):
        yield b"<13>1 - - - - - " + text, "plain"


def main():
    """One log of all texts. Each is a check."""
    rows = list(itertools.chain(messages(), blocks(), values_of(SIGNATURE, SIGNATURE_VALUES), names_of(SIGNATURE),
                                values_of(CERTIFICATE, CERTIFICATE_VALUES), names_of(CERTIFICATE),
                                causes_of(SIGNATURE, SIGNATURE_CAUSES), causes_of(CERTIFICATE, CERTIFICATE_CAUSES)))
    log = b"".join(b"%d %s" % (len(text), text) for text, _ in rows)
    done = subprocess.run([sys.argv[1], "inspect"], input=log, capture_output=True, check=False)
    found = done.stdout.decode().splitlines()
    passed = failed = 0
    for place, (text, wanted) in enumerate(rows):
        kind, *values = wanted.split(" ")
        line = " ".join([kind, str(place), *values])
        if place < len(found) and found[place] == line:
            passed += 1
        else:
            failed += 1
            print(f"texts: {text!r}: FAILED\n    {''.join(found[place:place + 1]) or 'nothing'}, and not {line}")
    if (done.returncode, found[len(rows):], done.stderr) == (0, [f"end {len(rows)}"], b""):
        passed += 1
    else:
        failed += 1
        print(f"texts: the end: FAILED\n    status {done.returncode}, {found[len(rows):]}, {done.stderr.decode()}")
    print(f"texts: {passed} passed, {failed} failed")
    return failed > 0


if __name__ == "__main__":
    sys.exit(main())
