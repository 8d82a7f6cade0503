"""Small logs and what their review says, worked out by hand, for the model of the review and for the program.

A log is (name, messages, answers, lines of the report), where answers are `ALL`, or a function of a payload, and one of a
payload, signed octets and a signature. The report is in the words of `ssign review`.
"""
import base64
import hashlib

M1 = b"abc"
M2 = b"abcdbcdecdefdefgefghfghighijhijkijkljklmklmnlmnomnopnopq"
A = b"qZk+NkcGgWq6PiVxeFDCbJzQ2J0="
B = b"hJg+RBw70m66rkqh+VEp5eVGcPE="
A2 = b"ungWv48Bz+pBQUDeXa4iI7ADYaOWF3qctBD/YfIAFa0="
P1 = b"2009-05-03T14:00:39Z K S0VZ"
H = b"<110>1 - h s - - "
ZEROS = b"\0\0\0"


def certificate(head=H, ver=b"0111", rsid=1, sg=0, spri=0, total=27, index=1, size=None, fragment=P1, sign=b' SIGN="AAAA"'):
    size = len(fragment) if size is None else size
    return head + b'[ssign-cert VER="%s" RSID="%d" SG="%d" SPRI="%d" TPBL="%d" INDEX="%d" FLEN="%d" FRAG="%s"%s]' % (
        ver, rsid, sg, spri, total, index, size, fragment, sign)


def signature(*hashes, head=H, ver=b"0111", rsid=1, sg=0, spri=0, gbc=0, first=1, count=None, sign=b' SIGN="AAAA"'):
    count = b"%d" % len(hashes) if count is None else count
    return head + b'[ssign VER="%s" RSID="%d" SG="%d" SPRI="%d" GBC="%d" FMN="%d" CNT="%s" HB="%s"%s]' % (
        ver, rsid, sg, spri, gbc, first, count, b" ".join(hashes), sign)


HI, H1 = (b"<110>1 - %s s - - " % host for host in (b"i", b"h1"))
C = certificate()
S = signature(A, B)
C9A = certificate(fragment=b"2009-05-03T14:00:39Z")
C9B = certificate(index=18, fragment=b"39Z K S0VZ")
C11 = certificate(fragment=b"2009-05-03T14:00:40Z K S0VZ")
C2 = certificate(rsid=2)
CX = certificate(total=1, fragment=b"x")
CY = certificate(total=99999999, index=99999999, fragment=b"x")
S6 = signature(A, A)
S7 = signature(A)
S8 = signature(B, gbc=1)
S12 = signature(A, first=9999999999)
S12B = signature(A, B, first=9999999999)
S17 = signature(A2, ver=b"0121")
S27 = signature(A, rsid=2)
CI, S7I, C11I = certificate(head=HI), signature(A, head=HI), certificate(head=HI, fragment=b"2009-05-03T14:00:40Z K S0VZ")
C1 = certificate(head=H1)
T14 = H + b'[x@1 SIGN="AAAA"]' + S7[len(H):] + b'[y@1 a="\\]"] hello SIGN="AAAA"'
T14_SIGNED = T14[:134] + T14[146:]
C_SIGNED = certificate(sign=b"")
S_SIGNED = signature(A, B, sign=b"")

# the lengths are written down as well, so a slip of the pen above shows
LENGTHS = [(M1, 3), (M2, 56), (H, 17), (C, 142), (C_SIGNED, 130), (S, 159), (S_SIGNED, 147), (C9A, 135), (C9B, 126), (C11, 142),
           (C2, 142), (CX, 114), (S6, 159), (S7, 130), (S8, 130), (S12, 139), (S12B, 168), (S17, 146), (S27, 130), (T14, 177),
           (T14_SIGNED, 165), (P1, 27)]


# the messages and blocks of an originator with a group for each PRI and two hashes in a block
def h(text):
    return base64.b64encode(hashlib.sha1(text).digest())


TOLD = [b"<%d>1 - - - - - - %s" % it for it in ((13, b"a"), (14, b"b"), (13, b"c"), (14, b"d"), (13, b"e"))]
TA, TB, TC, TD, TE = TOLD
F1 = certificate(sg=1, spri=110, fragment=b"2009-05-03T14:00:39Z")
F2 = certificate(sg=1, spri=110, index=21, fragment=b" K S0VZ")
K0 = signature(h(TA), h(TC), sg=1, spri=13)
K1 = signature(h(TB), h(TD), sg=1, spri=14, gbc=1)
K2 = signature(h(TE), sg=1, spri=13, gbc=2, first=3)
# of the originator that went on after the first block, with counters that it was handed
D1 = signature(h(TD), sg=1, spri=14, gbc=1, first=2)


def always(*_):
    return True


def never(*_):
    return False


ALL = (always, always)
NO_TRUST = (never, always)
NO_SIGNATURE = (always, never)
CERTIFICATE_ALONE = (always, lambda payload, signed, sign: signed == C_SIGNED)
THESE_ALONE = (lambda payload: payload == P1,
               lambda payload, signed, sign: payload == P1 and sign == ZEROS and signed in (C_SIGNED, T14_SIGNED))
NOT_THE_FRONT = (always, lambda payload, signed, sign: signed != certificate(fragment=b"2009-05-03T14:00:39Z", sign=b""))

EXAMPLES = [
    ("an empty log", [], ALL, ["end 0"]),
    ("messages before their blocks", [M1, M2, C, S], ALL,
     ["session h s - 1 joined", "ok h s - 1 0 0 1 0", "ok h s - 1 0 0 2 1", "end 4"]),
    ("messages behind their blocks", [S, C, M1, M2], ALL,
     ["session h s - 1 joined", "ok h s - 1 0 0 1 2", "ok h s - 1 0 0 2 3", "end 4"]),
    ("a missing message", [M1, C, S], ALL,
     ["session h s - 1 joined", "ok h s - 1 0 0 1 0", "gap h s - 1 0 0 2 lost", "end 3"]),
    ("a block twice", [M1, M2, C, S, S], ALL,
     ["session h s - 1 joined", "ok h s - 1 0 0 1 0", "ok h s - 1 0 0 2 1", "end 5"]),
    ("one message for two numbers", [M1, C, S6], ALL,
     ["session h s - 1 joined", "ok h s - 1 0 0 1 0", "gap h s - 1 0 0 2 lost", "end 3"]),
    ("three messages for one number", [M1, M1, M1, C, S7], ALL,
     ["session h s - 1 joined", "ok h s - 1 0 0 1 0", "unlisted 1", "unlisted 2", "end 5"]),
    ("two hashes for one number", [M1, M2, C, S7, S8], ALL,
     ["session h s - 1 joined", "gap h s - 1 0 0 1 disputed", "unlisted 0", "unlisted 1", "end 5"]),
    ("fragments that overlap, the later one first", [M1, C9B, C9A, S7], ALL,
     ["session h s - 1 joined", "ok h s - 1 0 0 1 0", "end 4"]),
    ("a fragment that is missing", [M1, C9B, S7], ALL,
     ["session h s - 1 incomplete", "unlisted 0", "refused 1", "refused 2", "end 3"]),
    ("fragments that disagree", [M1, C, C11, S7], ALL,
     ["session h s - 1 disputed", "unlisted 0", "refused 1", "refused 2", "refused 3", "end 4"]),
    ("the greatest number", [M1, C, S12], ALL,
     ["session h s - 1 joined", "hole h s - 1 0 0 1 9999999998", "ok h s - 1 0 0 9999999999 0", "end 3"]),
    ("a number past the greatest", [C, S12B], ALL,
     ["session h s - 1 joined", "spoilt 1 S9", "end 2"]),
    ("other elements and a text with SIGN beside the block", [M1, C, T14], THESE_ALONE,
     ["session h s - 1 joined", "ok h s - 1 0 0 1 0", "end 3"]),
    ("one message for two sessions and two algorithms", [M1, C, C2, S17, S27], ALL,
     ["session h s - 1 joined", "ok h s - 1 0 0 1 0", "session h s - 2 joined", "gap h s - 2 0 0 1 lost", "end 5"]),
    ("octets that are no payload", [CX], ALL,
     ["session h s - 1 malformed", "refused 0", "end 1"]),
    ("a payload that isn't trusted", [M1, M2, C, S], NO_TRUST,
     ["session h s - 1 untrusted", "unlisted 0", "unlisted 1", "refused 2", "refused 3", "end 4"]),
    ("no valid signature", [M1, M2, C, S], NO_SIGNATURE,
     ["session h s - 1 unaccepted", "unlisted 0", "unlisted 1", "refused 2", "refused 3", "end 4"]),
    ("the certificate block alone valid", [M1, M2, C, S], CERTIFICATE_ALONE,
     ["session h s - 1 joined", "unlisted 0", "unlisted 1", "refused 3", "end 4"]),
    ("a signature block alone", [S], ALL,
     ["session h s - 1 incomplete", "refused 0", "end 1"]),
    ("an originator's log in order", [F1, F2, TA, TB, TC, K0, TD, K1, TE, K2], ALL,
     ["session h s - 1 joined", "ok h s - 1 1 13 1 2", "ok h s - 1 1 13 2 4", "ok h s - 1 1 13 3 8", "ok h s - 1 1 14 1 3",
      "ok h s - 1 1 14 2 6", "end 10"]),
    ("some of an originator's log, in another order", [F2, F1, F1, TE, K2, TD, TA, K1, M1], ALL,
     ["session h s - 1 joined", "hole h s - 1 1 13 1 2", "ok h s - 1 1 13 3 3", "gap h s - 1 1 14 1 lost", "ok h s - 1 1 14 2 5",
      "unlisted 6", "unlisted 8", "end 9"]),
    ("an originator's log without a fragment", [F1, TA, TC, K0], ALL,
     ["session h s - 1 incomplete", "unlisted 1", "unlisted 2", "refused 0", "refused 3", "end 4"]),
    ("an originator that went on with its counters", [F1, F2, TA, TB, TC, K0, TD, D1], ALL,
     ["session h s - 1 joined", "ok h s - 1 1 13 1 2", "ok h s - 1 1 13 2 4", "hole h s - 1 1 14 1 1", "ok h s - 1 1 14 2 6",
      "unlisted 3", "end 8"]),
    ("one octet at the end of the longest payload", [CY], ALL,
     ["session h s - 1 incomplete", "refused 0", "end 1"]),
    ("a message without a block", [M1], ALL, ["unlisted 0", "end 1"]),
    ("messages without a block", [M1, M2], ALL, ["unlisted 0", "unlisted 1", "end 2"]),
    ("messages and a certificate block", [M1, M2, C], ALL,
     ["session h s - 1 joined", "unlisted 0", "unlisted 1", "end 3"]),
    ("two lengths of a payload", [M1, C, certificate(total=28)], ALL,
     ["session h s - 1 disputed", "unlisted 0", "refused 1", "refused 2", "end 3"]),
    ("a fragment that isn't valid", [M1, C9A, C9B, S7], NOT_THE_FRONT,
     ["session h s - 1 unaccepted", "unlisted 0", "refused 1", "refused 2", "refused 3", "end 4"]),
    ("a fragment that isn't valid, and a whole payload that is", [M1, C, C9A, S7], NOT_THE_FRONT,
     ["session h s - 1 joined", "ok h s - 1 0 0 1 0", "refused 2", "end 4"]),
    ("one message for two hosts", [M1, C, S7, CI, S7I], ALL,
     ["session h s - 1 joined", "ok h s - 1 0 0 1 0", "session i s - 1 joined", "gap i s - 1 0 0 1 lost", "end 5"]),
    ("payloads of two hosts", [M1, C, C11I, S7], ALL,
     ["session h s - 1 joined", "ok h s - 1 0 0 1 0", "session i s - 1 joined", "end 4"]),
    ("sessions in their order", [CI, C2, C1], ALL,
     ["session h s - 2 joined", "session h1 s - 1 joined", "session i s - 1 joined", "end 3"]),
]

# messages, and the questions in the words of `ssign questions`
QUESTIONS = [
    ("the questions of two blocks", [M1, M2, C, S],
     ["trust? MjAwOS0wNS0wM1QxNDowMDozOVogSyBTMFZa"]
     + ["yes? MjAwOS0wNS0wM1QxNDowMDozOVogSyBTMFZa %s AAAA" % base64.b64encode(it).decode() for it in (C_SIGNED, S_SIGNED)]),
    ("no question without a block", [M1], []),
    ("no question of a session without a payload", [C9B, S7], []),
]

# texts, and which cause spoils them: None is a message without a block element, 0 a block
READINGS = [
    (S, 0), (C, 0), (CY, 0), (M1, None), (b"<13>1 - - - - - -", None),
    (S.replace(b"0111", b"0211"), 3),
    (signature(A, B, count=b"02"), 4), (signature(A, B, count=b"0"), 4),
    (S.replace(b'SG="0" SPRI="0"', b'SPRI="0" SG="0"'), 2),
    (signature(A, B, count=b"1"), 5),
    (signature(A[:-1], B), 6),
    (signature(A, B, sign=b' SIGN=""'), 7),
    (certificate(size=26), 8),
    (C + S[len(H):], 1),
    (S12B, 9),
    (certificate(total=99999999, index=99999999, fragment=b"xx"), 8),
    (certificate(index=100000000), 4), (certificate(size=10000), 4), (signature(A, B, rsid=10000000000), 4),
    (signature(A, B, gbc=9999999999), 0), (signature(A, B, first=9999999998), 0),
]
