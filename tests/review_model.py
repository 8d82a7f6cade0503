"""The review of a stored log, a second time: the rules of docs/ in plain Python, with nothing of the program in it.

`review(log, trusted, valid)` gives the lines of a report and `questions(log)` those of the questions of a `Log`, in the
plain format of the program `tool_reviewed`, where octets are hexadecimal. Both take the payloads that are known
beforehand, if some are. Everything here goes over the whole log again and again, since what is wanted of it is that each
rule can be read.
"""
import base64
import binascii
import copy
import functools
import hashlib
import re

from rfc5424 import NoMessage, is_stamp, read

NAMES = {
    b"ssign": [b"VER", b"RSID", b"SG", b"SPRI", b"GBC", b"FMN", b"CNT", b"HB", b"SIGN"],
    b"ssign-cert": [b"VER", b"RSID", b"SG", b"SPRI", b"TPBL", b"INDEX", b"FLEN", b"FRAG", b"SIGN"],
}
RANGES = {
    b"RSID": (0, 9999999999), b"SG": (0, 3), b"SPRI": (0, 191), b"GBC": (0, 9999999999), b"FMN": (1, 9999999999),
    b"CNT": (1, 99), b"TPBL": (1, 99999999), b"INDEX": (1, 99999999), b"FLEN": (1, 9999),
}
HASHES = {b"0111": ("sha1", 20), b"0121": ("sha256", 32)}


# ---- blocks (RFC 5848, sections 4 and 5)

def base64_of(text):
    """The octets that a text spells in strict base64, or None."""
    try:
        octets = base64.b64decode(text, validate=True)
    except binascii.Error:
        return None
    return octets if octets and base64.b64encode(octets) == text else None


class Block:
    """A block message that isn't spoilt."""

    def __init__(self, place, text, fields, sd_id, parameters):
        value = {it.name: it.value for it in parameters}
        number = {name: int(value[name]) for name in RANGES if name in value}
        sign = parameters[8]
        self.place = place
        self.session = (*fields, number[b"RSID"])
        self.group = (number[b"SG"], number[b"SPRI"])
        self.version = value[b"VER"].decode()
        self.signed = text[:sign.start] + text[sign.end:]
        self.sign = base64_of(value[b"SIGN"])
        self.is_certificate = sd_id == b"ssign-cert"
        if self.is_certificate:
            self.total, self.index, self.fragment = number[b"TPBL"], number[b"INDEX"], value[b"FRAG"]
        else:
            self.gbc, self.first, self.count = number[b"GBC"], number[b"FMN"], number[b"CNT"]
            algorithm, _ = HASHES[value[b"VER"]]
            hashes = [base64_of(piece) for piece in value[b"HB"].split(b" ")]
            self.rows = [(self.first + i, algorithm, octets) for i, octets in enumerate(hashes)]


def causes(kinds):
    """The causes for which a message with these block elements is spoilt, in their order."""
    if len(kinds) == 2:
        yield 1
        return
    (sd_id, parameters), = kinds
    if [it.name for it in parameters] != NAMES[sd_id]:
        yield 2
        return
    value = {it.name: it.value for it in parameters}
    if value[b"VER"] not in HASHES:
        yield 3
        return
    for name, (least, most) in RANGES.items():
        if name in value:
            text = value[name]
            if not re.fullmatch(rb"0|[1-9][0-9]*", text) or not least <= int(text) <= most:
                yield 4
                return
    if sd_id == b"ssign":
        pieces = value[b"HB"].split(b" ")
        if len(pieces) != int(value[b"CNT"]):
            yield 5
        if any(len(base64_of(piece) or b"") != HASHES[value[b"VER"]][1] for piece in pieces):
            yield 6
    if base64_of(value[b"SIGN"]) is None:
        yield 7
    if sd_id == b"ssign-cert":
        if int(value[b"INDEX"]) + int(value[b"FLEN"]) - 1 > int(value[b"TPBL"]) or len(value[b"FRAG"]) != int(value[b"FLEN"]):
            yield 8
    elif int(value[b"FMN"]) + int(value[b"CNT"]) - 1 > 9999999999:
        yield 9


def parsed(text):
    """None for a message without a block element, the number of the cause for a spoilt one, else its fields, the name of
    its element and the parameters of that."""
    try:
        _, fields, elements = read(text)
    except NoMessage:
        return None
    kinds = [(sd_id, parameters) for sd_id, parameters in elements.items() if sd_id in NAMES]
    if not kinds:
        return None
    for cause in causes(kinds):
        return cause
    return (fields[:3], *kinds[0])


# the same short messages stand in many logs
parsed_again = functools.lru_cache(maxsize=1 << 14)(parsed)
SHORT = 2048


def reading(place, text):
    """None for a message without a block element, the number of the cause for a spoilt one, else its block."""
    found = parsed_again(text) if len(text) <= SHORT else parsed(text)
    return Block(place, text, *found) if isinstance(found, tuple) else found


def is_payload(text):
    """A payload block: TIMESTAMP or `-`, SP, a letter, and for each letter but N an SP and a key blob."""
    time, space, rest = text.partition(b" ")
    if not space or not (time == b"-" or is_stamp(time)):
        return False
    if rest in (b"N", b"N "):
        return True
    return rest[:2] in (b"C ", b"P ", b"K ", b"U ") and base64_of(rest[2:]) is not None


# ---- the review (RFC 5848, section 7)

class Log:
    """What a log has: the hash pairs of its ordinary messages, its blocks and its spoilt messages, each by place."""

    def __init__(self, messages):
        self.count = len(messages)
        readings = [reading(place, text) for place, text in enumerate(messages)]
        self.pairs = {place: (hashlib.sha1(text).digest(), hashlib.sha256(text).digest())
                      for place, text in enumerate(messages) if readings[place] is None}
        self.blocks = [it for it in readings if isinstance(it, Block)]
        self.spoilt = [(place, it) for place, it in enumerate(readings) if isinstance(it, int)]
        # HOSTNAME, APP-NAME and PROCID by their octets, of which a prefix comes first, then RSID by its value
        self.sessions = sorted({block.session for block in self.blocks})

    def of(self, session):
        return [block for block in self.blocks if block.session == session]

    def certificates(self, session):
        return [block for block in self.of(session) if block.is_certificate]

    def payload(self, session):
        """`disputed` or `incomplete` and None, or `malformed` or `whole` and the joined octets."""
        totals = {block.total for block in self.certificates(session)}
        octets = {(block.index + j, octet) for block in self.certificates(session) for j, octet in enumerate(block.fragment)}
        if len(totals) > 1 or len({index for index, _ in octets}) < len(octets):
            return "disputed", None
        # no index is past the total, because no fragment of a block ends after it
        if not totals or len(octets) < min(totals):
            return "incomplete", None
        joined = bytes(octet for _, octet in sorted(octets))
        return ("whole" if is_payload(joined) else "malformed"), joined


# ---- payloads that are known beforehand

def agrees(block, payload):
    """Whether a certificate block states the length of a payload, and octets that stand there in it."""
    start = block.index - 1
    return block.total == len(payload) and payload[start:start + len(block.fragment)] == block.fragment


def covered(blocks, payload):
    """Whether the fragments of certificate blocks have each octet of a payload."""
    return {block.index + j for block in blocks for j in range(len(block.fragment))} >= set(range(1, len(payload) + 1))


def speaks_for(block, payload, valid):
    """Whether a certificate block agrees with a payload, and is valid under it."""
    return agrees(block, payload) and (payload, block.signed, block.sign) in valid


def claimants(log, session, trusted, valid, known):
    """Those of the known payloads that claim a session."""
    return [payload for payload in known if is_payload(payload) and payload in trusted and covered(
        [block for block in log.certificates(session) if speaks_for(block, payload, valid)], payload)]


def kept(log, trusted, valid, known):
    """The log without the certificate blocks of claimed sessions that speak for no payload that claims it."""
    part = copy.copy(log)
    left_out = []
    for session in log.sessions:
        claiming = claimants(log, session, trusted, valid, known)
        if claiming:
            left_out += [block for block in log.certificates(session)
                         if not any(speaks_for(block, payload, valid) for payload in claiming)]
    part.blocks = [block for block in log.blocks if block not in left_out]
    part.sessions = sorted({block.session for block in part.blocks})
    return part


# ---- the report

def state(log, session, trusted, valid):
    """The state of a session, and the blocks of it that are verified."""
    found, payload = log.payload(session)
    if found != "whole":
        return found, []
    if payload not in trusted:
        return "untrusted", []
    accepted = [block for block in log.of(session) if (payload, block.signed, block.sign) in valid]
    covered = {block.index + j for block in accepted if block.is_certificate for j in range(len(block.fragment))}
    if len(covered) < len(payload):
        return "unaccepted", []
    return "joined", accepted


def review(whole, trusted, valid, known=()):
    """The lines of the report: `trusted` has the payloads that are trusted, `valid` the payload, signed octets and
    signature of each signature that is, and `known` the payloads that are known beforehand."""
    log = kept(whole, trusted, valid, known)
    states = {session: state(log, session, trusted, valid) for session in log.sessions}
    verified = [block for session in log.sessions for block in states[session][1]]

    # what the verified signature blocks announce: a set of rows, each a key with an algorithm and a hash
    rows = {((block.session, block.group, number), algorithm, octets)
            for block in verified if not block.is_certificate for number, algorithm, octets in block.rows}
    keys = sorted({key for key, _, _ in rows})
    hashes_of = {key: [row[1:] for row in rows if row[0] == key] for key in keys}

    def bearer(algorithm, octets):
        """The least place whose message has this hash."""
        for place, (sha1, sha256) in sorted(log.pairs.items()):
            if octets == (sha1 if algorithm == "sha1" else sha256):
                return place
        return None

    wanted = {}
    for key in keys:
        if len(hashes_of[key]) == 1:
            place = bearer(*hashes_of[key][0])
            if place is not None:
                wanted[key] = log.pairs[place]

    assigned = {}
    for key, pair in wanted.items():
        rank = sum(1 for other in wanted if other < key and wanted[other] == pair)
        places = [place for place in sorted(log.pairs) if log.pairs[place] == pair]
        if rank < len(places):
            assigned[key] = places[rank]

    lines = []
    for session in log.sessions:
        lines.append("session %s %s %s %d %s" % (*(shown(field) for field in session[:3]), session[3], states[session][0]))
        for group in sorted({key[1] for key in keys if key[0] == session}):
            lines.append("group %d %d" % group)
            last = 0
            for key in keys:
                if key[:2] != (session, group):
                    continue
                number = key[2]
                if number > last + 1:
                    lines.append("hole %d %d" % (last + 1, number - 1))
                last = number
                if key in assigned:
                    lines.append("listed %d %d" % (number, assigned[key]))
                else:
                    lines.append("gap %d %s" % (number, "lost" if len(hashes_of[key]) == 1 else "disputed"))
    lines += ["unlisted %d" % place for place in sorted(log.pairs) if place not in assigned.values()]
    lines += ["refused %d" % block.place for block in whole.blocks if block not in verified]
    lines += ["spoilt %d S%d" % it for it in log.spoilt]
    lines.append("count %d" % log.count)
    return lines


def asked(log, known=()):
    """What is asked of each session: the session and a payload, with None for whether it is trusted, and then with each
    block. First comes the payload that all of its octets join to, then each other one that is known beforehand, whose
    octets certificate blocks that agree with it have."""
    for session in log.sessions:
        found, joined = log.payload(session)
        payloads = [joined] if found == "whole" else []
        payloads += [payload for payload in known if is_payload(payload) and payload not in payloads
                     and covered([block for block in log.certificates(session) if agrees(block, payload)], payload)]
        for payload in payloads:
            for block in [None, *log.of(session)]:
                yield session, payload, block


def questions(log, known=()):
    """The lines of the questions."""
    return ["trust %s" % payload.hex() if block is None
            else "yes %s %s %s" % (payload.hex(), block.signed.hex(), block.sign.hex())
            for _, payload, block in asked(log, known)]


def shown(field):
    return "-" if field == b"-" else field.hex()
