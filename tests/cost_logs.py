"""Logs and answers of so many parts, honest ones and those that strangers could make, for tests/cost.py.

Each function takes a count and gives an `Input`, which has what commands have to say of it: the status, and how many
lines of each first word there are, or for `extract`, `carry` and `sign` how many frames. That shows that the input is what its
name says. All of it was worked out from docs/dev/FORMATS.md.
"""
import hashlib
import random

from review_runs import frame
from signed_log import HEAD, PAYLOAD, b64, certificate, message, sha1_of, signature

SIGN = b"AAAA"
LAST = 9_999_999_999
LONGEST = 99_999_999
LONG_LINES = ["--max-len", "1048576"]
# HOSTNAME, APP-NAME and PROCID of the sessions
NAMES = b" ".join(HEAD.split()[2:5])
# a review of an ordinary message reads no further than a scan for this; with it after a text, that is parsed
PARSED = b"[ssign]"


class Input:
    """A log, its answers, the counters that were kept of it and before it, the payloads that are known beforehand, the places of
    a file, and what each command says."""

    def __init__(self, *options, payload=PAYLOAD, answered=True):
        self.messages, self.options, self.says = [], list(options), {}
        self.payload = b64(payload)
        self.answers = [b"trust " + self.payload] if answered else []
        self.counters, self.first, self.known, self.places = [], [], [], []
        self.has_answers_file = True
        # of a log that is damaged, which no messages can give
        self.octets = None

    def log(self, of_lines=False):
        """The octets of the log, as frames or as lines."""
        if self.octets is not None:
            return self.octets
        return b"".join(it + b"\n" if of_lines else frame(it) for it in self.messages)

    def put(self, *texts):
        self.messages += texts

    def put_block(self, block, valid=True, sign=SIGN):
        front, back = block
        self.messages.append(front + b' SIGN="' + sign + b'"' + back)
        if valid:
            self.answers.append(b"yes %s %s %s" % (self.payload, b64(front + back), sign))

    def without_answers(self):
        """The same, and no option names an answers file. What is said is the same as with an empty one."""
        self.has_answers_file = False
        return self

    def keep(self, number, rsid=7, group=None, names=NAMES):
        """A counter of a session, or of a group."""
        self.counters.append(b"count %s %d" % (names, rsid) + (b" %d %d" % group if group else b"") + b" %d" % number)

    def begin(self, number, rsid=7, group=None, names=NAMES):
        """A counter at which the night begins."""
        self.first.append(b"count %s %d" % (names, rsid) + (b" %d %d" % group if group else b"") + b" %d" % number)

    def say(self, command, status, told):
        self.says[command] = (status, told)
        return self

    def told(self, command):
        """What a command says. A log that isn't damaged is read the same with `--salvage`."""
        return self.says.get(command) or self.says[command.replace(" --salvage", "")]

    def review(self, status, **words):
        return self.say("review", status, {**words, "end": 1})

    def whole(self, status, **words):
        """The same, with missing blocks."""
        return self.say("review --whole", status, {**words, "end": 1})

    def kept(self, status, **words):
        """The same, up to the counters."""
        return self.say("review --counters", status, {**words, "end": 1})

    def night(self, status, **words):
        """The same, between the first counters and these."""
        return self.say("review --from", status, {**words, "end": 1})

    def ahead(self, groups):
        """The counters of so many groups, and of the blocks, of a plan that looks ahead."""
        for command in ("plan --ahead", "plan --ahead --resume"):
            self.say(command, 0, {"count": 1 + groups, "end": 1})

    def tally(self, status, **words):
        """The lines of a tally."""
        counts = {"%s-count" % it: 1 for it in ("unlisted", "refused", "spoilt")}
        return self.say("review --tally", status, {**words, **counts, "end": 1})

    def in_front(self, status, signatures, certificates, **words):
        """The lines of a report in brief, after those of so many blocks."""
        blocks = {"signature-block": signatures, "certificate-block": certificates}
        told = {it: count for it, count in {**blocks, **words}.items() if count}
        self.say("review --brief --blocks --no-sha1 --some-listed", status, {**told, "end": 1})

    def none_listed(self, signatures, certificates, **words):
        """The same, if nothing is listed."""
        self.in_front(1, signatures, certificates, **words, **{"none-listed": 1})

    def asked(self, trust, yes, payload):
        """The lines of questions, and of those with each payload once."""
        self.say("questions", 0, {"trust?": trust, "yes?": yes})
        for command in ("questions --once", "questions --once --json"):
            self.say(command, 0, {"payload": payload, "trust?": trust, "yes?": yes})


def announcing(*hashes, first=1, gbc=0, rsid=7, group=(0, 0)):
    """A signature block of hashes that are given as texts."""
    return signature(first, [sha1_of(text) for text in hashes], gbc, rsid, group)


def counters_file(lines):
    """A counters file of these lines."""
    return b"".join(it + b"\n" for it in lines) + b"end %d\n" % len(lines)


def number(i):
    return b"%d" % i


def nothing(n=0):
    """The empty log."""
    made = Input(answered=False)
    for command in ("questions", "questions --once", "questions --once --json", "questions --once --pinned"):
        made.say(command, 0, {})
    made.say("counters --pinned", 0, {"end": 1})
    made.say("review --pinned", 0, {"end": 1})
    made.say("extract", 0, 0)
    made.say("inspect", 0, {"end": 1})
    made.say("inspect --unwrap", 0, {"end": 1})
    made.say("inspect --json --facts", 0, {"end": 1})
    made.say("extract --places", 0, 0)
    made.say("extract --unlisted", 0, 0)
    made.say("extract --unlisted --unwrap", 0, 0)
    made.say("carry", 0, 0)
    made.say("counters", 0, {"end": 1})
    made.whole(0)
    made.kept(0)
    made.night(0)
    made.tally(0)
    made.none_listed(0, 0)
    return made.review(0)


# ---- honest logs

def signed(n):
    """Ten messages in a block."""
    made = Input()
    made.put_block(certificate())
    for first in range(1, n + 1, 10):
        texts = [message(i, 70) for i in range(first, first + 10)]
        made.put(*texts)
        made.put_block(announcing(*texts, first=first, gbc=first // 10))
    made.review(0, session=1, ok=n)
    made.whole(0, session=1, ok=n)
    made.say("questions", 0, {"trust?": 1, "yes?": 1 + n // 10})
    made.say("extract", 0, n)
    made.say("carry", 0, 1)
    made.say("counters", 0, {"count": 2, "end": 1})
    made.tally(0, session=1, tally=1)
    made.in_front(1, n // 10, 1, sha1=1, session=1, ok=1, tally=1)
    return made.say("inspect", 0, {"certificate": 1, "plain": n, "signature": n // 10, "end": 1})


def placed(n):
    """The same, and a file has the place of each message, from the last one on."""
    made = signed(n)
    made.places = list(reversed(range(len(made.messages))))
    made.say("extract --places", 0, len(made.messages))
    return made.say("inspect --json --facts", *made.told("inspect"))


def placed_often(n):
    """The same, and a file has two places, each of them again and again."""
    made = signed(n)
    made.places = [1, 0] * n
    made.say("extract --places", 0, 2)
    return made.say("inspect --json --facts", *made.told("inspect"))


def unanswered(n):
    """Ten messages in a block, and nobody answers."""
    made = signed(n)
    made.answers = []
    made.say("extract", 1, 0)
    made.say("extract --unlisted", 1, n)
    made.say("extract --unlisted --unwrap", 1, n)
    made.say("carry", 0, 1 + n // 10 + n)
    made.say("counters", 0, {"end": 1})
    made.whole(1, session=1, unlisted=n, refused=1 + n // 10)
    made.tally(1, session=1)
    made.none_listed(n // 10, 1, session=1, unlisted=n, refused=1 + n // 10)
    return made.review(1, session=1, unlisted=n, refused=1 + n // 10)


def by_sha256(n):
    """The same with the other hash algorithm."""
    made = Input()
    made.put_block(certificate())
    for first in range(1, n + 1, 10):
        texts = [message(i, 70) for i in range(first, first + 10)]
        made.put(*texts)
        front, back = signature(first, [b64(hashlib.sha256(text).digest()) for text in texts], first // 10)
        made.put_block((front.replace(b'"0111"', b'"0121"'), back))
    return made.review(0, session=1, ok=n)


# ---- logs that strangers could make

def falling(n):
    """The log backwards."""
    made = signed(n)
    made.messages.reverse()
    return made


def equal(n):
    """Equal messages, announced under as many numbers."""
    made, text = Input(), message(1, 70)
    made.put_block(certificate())
    for first in range(1, n + 1, 10):
        made.put(*[text] * 10)
        made.put_block(announcing(*[text] * 10, first=first, gbc=first // 10))
    made.say("extract", 0, n)
    return made.review(0, session=1, ok=n)


def one_hash(n):
    """One message, whose hash stands in each block."""
    made = Input()
    made.put(message(1))
    made.put_block(certificate())
    for i in range(n):
        made.put_block(announcing(b"a", message(1), first=1 + 2 * i, gbc=i))
    made.say("extract", 1, 1)
    made.say("carry", 0, n + 2)
    return made.review(1, session=1, ok=1, gap=2 * n - 1)


def hashes_alike(n):
    """Announced hashes that share their first 17 octets, and messages whose hashes share the first one."""
    made, i, found = Input(), 0, 0
    made.put_block(certificate())
    for first in range(0, n, 10):
        hashes = [b64(b"x" * 17 + (i * 7919 % 2**24).to_bytes(3, "big")) for i in range(first, first + 10)]
        made.put_block(signature(first + 1, hashes, first))
    while found < n:
        i += 1
        if hashlib.sha1(number(i)).digest()[0] == ord("x"):
            found += 1
            made.put(number(i))
    return made.review(1, session=1, gap=n, unlisted=n)


def sessions(n):
    """A session for each message."""
    made = Input()
    for i in range(n):
        made.put_block(certificate(rsid=i * 7919 % n))
        made.put_block(announcing(number(i), rsid=i))
    made.asked(trust=n, yes=2 * n, payload=1)
    made.say("extract", 1, 0)
    made.say("counters", 0, {"count": 2 * n, "end": 1})
    made.say("carry", 0, 2 * n)
    made.none_listed(n, n, sha1=1, session=n, gap=n, tally=n)
    return made.review(1, session=n, gap=n)


def hosts_alike(n):
    """Sessions whose HOSTNAME differs at its end alone."""
    made = Input()
    for i in range(n):
        front, back = certificate()
        made.put_block((front.replace(b"gate", b"h" * 248 + b"%07d" % (i * 7919 % n)), back))
    made.asked(trust=n, yes=n, payload=1)
    return made.review(0, session=n)


def payloads_apart(n):
    """Sessions, each with a payload of its own, which differs from the others at its end alone."""
    made = Input(answered=False)
    for i in range(n):
        text = b"- U " + b64(b"x" * 297 + (i * 7919 % n).to_bytes(3, "big"))
        made.put_block(certificate(1, text, len(text), i), False)
    made.asked(trust=n, yes=n, payload=n)
    return made


def large_payload(n):
    """A large payload in fragments, and as many signature blocks. With the payload in each question this is quadratic."""
    text = b"- U " + b64(b"x" * (3 * 1250 * n - 3))
    made = Input(answered=False)
    for first in range(0, len(text), 5000):
        made.put_block(certificate(first + 1, text[first:first + 5000], len(text)), False)
        made.put_block(announcing(number(first), gbc=first // 5000), False)
    made.asked(trust=1, yes=2 * n, payload=1)
    return made


def groups(n):
    """768 groups in each session."""
    made = Input()
    for i in range(n):
        if i % 768 == 0:
            made.put_block(certificate(rsid=i // 768))
        made.put_block(announcing(number(i), gbc=i, rsid=i // 768, group=(i % 768 // 192, i % 192)))
    made.say("counters", 0, {"count": -(-n // 768) + n, "end": 1})
    made.say("carry", 0, -(-n // 768) + n)
    made.tally(1, session=-(-n // 768), tally=n)
    return made.review(1, session=-(-n // 768), gap=n)


def kept_sessions(n):
    """Counters of each of many sessions, behind what the log has of it."""
    made = sessions(n)
    for i in range(n):
        made.keep(3, i * 4241 % n)
        made.keep(5, i * 4241 % n, (0, 0))
    return made.kept(1, session=n, gap=n, tail=n, blocks=n)


def kept_groups(n):
    """Counters of 768 groups in each session, in falling order. The blocks of a session but the first begin with a great GBC."""
    made = groups(n)
    for i in reversed(range(n)):
        made.keep(3, i // 768, (i % 768 // 192, i % 192))
    more = -(-n // 768) - 1
    return made.kept(1, session=1 + more, gap=n, tail=n, **({"blocks": more} if more else {}))


def kept_absent(n):
    """Counters of as many sessions that the log has no block of, whose HOSTNAME differs at its end alone."""
    made = Input()
    for i in range(n):
        names = b"h" * 48 + b"%07d s -" % (i * 7919 % n)
        made.keep(2, 1, None, names)
        made.keep(4, 1, (0, 0), names)
    return made.kept(1, session=n, tail=n, blocks=n)


def kept_equal(n):
    """As many counters of one group."""
    made = Input()
    for i in range(n):
        made.keep(2 + i, 7, (0, 0))
    return made.kept(1, session=1, tail=1)


def nights_of_sessions(n):
    """Many sessions between two counters, of which the first lies behind what the log has."""
    made = kept_sessions(n)
    for i in range(n):
        made.begin(2, i * 7919 % n)
        made.begin(3, i * 7919 % n, (0, 0))
    return made.night(1, session=n, gap=n, early=n, tail=n, blocks=n)


def nights_of_groups(n):
    """The same of 768 groups in each session, without a counter of blocks."""
    made = kept_groups(n)
    for i in range(n):
        made.begin(2, i // 768, (i % 768 // 192, i % 192))
    more = -(-n // 768) - 1
    return made.night(1, session=1 + more, gap=n, early=n, tail=n, **({"blocks": more} if more else {}))


def idle_nights(n):
    """As many sessions that the log has no block of, and that sent nothing in the night."""
    made = kept_absent(n)
    made.first = list(made.counters)
    return made.night(0)


def outside_of_the_night(n):
    """Numbers with a hole in front of each, all of them below the first counter of their group and above the second one."""
    made = apart(n)
    made.begin(LAST + 1, 7, (0, 0))
    made.keep(1, 7, (0, 0))
    return made.night(1, session=1, gap=n, early=n, beyond=n, blocks=n)


def apart(n):
    """A hole in front of each number, and a block that is missing in front of each block, which come in no order."""
    made = Input()
    made.put_block(certificate())
    for i in range(n):
        made.put_block(announcing(number(i), first=2 + 10 * i, gbc=1 + 2 * (i * 7919 % n)))
    made.whole(1, session=1, gap=n, hole=n, blocks=n)
    return made.review(1, session=1, gap=n, hole=n)


def far_apart(n):
    """The first number and the last one, and the second block and the last one, of many sessions."""
    made = Input()
    for i in range(n):
        made.put_block(certificate(rsid=i))
        made.put_block(announcing(b"a", first=LAST, gbc=LAST, rsid=i))
        made.put_block(announcing(b"b", gbc=1, rsid=i))
    made.whole(1, session=n, gap=2 * n, hole=n, blocks=2 * n)
    return made.review(1, session=n, gap=2 * n, hole=n)


def disputed(n):
    """Numbers with two hashes."""
    made = Input()
    made.put_block(certificate())
    for i in range(n):
        made.put_block(announcing(number(i), first=1 + i, gbc=i))
        made.put_block(announcing(b"other", first=1 + i, gbc=i))
    return made.review(1, session=1, gap=n)


def one_number(n):
    """One number with as many hashes."""
    made = Input()
    made.put_block(certificate())
    for i in range(n):
        made.put_block(announcing(number(i), gbc=i))
    return made.review(1, session=1, gap=1)


def repeated(n):
    """One block as often, and its messages."""
    made, texts = Input(), [message(i) for i in range(10)]
    made.put_block(certificate())
    made.put(*texts)
    for i in range(n):
        made.put_block(announcing(*texts), i == 0)
    made.say("questions", 0, {"trust?": 1, "yes?": 1 + n})
    made.say("extract", 0, 10)
    made.whole(0, session=1, ok=10)
    return made.review(0, session=1, ok=10)


def overlapping(n):
    """Each number in ten blocks."""
    made = Input()
    made.put_block(certificate())
    for i in range(n):
        made.put_block(announcing(*map(number, range(i, i + 10)), first=1 + i, gbc=i))
    made.say("carry", 0, 1 + n)
    return made.review(1, session=1, gap=n + 9)


def lost_often(n):
    """One full block as often, of which one message is missing."""
    made, texts = Input(), [message(i) for i in range(99)]
    made.put_block(certificate())
    made.put(*texts[1:])
    for i in range(n):
        made.put_block(announcing(*texts), i == 0)
    made.say("carry", 0, 1 + n + 98)
    return made.review(1, session=1, ok=98, gap=1)


def lost_in_each(n):
    """Full blocks, of each of which one message is missing."""
    made = Input()
    made.put_block(certificate())
    for first in range(1, n + 1, 99):
        texts = [message(i) for i in range(first, first + 99)]
        made.put(*texts[1:])
        made.put_block(announcing(*texts, first=first, gbc=first // 99))
    made.say("carry", 0, 1 + n)
    made.in_front(1, n // 99, 1, sha1=1, session=1, ok=2 * (n // 99), gap=n // 99, tally=1)
    return made.review(1, session=1, ok=n - n // 99, gap=n // 99)


def signatures(n):
    """One block with as many signatures, all of them valid."""
    made = Input()
    made.put_block(certificate())
    for i in range(n):
        made.put_block(announcing(b"a"), sign=b64(i.to_bytes(3, "big")))
    made.whole(1, session=1, gap=1)
    return made.review(1, session=1, gap=1)


def fragments(n, order):
    """Fragments of one octet, of which one is valid: each answer holds the payload, so all would take too much."""
    text = b"- U " + b64(b"x" * (3 * n // 4))
    made = Input(payload=text)
    for i in order(range(len(text))):
        made.put_block(certificate(i + 1, text[i:i + 1], len(text)), i == 0)
    made.say("extract", 1, 0)
    made.asked(trust=1, yes=len(text), payload=1)
    return made.review(1, session=1, refused=len(text))


def fragments_rising(n):
    return fragments(n, list)


def fragments_falling(n):
    return fragments(n, reversed)


def fragments_shuffled(n):
    return fragments(n, lambda indexes: random.Random(1).sample(indexes, len(indexes)))


def copies(n):
    """Copies of one valid block, of a session with a payload of as many octets."""
    text = b"- U " + b64(b"x" * (3 * n // 4))
    made = Input(payload=text)
    made.put_block(certificate(1, text[:1], len(text)))
    made.put_block(certificate(2, text[1:], len(text)), False)
    for _ in range(n):
        made.put_block(certificate(1, text[:1], len(text)), False)
    return made.review(1, session=1, refused=n + 2)


def copies_joined(n):
    """Copies of the one certificate block, all valid by one answer."""
    made = Input()
    for i in range(n):
        made.put_block(certificate(), i == 0)
    made.say("questions", 0, {"trust?": 1, "yes?": n})
    made.say("carry", 0, 1)
    made.none_listed(0, n, session=1)
    return made.review(0, session=1)


def fragments_apart(n):
    """Fragments of one octet, eight of each session."""
    made, text = Input(payload=b"- U AAAA"), b"- U AAAA"
    for i in range(n):
        made.put_block(certificate(i % 8 + 1, text[i % 8:i % 8 + 1], 8, i // 8))
    made.say("carry", 0, n)
    return made.review(0, session=n // 8)


def scattered(n):
    """Fragments of one octet at scattered indexes of the longest payload."""
    made = Input()
    for i in range(n):
        made.put_block(certificate(i * 7919 * 31 % LONGEST + 1, b"x", LONGEST), False)
    made.say("questions", 0, {})
    return made.review(1, session=1, refused=n)


def stated(n):
    """The longest payload stated, and its last octet alone sent, of as many sessions."""
    made = Input()
    for i in range(n):
        made.put_block(certificate(LONGEST, b"x", LONGEST, i), False)
    return made.review(1, session=n, refused=n)


def totals(n):
    """As many totals, of one session."""
    made = Input()
    for i in range(n):
        made.put_block(certificate(1, b"x", 1 + i), False)
    return made.review(1, session=1, refused=n)


def attacked(n, strange, payloads=(PAYLOAD,), joined=True):
    """Ten messages in a block, of a session whose payload is known, as many blocks of strangers, and what is said if their
    session is this one. `strange` gives such a block by its number."""
    made = Input()
    made.known = [b64(it) for it in payloads]
    made.answers = [b"trust " + it for it in made.known]
    made.put_block(certificate())
    for first in range(1, n + 1, 10):
        texts = [message(i, 70) for i in range(first, first + 10)]
        made.put(*texts)
        made.put_block(announcing(*texts, first=first, gbc=first // 10))
        for i in range(first - 1, first + 9):
            made.put_block(strange(i), False, b64(b"%09d" % i))
    made.say("counters --pinned", 0, {"count": 2, "end": 1})
    if joined:
        made.say("review --pinned", 1, {"session": 1, "ok": n, "refused": n, "end": 1})
        asked = len(payloads)
        made.say("questions --once --pinned", 0, {"payload": asked, "trust?": asked, "yes?": asked * (1 + n // 10 + n)})
    return made


def strangers_disagree(n):
    """Each stranger's block states another octet of the payload. Without known payloads they dispute the session."""
    made = attacked(n, lambda i: certificate(i % len(PAYLOAD) + 1, b"AB"[i % 2:i % 2 + 1], len(PAYLOAD)))
    blocks = 1 + n // 10 + n
    made.review(1, session=1, unlisted=n, refused=blocks)
    made.say("counters", 0, {"end": 1})
    made.say("questions --once", 0, {})
    return made.say("carry", 0, blocks + n)


def strangers_agree(n):
    """Each stranger's block states what the payload has, and isn't valid. So the session is joined without known payloads."""
    made = attacked(n, lambda i: certificate(i % len(PAYLOAD) + 1, PAYLOAD[i % len(PAYLOAD):]))
    made.review(1, session=1, ok=n, refused=n)
    made.say("counters", 0, {"count": 2, "end": 1})
    made.say("questions --once", 0, {"payload": 1, "trust?": 1, "yes?": 1 + n // 10 + n})
    return made.say("carry", 0, 1)


def strangers_apart(n):
    """Each stranger's block is of another session, and states the payload."""
    made = attacked(n, lambda i: certificate(rsid=8 + i * 7919 % n), joined=False)
    made.say("review --pinned", 1, {"session": n + 1, "ok": n, "refused": n, "end": 1})
    return made.say("questions --once --pinned", 0, {"payload": 1, "trust?": n + 1, "yes?": 1 + n // 10 + n})


def strangers_payloads(n):
    """Twenty payloads are known and trusted, and each stranger's block states one of them."""
    payloads = [PAYLOAD[:17] + b"%02d" % i + PAYLOAD[19:] for i in range(20)]
    return attacked(n, lambda i: certificate(fragment=payloads[i % 20]), payloads)


def spoilt(n):
    """Blocks that are none, each of another kind than the one before."""
    made = Input()
    certified = b"".join(certificate()).replace(b"]", b' SIGN="AAAA"]')
    announced = b"".join(announcing(b"a")).replace(b"]", b' SIGN="AAAA"]')
    kinds = [announced + certified[len(HEAD):], announced + b"[ssign-cert]", announced.replace(b"0111", b"0112"),
             certified.replace(b'INDEX="1"', b'INDEX="0"'), announced.replace(b'CNT="1"', b'CNT="2"'),
             announced.replace(b'HB="', b'HB="A'), announced.replace(b"AAAA", b"AAA"),
             certified.replace(b'INDEX="1"', b'INDEX="2"'),
             announced.replace(b'FMN="1"', b'FMN="%d"' % LAST).replace(b'CNT="1"', b'CNT="2"').replace(
                 b'HB="', b'HB="' + sha1_of(b"a") + b" ")]
    made.put(*(kinds[i % 9] for i in range(n)))
    made.say("inspect", 0, {"spoilt": n, "end": 1})
    return made.review(1, spoilt=n)


def shortest(n):
    """Messages of one octet."""
    made = Input()
    made.put(*[b"a", b"b"] * (n // 2))
    made.say("inspect", 0, {"unparsed": n, "end": 1})
    made.say("extract", 1, 0)
    made.say("extract --unlisted", 1, n)
    made.say("extract --unlisted --unwrap", 1, n)
    made.say("carry", 0, n)
    made.say("counters", 0, {"end": 1})
    made.whole(1, unlisted=n)
    made.tally(1)
    made.none_listed(0, 0, unlisted=n)
    return made.review(1, unlisted=n)


# ---- logs that are damaged, which are read with --salvage

SHORT = frame(b"<13>1 a")


def damaged(octets, *options, torn=0, stretches=1, unparsed=0, plain=0):
    """A log of which so much is read."""
    made = Input(*options, answered=False)
    made.octets = octets
    lines = {"damaged": stretches, "torn": torn, "end": 1}
    for command, words in (("inspect --salvage", {"unparsed": unparsed, "plain": plain}),
                           ("review --salvage", {"unlisted": unparsed + plain})):
        made.say(command, 1, {word: count for word, count in {**words, **lines}.items() if count})
    return made


def damaged_digits(n):
    return damaged(b"1" * n)


def damaged_openings(n):
    """The front of a frame again and again."""
    return damaged(b"X" + b"1 <" * n)


def damaged_lengths(n):
    """Frames that all reach over thousands of the others, each up to the front of one. The last one has none in it."""
    count = 2730
    return damaged(b"X" + b"%d <13>1 " % (12 * count - 6) * n, unparsed=1)


def damaged_brackets(n):
    return damaged(b"<" * n)


def damaged_nuls(n):
    return damaged(SHORT + bytes(n) + SHORT, unparsed=2)


def damaged_dolls(n):
    """A frame in the text of a frame in the text of a frame, and all end where the log does."""
    parts = []
    # of each message the octets before those of the next one; the end of a length is none of another frame here
    for size in range(20, 20 * n, 20):
        parts.append((b" %d " % size).rjust(14, b"x"))
    return damaged(b"X%d " % (20 * n) + b"".join(b"<13>1 " + it for it in [*reversed(parts), b"x" * 14]), *LONG_LINES, unparsed=1)


def damaged_often(n):
    """An octet between every two messages and the next two."""
    return damaged((b"X" + SHORT + SHORT) * n, stretches=n, unparsed=2 * n)


def damaged_often_long(n):
    """The same, if messages may be long."""
    made = damaged_often(n)
    made.options += LONG_LINES
    return made


def damaged_chain(n):
    """A sender's own messages, whose texts nest frames that reach over those of others up to its next one."""
    front, head = b"<13>1 - h s - - - own ", b"<13>1 - h s - - - "
    block = b"".join(frame(message(it, 70)) for it in range(10))
    texts = [front]
    for _ in range(n // 10):
        follows = len(frame(texts[0])) - len(texts[0]) + len(front)
        texts.append(front + b"%d %s" % (len(head) + len(block) + follows, head))
        texts[0] = texts[-1]
    return damaged(b"X" + block.join(map(frame, [*texts[:0:-1], front])), stretches=n // 10, plain=n + 1)


def damaged_torn(n):
    """A log that breaks off in its first frame, and has the fronts of others in it."""
    return damaged(b"60000 <13>1 " + b"1 <" * n, stretches=0, torn=1)


# ---- messages in wraps

def wrapping(original):
    return b"<13>1 - h s - wrapped - |" + original


def wraps(n):
    """Wraps of wraps, and of texts that aren't messages."""
    made = Input()
    made.put(*(wrapping(wrapping(number(i)) if i % 2 else number(i)) for i in range(n)))
    made.say("extract --unlisted --unwrap", 1, n)
    made.say("inspect", 0, {"plain": n, "end": 1})
    made.say("inspect --unwrap", 0, {"wrapped-plain": n // 2, "wrapped-unparsed": n - n // 2, "end": 1})
    return made.review(1, unlisted=n)


def long_wrap(n):
    """One wrap of a long message."""
    made = one(wrapping(b"<13>1 - - - - - - " + b"x" * n), "plain")
    made.say("extract --unlisted --unwrap", 1, 1)
    return made.say("inspect --unwrap", 0, {"wrapped-plain": 1, "end": 1})


# ---- one long message

def one(text, kind, *options):
    """A log of one message, of which `inspect` says `kind`."""
    made = Input(*LONG_LINES, *options)
    made.put(text)
    made.say("inspect", 0, {kind: 1, "end": 1})
    return made.review(1, **{"spoilt" if kind == "spoilt" else "unlisted": 1})


def long_text(n):
    return one(b"<13>1 - - - - - - " + b"x" * n, "plain")


def no_text(n):
    return one(b"x" * n, "unparsed")


def openings(n):
    """The beginning of a block's element again and again."""
    return one(b"<13>1 - - - - - - " + b"[ssig" * n, "plain")


def elements(n):
    return one(b"<13>1 - - - - - " + b"".join(b"[%x]" % (i * 7919 % (1 << 20)) for i in range(n)) + PARSED, "spoilt")


def elements_alike(n):
    """Elements whose SD-IDs differ at their ends alone, and the last of which stood first."""
    ids = [b"[" + b"a" * 20 + b"%06x]" % i for i in range(n)]
    return one(b"<13>1 - - - - - " + b"".join(ids) + PARSED + ids[0], "unparsed")


def parameters(n):
    return one(b"<13>1 - - - - - [ssign" + b' a=""' * n + b"]", "spoilt")


def escapes(n):
    return one(b'<13>1 - - - - - [x a="' + b"\\]" * n + b'"]' + PARSED, "spoilt")


def values(n):
    """A long value of UTF-8, which is wrong at its end."""
    return one(b'<13>1 - - - - - [x a="' + b"\xc3\xa9" * n + b'\xc3"]' + PARSED, "unparsed")


def pieces(n):
    """As many hashes in a block that states one."""
    front, back = signature(1, [sha1_of(b"a")] * n)
    text = front.replace(b'CNT="%d"' % n, b'CNT="1"') + b' SIGN="AAAA"' + back
    return one(text, "spoilt")


def beside(n):
    """A block beside as many elements, each of which has a SIGN."""
    made = Input(*LONG_LINES)
    made.put_block(certificate())
    front, back = announcing(b"a")
    made.put_block((front, back + b"".join(b'[%x SIGN="AAAA"]' % i for i in range(n))))
    made.say("questions", 0, {"trust?": 1, "yes?": 2})
    return made.review(1, session=1, gap=1)


def long_sign(n):
    """A block with a long signature."""
    made = Input(*LONG_LINES)
    made.put_block(certificate(), sign=b64(b"x" * n))
    made.say("questions", 0, {"trust?": 1, "yes?": 1})
    return made.review(0, session=1)


# ---- logs that are planned and signed

def sending(n, wants, *options, payload=PAYLOAD, pri=13, text=message):
    """Messages that are sent, with `wants` blocks, and seals for them that tests/cost.py makes of the plan."""
    made = Input("--rsid", "7", "--payload=" + payload.decode(), *options, answered=False)
    for i in range(n):
        made.put(text(i, 70).replace(b"<13>", b"<%d>" % (i * 7919 % 192 if pri == "each" else pri), 1))
    made.say("plan", 0, {"want": wants})
    made.keep(0, names=b"- - -")
    made.ahead(min(n, 192 if pri == "each" else 1))
    times = int(options[options.index("--copies") + 1]) if "--copies" in options else 1
    return made.say("sign", 0, n + wants * times)


def sent(n):
    return sending(n, 1 + n // 10)


def sent_one_by_one(n):
    return sending(n, 1 + n, "--count", "1")


def sent_equal(n):
    return sending(n, 1 + n // 10, text=lambda i, octets: message(1, octets))


def sent_in_groups(n):
    """192 groups."""
    return sending(n, 1 + 192 * -(-n // 192 // 10), "--groups", "pri", pri="each")


def sent_in_ranges(n):
    return sending(n, 1 + 192 * -(-n // 192 // 10), "--groups", ",".join(map(str, range(192))), pri="each")


def sent_often(n):
    return sending(n, 1 + n // 10, "--copies", "9")


def sent_wrapped(n):
    """Messages of another version, each in a wrap."""
    return sending(n, 1 + n // 10, "--wrap", text=lambda i, octets: message(i, octets).replace(b">1 ", b">2 ", 1))


def sent_wrapped_long(n):
    """Messages of many elements, of which the last is a block's, each in a wrap."""
    elements = b"".join(b"[%05d]" % i for i in range(n // 8)) + b"[ssign]"
    return sending(10, 2, "--wrap", text=lambda i, octets: b"<13>1 - - - - - " + elements)


def sent_payload(n):
    """A payload in fragments of one octet."""
    return sending(10, n + 4 + 1, "--frag", "1", payload=b"- U " + b64(b"x" * (3 * n // 4)))


def sent_on(n):
    """Counters at which an originator goes on: many of its session, and of others, that count the same."""
    made = sending(10, 2)
    for i in range(n):
        made.keep(1 + i * 4241 % n, names=b"- - -", group=(0, 0))
        made.keep(i * 4241 % n, names=b"- - -")
        made.keep(9, rsid=i, names=b"h - -")
    return made


def sent_on_in_groups(n):
    """Many counters of each of 192 groups, in falling order."""
    made = sending(192, 193, "--groups", "pri", pri="each")
    for i in reversed(range(n)):
        made.keep(1 + i * 4241 % n, names=b"- - -", group=(1, i % 192))
    return made


# ---- answers

def field(i, octets):
    """A field of so many octets, in base64: spread, so that the file isn't in order already."""
    return b64((i * 0x9E3779B97F4A7C15 % 2**64 % 2 ** (8 * octets)).to_bytes(octets, "big"))


def asked(lines, status=0):
    """A log of one block, and lines of answers behind its own."""
    made = Input()
    made.put_block(certificate())
    made.answers += lines
    if status == 2:
        return made.say("review", 2, {})
    return made.review(status, session=1)


def yes_lines(n):
    return asked(b"yes AAAA %s AAAA" % field(i, 8) for i in range(n))


def yes_rising(n):
    return asked(b"yes AAAA %s AAAA" % b64(i.to_bytes(3, "big")) for i in range(n))


def yes_falling(n):
    return asked(b"yes AAAA %s AAAA" % b64(i.to_bytes(3, "big")) for i in reversed(range(n)))


def yes_equal(n):
    return asked([b"yes AAAA AAAA AAAA"] * n)


def yes_alike(n):
    """Two payloads of 300 octets in turn, and octets and signatures that begin alike."""
    payloads = [b64(octet * 300) for octet in (b"a", b"b")]
    return asked(b"yes %s %s %s" % (payloads[i % 2], field(i, 170), field(i, 48)) for i in range(n))


def trust_lines(n):
    return asked(b"trust " + field(i, 8) for i in range(n))


def trust_equal(n):
    return asked([b"trust AAAA"] * n)


def long_line(n):
    return asked([b"yes AAAA AAAA " + b64(b"x" * n)])


def bad_line(n):
    return asked([b"trust AAAA"] * n + [b"trust"], 2)


def seals_beside(n):
    return asked(b"seal AAAA " + field(i, 3) for i in range(n))


def sealing(lines):
    """One block that is sealed, and lines of answers in front of its own."""
    made = sending(0, 1)
    made.answers += lines
    return made


def seals(n):
    return sealing(b"seal %s AAAA" % field(i, 8) for i in range(n))


def seals_alike(n):
    return sealing(b"seal %s AAAA" % field(i, 300) for i in range(n))


def seals_equal(n):
    return sealing(b"seal AAAA " + field(i, 3) for i in range(n))
