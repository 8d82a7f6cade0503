"""Logs by a seed into which strangers wrote, with the payloads that are known beforehand.

`make(seed)` gives an `Attack`. Strangers add certificate blocks of the sessions that are there, other blocks, copies and
texts; they have keys of their own, of which the reviewer trusts some. Nothing that was there before goes.
"""
import base64
import typing

from review_logs import APPS, GROUPS, HOSTS, LAST, NEVER_STORED, NO_PAYLOADS, PAYLOADS, PROCIDS, RSIDS, Maker

# messages without a block, of which no two have one SHA-1
TEXTS = [b"abc", b"<13>1 - - - - - - a", b"<14>1 - - - - - - b", b"<13>1 - - - - - - a ", b"[ssign]", b"\xff\x00\n",
         b"<13>1 - - - - - - [ssign-cert]"]
STRANGERS = [b"stranger", b"<13>1 - - - - - - stranger", b"abc"]


class Attack(typing.NamedTuple):
    """A log with and without what strangers wrote, and what its reviewer answers and knows."""

    own: typing.List[bytes]
    messages: typing.List[bytes]
    trusted: typing.Set[bytes]
    valid: typing.Set[typing.Tuple[bytes, bytes, bytes]]
    known: typing.List[bytes]


class Attacker(Maker):
    """A maker of such logs."""

    def __init__(self, seed):
        super().__init__(seed)
        self.trusted, self.valid, self.known = set(), set(), set()

    def sign(self, payload, blocks, odds=1.0):
        """Has most of these blocks valid under a payload."""
        self.valid.update((payload, it.signed, base64.b64decode(it.sign)) for it in blocks if self.chance.random() < odds)
        return [it.text for it in blocks]

    # ---- what is there before

    def session(self):
        """A session that is signed, its payload and its messages."""
        chance = self.chance
        session = (chance.choice(HOSTS), chance.choice(APPS), chance.choice(PROCIDS), chance.choice(RSIDS))
        payload = chance.choice(PAYLOADS)
        texts = [chance.choice(TEXTS) for _ in range(chance.choice([1, 2, 3]))]
        told = texts + ([chance.choice(NEVER_STORED)] if chance.random() < 0.2 else [])
        certificates = [self.certificate(session, len(payload), *it) for it in self.fragments(payload)]
        signatures = self.story(session, told) if chance.random() < 0.5 else self.signatures(session, told)
        if chance.random() < 0.9:
            self.trusted.add(payload)
        odds = chance.choice([1, 1, 1, 0.8, 0])
        messages = self.sign(payload, certificates, 1 if chance.random() < 0.8 else odds) + self.sign(payload, signatures, odds)
        messages += [text for text in texts for _ in range(chance.choice([0, 1, 1, 1, 2]))]
        return session, payload, messages

    # ---- what strangers write

    def fragment(self, payload):
        """The index and the octets of a fragment that stands in a payload."""
        start = self.chance.randrange(len(payload))
        return start + 1, payload[start:start + self.chance.randint(1, len(payload) - start)]

    def strange(self, session, payload):
        """Messages of one stranger about one session, whose payload this is."""
        chance = self.chance
        index, octets = self.fragment(payload)
        other = chance.choice(PAYLOADS)
        kind = chance.randrange(11)
        if kind == 0:
            at = chance.randrange(len(octets))
            octets = octets[:at] + chance.choice([b"x", b'"', b"]"]) + octets[at + 1:]
            return self.certificates_of(session, [(len(payload), index, octets)])
        if kind == 1:
            total = chance.choice([index + len(octets) - 1, len(payload) + 1, 99999999])
            return self.certificates_of(session, [(total, index, octets)])
        if kind == 2:
            return self.certificates_of(session, [(len(payload), *self.fragment(payload)) for _ in range(3)])
        if kind == 3:
            # a payload of somebody else, valid or not, who may be known
            if chance.random() < 0.4:
                self.known.add(other)
                self.trusted.add(other)
            blocks = [self.certificate(session, len(other), *it) for it in self.fragments(other)]
            return self.sign(other, blocks, chance.choice([0, 0.5, 1]))
        if kind == 4:
            # a block of before, of the key of this session or of another one
            return self.sign(chance.choice([payload, other]), [self.certificate(session, len(payload), index, octets)])
        if kind == 5:
            # valid under this payload, but it doesn't stand in it
            block = self.certificate(session, chance.choice([len(payload), len(payload) + 1]), 1, b"%d" % chance.randrange(9))
            return self.sign(payload, [block])
        if kind == 6:
            # a signature block that is valid under no payload
            return [self.signature(session, chance.choice(GROUPS), chance.choice([1, 2, LAST]), [chance.choice(TEXTS)]).text]
        if kind == 7:
            host, app, procid, rsid = session
            elsewhere = (host, app, procid, rsid + 1) if rsid != 9999999999 else (host + b"x", app, procid, rsid)
            return self.sign(payload, [self.certificate(elsewhere, len(payload), 1, payload)], 0.5)
        if kind == 8:
            return [self.spoilt(session, TEXTS)]
        if kind == 9:
            # stated by many, valid under another payload alone
            blocks = [self.certificate(session, len(payload), *self.fragment(payload)) for _ in range(2)]
            return self.sign(other, blocks)
        return [chance.choice(STRANGERS)]

    def certificates_of(self, session, pieces):
        """Certificate blocks that nobody signed."""
        return [self.certificate(session, *it).text for it in pieces]

    # ---- the whole

    def attack(self):
        """A log, and the same with strangers' messages between its own."""
        chance = self.chance
        sessions = [self.session() for _ in range(chance.choice([1, 1, 1, 2, 2, 3]))]
        own = [it for _, _, messages in sessions for it in messages]
        if chance.random() < 0.5:
            chance.shuffle(own)
        whole = list(own)
        for _ in range(chance.choice([0, 1, 1, 2, 3, 6])):
            session, payload, _ = chance.choice(sessions)
            for it in self.strange(session, payload) if chance.random() < 0.9 else [chance.choice(own)] if own else []:
                whole.insert(chance.randint(0, len(whole)), it)
        known = self.known | {payload for _, payload, _ in sessions if chance.random() < 0.9}
        known.update(chance.choice(it) for it in (PAYLOADS, NO_PAYLOADS) if chance.random() < 0.3)
        if chance.random() < 0.5:
            self.trusted.add(chance.choice(PAYLOADS))
        return Attack(own, whole, self.trusted, self.valid, chance.sample(sorted(known), len(known)))


def make(seed):
    return Attacker(seed).attack()
