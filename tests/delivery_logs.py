"""Originators that follow one another, by a seed, and logs that deliver from them.

`scripts(seed)` gives the lines for the program `tool_originated` of a session and of another one, and
`deliver(seed, chain, other)` a log of what both sent.
"""
import random

from delivery_model import Delivery
from review_model import reading

PAYLOADS = [b"2009-05-03T14:00:39Z K S0VZ", b"- N", b"- U AA=="]
HEADS = ["h s - -", "h s - m", "- - - -", "host app 17 -"]
TEXTS = [b"1 - - - - - - a", b"1 - - - - - - b", b"1 - - - - - - "]
OTHER_TEXTS = [b"1 - - - - - - x", b"1 - - - - - - y"]
STRAY = [b"abc", b"<13>1 - - - - - - z", b"<192>1 - - - - - -", b""]
REFUSED = [b"abc", b"<13>1 - - - - - [ssign]"]


class Maker:
    def __init__(self, seed):
        self.chance = random.Random(seed)

    def groups(self):
        """A grouping and PRIs to take for it."""
        kind = self.chance.randrange(4)
        if kind == 0:
            return "one:%d" % self.chance.choice([0, 13, 191]), [13, 14]
        if kind == 1:
            return self.chance.choice(["ranges:13,191", "ranges:0,12,14,191", "ranges:191"]), [0, 13, 14, 191]
        return "pri", [13, 14]

    def config(self, rsid, head):
        groups, self.pris = self.groups()
        words = [self.chance.choice([110, 13]), head, self.chance.choice(["0111", "0121"]), rsid, groups, self.chance.choice([1, 1, 2, 2, 3, 4, 9]),
                 self.chance.choice([1, 1, 1, 2, 3, 9]), self.chance.choice([1, 3, 7, 20, 500]), self.chance.choice(PAYLOADS).hex()]
        return "config " + " ".join(map(str, words))

    def stamp(self):
        return self.chance.choice(["-", "-", "2009-05-03T14:00:39Z"])

    def signer(self):
        return "999 s" if self.chance.random() < 0.9 else "%d %s" % (self.chance.randrange(3), self.chance.choice("rm0l"))

    def call(self, texts):
        kind = self.chance.random()
        if kind < 0.15:
            return "flush %s %s" % (self.stamp(), self.signer())
        if kind < 0.18:
            return "begin %s %s" % (self.stamp(), self.signer())
        text = b"<%d>" % self.chance.choice(self.pris) + self.chance.choice(texts) if kind < 0.95 else self.chance.choice(REFUSED)
        return "submit %s %s %s" % (self.stamp(), self.signer(), text.hex())

    def script(self, rsid, head, texts):
        lines = [self.config(rsid, head), "new"]
        if self.chance.random() < 0.95:
            lines.append("begin %s 999 s" % self.stamp())
        lines += [self.call(texts) for _ in range(self.chance.randrange(1, 12))]
        for _ in range(self.chance.choice([0, 0, 1, 1, 2, 3])):
            # a flush in front leaves nothing pending
            lines += ["flush - 999 s"] * (self.chance.random() < 0.6) + ["behind"]
            lines += [self.call(texts) for _ in range(self.chance.randrange(0, 8))]
        return lines + ["flush - 999 s"] * (self.chance.random() < 0.7)


def scripts(seed):
    maker = Maker(seed)
    rsid, head = maker.chance.choice([0, 1, 9_999_999_999]), maker.chance.choice(HEADS)
    other = (rsid, "other " + head.split(" ", 1)[1]) if maker.chance.random() < 0.5 else (rsid - 1 if rsid else 2, head)
    return maker.script(rsid, head, TEXTS), maker.script(*other, OTHER_TEXTS)


# ---- deliveries

def harmed(chance, block):
    """A block with another version, or one without its last parameter: spoilt."""
    if chance.random() < 0.5:
        return block.replace(b'VER="01', b'VER="02')
    return block[:block.rindex(b" SIGN=")] + b"]"


def some(chance, messages):
    """Each of the messages lost, once or more often."""
    odds = chance.choice([0.1, 0.5, 0.9, 1])
    return [text for text in messages if chance.random() < odds for _ in range(chance.choice([1, 1, 1, 2]))]


def is_whole(chance, chain):
    return chance.random() < 0.3 and chain.begun and chain.nothing_pending()


def deliver(seed, chain, other):
    """A log, and whether it has all that was sent, each message as often, and nothing else."""
    chance = random.Random("delivery %d" % seed)
    blocks = chain.sent_blocks()
    whole = is_whole(chance, chain)
    if whole:
        log = chain.submitted() + blocks + some(chance, blocks)
    else:
        fragments = chain.fragments if chance.random() < 0.7 else some(chance, chain.fragments)
        log = some(chance, chain.submitted()) + fragments + some(chance, list(chain.blocks))
        log += some(chance, other.submitted()) + some(chance, other.sent_blocks()) if chance.random() < 0.5 else []
        log += [harmed(chance, chance.choice(blocks + other.sent_blocks())) for _ in range(chance.choice([0, 0, 1, 2])) if blocks]
        log += [chance.choice(STRAY + chain.submitted()) for _ in range(chance.choice([0, 0, 1, 3]))]
        log = [text for text in log if text]
    if chance.random() < 0.8:
        chance.shuffle(log)
    return Delivery(log, {text for text in log if reading(0, text) is None}), whole
