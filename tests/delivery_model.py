"""What a review has to say of a log that delivers from the originators of one session: the law of the two ends, in plain Python.

A `Chain` holds what originators that follow one another were given and what they sent, a `Delivery` a log of some of it among
other messages, and `said` the part of its report that the law decides. Nothing of a review is in here: no block of the log is
looked for a hash, and no message of it for its bearer. What is announced follows from which of the sent blocks arrived, and
what is listed from how many of the messages with a text did.
"""
import base64
import re

SIGNATURE = re.compile(rb' SPRI="(\d+)" GBC="\d+" FMN="(\d+)" CNT="(\d+)" HB="[^"]+" SIGN="[^"]+"\]$')
SIGN = re.compile(rb' SIGN="([^"]+)"\]$')


def signed(block):
    """The octets of a sent block message that are signed, and the signature."""
    sign = SIGN.search(block)
    return block[:sign.start()] + b"]", base64.b64decode(sign.group(1))


class Chain:
    """The session as a report tells it, the SG of its groups, and the payload; then what was accepted and sent."""

    def __init__(self, session, sg, payload):
        self.session, self.sg, self.payload = session, sg, payload
        self.begun = False
        self.fragments = []
        # of each SPRI the messages in order: number n is the nth
        self.given = {}
        # the block messages after the fragments, each once: SPRI, first number, and how many
        self.blocks = {}

    def begin(self, sent):
        self.begun = True
        self.fragments += sent

    def submit(self, spri, message, sent):
        self.given.setdefault(spri, []).append(message)
        self.flush(sent)

    def flush(self, sent):
        for block in sent:
            spri, first, count = map(int, SIGNATURE.search(block).groups())
            self.blocks[block] = (spri, first, count)

    def sent_blocks(self):
        """Each block message that was sent, once."""
        return list(dict.fromkeys([*self.fragments, *self.blocks]))

    def submitted(self):
        return [message for messages in self.given.values() for message in messages]

    def numbers(self, blocks):
        """The SPRI and number of each message that one of these blocks covers, in order."""
        covered = {(spri, number) for spri, first, count in blocks for number in range(first, first + count)}
        return sorted(covered)

    def nothing_pending(self):
        return self.numbers(self.blocks.values()) == [(spri, number + 1) for spri in sorted(self.given) for number in range(len(self.given[spri]))]


class Delivery:
    """A log, of which the messages without a block are told by `normal`."""

    def __init__(self, log, normal):
        self.log, self.normal = log, normal


def holes(last, number):
    return ["hole %d %d" % (last + 1, number - 1)] if last + 1 < number else []


def listed(chain, delivery, numbers):
    """The place of each announced number that is listed. Its rank is how many smaller announced numbers have a message with
    its text; it is listed where that is below the number of places with the text, and then with the place of that rank."""
    places = {}
    for place, text in enumerate(delivery.log):
        if text in delivery.normal:
            places.setdefault(text, []).append(place)
    ranks, found = {}, {}
    for spri, number in numbers:
        text = chain.given[spri][number - 1]
        rank = ranks.get(text, 0)
        ranks[text] = rank + 1
        if rank < len(places.get(text, [])):
            found[spri, number] = places[text][rank]
    return found


def entries(chain, numbers, found):
    """The lines of the session's groups."""
    lines, last = [], {}
    for spri, number in numbers:
        if spri not in last:
            lines.append("group %d %d" % (chain.sg, spri))
        lines += holes(last.get(spri, 0), number)
        lines.append("listed %d %d" % (number, found[spri, number]) if (spri, number) in found else "gap %d lost" % number)
        last[spri] = number
    return lines


def said(chain, delivery):
    """What the report says of the session: its own lines, those of its blocks that are refused, and the places of the chain's
    messages that are unlisted."""
    blocks = set(chain.sent_blocks())
    own = [place for place, text in enumerate(delivery.log) if text in blocks]
    arrived = set(delivery.log)
    joined = chain.begun and all(fragment in arrived for fragment in chain.fragments)
    numbers = chain.numbers([chain.blocks[text] for text in chain.blocks if text in arrived]) if joined else []
    found = listed(chain, delivery, numbers)
    taken, submitted = set(found.values()), set(chain.submitted())
    lines = ["session %s %s" % (chain.session, "joined" if joined else "incomplete")] if own else []
    lines += entries(chain, numbers, found)
    lines += ["unlisted %d" % place for place, text in enumerate(delivery.log) if text in submitted and place not in taken]
    return lines + ["refused %d" % place for place in own if not joined]
