"""Logs by a seed whose GBC rise in each session, most of the time, or are few or great: `make(seed)` gives what that of
review_logs.py does. One in four is of originators, and some of its blocks were lost, most often with their messages.
"""
import base64
import collections

from review_logs import GROUPS, HOSTS, LAST, PAYLOADS, Maker


class Counting(Maker):
    """A maker of such logs."""

    def __init__(self, seed):
        super().__init__(seed)
        self.sent, self.is_honest = collections.Counter(), seed % 4 == 0

    def counter(self, session):
        kind = self.chance.random()
        if self.is_honest or kind < 0.7:
            self.sent[session] += 1
            return self.sent[session] - 1
        if kind < 0.9:
            return self.chance.randint(0, 8)
        return self.chance.choice([LAST, LAST - 1, LAST - 2, 9, 10, 99, 4294967295, 4294967296])

    def block(self, session, sd_id, parameters):
        parameters = [(name, self.counter(session) if name == "GBC" else value) for name, value in parameters]
        return super().block(session, sd_id, parameters)

    def make(self):
        return self.make_honest() if self.is_honest else super().make()

    def make_honest(self):
        """A log of originators. All signatures are valid."""
        chance, messages, blocks = self.chance, [], []
        payload = chance.choice(PAYLOADS)
        for rsid in range(chance.choice([1, 1, 2])):
            session, numbers = (chance.choice(HOSTS), b"s", b"-", rsid), collections.Counter()
            blocks.append(self.certificate(session, len(payload), 1, payload))
            messages.append(blocks[-1].text)
            for _ in range(chance.randint(0, 6)):
                group = chance.choice(GROUPS)
                texts = [b"<13>1 - - - - - - %d" % chance.getrandbits(64) for _ in range(chance.randint(1, 3))]
                block = self.signature(session, group, numbers[group] + 1, texts)
                numbers[group] += len(texts)
                blocks.append(block)
                kind = chance.random()
                if kind > 0.25:
                    messages += [*texts, *[block.text] * chance.choice([1, 1, 2])]
                elif kind > 0.22:
                    messages += texts
        return messages, {payload}, {(payload, it.signed, base64.b64decode(it.sign)) for it in blocks}


def make(seed):
    return Counting(seed).make()
