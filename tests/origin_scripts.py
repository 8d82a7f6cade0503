"""Scripts of calls to an originator by a seed, made so that the ends of each range and each refusal meet often.

`make(seed)` gives the lines of a script, in the form of the program `tool_originated`.
"""
import random

SPENT = 10_000_000_000
PAYLOADS = [b"2009-05-03T14:00:39Z K S0VZ", b"2009-05-03T14:00:39Z K S0VZ", b"- N", b"- N ", b"- U AA==", b"2000-02-29T23:59:59.5-00:00 P AAAA"]
LONG_PAYLOADS = [b"- C " + b"AAAA" * 100, b"- P " + b"S0VZ" * 2_499 + b"+/8=", b"- U " + b"S0VZ" * 2_500]
STAMPS = ["-", "-", "2009-05-03T14:00:39Z", "2009-05-03T14:00:39.5+01:00", "0000-02-29T23:59:59.000000-00:00"]
HEADS = ["h s - -", "h s - -", "- - - -", "host app 17 m", "-- ! ~ =\"]", "h" * 255 + " " + "a" * 48 + " " + "p" * 128 + " " + "m" * 32]

# what stands after the PRI of a message that is accepted
ACCEPTED = [b"1 - - - - - - a", b"1 - - - - - - b", b"1 - - - - - -", b"1 - - - - - - ", b"1 2009-05-03T14:00:39Z h s 1 m [x@1 a=\"\\]\"] \xff\x00\n",
            b"1 - - - - - [ssignx a=\"b\"]", b"1 - - - - - [x@1 ssign=\"[ssign]\"]", b"1 - - - - - - [ssign-cert]", b"1 - - - - - [Ssign][ssign-cer]",
            b"1 - - - - - - " + b"long " * 500]
NO_MESSAGES = [b"", b"abc", b"<13>", b"<192>1 - - - - - -", b"<013>1 - - - - - -", b"<13>2 - - - - - -", b"<13>1 - - - - -", b"<13>1 - - - - - -x",
               b"<13>1 - - - - - [ssign", b"<13>1 - - - - - [ssign][ssign]", b"<13>1 - - - - - - \xef\xbb\xbf\xff", b"<13>1 2023-02-29T00:00:00Z - - - - -",
               b"<13>1 - - - - - [a b=\"]\"]", b"1 - - - - - -"]
BLOCKS = [b"<13>1 - - - - - [ssign]", b"<14>1 - - - - - [x@1][ssign-cert a=\"b\"]", b"<13>1 - - - - - [ssign][ssign-cert] m",
          b"<110>1 - h s - - [ssign VER=\"0111\" RSID=\"1\" SG=\"0\" SPRI=\"0\" GBC=\"0\" FMN=\"1\" CNT=\"1\" HB=\"qZk+NkcGgWq6PiVxeFDCbJzQ2J0=\" SIGN=\"AAAA\"]"]


class Maker:
    def __init__(self, seed):
        self.chance = random.Random(seed)

    def often(self, usual, others, odds):
        return usual if self.chance.random() < odds else self.chance.choice(others)

    # ---- configurations

    def bounds(self):
        bounds = sorted(self.chance.sample(range(191), self.chance.choice([0, 1, 2, 3, 10, 191]))) + [191]
        return "ranges:" + ",".join(map(str, bounds)), bounds

    def groups(self):
        """A grouping, PRIs to take for it, and the SPRIs that it has."""
        kind = self.chance.randrange(3)
        if kind == 0:
            spri = self.chance.choice([0, 1, 110, 191])
            return "one:%d" % spri, [0, 13, 191], [spri]
        if kind == 1:
            return "pri", self.chance.choice([[13, 14], [13], [0, 1, 190, 191], range(192)]), list(range(192))
        text, bounds = self.bounds()
        near = {pri for bound in self.chance.sample(bounds, min(3, len(bounds))) for pri in (bound, bound + 1) if pri <= 191}
        return text, sorted(near | {0}), bounds

    def config(self, per_block):
        groups, self.pris, self.spris = self.groups()
        payload, frag = self.chance.choice(PAYLOADS), self.often(20, [1, 2, 7, 26, 27, 28, 500, 9_999], 0.5)
        if self.chance.random() < 0.02:
            payload, frag = self.chance.choice(LONG_PAYLOADS), self.chance.choice([500, 9_999])
        self.words = {
            "pri": self.often(110, [0, 13, 14, 191], 0.6), "head": self.often(HEADS[0], HEADS, 0.6), "ver": self.often("0111", ["0121"], 0.6),
            "rsid": self.often(1, [0, 9_999_999_999], 0.8), "groups": groups, "per_block": per_block,
            "copies": self.often(1, range(2, 10), 0.7), "frag": frag, "payload": payload.hex()}
        return self.line()

    def line(self, **others):
        return "config " + " ".join(str(word) for word in {**self.words, **others}.values())

    def unfit(self):
        """The configuration with one value out of its range."""
        return self.line(**self.chance.choice([
            {"rsid": SPENT}, {"rsid": 2 ** 64 - 1}, {"per_block": 0}, {"per_block": 100}, {"per_block": 255}, {"copies": 0}, {"copies": 10},
            {"copies": 255}, {"frag": 0}, {"frag": 10_000}, {"frag": 65_535}, {"groups": "one:192"}, {"groups": "one:255"}, {"groups": "ranges:"},
            {"groups": "ranges:190"}, {"groups": "ranges:13,13,191"}, {"groups": "ranges:14,13,191"}, {"groups": "ranges:191,191"},
            {"groups": "ranges:0,192"}, {"groups": "ranges:13,191,192"}]))

    def resume(self):
        gbc = self.chance.choice([0, 1, 17, SPENT - 3, SPENT - 2, SPENT - 1, SPENT])
        spris = self.spris + [spri for spri in (13, 14) if spri in self.spris]
        count = min(len(self.spris), self.chance.choice([0, 1, 2, 2, 3]))
        groups = [(spri, self.chance.choice([1, 2, 13, SPENT - 3, SPENT - 2, SPENT - 1, SPENT])) for spri in sorted(set(self.chance.choices(spris, k=count)))]
        if self.chance.random() < 0.25:
            gbc, groups = self.unfit_counters(gbc, groups)
        return " ".join(["resume %d" % gbc, *("%d:%d" % group for group in groups)])

    def unfit_counters(self, gbc, groups):
        spri, others = self.chance.choice(self.spris), [it for it in range(256) if it not in self.spris]
        return self.chance.choice([
            (SPENT + 1, groups), (2 ** 64 - 1, groups), (gbc, [(spri, 0)]), (gbc, [(spri, SPENT + 1)]), (gbc, [(spri, 2 ** 64 - 1)]),
            (gbc, [(spri, 1), (spri, 1)]), (gbc, [(self.spris[-1], 1), (self.spris[0], 1)]), (gbc, [(self.chance.choice(others), 1)]),
            (gbc, [*groups, (self.chance.choice(others), 5)])])

    # ---- calls

    def signer(self):
        if self.chance.random() < 0.75:
            return "9 s"
        return "%d %s" % (self.chance.choice([0, 0, 1, 2]), self.chance.choice("01sklrm"))

    def call(self, name, message=None):
        words = [name, self.chance.choice(STAMPS), self.signer()]
        return " ".join(words if message is None else [*words, message.hex()])

    def message(self):
        if self.chance.random() < 0.9:
            return b"<%d>" % self.chance.choice(self.pris) + self.often(ACCEPTED[0], ACCEPTED, 0.5)
        return self.chance.choice(NO_MESSAGES if self.chance.random() < 0.6 else BLOCKS)

    def any_call(self, flushes):
        kind = self.chance.random()
        if kind < 0.03:
            return self.call("begin")
        if kind < 0.03 + flushes:
            return self.call("flush")
        return self.call("submit", self.message())

    def calls(self, count, flushes):
        for _ in range(count):
            call = self.any_call(flushes)
            yield call
            # again, mostly with a sealer that signs
            if not call.endswith(" 9 s") and self.chance.random() < 0.2:
                words = call.split(" ")
                yield " ".join([*words[:2], "9 s", *words[4:]])

    def start(self):
        return "new" if self.chance.random() < 0.7 else self.resume()

    def script(self):
        kind = self.chance.random()
        if kind < 0.02:
            return self.many()
        lines = [self.config(self.often(self.chance.choice([1, 2, 3]), [4, 5, 7], 0.9))]
        if kind < 0.08:
            lines += [self.unfit(), self.start(), self.line()]
        lines += [self.start()] if self.chance.random() < 0.97 else []
        if self.chance.random() < 0.05:
            lines += self.calls(1, 0.4)
        lines += [self.call("begin")] if self.chance.random() < 0.97 else []
        lines += self.calls(self.chance.randrange(4, 16), 0.2)
        while self.chance.random() < 0.2:
            lines += [self.chance.choice(["behind", "behind", self.start()]), *self.calls(self.chance.randrange(2, 6), 0.2)]
        return lines

    def many(self):
        """More messages, for blocks of up to 99 hashes."""
        lines = [self.config(self.often(99, range(8, 99), 0.3))]
        self.pris = self.pris[:2]
        return [*lines, "new", self.call("begin"), *self.calls(self.chance.randrange(60, 230), 0.004)]


def make(seed):
    return Maker(seed).script()
