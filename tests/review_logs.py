"""Logs by a seed, with the answers of a signature checker, made so that few hashes, numbers and sessions meet often.

`make(seed)` gives the messages, the payloads that are trusted, and the payload, signed octets and signature of each
signature that is valid. What is signed is known here before SIGN is put in, so nothing is read back.
"""
import base64
import hashlib
import random

# The two texts with one SHA-1 that M. Stevens, E. Bursztein, P. Karpman, A. Albertini and Y. Markov published in 2017: a
# front that they share, and two blocks each. What follows them may be any text, the same for both.
FRONT = bytes.fromhex(
    "255044462d312e330a25e2e3cfd30a0a0a312030206f626a0a3c3c2f57696474682032203020522f4865696768742033203020522f547970"
    "652034203020522f537562747970652035203020522f46696c7465722036203020522f436f6c6f7253706163652037203020522f4c656e67"
    "74682038203020522f42697473506572436f6d706f6e656e7420383e3e0a73747265616d0affd8fffe00245348412d312069732064656164"
    "2121212121852fec092339759c39b1a1c63c4c97e1fffe01")
SAME_SHA1 = [FRONT + bytes.fromhex(tail) for tail in (
    "7f46dc93a6b67e013b029aaa1db2560b45ca67d688c7f84b8c4c791fe02b3df614f86db1690901c56b45c1530afedfb76038e972722fe7ad"
    "728f0e4904e046c230570fe9d41398abe12ef5bc942be33542a4802d98b5d70f2a332ec37fac3514e74ddc0f2cc1a874cd0c78305a215664"
    "61309789606bd0bf3f98cda8044629a1",
    "7346dc9166b67e118f029ab621b2560ff9ca67cca8c7f85ba84c79030c2b3de218f86db3a90901d5df45c14f26fedfb3dc38e96ac22fe7bd"
    "728f0e45bce046d23c570feb141398bb552ef5a0a82be331fea48037b8b5d71f0e332edf93ac3500eb4ddc0decc1a864790c782c76215660"
    "dd309791d06bd0af3f98cda4bc4629b1")]
assert len({hashlib.sha1(it).digest() for it in SAME_SHA1}) == 1 and len(set(SAME_SHA1)) == 2

# messages without a block; the empty one, which no log in frames can have, the reviewers take as well
TEXTS = [b"abc", b"", b"<13>1 - - - - - - a", b"<14>1 - - - - - - b", b"<13>1 - - - - - - a ", b"[ssign]",
         b'<13>1 - - - - - [ssignx a="b"]', b'<13>1 - - - - - [ssign a="b"', b'<13>1 - - - - - [x@1 ssign="[ssign]"]',
         b"<13>1 - - - - - - [ssign-cert]", b"<192>1 - - - - - [ssign]", b"\xff\x00\n", SAME_SHA1[0] + b"tail", SAME_SHA1[1] + b"tail"]
NEVER_STORED = [b"lost", b"lost too"]
HOSTS = [b"h", b"h", b"h", b"h1", b"i", b"-", b"--", b"!", b"H"]
APPS = [b"s", b"s", b"s", b"-", b"+", b"t"]
PROCIDS = [b"-", b"-", b"-", b"1", b","]
RSIDS = [1, 1, 1, 2, 10, 0, 9999999999]
GROUPS = [(0, 0), (0, 0), (0, 0), (1, 13), (1, 14), (0, 1), (2, 0), (3, 191)]
PAYLOADS = [b"2009-05-03T14:00:39Z K S0VZ", b"- N", b"- N ", b"- U AA==", b"2000-02-29T23:59:59.5-00:00 P AAAA", b"- C S0VZ"]
NO_PAYLOADS = [b"x", b"- n", b"- N  ", b"- K", b"- K ", b"- K S0V", b"2009-05-03T24:00:00Z N", b" N", b"- X AAAA", b"- N AAAA", b"-  N"]
SIGNS = [b"AAAA", b"AAAA", b"AA==", b"AQ==", b"/+8="]
LAST = 9999999999
ONE, LONG = base64.b64encode(bytes(20)), base64.b64encode(bytes(32))
WRONG_NUMBERS = {
    b"RSID": [b"10000000000", b"", b"01"], b"SG": [b"4", b"00", b"-1"], b"SPRI": [b"192", b" 1"], b"GBC": [b"10000000000", b"x"],
    b"FMN": [b"0", b"10000000000", b"01"], b"CNT": [b"0", b"100", b"02", b"\xd9\xa2"], b"TPBL": [b"0", b"100000000", b"+3"],
    b"INDEX": [b"0", b"100000000"], b"FLEN": [b"0", b"10000", b"3 "]}


def escaped(octets):
    for octet in (b"\\", b'"', b"]"):
        octets = octets.replace(octet, b"\\" + octet)
    return octets


class Made:
    """A block message in two parts, between which the parameter SIGN goes."""

    def __init__(self, session, front, back, sign):
        self.session, self.front, self.back, self.sign = session, front, back, sign
        self.text = front + b' SIGN="' + sign + b'"' + back
        self.signed = front + back


class Maker:
    def __init__(self, seed):
        self.chance = random.Random(seed)

    def often(self, usual, *others, odds=0.9):
        return usual if self.chance.random() < odds else self.chance.choice(others)

    # ---- one block

    def block(self, session, sd_id, parameters):
        """A message with this element, of which SIGN is left out."""
        host, app, procid, rsid = session
        pri = self.often(110, 13, 0, 191)
        time = self.often(b"-", b"2009-05-03T14:00:39Z")
        front = b"<%d>1 %s %s %s %s %s " % (pri, time, host, app, procid, self.often(b"-", b"m"))
        front += self.often(b"", b'[x@1 SIGN="AAAA"]', b'[a b="ssign"][ssign-certs]')
        parameters = [(name, rsid if name == "RSID" else value) for name, value in parameters]
        front += b"[" + sd_id
        for name, value in parameters:
            value = value if isinstance(value, bytes) else b"%d" % value
            front += b' %s="%s"' % (name.encode(), escaped(value))
        back = b"]" + self.often(b"", b'[y@1 a="\\]" SIGN="AAAA"]') + self.often(b"", b" ", b' hello SIGN="AAAA"', b" \xef\xbb\xbf\xc3\xa9", b" \xff")
        return Made(session, front, back, self.chance.choice(SIGNS))

    def certificate(self, session, total, index, fragment):
        group = self.chance.choice(GROUPS)
        return self.block(session, b"ssign-cert", [
            ("VER", self.often(b"0111", b"0121", odds=0.7)), ("RSID", None), ("SG", group[0]), ("SPRI", group[1]), ("TPBL", total),
            ("INDEX", index), ("FLEN", len(fragment)), ("FRAG", fragment)])

    def signature(self, session, group, first, texts):
        ver = self.often(b"0111", b"0121", odds=0.6)
        algorithm = hashlib.sha1 if ver == b"0111" else hashlib.sha256
        hashes = b" ".join(base64.b64encode(algorithm(text).digest()) for text in texts)
        return self.block(session, b"ssign", [
            ("VER", ver), ("RSID", None), ("SG", group[0]), ("SPRI", group[1]), ("GBC", self.often(0, 1, 7, LAST)), ("FMN", first),
            ("CNT", len(texts)), ("HB", hashes)])

    # ---- the blocks of a session

    def fragments(self, payload):
        """Index and octets of pieces that cover the payload, or nearly."""
        chance = self.chance
        style = chance.random()
        if style < 0.45:
            return [(1, payload)]
        if style < 0.7:
            size = chance.randint(1, len(payload))
            pieces = [(start + 1, payload[start:start + size]) for start in range(0, len(payload), size)]
            pieces = pieces if len(pieces) < 8 else [(1, payload[:3]), (4, payload[3:])]
        else:
            cut, over = chance.randint(1, len(payload)), chance.randint(0, 4)
            pieces = [(1, payload[:cut]), (max(cut - over, 0) + 1, payload[max(cut - over, 0):] or payload[-1:])]
            pieces = [(index, octets) for index, octets in pieces if index + len(octets) - 1 <= len(payload)]
        if chance.random() < 0.25:
            pieces.append(chance.choice(pieces))
        if chance.random() < 0.12:
            pieces.pop(chance.randrange(len(pieces)))
        if chance.random() < 0.4:
            chance.shuffle(pieces)
        return pieces

    def certificates(self, session, payload):
        chance = self.chance
        pieces = [(len(payload), index, octets) for index, octets in self.fragments(payload)]
        if chance.random() < 0.08:
            # it disagrees, unless it says what is there
            at, wrong = chance.randrange(len(payload)), chance.choice([b"x", b"4", b'"', b"]", b"\\"])
            pieces.append((len(payload), at + 1, wrong))
        if chance.random() < 0.06:
            pieces.append((len(payload) + 1, 1, payload[:1]))
        if chance.random() < 0.04:
            pieces.append((99999999, 99999999, b"x"))
        if chance.random() < 0.05:
            pieces = []
        return [self.certificate(session, *it) for it in pieces]

    def signatures(self, session, texts):
        chance = self.chance
        blocks, groups = [], [chance.choice(GROUPS) for _ in range(chance.choice([1, 1, 2, 3]))]
        for _ in range(chance.choice([0, 1, 1, 2, 2, 3, 4])):
            count = chance.choice([1, 1, 2, 2, 3, 5])
            first = self.often(chance.randint(1, 5), LAST - count + 1, 1000, odds=0.93)
            blocks.append(self.signature(session, chance.choice(groups), first, [chance.choice(texts) for _ in range(count)]))
        return blocks

    def story(self, session, texts):
        """Blocks as an originator sends them, a group's numbers one after the other."""
        chance = self.chance
        group, first, blocks = chance.choice(GROUPS), self.often(1, 2, 3), []
        for _ in range(chance.choice([1, 2, 3])):
            count = chance.choice([1, 2, 3])
            blocks.append(self.signature(session, group, first, [chance.choice(texts) for _ in range(count)]))
            first += count
        chance.shuffle(blocks)
        return blocks[:chance.randint(1, len(blocks))]

    # ---- what is no block

    def spoilt(self, session, texts):
        """A block of which something was changed, or two things, most often so that it is none."""
        chance = self.chance
        if chance.random() < 0.6:
            text = self.signature(session, chance.choice(GROUPS), 1, [chance.choice(texts), chance.choice(texts)]).text
            causes = [1, 2, 3, 4, 5, 6, 7, 9]
        else:
            text = self.certificate(session, 3, 1, b"- N").text
            causes = [1, 2, 3, 4, 7, 8]
        for cause in chance.sample(causes, chance.choice([1, 1, 2])):
            text = self.spoil(text, cause)
        return text

    def spoil(self, text, cause):
        chance = self.chance
        start = max(text.find(b"[ssign "), text.find(b"[ssign-cert "))
        front, block = text[:start], text[start:]
        if cause == 1:
            return front + (b"[ssign-cert]" if block.startswith(b"[ssign ") else b"[ssign]") + block
        if cause == 2:
            return front + chance.choice([
                block.replace(b" RSID=", b" rsid=", 1), block.replace(b" SG=", b' SG="0" SG=', 1), block.replace(b" SPRI=", b" SIGN=", 1),
                block.replace(b' SIGN="', b' a="" SIGN="', 1), block.replace(b" CNT=", b" TNC=", 1), block.replace(b' FLEN="3"', b"", 1),
                block.replace(b"[ssign ", b"[ssign-cert ", 1)])
        if cause == 3:
            return front + self.put(block, b"VER", [b"0211", b"111", b"", b"00111", b"0112", b"0131"])
        if cause == 4:
            names = [name for name in WRONG_NUMBERS if b" %s=" % name in block]
            name = chance.choice(names or [b"RSID"])
            return front + self.put(block, name, WRONG_NUMBERS[name])
        if cause == 5:
            return front + self.put(block, b"CNT", [b"1", b"3", b"99"])
        if cause == 6:
            return front + self.put(block, b"HB", [
                ONE + b" " + LONG, ONE[:-1] + b" " + ONE, ONE[:-2] + b"B= " + ONE, b"AAAA " + ONE, b" " + ONE, ONE + b" ", LONG + b" " + ONE,
                b"AA " + LONG, b""])
        if cause == 7:
            return front + self.put(block, b"SIGN", [b"", b"AAA", b"AAAA ", b"AB==", b"A===", b"AAAA====", b"_-==", b"AA==AAAA"])
        if cause == 8:
            name, values = chance.choice([(b"INDEX", [b"2", b"99999999"]), (b"FLEN", [b"2", b"4"]), (b"FRAG", [b"", b"- "]), (b"TPBL", [b"2"])])
            return front + self.put(block, name, values)
        return front + self.put(block, b"FMN", [b"9999999999"])

    def put(self, block, name, values):
        """The element with another value of a parameter, if it has that."""
        before, mark, behind = block.partition(b' %s="' % name)
        return before + mark + self.chance.choice(values) + behind[behind.index(b'"'):] if mark else block

    def unread(self, text):
        """A block message that is no message of RFC 5424 any more, or still is."""
        return self.chance.choice([text.replace(b">1 ", b">2 ", 1), text[:-1], text.replace(b"[ssign", b"[ssign]x[", 1), text + b"x",
                                   text.replace(b'"', b"", 1), text.replace(b">1 - ", b">1 -- ", 1)])

    # ---- the whole

    def make(self):
        chance = self.chance
        texts = [chance.choice(TEXTS) for _ in range(chance.choice([1, 2, 2, 3, 4]))]
        if chance.random() < 0.15:
            texts = [SAME_SHA1[0] + b"tail", SAME_SHA1[1] + b"tail"] + texts[:1]
        told = texts + ([chance.choice(NEVER_STORED)] if chance.random() < 0.4 else [])
        payloads, blocks, asked = {}, [], []
        for _ in range(chance.choice([0, 1, 1, 1, 1, 2, 2, 3])):
            session = (chance.choice(HOSTS), chance.choice(APPS), chance.choice(PROCIDS), chance.choice(RSIDS))
            payload = chance.choice(PAYLOADS if chance.random() < 0.92 else NO_PAYLOADS)
            payload = payloads.setdefault(session, payload)
            own = self.certificates(session, payload)
            own += self.story(session, told) if chance.random() < 0.4 else self.signatures(session, told)
            if chance.random() < 0.15 and own:
                own.append(chance.choice(own))
            if chance.random() < 0.05:
                own = [it for it in own if b"[ssign " in it.text]
            blocks += own
            asked.append((payload, own))
        messages = [it.text for it in blocks]
        for text in texts:
            messages += [text] * chance.choice([0, 1, 1, 1, 2, 3])
        for _ in range(chance.choice([0, 0, 0, 1, 1, 2])):
            session = (chance.choice(HOSTS), chance.choice(APPS), b"-", 1)
            messages.append(self.spoilt(session, told))
        if blocks and chance.random() < 0.1:
            messages.append(self.unread(chance.choice(blocks).text))
        if chance.random() < 0.7:
            chance.shuffle(messages)
        trusted, valid = self.answers(asked)
        return messages, trusted, valid

    def answers(self, asked):
        """Answers of a checker that says yes to all, to none or to some, and to what nobody asks."""
        chance = self.chance
        trusted, valid = set(), set()
        for payload, blocks in asked:
            if chance.random() < 0.88:
                trusted.add(payload)
            odds = chance.choice([1, 1, 1, 1, 0.8, 0.5, 0])
            certificates = 1 if chance.random() < 0.6 else odds
            for it in blocks:
                triple = (payload, it.signed, base64.b64decode(it.sign))
                if chance.random() < (odds if b"[ssign " in it.text else certificates):
                    valid.add(triple)
                elif chance.random() < 0.5:
                    valid.add(self.astray(*triple, it))
        if chance.random() < 0.1:
            trusted.add(chance.choice(PAYLOADS))
        return trusted, valid

    def astray(self, payload, signed, sign, made):
        """A yes that isn't to this question."""
        return self.chance.choice([
            (payload + b" ", signed, sign), (payload, made.text, sign), (payload, made.front + b' SIGN=""' + made.back, sign),
            (payload, made.front + b"]", sign) if made.back != b"]" else (payload, signed + b" ", sign), (payload, signed, sign + b"\0"),
            (signed, payload, sign), (payload, sign, signed), (self.chance.choice(NO_PAYLOADS), signed, sign)])


def make(seed):
    return Maker(seed).make()
