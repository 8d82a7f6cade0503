#!/usr/bin/env python3
"""Puts certificate blocks of strangers into a log of frames, which nobody signed, or somebody else.

    disputes.py KIND COUNT <LOG        the log with so many of them, spread over it; `disputes.py kinds` lists the kinds
    disputes.py certificates <LOG      its certificate blocks alone
    disputes.py others <LOG            its other messages alone
    disputes.py first <LOG             its first message alone
    disputes.py times COUNT <LOG       certificate blocks of so many other sessions that spell its payload with many times
    disputes.py mixed OTHER.. <LOG     the log with the messages of other logs among its own
"""
import re
import sys

FRAGMENT = re.compile(rb'TPBL="(\d+)" INDEX="(\d+)" FLEN="(\d+)" FRAG="([^"]*)" SIGN="([^"]*)"')


def frames(octets):
    """The messages of a log of frames."""
    messages, at = [], 0
    while at < len(octets):
        space = octets.index(b" ", at)
        end = space + 1 + int(octets[at:space])
        messages.append(octets[space + 1:end])
        at = end
    return messages


def parts(block):
    """The total, the index, the fragment and the signature of a certificate block."""
    found = FRAGMENT.search(block)
    return int(found[1]), int(found[2]), found[4], found[5]


def put(block, total, index, fragment, sign):
    """The block with these."""
    said = b'TPBL="%d" INDEX="%d" FLEN="%d" FRAG="%s" SIGN="%s"' % (total, index, len(fragment), fragment, sign)
    found = FRAGMENT.search(block)
    return block[:found.start()] + said + block[found.end():]


def octet(block, number):
    """One octet of its fragment is another."""
    total, index, fragment, sign = parts(block)
    at = number % len(fragment)
    return put(block, total, index, fragment[:at] + (b"A" if fragment[at:at + 1] != b"A" else b"B") + fragment[at + 1:], sign)


def total(block, number):
    """It states another length."""
    total, index, fragment, sign = parts(block)
    return put(block, total + 1 + number, index, fragment, sign)


def longest(block, number):
    """It states the greatest length, and octets at its end."""
    return put(block, 99999999, 99999999 - number, b"x", parts(block)[3])


def shifted(block, number):
    """Its fragment stands at another index."""
    total, index, fragment, sign = parts(block)
    return put(block, total, max(1, (index + number) % (total - len(fragment) + 1)), fragment, sign)


def unsigned(block, number):
    """It agrees, and its signature is another."""
    total, index, fragment, _ = parts(block)
    return put(block, total, index, fragment, b"AAAA" if number % 2 else b"/+8=")


def overlapping(block, number):
    """A part of its fragment with another end."""
    total, index, fragment, sign = parts(block)
    at = number % (len(fragment) - 1)
    return put(block, total, index + at, fragment[at:-1] + b"%d" % (number % 10), sign)


def escaped(block, number):
    """Its fragment holds octets that a value escapes."""
    total, index, _, sign = parts(block)
    return put(block, total, index, b'xx', sign).replace(b'FRAG="xx"', (rb'FRAG="x\]"', rb'FRAG="\"x"', rb'FRAG="\\x"')[number % 3])


def version(block, number):
    """It has another VER."""
    other = b'VER="0111"' if b'VER="0121"' in block else b'VER="0121"'
    return octet(re.sub(rb'VER="\d+"', other, block, count=1), number)


def later(block, number):
    """Another element stands in front of its own."""
    return octet(block.replace(b"[ssign-cert", b'[x@1 a="\\]\\[ssign-cert VER=\\"0111\\""][ssign-cert', 1), number)


def spoilt(block, number):
    """It is no block, and looks like one."""
    return block.replace(b'SIGN="', (b'SIGN="=', b'SIGN="A', b'SIGN=" ')[number % 3], 1)


KINDS = {it.__name__: it for it in (octet, total, longest, shifted, unsigned, overlapping, escaped, version, later, spoilt)}


def attacked(messages, kind, count):
    """The messages with those of strangers, spread among them."""
    certificates = [it for it in messages if b"[ssign-cert " in it]
    strangers = [KINDS[kind](certificates[number % len(certificates)], number) for number in range(1, count + 1)]
    size = max(1, len(strangers) // (len(messages) + 1))
    for message in messages:
        yield from strangers[:size]
        del strangers[:size]
        yield message
    yield from strangers


def times(messages, count):
    """Certificate blocks that spell the payload of a log with each of three digits in the places of its time's digits."""
    front, *others = (it for it in messages if b"[ssign-cert " in it)
    length, _, fragment, sign = parts(front)
    stamp, rest = fragment[:20], fragment[20:]
    for number in range(count):
        octets = [(at, it) for at, octet in enumerate(stamp, 1) for it in (b"012" if 48 <= octet < 58 else [octet])]
        for block in [put(front, length, 21, rest, sign), *others, *(put(front, length, at, b"%c" % it, sign) for at, it in octets)]:
            yield re.sub(rb'RSID="\d+"', b'RSID="%d"' % (1000 + number), block)


def mixed(*logs):
    """The messages of several logs, in turn."""
    waiting = [list(it) for it in logs]
    while any(waiting):
        for it in waiting:
            if it:
                yield it.pop(0)


def main():
    word, *words = sys.argv[1:]
    if word == "kinds":
        print("\n".join(KINDS))
        return
    messages = frames(sys.stdin.buffer.read())
    if word in ("certificates", "others"):
        made = [it for it in messages if (b"[ssign-cert " in it) == (word == "certificates")]
    elif word == "first":
        made = messages[:1]
    elif word == "times":
        made = times(messages, int(words[0]))
    elif word == "mixed":
        made = mixed(messages, *(frames(open(it, "rb").read()) for it in words))
    else:
        made = attacked(messages, word, int(words[0]))
    sys.stdout.buffer.write(b"".join(b"%d %s" % (len(it), it) for it in made))


if __name__ == "__main__":
    main()
