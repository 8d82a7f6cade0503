#!/usr/bin/env python3
"""Makes the example logs of this folder, or of the folder that is its one argument.

four-messages.frames   two messages, a certificate block and a signature block over the two
four-messages.answers  what a signature checker says about that log that accepts all of it
torn.frames            the first 100 octets of that log, as a crash leaves them
kinds.frames           a message of each kind that `inspect` tells, and a torn end
lost-block.frames      a log of two groups, of which the only block of one is lost with its message
lost-block.answers     what a signature checker says about that log that accepts all of it
one-message.log        a message, as a line
one-message.seals      what a signer says who gives every block of that log the same signature
odd-message.log        a message in the form of RFC 3164, as a line
odd-message.seals      the same for its wrap

The messages of the first log are the samples of FIPS 180, whose hashes are published, and all signatures are the three
octets 0: these files show the layout, and nothing in them is signed by a real key (for that see signed/ beside this file).
"""
import base64
import hashlib
import os
import sys

SAMPLES = {
    b"abc": "a9993e364706816aba3e25717850c26c9cd0d89d",
    b"abcdbcdecdefdefgefghfghighijhijkijkljklmklmnlmnomnopnopq": "84983e441c3bd26ebaae4aa1f95129e5e54670f1",
}
FIRST, SECOND = SAMPLES
ONE = b"<13>1 - - - - - - abc"
ODD = b"<34>Oct 11 22:14:15 gate su: 'su root' failed"
WRAP = b"<34>1 - h s - wrapped - |"
HEADER = b"<110>1 - h s - - "
# RFC 5848, section 5.2.1: a time stamp, the kind of key (K, a public key), the key in base64 (here the text KEY)
PAYLOAD = b"2009-05-03T14:00:39Z K S0VZ"
SIGNATURE = bytes(3)


def in_base64(octets):
    return base64.b64encode(octets)


def frame(message):
    """Octet counting, RFC 6587, section 3.4.1."""
    return b"%d %s" % (len(message), message)


def block(element, *parameters):
    """A block message with its signature left out: these are the octets that are signed (RFC 5848, section 4.2.8)."""
    return HEADER + b"[" + element + b"".join(b' %s="%s"' % it for it in parameters) + b"]"


def signed(text):
    """The block message with its signature, the last parameter of the element that ends the message."""
    return text[:-1] + b' SIGN="' + in_base64(SIGNATURE) + b'"]'


def sha1(message):
    digest = hashlib.sha1(message)
    want(digest.hexdigest(), SAMPLES[message])
    return digest.digest()


def want(found, wanted):
    if found != wanted:
        raise SystemExit(f"make.py: {found} is not {wanted}")


def certificate_block():
    size = b"%d" % len(PAYLOAD)
    return block(
        b"ssign-cert", (b"VER", b"0111"), (b"RSID", b"1"), (b"SG", b"0"), (b"SPRI", b"0"),
        (b"TPBL", size), (b"INDEX", b"1"), (b"FLEN", size), (b"FRAG", PAYLOAD),
    )


def signature_block(*hashes, group=(0, 0), before=0, first=1):
    """The block of these hashes: `before` is how many signature blocks were sent before it."""
    return block(
        b"ssign", (b"VER", b"0111"), (b"RSID", b"1"), (b"SG", b"%d" % group[0]), (b"SPRI", b"%d" % group[1]),
        (b"GBC", b"%d" % before), (b"FMN", b"%d" % first), (b"CNT", b"%d" % len(hashes)),
        (b"HB", b" ".join(map(in_base64, hashes))),
    )


def answers_to(texts):
    """What a checker says that accepts these blocks."""
    payload = in_base64(PAYLOAD)
    lines = [b"trust %s\n" % payload]
    return b"".join(lines + [b"yes %s %s %s\n" % (payload, in_base64(it), in_base64(SIGNATURE)) for it in texts])


def lost_block():
    """A log and its answers: the block with GBC 1 isn't there, and it was the only one of the messages with PRI 14."""
    sent = [(b"<13>1 - - - - - - first", (1, 13), 0, 1), (b"<13>1 - - - - - - third", (1, 13), 2, 2)]
    messages, texts = [signed(certificate_block())], [certificate_block()]
    for message, group, before, first in sent:
        texts.append(signature_block(hashlib.sha1(message).digest(), group=group, before=before, first=first))
        messages += [message, signed(texts[-1])]
    return b"".join(map(frame, messages)), answers_to(texts)


def kinds():
    """A plain message, one that isn't RFC 5424's, a block of each kind, a spoilt one, and the front of a frame."""
    certificate, signature = map(signed, (certificate_block(), signature_block(sha1(FIRST), sha1(SECOND))))
    plain = b"<13>1 2009-05-03T14:00:39Z h s - - - a job was done"
    spoilt = signature.replace(b'VER="0111"', b'VER="0211"')
    return b"".join(map(frame, [plain, FIRST, certificate, signature, spoilt])) + frame(SECOND)[:-1]


def seals(message):
    """The seal of each block that signing the one message makes."""
    texts = [certificate_block(), signature_block(hashlib.sha1(message).digest())]
    return b"".join(b"seal %s %s\n" % (in_base64(it), in_base64(SIGNATURE)) for it in texts)


def main():
    folder = sys.argv[1] if len(sys.argv) > 1 else os.path.dirname(os.path.abspath(__file__))
    texts = [certificate_block(), signature_block(sha1(FIRST), sha1(SECOND))]
    messages = [FIRST, SECOND, *map(signed, texts)]
    want([len(it) for it in messages], [3, 56, 142, 159])
    want([len(it) for it in texts], [130, 147])
    log = b"".join(map(frame, messages))
    want(len(log), 373)
    lost, answers = lost_block()
    made = {
        "four-messages.frames": log, "four-messages.answers": answers_to(texts), "torn.frames": log[:100],
        "kinds.frames": kinds(), "lost-block.frames": lost, "lost-block.answers": answers,
        "one-message.log": ONE + b"\n", "one-message.seals": seals(ONE),
        "odd-message.log": ODD + b"\n", "odd-message.seals": seals(WRAP + ODD),
    }
    for name, octets in made.items():
        with open(os.path.join(folder, name), "wb") as file:
            file.write(octets)


main()
