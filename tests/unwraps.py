#!/usr/bin/env python3
"""What `ssign extract --unwrap` and `inspect --unwrap` write, against a second reading of wraps.

    unwraps.py PROGRAM

over messages by a seed: wraps of messages of all kinds, wraps with a few octets changed, and others. Messages are read a
second time by rfc5424.py. What is in a wrap has the line that `inspect` writes of it alone. Ends with status 0 if all is as it
has to be; else it says what isn't.
"""
import random
import subprocess
import sys

from rfc5424 import NoMessage, read, read_elements, read_fields
from review_runs import frame, line

COUNT = 3000
BLOCK = (b'<110>1 - h s - - [ssign VER="0111" RSID="1" SG="0" SPRI="0" GBC="0" FMN="1" CNT="1" '
         b'HB="qZk+NkcGgWq6PiVxeFDCbJzQ2J0=" SIGN="AAAA"]')
CERTIFICATE = (b'<110>1 - h s - - [ssign-cert VER="0111" RSID="1" SG="0" SPRI="0" TPBL="27" INDEX="1" FLEN="27" '
               b'FRAG="2009-05-03T14:00:39Z K S0VZ" SIGN="AAAA"]')
ORIGINALS = [b"", b"x", b"|", b"\n", b"two\nlines", b"\xef\xbb\xbf\xff", b"<34>Oct 11 22:14:15 m su: failed", b"\x1b[2J\\",
             b"<34>1 - h su - - - m", b"<34>1 - h su - - [ssign] m", b"<34>1 2016-12-31T23:59:60Z h su - - - m", BLOCK,
             CERTIFICATE, b"<13>1 - h s - wrapped - |x", b"<13>1 - h s - wrapped - |<13>1 - h s - wrapped - |"]
STAMPS = [b"-", b"2009-05-03T14:00:39Z", b"2024-02-29T23:59:59.123456+05:30", b"2023-02-29T00:00:00Z",
          b"2009-05-03T24:00:00Z", b"2009-05-03T14:00:60Z", b"2009-05-03t14:00:39Z", b"2009-05-03T14:00:39.1234567Z"]
FIELDS = [b"-", b"h", b"x" * 32, b"x" * 48, b"x" * 49, b"x" * 128, b"x" * 129, b"x" * 255, b"x" * 256, b'"]\\']
MARKS = b"<>[]|wd 1-\x00\xef\xff\n"


def fail(what, said, wanted):
    sys.exit(f"unwraps.py: {what}\n    said   {said!r:.500}\n    wanted {wanted!r:.500}")


def original(text):
    """The octets in a wrap, or None."""
    try:
        read(text)
    except NoMessage:
        return None
    fields, at = read_fields(text, text.index(b">") + 3)
    elements, at = read_elements(text, at)
    return text[at + 2:] if fields[3] == b"wrapped" and not elements and text[at:at + 2] == b" |" else None


def message(chance):
    """A message, which is often a wrap."""
    usual = chance.random() < 0.7
    front = [b"<%d>1" % chance.randrange(200 if chance.random() < 0.1 else 192), b"-" if usual else chance.choice(STAMPS)]
    front += [chance.choice(FIELDS[:2] if usual else FIELDS) for _ in range(3)]
    front += [b"wrapped" if chance.random() < 0.9 else chance.choice([b"wrap", b"wrapped2", b"Wrapped", b"-"])]
    front += [b"-" if chance.random() < 0.95 else chance.choice([b"[a]", b"[ssign]", b""])]
    text = b" ".join([*front, (b"|" if chance.random() < 0.95 else b"") + chance.choice(ORIGINALS)])
    if chance.random() < 0.05:
        text = chance.choice(ORIGINALS[1:])
    for _ in range(chance.choice([0, 0, 0, 1, 2])):
        at = chance.randrange(len(text) + 1)
        new = bytes([chance.choice(MARKS)])
        text = text[:at] + chance.choice([b"", new, new + text[at:at + 1]]) + text[at + 1:]
    return text or b"x"


def say(program, words, log):
    done = subprocess.run([program, *words], input=log, capture_output=True, check=False, timeout=60)
    return done.returncode, done.stdout, done.stderr


def check_extracts(program, messages, originals):
    """As frames, as lines, and the first that is no line."""
    # a wrap of no octet stays, because neither a frame nor a line is empty
    shown = [it or text for text, it in zip(messages, originals)]
    for start in range(0, len(messages), 500):
        log = b"".join(map(frame, messages[start:start + 500]))
        places = [it for n in range(len(messages[start:start + 500])) for it in ("--place", str(n))]
        for words, wanted in ((["--unwrap"], shown), ([], messages)):
            said = say(program, ["extract", *places, *words], log)
            wanted = (0, b"".join(map(frame, wanted[start:start + 500])), b"")
            if said != wanted:
                fail(f"extract {words}, from {start}", said, wanted)
        lines = [n for n, it in enumerate(shown[start:start + 500]) if b"\n" not in it]
        other = [n for n, it in enumerate(shown[start:start + 500]) if b"\n" in it]
        for which, wanted in ((lines, (0, b"".join(line(shown[start + n]) for n in lines), b"")),
                              (lines + other[-1:], (2, b"", b"ssign: E2 %d\n" % other[-1]))):
            places = [it for n in which for it in ("--place", str(n))]
            said = say(program, ["extract", *places, "--unwrap", "--lines-out"], log)
            if said != wanted:
                fail(f"extract as lines, from {start}", said, wanted)


def check_inspection(program, messages, originals):
    """Each line, with wraps taken off and without, and the findings."""
    log = b"".join(map(frame, messages))
    plain = say(program, ["inspect"], log)[1].splitlines()
    # an empty original can't be a frame: its line is that of any text that isn't a message from its first octet on
    inner = say(program, ["inspect"], b"".join(frame(it or b"x") for it in originals if it is not None))[1].splitlines()
    wanted = []
    for place, it in enumerate(originals):
        if it is None:
            wanted.append(plain[place])
            continue
        if plain[place] != b"plain %d" % place:
            fail("a wrap is plain", plain[place], b"plain %d" % place)
        word, _, *fields = inner.pop(0).split(b" ")
        wanted.append(b" ".join([b"wrapped-" + word, b"%d" % place, *fields]))
    wanted.append(b"end %d" % len(messages))
    said = say(program, ["inspect", "--unwrap"], log)
    if said != (0, b"".join(map(line, wanted)), b""):
        fail("inspect --unwrap", said, wanted)
    wanted = [it for it in wanted if not it.startswith(b"plain ")]
    said = say(program, ["inspect", "--unwrap", "--findings"], log)
    if said != (0, b"".join(map(line, wanted)), b""):
        fail("inspect --unwrap --findings", said, wanted)


def main(program):
    chance = random.Random(5)
    messages = [message(chance) for _ in range(COUNT)]
    originals = [original(it) for it in messages]
    count = sum(it is not None for it in originals)
    if not COUNT // 4 < count < COUNT * 9 // 10:
        fail("wraps", count, "some")
    check_extracts(program, messages, originals)
    check_inspection(program, messages, originals)


if __name__ == "__main__":
    main(*sys.argv[1:])
