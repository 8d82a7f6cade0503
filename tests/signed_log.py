#!/usr/bin/env python3
"""Makes a large signed log, with the answers that accept it and the report on it.

    signed_log.py COUNT FOLDER [--octets N] [--per-block N] [--lines] [--blocks no] [--HARM N]..

FOLDER gets the files `log`, `answers` and `report`. The log is one certificate block, then COUNT different messages of
`--octets` octets (187), a signature block behind each `--per-block` (10) of them. SIGN is the SHA-512 of what is signed.
The message with the number N, from 1, is harmed: by `--change` one octet of it is another one, by `--lose` it isn't there,
by `--double` it stands twice, and by `--foreign` a message that nobody signed stands behind it. `--blocks no` leaves out
all blocks. The report is made from the counters, and nothing is read back. Other scripts take parts of this one.
"""
import argparse
import base64
import hashlib
import os

HEAD = b"<110>1 2026-01-01T00:00:00Z gate signer 17 - "
SESSION = "gate signer 17 7"
PAYLOAD = b"2026-01-01T00:00:00Z K S0VZ"


def b64(octets):
    return base64.b64encode(octets)


def message(number, octets=187):
    text = b"<13>1 2026-01-01T00:00:01Z host application 812 - - message %d " % number
    return text + b"x" * (octets - len(text))


def sha1_of(text):
    """The SHA-1 of a message, in base64."""
    return b64(hashlib.sha1(text).digest())


def certificate(index=1, fragment=PAYLOAD, total=len(PAYLOAD), rsid=7):
    """A certificate block in two parts, between which SIGN goes."""
    return HEAD + b'[ssign-cert VER="0111" RSID="%d" SG="0" SPRI="0" TPBL="%d" INDEX="%d" FLEN="%d" FRAG="%s"' % (
        rsid, total, index, len(fragment), fragment), b"]"


def signature(first, hashes, gbc=0, rsid=7, group=(0, 0)):
    """A signature block in two parts, between which SIGN goes."""
    return HEAD + b'[ssign VER="0111" RSID="%d" SG="%d" SPRI="%d" GBC="%d" FMN="%d" CNT="%d" HB="%s"' % (
        rsid, *group, gbc, first, len(hashes), b" ".join(hashes)), b"]"


class Log:
    """A log that is written to a file, with its answers."""

    def __init__(self, folder, lines=False):
        self.log = open(os.path.join(folder, "log"), "wb", 1 << 20)
        self.answers = open(os.path.join(folder, "answers"), "wb", 1 << 20)
        self.lines, self.count, self.payload = lines, 0, None

    def put(self, text):
        """Writes a message, and gives its place."""
        self.log.write(text + b"\n" if self.lines else b"%d %s" % (len(text), text))
        self.count += 1
        return self.count - 1

    def trust(self, payload):
        self.payload = b64(payload)
        self.answers.write(b"trust %s\n" % self.payload)

    def put_block(self, block, valid=True):
        """Writes a block, and that its signature is valid, if it is."""
        front, back = block
        signed = front + back
        sign = b64(hashlib.sha512(signed).digest())
        if valid:
            self.answers.write(b"yes %s %s %s\n" % (self.payload, b64(signed), sign))
        return self.put(front + b' SIGN="' + sign + b'"' + back)

    def close(self):
        self.log.close()
        self.answers.close()


def put_message(log, text, number, harm):
    """Writes a message as it is harmed: the place at which it is listed, if any, and the places that nobody signed."""
    if number in harm["lose"]:
        return None, []
    if number in harm["change"]:
        return None, [log.put(text[:-1] + b"y")]
    place, strange = log.put(text), []
    if number in harm["double"]:
        strange.append(log.put(text))
    if number in harm["foreign"]:
        strange.append(log.put(text[:-1] + b"z"))
    return place, strange


def make(folder, count, octets, per_block, lines, blocks, harm):
    log, report, strangers, hashes, gbc = Log(folder, lines), [], [], [], 0
    if blocks:
        report.append("session %s joined" % SESSION)
        log.trust(PAYLOAD)
        log.put_block(certificate())
    for number in range(1, count + 1):
        text = message(number, octets)
        place, strange = put_message(log, text, number, harm)
        if not blocks:
            strange = ([] if place is None else [place]) + strange
        elif place is None:
            report.append("gap %s 0 0 %d lost" % (SESSION, number))
        else:
            report.append("ok %s 0 0 %d %d" % (SESSION, number, place))
        strangers += strange
        hashes.append(sha1_of(text))
        if len(hashes) == per_block or number == count:
            if blocks:
                log.put_block(signature(number - len(hashes) + 1, hashes, gbc))
            hashes, gbc = [], gbc + 1
    report += ["unlisted %d" % place for place in strangers] + ["end %d" % log.count]
    log.close()
    with open(os.path.join(folder, "report"), "w") as file:
        file.writelines(line + "\n" for line in report)


def main():
    parser = argparse.ArgumentParser(description=__doc__, formatter_class=argparse.RawDescriptionHelpFormatter)
    parser.add_argument("count", type=int)
    parser.add_argument("folder")
    parser.add_argument("--octets", type=int, default=187)
    parser.add_argument("--per-block", type=int, default=10)
    parser.add_argument("--lines", action="store_true")
    parser.add_argument("--blocks", choices=["yes", "no"], default="yes")
    harms = ("change", "lose", "double", "foreign")
    for name in harms:
        parser.add_argument("--" + name, type=int, action="append", default=[])
    given = parser.parse_args()
    harm = {name: set(getattr(given, name)) for name in harms}
    make(given.folder, given.count, given.octets, given.per_block, given.lines, given.blocks == "yes", harm)


if __name__ == "__main__":
    main()
