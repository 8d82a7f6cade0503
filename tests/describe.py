"""What signed octets say, read a second way, by regular expressions, for tests/describe.sh.

    describe.py make PROGRAM FOLDER      writes lines: plans with each option, questions, and octets that were changed a little
    describe.py compare LINES OBJECTS    compares what `ssign describe` wrote about the lines with the second reading
    describe.py serve                    answers lines, as `ssign describe` does, by the second reading
"""
from __future__ import annotations

import base64
import binascii
import json
import random
import re
import subprocess
import sys
from calendar import isleap
from typing import Any, Dict, Iterator, List, Optional, Tuple

NUMBER = rb"(0|[1-9][0-9]{0,9})"
# RFC 5424, section 6.2
HEADER = rb"<(0|[1-9][0-9]{0,2})>1 (-|[0-9T:.Z+-]{20,32}) ([!-~]{1,255}) ([!-~]{1,48}) ([!-~]{1,128}) [!-~]{1,32} "
FRONT = rb'VER="(0111|0121)" RSID="%s" SG="([0-3])" SPRI="(0|[1-9][0-9]{0,2})"' % NUMBER
SIGNATURE = re.compile(HEADER + rb"\[ssign " + FRONT + rb' GBC="%s" FMN="%s" CNT="([1-9][0-9]?)" HB="([A-Za-z0-9+/= ]+)"\]'
                       % (NUMBER, NUMBER))
CERTIFICATE = re.compile(HEADER + rb"\[ssign-cert " + FRONT + rb' TPBL="([1-9][0-9]{0,7})" INDEX="([1-9][0-9]{0,7})" '
                         rb'FLEN="([1-9][0-9]{0,3})" FRAG="((?:[^"\\\]]|\\["\\\]])+)"\]', re.DOTALL)
DAY = (rb"(?:[0-9]{4}-(?:(?:0[1-9]|1[0-2])-(?:0[1-9]|1[0-9]|2[0-8])|(?:0[13-9]|1[0-2])-(?:29|30)|(?:0[13578]|1[02])-31)"
       rb"|([0-9]{4})-02-29)")
TIME = rb"(?:[01][0-9]|2[0-3]):[0-5][0-9]"
STAMP = re.compile(rb"-|" + DAY + rb"T" + TIME + rb":[0-5][0-9](?:\.[0-9]{1,6})?(?:Z|[+-]" + TIME + rb")")
# strict base64 of 20 and of 32 octets: both have one `=`, and two bits before it that are zeros
HASH = rb"[A-Za-z0-9+/]{%d}[AEIMQUYcgkosw048]="
HASHES = {ver: re.compile(b"%s(?: %s)*" % (2 * (HASH % letters,))) for ver, letters in ((b"0111", 26), (b"0121", 42))}
LAST_NUMBER = 9999999999
# VER and the session of octets that may be those of any block
LOOSE_HEADER = re.compile(rb"<[0-9]{1,3}>1 [^ ]+ ([^ ]+) ([^ ]+) ([^ ]+) [^ ]+ ")
LOOSE = rb'\[ssign(?:-cert)? VER="(0111|0121)" RSID="([0-9]{1,10})" '
FIRST_ELEMENT, LATER_ELEMENT = re.compile(LOOSE), re.compile(rb"\]" + LOOSE)

Object = Dict[str, Any]


def is_stamp(stamp: bytes) -> bool:
    """Whether this is a TIMESTAMP, or `-`."""
    found = STAMP.fullmatch(stamp)
    return found is not None and (found[1] is None or isleap(int(found[1])))


def exact(octets: bytes) -> Optional[Object]:
    """The object of octets that are exactly a written block, else None."""
    found = SIGNATURE.fullmatch(octets) or CERTIFICATE.fullmatch(octets)
    if found is None:
        return None
    pri, stamp, host, app, procid, ver, rsid, sg, spri, *numbers, content = found.groups()
    one, two, three = map(int, numbers)
    if int(pri) > 191 or int(spri) > 191 or not is_stamp(stamp):
        return None
    head: Object = {"host": host.decode(), "app": app.decode(), "procid": procid.decode(), "rsid": int(rsid), "ver": ver.decode(),
                    "sg": int(sg), "spri": int(spri)}
    if found.re is SIGNATURE:
        if not 1 <= two <= LAST_NUMBER + 1 - three or content.count(b" ") + 1 != three or not HASHES[ver].fullmatch(content):
            return None
        return {"line": "signature", **head, "gbc": one, "first": two, "count": three, "exact": 1}
    fragment = re.sub(rb"\\(.)", rb"\1", content)
    try:
        fragment.decode("utf-8")
    except UnicodeDecodeError:
        return None
    if len(fragment) != three or two + three - 1 > one:
        return None
    return {"line": "certificate", **head, "total": one, "index": two, "length": three,
            "fragment": base64.b64encode(fragment).decode(), "exact": 1}


def loose(octets: bytes) -> Optional[Tuple[bytes, ...]]:
    """VER, HOSTNAME, APP-NAME, PROCID and RSID of octets in which the front of a block can be seen."""
    header = LOOSE_HEADER.match(octets[:600])
    if not header:
        return None
    element = FIRST_ELEMENT.match(octets, header.end()) or LATER_ELEMENT.search(octets, header.end())
    return element and (element[1], *header.groups(), element[2])


def octets_of(line: bytes) -> Optional[bytes]:
    """The octets of a line that is answered."""
    words = line.rstrip(b"\n").split(b" ")
    return base64.b64decode(words[1 if words[0] == b"want" else 2], validate=True) if words[0] != b"trust?" else None


def differences(line: bytes, answer: Object) -> Iterator[str]:
    """What of an answer isn't as it is read here."""
    octets = octets_of(line) or b""
    wanted, seen = exact(octets), loose(octets)
    if wanted is not None or "exact" in answer:
        if answer != wanted:
            yield f"{octets!r} gave {answer}, and not {wanted}"
    elif answer["line"] != "none":
        told = tuple(str(answer[it]).encode() for it in ("ver", "host", "app", "procid", "rsid"))
        if told != seen:
            yield f"{octets!r} gave {told}, and not {seen}"


def changed(octets: bytes, rng: random.Random) -> bytes:
    """Octets with a change that is small, and seldom leaves them exact."""
    at, kind = rng.randrange(len(octets)), rng.randrange(6)
    if kind == 0:
        return octets[:at] + octets[at + 1:]
    if kind == 1:
        return octets[:at] + bytes((rng.randrange(256),)) + octets[at + 1:]
    if kind == 2:
        return octets[:at] + rng.choice((b" ", b"0", b"=", b"\\", b'"', b"]", b"A", b"1")) + octets[at:]
    if kind == 3:
        return octets + rng.choice((b" text", b'[x y="1"]', b" ", b"\n"))
    if kind == 4:
        number = rng.choice(list(re.finditer(rb"[0-9]+", octets)))
        return octets[:number.start()] + str(rng.choice((0, 1, 4, 100, 192, 9999, 10 ** 8, 10 ** 10 - 1, 10 ** 10))).encode() + octets[number.end():]
    return octets.replace(b"[ssign", b'[x@1 y="]"][ssign' if rng.random() < .5 else b'[x@1 y="z"][ssign', 1)


def make(program: str, folder: str) -> int:
    """Writes lines, and octets of a block whose fragment has what is escaped."""
    rng = random.Random(5848)
    log = b"".join(b"<%d>1 - h a - - - message %d\n" % (it % 192, it) for it in range(150))
    lines: List[bytes] = []
    for words in (["--ver=0111"], ["--ver=0121", "--groups=pri", "--count=3"], ["--ver=0121", "--frag=7", "--host=a\"b", "--app=[ssign"],
                  ["--ver=0121", "--stamp=2024-02-29T23:59:59.000001-00:00", "--pri=191", "--procid=\\"], ["--ver=0121", "--groups=20,191"]):
        done = subprocess.run([program, "plan", "--lines", "--payload=2026-01-01T00:00:00Z K S0VZ", "--rsid=9999999999", *words],
                              input=log, stdout=subprocess.PIPE, check=True)
        lines += done.stdout.splitlines(True)
    odd = (b'<13>1 - h a - - [ssign-cert VER="0121" RSID="1" SG="0" SPRI="0" TPBL="9" INDEX="2" FLEN="6" FRAG="\\"\\\\\\]\xc3\xa9x"]')
    lines.append(b"want %s\n" % base64.b64encode(odd))
    known = [octets_of(it) or b"" for it in lines]
    for _ in range(4000):
        octets = changed(rng.choice(known), rng)
        if octets:
            lines.append(b"want %s\n" % base64.b64encode(octets))
    with open(f"{folder}/lines", "wb") as file:
        file.writelines(lines)
    print(sum(exact(it) is not None for it in known), len(known))
    return 0


def compare(lines_path: str, objects_path: str) -> int:
    """Prints each difference, and in the end how many lines there are, how many are exact, and how many are of other blocks."""
    with open(lines_path, "rb") as lines, open(objects_path, "rb") as objects:
        asked = [it for it in lines if not it.startswith(b"trust? ")]
        answers = [json.loads(it) for it in objects]
    if len(asked) != len(answers):
        print(f"{len(asked)} lines have {len(answers)} answers")
        return 1
    said = [it for line, answer in zip(asked, answers) for it in differences(line, answer)]
    for it in said[:5]:
        print(it)
    print(len(asked), sum("exact" in it for it in answers), sum(it["line"] != "none" and "exact" not in it for it in answers))
    return 1 if said else 0


def serve() -> int:
    """Answers by the second reading. Of octets that aren't exact it knows VER and the session alone."""
    for line in sys.stdin.buffer:
        try:
            octets = octets_of(line)
        except (binascii.Error, IndexError):
            return 2
        if octets is None:
            continue
        answer, seen = exact(octets), loose(octets)
        if answer is None and seen is not None:
            ver, host, app, procid, rsid = (it.decode("ascii", "backslashreplace") for it in seen)
            answer = {"line": "signature", "host": host, "app": app, "procid": procid, "rsid": int(rsid), "ver": ver}
        print(json.dumps(answer or {"line": "none"}, separators=(",", ":")), flush=True)
    return 0


def main(words: List[str]) -> int:
    """Does what the words say."""
    if words[0] == "make":
        return make(*words[1:])
    if words[0] == "compare":
        return compare(*words[1:])
    return serve()


if __name__ == "__main__":
    sys.exit(main(sys.argv[1:]))
