#!/usr/bin/env python3
"""The wraps that `ssign-keys live` makes by itself, against those of ssign and against a model (wrap_model.py).

    live_wraps.py SSIGN

The last line is `live_wraps: N passed, M failed`.
"""
import os
import random
import subprocess
import sys

from wrap_model import original, prepared

sys.path.insert(0, os.path.join(os.path.dirname(os.path.dirname(os.path.realpath(__file__))), "tools"))

from ssign_keys.faults import Fault  # noqa: E402
from ssign_keys.live_engine import Engine  # noqa: E402
from ssign_keys.live_wraps import is_surely_none, wrap_of, wraps_of  # noqa: E402

PROGRAM = os.path.abspath(sys.argv[1])
OPTIONS = {"host": "relay.example.org", "app": "signer", "procid": "12"}
STAMP = "2026-11-27T03:00:00.5Z"
ROUNDS = 40
FRONTS = (b"", b"<", b"<>", b"<0>", b"<13>", b"<191>", b"<192>", b"<999>", b"<1000>", b"<013>", b"<00>", b"<1", b"13>", b"<-1>", b"<+1>",
          b"< 1>", b"<13 >", "<\u0661>".encode(), b"\xef\xbb\xbf<13>", b" <13>")
TEXTS = (b"", b"1", b"1 ", b"1 x", b"12 ", b"123 ", b"1234 ", b"0 ", b"01 ", b"1\t", b"a", b"Oct 11 22:14:15 mymachine su: failed",
         b"45: *Mar  1 00:00:01: %SYS-5-CONFIG_I: done", b'1 - h a p m [ssign RSID="1"]', b'1 - h a p m -', b"1 - h a p m - text",
         b"1 2026-11-27T03:00:00Z h a p wrapped - |x", b"\x00\xff\n", b"[ssign-cert", b"<13>1 - - - - - -", b"wrapped - |", b"x" * 3000)
passed = failed = 0


def tell(what, fault):
    """One check, passed where there is no fault."""
    global passed, failed
    if not fault:
        passed += 1
        return
    failed += 1
    print(f"live_wraps: {what}: FAILED")
    print(f"    {fault}")


def run(words, messages):
    """What ssign writes for a log of these messages, or None where it refuses."""
    log = b"".join(b"%d %s" % (len(it), it) for it in messages)
    ran = subprocess.run([PROGRAM, *words, "--max-len=1048576"], input=log, stdout=subprocess.PIPE, stderr=subprocess.DEVNULL, check=False)
    return ran.stdout if ran.returncode in (0, 1) else None


def random_text(rng):
    """A text like a message, or not."""
    front = rng.choice(FRONTS) + rng.choice(TEXTS)
    if rng.random() < 0.5 and front:
        at = rng.randrange(len(front))
        front = front[:at] + bytes([rng.choice(b"<>1 0[]\"-|ssign\x00\x80")]) + front[at + rng.randint(0, 1):]
    return front + rng.choice((b"", b" ", bytes(rng.choices(range(256), k=rng.randint(1, 30)))))


def main():
    """All checks."""
    rng = random.Random(3164)
    texts = [front + text for front in FRONTS for text in TEXTS] + [random_text(rng) for _ in range(1000 * ROUNDS)]
    texts = [it for it in dict.fromkeys(texts) if it]
    none = [it for it in texts if is_surely_none(it)]
    fields = tuple(it.encode() for it in OPTIONS.values())
    wraps = [wrap_of(OPTIONS, STAMP, it) for it in none]
    tell("there are many of both kinds", not (len(none) > 1000 and len(texts) - len(none) > 1000) and f"{len(none)}, {len(texts)}")
    for text, wrap in zip(none, wraps):
        tell(f"{text[:60]!r}", wrap != prepared(text, fields, STAMP.encode()) and f"{wrap!r}, and not the model's wrap")
        tell(f"{text[:60]!r} comes back", original(wrap) != text and f"{original(wrap)!r}")
    lines = (run(["inspect", "--findings"], none) or b"").decode("ascii").splitlines()
    found = [it for it in lines if it.startswith("unparsed ")]
    tell("ssign reports each as no message", len(found) != len(none) and f"{len(found)} of {len(none)}; {lines[-3:]}")
    words = ["--payload=- K AAAA", "--rsid=7", "--host=relay.example.org", "--app=signer", "--procid=12", f"--stamp={STAMP}", "--wrap"]
    plan = run(["plan", *words], none)
    seals = [it[len(b"want "):] for it in (plan or b"").splitlines()]
    path = "wraps.answers"
    with open(path, "wb") as file:
        file.write(b"".join(b"seal %s AAAA\n" % it for it in seals))
    signed = run(["sign", *words, f"--answers={path}"], none) or b""
    missing = [it for it in wraps if b"%d %s" % (len(it), it) not in signed]
    tell("ssign signs the same wraps", missing and f"{len(missing)} of {len(wraps)}, as {missing[0]!r}")
    engine = Engine(PROGRAM)
    engine.check_wraps(wraps[:2000])
    tell("ssign takes them for wraps", "")
    for what, wrong in (("another MSGID", wraps[5].replace(b" wrapped ", b" wrapper ")), ("no bar", wraps[5].replace(b"- |", b"- ")),
                        ("a message that needs none", wrap_of(OPTIONS, STAMP, b"<13>1 - h a p m - text")), ("the text", none[5])):
        try:
            engine.check_wraps([wraps[0], wrong, wraps[1]])
            tell(f"a wrap with a fault: {what}", "it was taken for one")
        except Fault:
            tell(f"a wrap with a fault: {what}", "")
    for size, is_made in ((0, True), (1, False)):
        text = b"x" * (1048576 - len(wrap_of(OPTIONS, STAMP, b"")) + size)
        tell(f"the longest wrap and {size}", bool(wraps_of(OPTIONS, STAMP, {3: text}, 1048576)) != is_made and "it isn't left out")
    print(f"live_wraps: {passed} passed, {failed} failed")
    return 1 if failed else 0


if __name__ == "__main__":
    sys.exit(main())
