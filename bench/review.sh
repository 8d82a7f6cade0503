#!/bin/sh
# Times the reviewer: `feed` of COUNT messages of 187 octets (1,000,000 without one), then with `finish` over blocks of ten
# hashes; and `finish` over logs that strangers could send, at some size and at twice that. Twice the input should take
# at most 2.3 times as long. Every signature is said to be valid.
#
#   ./check                   leaves the program behind
#   bench/review.sh [COUNT]
set -eu
here=$(cd "$(dirname "$0")/.." && pwd)
program=$here/crates/tool_timing/out/tool_timing
work=$(mktemp -d)
trap 'rm -rf "$work"' EXIT

python3 - "$work" "${1:-1000000}" "$program" <<'P'
import base64, hashlib, os, random, subprocess, sys, time

work, count, program = sys.argv[1], int(sys.argv[2]), sys.argv[3]
HEAD = b"<110>1 - h s - - "
PAYLOAD = b"2009-05-03T14:00:39Z K S0VZ"

def b64(octets):
    return base64.b64encode(octets)

def sha1(message):
    return b64(hashlib.sha1(message).digest())

def certificate(rsid, index=1, fragment=PAYLOAD, total=len(PAYLOAD), head=HEAD):
    return head + b'[ssign-cert VER="0111" RSID="%d" SG="0" SPRI="0" TPBL="%d" INDEX="%d" FLEN="%d" FRAG="%s" SIGN="AAAA"]' % (
        rsid, total, index, len(fragment), fragment)

def block(first, hashes, gbc=0, rsid=1, spri=0):
    return HEAD + b'[ssign VER="0111" RSID="%d" SG="3" SPRI="%d" GBC="%d" FMN="%d" CNT="%d" HB="%s" SIGN="AAAA"]' % (
        rsid, spri, gbc, first, len(hashes), b" ".join(hashes))

def message(n):
    text = b"<13>1 2009-05-03T14:00:39Z host app - - - %d " % n
    return text + b"x" * (187 - len(text))

def plain(n):
    yield from (message(i) for i in range(n))

def signed(n):
    yield certificate(1)
    for i in range(0, n, 10):
        some = [message(j) for j in range(i, min(n, i + 10))]
        yield from some
        yield block(i + 1, [sha1(m) for m in some], i // 10)

def falling(n):
    yield from reversed(list(signed(n)))

def twins(n):
    one = message(0)
    yield certificate(1)
    for i in range(0, n, 10):
        yield from [one] * 10
        yield block(i + 1, [sha1(one)] * 10, i // 10)

def sessions(n):
    for i in range(n // 2):
        yield certificate(i)
        yield block(1, [sha1(b"%d" % i)], 0, i)

def apart(n):
    yield certificate(1)
    for i in range(n):
        yield block(1 + 10 * i, [sha1(b"%d" % i)], i)

def disputed(n):
    yield certificate(1)
    for i in range(n // 2):
        yield block(1 + i, [sha1(b"%d" % i)], i)
        yield block(1 + i, [sha1(b"a%d" % i)], i)

def repeated(n):
    yield certificate(1)
    hashes = [sha1(b"%d" % i) for i in range(99)]
    for i in range(n):
        yield block(1, hashes, i % 10)

def fragments(n):
    text = b"2009-05-03T14:00:39Z U " + b64(b"x" * (3 * n // 4))
    for i in range(len(text)):
        yield certificate(1, i + 1, text[i:i + 1], len(text))

def groups(n):
    yield certificate(1)
    for i in range(n):
        yield block(1 + i, [sha1(b"%d" % i)], i, 1, i % 192)

def write(shape, n):
    path = f"{work}/{shape.__name__}.{n}"
    with open(path, "wb") as f:
        for m in shape(n):
            f.write(b"%d %s" % (len(m), m))
    return path

def seconds(path, words):
    best = None
    for _ in range(3):
        with open(path, "rb") as f:
            start = time.perf_counter()
            said = subprocess.run([program] + words, stdin=f, check=True, capture_output=True).stdout
            took = time.perf_counter() - start
        best = took if best is None else min(best, took)
    return best, said.decode().strip()

for shape in (plain, signed):
    path = write(shape, count)
    for words in (["frames"], ["review", "feed"], ["review"]):
        took, said = seconds(path, words)
        print("%-10s %9d %-12s %7.3f s  %s" % (shape.__name__, count, " ".join(words), took, said), flush=True)
    os.remove(path)

for shape, n in ((falling, 200000), (twins, 200000), (sessions, 20000), (apart, 50000), (disputed, 50000), (repeated, 5000),
                 (fragments, 50000), (groups, 50000)):
    times = []
    for size in (n, 2 * n):
        path = write(shape, size)
        times.append(seconds(path, ["review"])[0])
        os.remove(path)
    print("%-10s %9d %7.3f s, twice that %7.3f s: %.2f times" % (shape.__name__, n, times[0], times[1], times[1] / times[0]), flush=True)
P
