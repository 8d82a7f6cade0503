#!/usr/bin/env python3
"""Helps tests/stamps.sh: time stamp services that are right or wrong, and time stamps that are put together here.

    stamps.py make FOLDER NAME                 makes an authority and a service in FOLDER/NAME, by openssl
    stamps.py weak FOLDER NAME                 the same, with certificates that are signed over SHA-1
    stamps.py hostile FOLDER NAME SUBJECT      the same, by the library, with this name of the service
    stamps.py brief FOLDER NAME SECONDS        the same, whose certificates end after so many seconds
    stamps.py twin FOLDER ISSUER FILE          makes a certificate of nobody, with the serial number of the service
    stamps.py swap STAMP CERTIFICATE..         prints a stamp with these certificates in place of its own, and the last one's issuer
                                               as that of its signer; with `ber:` before a file, its signature's length is in BER
    stamps.py answer FOLDER KIND               answers the request on standard input; KIND is one of ANSWERS
    stamps.py token FOLDER SHA256 KEY=VALUE..  prints an answer with these values in place of the right ones
    stamps.py serve FOLDER PORT CERTIFICATE    serves the kinds of answers as paths by HTTP, or by HTTPS with a certificate;
                                               FOLDER/PORT gets the port
    stamps.py flips TOOLS FOLDER FILE STAMP    changes octets of a stamp: it is refused, or says the same
    stamps.py slow-name TOOLS WORD..           runs ssign-keys by these words, where each name is looked up for ever
    stamps.py stopped TOOLS CALL WORD..        runs ssign-keys by these words, and kills it before this call of the system
    stamps.py random SIZE                      prints so many octets
"""
from __future__ import annotations

import http.server
import os
import random
import shutil
import signal
import ssl
import subprocess
import sys
import tempfile
import time
from datetime import datetime, timedelta, timezone
from typing import Callable, Dict, List, Tuple

CONFIG = """[tsa]
default_tsa = t
[t]
serial = serial
crypto_device = builtin
signer_cert = tsa.pem
signer_key = tsa.key
certs = ca.pem
signer_digest = sha256
default_policy = 1.2.3.4.1
digests = {digests}
accuracy = {accuracy}
ordering = yes
ess_cert_id_alg = sha256
"""
CERTIFICATES = """[req]
distinguished_name = none
[none]
[ca]
basicConstraints = critical,CA:TRUE
keyUsage = critical,keyCertSign
[servers]
basicConstraints = critical,CA:TRUE
keyUsage = critical,keyCertSign
extendedKeyUsage = serverAuth
[unread]
basicConstraints = critical,CA:TRUE
keyUsage = critical,keyCertSign
extendedKeyUsage = codeSigning
authorityInfoAccess = DER:0500
[tight]
basicConstraints = critical,CA:TRUE,pathlen:0
keyUsage = critical,keyCertSign
[tsa]
extendedKeyUsage = critical,timeStamping
keyUsage = critical,digitalSignature
[server]
subjectAltName = IP:127.0.0.1
keyUsage = critical,digitalSignature
"""
# the file of the configuration of openssl's own service, with what differs: the hashes that it takes, and how exact its time is
CONFIGS = {"sha256": ("sha256", "secs:1"), "sha512": ("sha512", "secs:1"), "exact": ("sha256", "secs:0, millisecs:2, microsecs:50"),
           "vague": ("sha256", "secs:2147483647")}
SHA1, SHA256, SHA512 = "06052b0e03021a", "0609608648016503040201", "0609608648016503040203"


def openssl(*words: str, octets: bytes = b"", folder: str = ".") -> bytes:
    """What openssl prints."""
    done = subprocess.run(["openssl", *words], input=octets, stdout=subprocess.PIPE, stderr=subprocess.PIPE, cwd=folder)
    assert done.returncode == 0, done.stderr.decode()
    return done.stdout


def make(folder: str, name: str, digest: str = "sha256") -> None:
    """An authority, its service, a certificate of it that is for no time stamps, and services of authorities below it: of one, of
    one for servers, and of one that is below another with pathlen 0."""
    there = os.path.join(folder, name)
    os.makedirs(there)
    with open(os.path.join(there, "req.cnf"), "w", encoding="ascii") as file:
        file.write(CERTIFICATES)
    for config, (digests, accuracy) in CONFIGS.items():
        with open(os.path.join(there, f"{config}.cnf"), "w", encoding="ascii") as file:
            file.write(CONFIG.format(digests=digests, accuracy=accuracy))
    openssl("req", "-x509", "-newkey", "rsa:2048", "-nodes", "-keyout", "ca.key", "-out", "ca.pem", "-days", "3650", "-subj",
            f"/CN={name} CA", "-config", "req.cnf", "-extensions", "ca", folder=there)
    for of, subject, by, kind in (("tsa", f"/O=Trial/CN={name} TSA", "ca", "tsa"), ("server", f"/CN={name} server", "ca", "server"),
                                  ("inter", f"/CN={name} below", "ca", "ca"), ("under", f"/CN={name} under", "inter", "tsa"),
                                  ("servers", f"/CN={name} servers", "ca", "servers"), ("odd", f"/CN={name} odd", "servers", "tsa"),
                                  ("unread", f"/CN={name} code", "ca", "unread"), ("hidden", f"/CN={name} hidden", "unread", "tsa"),
                                  ("tight", f"/CN={name} tight", "ca", "tight"), ("deeper", f"/CN={name} deeper", "tight", "ca"),
                                  ("deep", f"/CN={name} deep", "deeper", "tsa")):
        kind_of_key = ["rsa:2048"] if of in ("tsa", "server") else ["ec", "-pkeyopt", "ec_paramgen_curve:P-256"]
        openssl("req", "-newkey", *kind_of_key, "-nodes", "-keyout", f"{of}.key", "-out", f"{of}.csr", "-subj", subject, "-config",
                "req.cnf", folder=there)
        openssl("x509", "-req", "-in", f"{of}.csr", "-CA", f"{by}.pem", "-CAkey", f"{by}.key", "-CAcreateserial", "-days", "3650",
                f"-{digest}", "-extfile", "req.cnf", "-extensions", kind, "-out", f"{of}.pem", folder=there)
    with open(os.path.join(there, "serial"), "w", encoding="ascii") as file:
        file.write("01\n")


def certify(folder: str, name: str, subject: str, seconds: int) -> None:
    """The same by the library, with a name of any letters, and certificates that end after so many seconds."""
    from cryptography import x509
    from cryptography.hazmat.primitives import hashes, serialization
    from cryptography.hazmat.primitives.asymmetric import rsa
    from cryptography.x509.oid import ExtendedKeyUsageOID, NameOID
    make(folder, name)
    there = os.path.join(folder, name)
    now = datetime.now(timezone.utc).replace(tzinfo=None)
    keys = {it: rsa.generate_private_key(public_exponent=65537, key_size=2048) for it in ("ca", "tsa")}
    names = {"ca": f"{name} CA", "tsa": subject}
    for it, key in keys.items():
        built = x509.CertificateBuilder().subject_name(x509.Name([x509.NameAttribute(NameOID.COMMON_NAME, names[it])])) \
            .issuer_name(x509.Name([x509.NameAttribute(NameOID.COMMON_NAME, names["ca"])])).public_key(key.public_key()) \
            .serial_number(x509.random_serial_number()).not_valid_before(now - timedelta(days=1)) \
            .not_valid_after(now + timedelta(seconds=seconds))
        if it == "ca":
            built = built.add_extension(x509.BasicConstraints(ca=True, path_length=None), critical=True)
        else:
            built = built.add_extension(x509.ExtendedKeyUsage([ExtendedKeyUsageOID.TIME_STAMPING]), critical=True)
        pem = built.sign(keys["ca"], hashes.SHA256()).public_bytes(serialization.Encoding.PEM)
        with open(os.path.join(there, f"{it}.pem"), "wb") as file:
            file.write(pem)
        with open(os.path.join(there, f"{it}.key"), "wb") as file:
            file.write(key.private_bytes(serialization.Encoding.PEM, serialization.PrivateFormat.PKCS8,
                                         serialization.NoEncryption()))


def twin(folder: str, issuer: str, path: str) -> None:
    """A certificate of nobody with the serial number of the service, and another name."""
    from cryptography import x509
    from cryptography.hazmat.primitives import hashes, serialization
    from cryptography.hazmat.primitives.asymmetric import rsa
    from cryptography.x509.oid import NameOID
    with open(os.path.join(folder, "tsa.pem"), "rb") as file:
        real = x509.load_pem_x509_certificate(file.read())
    key = rsa.generate_private_key(public_exponent=65537, key_size=2048)
    now = datetime.now(timezone.utc).replace(tzinfo=None)
    made = x509.CertificateBuilder().subject_name(x509.Name([x509.NameAttribute(NameOID.COMMON_NAME, "Famous TSA")])) \
        .issuer_name(x509.Name([x509.NameAttribute(NameOID.COMMON_NAME, issuer)])).public_key(key.public_key()) \
        .serial_number(real.serial_number).not_valid_before(now - timedelta(days=1)).not_valid_after(now + timedelta(days=1)) \
        .sign(key, hashes.SHA256())
    with open(path, "wb") as file:
        file.write(made.public_bytes(serialization.Encoding.PEM))


def swap(path: str, *certificates: str) -> bytes:
    """A stamp with other certificates, and another issuer of its signer. Neither is signed."""
    with open(path, "rb") as file:
        (_, body), = values(file.read())
    status, (_, token) = values(body)
    kind, (_, wrapped) = values(token)
    (_, signed), = values(wrapped)
    *fields, _, (_, signers) = values(signed)
    (_, signer), = values(signers)
    version, (_, whose), *rest = values(signer)
    held = []
    for it in certificates:
        (tbs, algorithm, (tag, signature)), = [values(body) for _, body in values(
            openssl("x509", "-in", it.rpartition(":")[2], "-outform", "DER"))]
        is_long = it.startswith("ber:")
        last = bytes((tag, 0x84)) + len(signature).to_bytes(4, "big") + signature if is_long else value(tag, signature)
        held.append(value(48, value(*tbs), value(*algorithm), last))
    issuer = values(tbs[1])[3]
    signer = value(48, value(*version), value(48, value(*issuer), value(*values(whose)[1])), *(value(*it) for it in rest))
    signed = value(48, *(value(*it) for it in fields), value(0xA0, *held), value(49, signer))
    return value(48, value(*status), value(48, value(*kind), value(0xA0, signed)))


# ---- what a service answers

def reply(folder: str, query: bytes, config: str = "sha256") -> bytes:
    """The answer of openssl's own service. It counts in the folder, so each call has one to itself."""
    with tempfile.TemporaryDirectory() as passing:
        there = os.path.join(passing, "tsa")
        shutil.copytree(folder, there)
        with open(os.path.join(there, "query"), "wb") as file:
            file.write(query)
        done = subprocess.run(["openssl", "ts", "-reply", "-config", f"{config}.cnf", "-queryfile", "query"], cwd=there,
                              stdout=subprocess.PIPE, stderr=subprocess.DEVNULL)
        return done.stdout


def value(tag: int, *pieces: bytes) -> bytes:
    """A value in DER."""
    body = b"".join(pieces)
    size = len(body)
    if size < 128:
        return bytes((tag, size)) + body
    length = size.to_bytes((size.bit_length() + 7) // 8, "big")
    return bytes((tag, 128 + len(length))) + length + body


def number(of: int) -> bytes:
    """A whole number in DER, which isn't negative."""
    return value(2, of.to_bytes(of.bit_length() // 8 + 1, "big"))


def values(octets: bytes) -> List[Tuple[int, bytes]]:
    """The values in these octets, each with its tag."""
    found, at = [], 0
    while at < len(octets):
        tag, size, at = octets[at], octets[at + 1], at + 2
        if size > 127:
            size, at = int.from_bytes(octets[at:at + size - 128], "big"), at + size - 128
        found.append((tag, octets[at:at + size]))
        at += size
    return found


def nonce_of(query: bytes) -> int:
    """The number of a request (TimeStampReq of RFC 3161, section 2.4.1): the one integer after the first."""
    (_, fields), = values(query)
    return int.from_bytes([body for tag, body in values(fields) if tag == 2][1], "big")


def imprint_of(query: bytes) -> str:
    """What a request wants to have stamped."""
    (_, fields), = values(query)
    return values(values(fields)[1][1])[1][1].hex()


def accuracy(seconds: int = -1, *more: bytes) -> bytes:
    """An accuracy (Accuracy of RFC 3161, section 2.4.2)."""
    return value(0x30, *([] if seconds < 0 else [number(seconds)]), *more)


def extension(critical: str = "", name: str = "06082b06010505070103") -> bytes:
    """An extension (RFC 5280, section 4.1)."""
    return value(0x30, bytes.fromhex(name), bytes.fromhex(critical), value(4, b"\5\0"))


# what may follow the time of a stamp, and what may not (TSTInfo of RFC 3161, section 2.4.2)
AFTER: Dict[str, List[bytes]] = {
    "all": [accuracy(1, value(0x80, b"\2"), value(0x81, b"\3")), b"\1\1\xff", number(5), value(0xA1, extension())],
    "zero": [accuracy(0)],
    "day": [accuracy(86400)], "more": [accuracy(86400, value(0x81, b"\1"))], "century": [accuracy(3155760000)],
    "long": [accuracy(256 ** 4000)], "none": [accuracy()], "negative": [value(0x30, b"\2\1\xff")],
    "millis": [accuracy(-1, value(0x80, b"\1\xf4"))],
    "millis-0": [accuracy(1, value(0x80, b"\0"))], "millis-1000": [accuracy(1, value(0x80, b"\3\xe8"))],
    "micros-1000": [accuracy(1, value(0x81, b"\3\xe8"))], "micros-first": [accuracy(1, value(0x81, b"\1"), value(0x80, b"\1"))],
    "not-ordered": [b"\1\1\0"], "ordered-first": [b"\1\1\xff", accuracy(1)], "accuracy-twice": [accuracy(1), accuracy(1)],
    "unknown": [value(0xA2, number(1))],
    "other-name": [value(0xA0, value(0xA4, value(0x30, value(0x31, value(0x30, bytes.fromhex("0603550403"), value(12, b"else"))))))],
    "critical": [value(0xA1, extension("0101ff"))], "critical-second": [value(0xA1, extension(), extension("0101ff", "06022a03"))],
    "plain": [value(0xA1, extension())], "twice": [value(0xA1, extension(), extension())], "empty": [value(0xA1)],
    "not-critical": [value(0xA1, extension("010100"))],
}


def token(folder: str, sha256: str, given: Dict[str, str]) -> bytes:
    """An answer that is put together here, and signed by `openssl cms`."""
    algorithm = {"sha1": SHA1, "sha512": SHA512}.get(given.get("imprint", ""), SHA256)
    when = given.get("time", datetime.now(timezone.utc).strftime("%Y%m%d%H%M%SZ"))
    fields = [number(int(given.get("version", "1"))), bytes.fromhex("06042a030401"),
              value(48, value(48, bytes.fromhex(algorithm), bytes.fromhex("0500")), value(4, bytes.fromhex(sha256))),
              number(7), value(24, when.encode())]
    more = AFTER.get(given.get("after", ""), [])
    nonce = [number(int(given["nonce"]))] if "nonce" in given else []
    # an extension stands after the number of the request
    fields += [*nonce, *more] if more and more[0][0] > 0x30 else [*more, *nonce]
    signer = given.get("signer", "tsa")
    words = ["cms", "-sign", "-binary", "-nodetach", "-econtent_type", given.get("type", "1.2.840.113549.1.9.16.1.4"), "-md",
             given.get("md", "sha256"), "-signer", f"{signer}.pem", "-inkey", f"{signer}.key", "-outform", "DER"]
    if given.get("ess", "yes") == "yes":
        words.append("-cades")
    if "more" in given:
        words += ["-certfile", given["more"]]
    if given.get("certificates") == "no":
        words.append("-nocerts")
    if given.get("twice") == "yes":
        words += ["-signer", "server.pem", "-inkey", "server.key"]
    signed = openssl(*words, octets=value(48, *fields), folder=folder)
    return value(48, value(48, number(int(given.get("status", "0")))), signed) + bytes.fromhex(given.get("rest", ""))


def other_nonce(folder: str, query: bytes) -> bytes:
    """A right answer to another request."""
    # after the number of the request stands that the certificate is wanted, in three octets
    assert query[-4] == nonce_of(query) & 255, query
    return reply(folder, query[:-4] + bytes((query[-4] ^ 1,)) + query[-3:])


def sha512(folder: str, query: bytes) -> bytes:
    """A right answer for another hash."""
    return token(folder, imprint_of(query) * 2, {"imprint": "sha512", "nonce": str(nonce_of(query))})


def put_together(folder: str, query: bytes, **given: str) -> bytes:
    """An answer that is put together here, with the number of the request."""
    return token(folder, imprint_of(query), {"nonce": str(nonce_of(query)), **given})


def minutes_on(minutes: int) -> str:
    """The time so many minutes from now."""
    return (datetime.now(timezone.utc) + timedelta(minutes=minutes)).strftime("%Y%m%d%H%M%SZ")


ANSWERS: Dict[str, Callable[[str, bytes], bytes]] = {
    "good": reply,
    "made": put_together,
    "nonce": other_nonce,
    "no-nonce": lambda folder, query: token(folder, imprint_of(query), {}),
    "sha512": sha512,
    "old": lambda folder, query: put_together(folder, query, time=minutes_on(-120)),
    "early": lambda folder, query: put_together(folder, query, time=minutes_on(8)),
    "soon": lambda folder, query: put_together(folder, query, time=minutes_on(3)),
    "vague": lambda folder, query: reply(folder, query, "vague"),
    "exact": lambda folder, query: reply(folder, query, "exact"),
    "critical": lambda folder, query: put_together(folder, query, after="critical"),
    "rejected": lambda folder, query: reply(folder, query, "sha512"),
    "cut": lambda folder, query: reply(folder, query)[:-1],
    "empty": lambda folder, query: b"",
    "page": lambda folder, query: b"<html><body>\x1b[31mLog in first</body></html>\n",
    "huge": lambda folder, query: b"\x30" * (3 << 20),
}


class Service(http.server.BaseHTTPRequestHandler):
    """Answers as its path says."""

    folder = "."
    protocol_version = "HTTP/1.1"

    def do_GET(self) -> None:
        """Nobody asks so."""
        self.send_error(405)

    def do_POST(self) -> None:
        """Answers a request."""
        query = self.rfile.read(int(self.headers["Content-Length"]))
        with open(os.path.join(self.folder, "asked"), "a", encoding="ascii") as file:
            file.write(f"{self.path} {self.headers['Content-Type']} {len(query)}\n")
        kind, _, rest = self.path[1:].partition("/")
        if kind == "moved":
            self.send_response(int(rest.partition("/")[0]))
            self.send_header("Location", "/" + rest.partition("/")[2])
            self.end_headers()
        elif kind == "elsewhere":
            self.send_response(302)
            self.send_header("Location", rest.replace("~", ":"))
            self.end_headers()
        elif kind == "never":
            time.sleep(100)
        elif kind == "drip-head":
            self.drip(b"HTTP/1.1 200 OK\r\nX: " + b"a" * 1000)
        elif kind == "drip":
            self.wfile.write(b"HTTP/1.1 200 OK\r\nContent-Length: 2000\r\n\r\n")
            self.drip(b"0" * 2000)
        elif kind == "short":
            self.wfile.write(b"HTTP/1.1 200 OK\r\nContent-Length: 2000\r\n\r\n0")
            self.close_connection = True
        elif kind == "longer":
            octets = reply(self.folder, query)
            self.wfile.write(b"HTTP/1.1 200 OK\r\nContent-Length: %d\r\n\r\n" % (len(octets) - 100) + octets)
            self.close_connection = True
        elif kind == "negative":
            self.wfile.write(b"HTTP/1.1 200 OK\r\nContent-Length: -1\r\nConnection: close\r\n\r\n" + b"0" * (3 << 20))
            self.close_connection = True
        elif kind == "gigabyte":
            # whoever asks closes the connection before the end
            self.wfile.write(b"HTTP/1.1 200 OK\r\nContent-Length: 1073741824\r\n\r\n")
            self.pour(b"0" * (1 << 20), 1024)
        elif kind == "chunks":
            self.wfile.write(b"HTTP/1.1 200 OK\r\nTransfer-Encoding: chunked\r\n\r\n")
            self.pour(b"100000\r\n" + b"0" * (1 << 20) + b"\r\n", 1024)
        elif kind == "continue":
            self.pour(b"HTTP/1.1 100 Continue\r\n\r\n" * 1000, 1 << 20)
        elif kind == "odd":
            self.wfile.write(b"\x1b[31mnothing of HTTP\r\n\r\n")
            self.close_connection = True
        elif kind == "status":
            self.wfile.write(b"HTTP/1.1 503 \x1b[31mlater\r\nContent-Length: 0\r\n\r\n")
            self.close_connection = True
        else:
            octets = ANSWERS[kind](self.folder, query)
            self.send_response(200)
            self.send_header("Content-Type", "application/timestamp-reply")
            self.send_header("Content-Length", str(len(octets)))
            self.end_headers()
            self.wfile.write(octets)

    def pour(self, octets: bytes, times: int) -> None:
        """Writes the same so often, as long as somebody takes it. How often it was is kept."""
        count = 0
        try:
            for count in range(1, times + 1):
                self.wfile.write(octets)
        finally:
            self.close_connection = True
            with open(os.path.join(self.folder, "poured"), "w", encoding="ascii") as file:
                file.write(str(count))

    def drip(self, octets: bytes) -> None:
        """Writes an octet, and another one after a while."""
        for it in octets:
            self.wfile.write(bytes((it,)))
            self.wfile.flush()
            time.sleep(0.2)

    def handle(self) -> None:
        """That nobody waits for the end of an answer is no fault."""
        try:
            super().handle()
        except OSError:
            pass

    def log_message(self, *words: object) -> None:
        """Nothing is logged."""


def serve(folder: str, port: str, certificate: str = "") -> None:
    """Serves until it is ended."""
    Service.folder = folder
    server = http.server.ThreadingHTTPServer(("127.0.0.1", 0), Service)
    server.daemon_threads = True
    if certificate:
        context = ssl.SSLContext(ssl.PROTOCOL_TLS_SERVER)
        context.load_cert_chain(f"{certificate}.pem", f"{certificate}.key")
        server.socket = context.wrap_socket(server.socket, server_side=True)
    with open(f"{port}.new", "w", encoding="ascii") as file:
        file.write(str(server.server_port))
    os.rename(f"{port}.new", port)
    server.serve_forever()


def flips(tools: str, authority: str, path: str, stamp: str) -> None:
    """Changes octets of a stamp in turn, and cuts it at each place: no change is taken, unless it says the same."""
    import hashlib
    sys.path.insert(0, tools)
    from ssign_keys import rfc3161
    from ssign_keys.commands import BUDGET
    from ssign_keys.faults import Fault
    from ssign_keys.workplace import Workplace
    with open(path, "rb") as file:
        sha256 = hashlib.sha256(file.read()).hexdigest()
    with open(stamp, "rb") as file:
        right = file.read()
    authorities = rfc3161.read_authorities([authority], [])
    chosen = random.Random(3161)
    taken = refused = 0
    codes: Dict[str, int] = {}
    with Workplace() as workplace:
        good = rfc3161.check_stamp(right, stamp, {"counters": sha256}, authorities, workplace).stamp
        tried = [right[:at] + bytes((right[at] ^ 1 << chosen.randrange(8),)) + right[at + 1:] for at in range(0, len(right), 3)]
        tried += [right[:at] for at in range(len(right))] + [right + b"\0", right + right]
        for it in tried:
            BUDGET.renew()
            try:
                said = rfc3161.check_stamp(it, stamp, {"counters": sha256}, authorities, workplace)
            except Fault as fault:
                refused += 1
                code = str(fault)[-4:]
                assert code in ("(T1)", "(T2)", "(T3)", "(T4)"), fault
                assert str(fault).isprintable(), fault
                codes[code] = codes.get(code, 0) + 1
                continue
            assert len(it) == len(right) and said.stamp == good, (said.stamp, good)
            taken += 1
    print(f"{len(tried)} changed stamps: {refused} refused, {codes}; {taken} say the same")
    # what isn't signed is the status, the version of the answer and certificates that aren't needed
    assert refused > len(right) and len(codes) == 3, codes


def slow_name(tools: str, *words: str) -> None:
    """Runs ssign-keys where a name is looked up for ever, and no signal but SIGKILL ends that."""
    import socket

    def look(*given: object, **named: object) -> List[object]:
        signal.pthread_sigmask(signal.SIG_BLOCK, set(signal.Signals) - {signal.SIGKILL})
        time.sleep(100)
        return []

    socket.getaddrinfo = look  # type: ignore[assignment]
    sys.path.insert(0, tools)
    from ssign_keys.cli import main as run
    sys.exit(run(words))


def stopped(tools: str, call: str, *words: str) -> None:
    """Runs ssign-keys, and kills it where it makes this call for the file that is to become the stamp."""
    real = getattr(os, call)

    def kill(*given: object, **named: object) -> object:
        if isinstance(given[0], int) or ".ssign-keys-" in os.fsdecode(given[0]):  # type: ignore[arg-type]
            os.kill(os.getpid(), signal.SIGKILL)
        return real(*given, **named)

    setattr(os, call, kill)
    sys.path.insert(0, tools)
    from ssign_keys.cli import main as run
    sys.exit(run(words))


def main(command: str, *words: str) -> None:
    """Does one of the commands."""
    if command == "make":
        make(*words)
    elif command == "brief":
        certify(words[0], words[1], f"{words[1]} TSA", int(words[2]))
    elif command == "hostile":
        certify(words[0], words[1], words[2], 10 ** 6)
    elif command == "weak":
        make(words[0], words[1], "sha1")
    elif command == "twin":
        twin(*words)
    elif command == "swap":
        sys.stdout.buffer.write(swap(*words))
    elif command == "answer":
        sys.stdout.buffer.write(ANSWERS[words[1]](words[0], sys.stdin.buffer.read()))
    elif command == "token":
        sys.stdout.buffer.write(token(words[0], words[1], dict(it.split("=", 1) for it in words[2:])))
    elif command == "serve":
        serve(*words)
    elif command == "flips":
        flips(*words)
    elif command == "slow-name":
        slow_name(*words)
    elif command == "stopped":
        stopped(*words)
    elif command == "random":
        sys.stdout.buffer.write(random.Random(int(words[0])).randbytes(int(words[0])))
    else:
        raise AssertionError(command)


if __name__ == "__main__":
    main(*sys.argv[1:])
