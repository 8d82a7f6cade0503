"""Asks a time stamp service (RFC 3161, section 3.4): by HTTP, or by a command. What it answers is judged elsewhere."""
from __future__ import annotations

import contextlib
import http.client
import os
import select
import signal
import ssl
import subprocess
import time
from typing import NamedTuple, NoReturn, Optional
from urllib.parse import SplitResult, urljoin, urlsplit

from . import VERSION
from .faults import Fault
from .files import reason
from .rfc3161 import LONGEST
from .words import shown_text
from .workplace import Workplace

SCHEMES = ("http", "https")
# with these the same question is asked at another place
REDIRECTS = (301, 302, 307, 308)
MOST_REDIRECTS = 5
OK = 200
HEADERS = {"Content-Type": "application/timestamp-query", "Accept": "application/timestamp-reply",
           "User-Agent": f"ssign-keys/{VERSION}", "Connection": "close"}
PIECE = 1 << 16
# what the process that asks writes in front of an answer, and of why there is none
GOOD, BAD = b"+", b"-"
SHOWN = 200


class Answer(NamedTuple):
    """What a service answers to a request."""

    status: int
    reason: str
    location: Optional[str]
    """Where else to ask."""
    octets: bytes


def shown(text: str) -> str:
    """A text of a service, or what is said of it, for a sentence."""
    return shown_text(text[:SHOWN])


def too_long() -> Fault:
    """What is said of an answer that doesn't end."""
    return Fault(f"the time stamp service answers with more than {LONGEST:,} octets")


def late(seconds: int) -> Fault:
    """What is said of a service that doesn't answer in time."""
    return Fault(f"the time stamp service has given no whole answer after {seconds} seconds: --tsa-seconds sets another limit")


# ---- by HTTP

def read_url(text: str) -> SplitResult:
    """The address of a service. Raises Fault where it is none of HTTP or HTTPS."""
    try:
        url = urlsplit(text)
        is_right = url.scheme in SCHEMES and bool(url.hostname) and url.port != 0 and text.isascii() and text.isprintable()
    except ValueError:
        is_right = False
    if not is_right or " " in text:
        raise Fault(f"--tsa {shown(text)}: this is no address such as https://tsa.example.org/tsr")
    if url.username is not None or url.password is not None:
        raise Fault("--tsa: a name or a password can't stand in the address; with --tsa-command, a program of yours can send them")
    return url


def ask_url(text: str, query: bytes, seconds: int) -> bytes:
    """What a service at an address answers to a request.

    Another process asks, and is ended when the time is over: a name that is looked up can't be stopped in another way.
    """
    url, end = read_url(text), time.monotonic() + seconds
    ours, theirs = os.pipe()
    child = os.fork()
    if child == 0:
        hand_over(theirs, url, query, seconds)
    os.close(theirs)
    try:
        said = read_until(ours, end, seconds)
    finally:
        os.close(ours)
        with contextlib.suppress(OSError):
            os.kill(child, signal.SIGKILL)
        os.waitpid(child, 0)
    if said[:1] == GOOD:
        return said[1:]
    raise Fault(said[1:].decode("utf-8", "replace") or "the process that asks the time stamp service has ended")


def hand_over(number: int, url: SplitResult, query: bytes, seconds: int) -> NoReturn:
    """Writes to a pipe what a service answers, or why there is no answer. This process ends with it."""
    try:
        # where nobody ends it
        signal.signal(signal.SIGALRM, signal.SIG_DFL)
        signal.alarm(seconds + 1)
        try:
            said = GOOD + follow(url, query, seconds)
        except Fault as fault:
            said = BAD + str(fault).encode("utf-8", "replace")
        left = memoryview(said)
        while left:
            left = left[os.write(number, left):]
    finally:
        os._exit(0)


def follow(first: SplitResult, query: bytes, seconds: int) -> bytes:
    """What a service answers, at this address or where it sends to."""
    url = first
    for _ in range(MOST_REDIRECTS + 1):
        answer = post(url, query, seconds)
        if answer.status not in REDIRECTS:
            break
        url = moved(url, answer)
        if url.scheme != first.scheme:
            raise Fault(f"the time stamp service sends elsewhere, to {shown(url.geturl())}, which isn't {first.scheme}: that isn't "
                        "followed")
    else:
        raise Fault(f"the time stamp service sends elsewhere more than {MOST_REDIRECTS} times")
    if answer.status != OK:
        raise Fault(f"the time stamp service answers {answer.status} {shown(answer.reason)}".rstrip())
    return answer.octets


def moved(url: SplitResult, answer: Answer) -> SplitResult:
    """Where an answer sends to."""
    if answer.location is None:
        raise Fault(f"the time stamp service answers {answer.status}, and doesn't say where it is")
    try:
        return urlsplit(urljoin(url.geturl(), answer.location))
    except ValueError as fault:
        raise Fault(f"the time stamp service sends elsewhere, to {shown(answer.location)}, which is no address") from fault


def post(url: SplitResult, query: bytes, seconds: int) -> Answer:
    """Sends a request to a service, and reads its answer, up to the limit."""
    try:
        host = url.hostname or ""
        if url.scheme == "https":
            # the certificates that this machine trusts, and the name of the host
            connection: http.client.HTTPConnection = http.client.HTTPSConnection(
                host, url.port, timeout=seconds, context=ssl.create_default_context())
        else:
            connection = http.client.HTTPConnection(host, url.port, timeout=seconds)
        with contextlib.closing(connection):
            connection.request("POST", f"{url.path or '/'}{f'?{url.query}' if url.query else ''}", query, HEADERS)
            response = connection.getresponse()
            octets = b"" if response.status in REDIRECTS else response.read(LONGEST + 1)
            answer = Answer(response.status, response.reason, response.getheader("Location"), octets)
    except (OSError, http.client.HTTPException, ValueError) as fault:
        why = reason(fault) or type(fault).__name__
        raise Fault(f"the time stamp service can't be asked: {shown(why)}") from fault
    if len(answer.octets) > LONGEST:
        raise too_long()
    return answer


# ---- by a command

def ask_command(command: str, path: str, seconds: int, workplace: Workplace) -> bytes:
    """What a command prints that reads a request, which stands in the file of this path."""
    end = time.monotonic() + seconds
    with open(path, "rb") as query:
        try:
            child = workplace.start(["/bin/sh", "-c", command], query, subprocess.PIPE, None, has_group=True)
        except (OSError, ValueError) as fault:
            raise Fault(f"--tsa-command can't be run: {reason(fault)}") from fault
    assert child.stdout is not None
    with child.stdout as stream:
        try:
            octets = read_until(stream.fileno(), end, seconds)
            status = child.wait(max(end - time.monotonic(), 0.1))
        except subprocess.TimeoutExpired as fault:
            end_group(child)
            raise late(seconds) from fault
        except BaseException:
            end_group(child)
            raise
    if status:
        how = f"ended with the status {status}" if status > 0 else f"was ended by the signal {-status}"
        raise Fault(f"--tsa-command {how}, so there is no time stamp")
    return octets


def read_until(number: int, end: float, seconds: int) -> bytes:
    """All that comes from a pipe, which has to end in time and within the limit."""
    held = bytearray()
    while True:
        left = end - time.monotonic()
        if left <= 0 or not select.select([number], [], [], left)[0]:
            raise late(seconds)
        piece = os.read(number, PIECE)
        if not piece:
            return bytes(held)
        held += piece
        # and an octet in front of it
        if len(held) > LONGEST + 1:
            raise too_long()


def end_group(child: subprocess.Popen[bytes]) -> None:
    """Ends a command with all that it has started. It wasn't waited for yet, so its number is still its own."""
    with contextlib.suppress(OSError):
        os.killpg(child.pid, signal.SIGKILL)
    child.wait()
