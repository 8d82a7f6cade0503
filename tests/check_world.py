"""A small world for the tests of `ssign-keys check`: two originators with their keys, signed files and logs.

Signed files are made by `ssign-keys sign` of a chain message and lines, whose text stands in docs/dev/FORMATS.md ("A chain").
Each run of a tool is a process that is forked, because to start an interpreter takes longer than most checks.
"""
import hashlib
import json
import os
import shutil
import sys
import tempfile
import time
import traceback

ROOT = os.path.dirname(os.path.dirname(os.path.abspath(__file__)))
sys.path.insert(0, os.path.join(ROOT, "tools"))

from ssign_keys import cli  # noqa: E402
from ssign_keys.check import verdicts  # noqa: E402
from ssign_keys.programs import said  # noqa: E402
from ssign_keys.trust import read_public_keys  # noqa: E402

DAY = 86400
# midnight of a day in 2030
START = 1_900_022_400
NIGHTS = 10
# an hour after the last night
NOW = START + DAY * (NIGHTS + 1) + 3600


def tool(*words, now=None):
    """Runs ssign-keys at a time: its status, standard output in octets, and standard error."""
    with tempfile.TemporaryFile() as out, tempfile.TemporaryFile() as err:
        pid = os.fork()
        if pid == 0:
            status = 99
            try:
                os.dup2(out.fileno(), 1)
                os.dup2(err.fileno(), 2)
                if now is not None:
                    time.time = lambda: float(now)
                status = cli.main(list(words))
            except BaseException:
                traceback.print_exc()
            finally:
                sys.stderr.flush()
                os._exit(status)
        _, status = os.waitpid(pid, 0)
        out.seek(0)
        err.seek(0)
        return os.waitstatus_to_exitcode(status), out.read(), err.read().decode()


def remember_verdicts(folder):
    """Has each file be verified once in all runs from now on: the verdict on the same octets under the same keys is the same."""
    judge = verdicts.Pool.judge

    def remembered(self, works):
        kept = {it: f"{folder}/{it.sha256}-{self._judges.of[0]}-{it.seen if self._judges.file else 0}" for it in works}
        for work in works:
            if os.path.exists(kept[work]):
                yield work, verdicts.Judged(json.loads(read(kept[work])))
        for work, judged in judge(self, [it for it in works if not os.path.exists(kept[it])]):
            if not judged.unread:
                write(f"{kept[work]}.{os.getpid()}", json.dumps(judged.fields).encode())
                os.rename(f"{kept[work]}.{os.getpid()}", kept[work])
            yield work, judged

    os.makedirs(folder)
    verdicts.Pool.judge = remembered


def warm(keys):
    """Has what each run asks of the program and the keys be known to the processes that are forked.

    The numbers of a key are looked at once then, which takes longer than a small file.
    """
    said(os.environ["SSIGN"], "--version")
    for it in keys:
        read_public_keys(it)


def sha256(octets):
    return hashlib.sha256(octets).hexdigest()


def link_text(rsid, before=None, log=None, aside=None):
    """The text of a chain message: ASCII, names in order, no blanks."""
    fields = {"format": 1, "rsid": rsid, "before": before, "log": log, "aside": aside}
    return json.dumps(fields, sort_keys=True, separators=(",", ":"))


def log_part(name, start, octets, changed):
    """What a link says about a log; `octets` are all up to its end."""
    return {"name": name, "start": start, "end": len(octets), "sha256": sha256(octets), "empty": 0, "changed": changed}


def chain_message(rsid, text, host="alpha", procid="-"):
    stamp = time.strftime("%Y-%m-%dT%H:%M:%SZ", time.gmtime(rsid))
    return f"<110>1 {stamp} {host} ssign {procid} chain - {text}\n".encode()


def read(path):
    with open(path, "rb") as file:
        return file.read()


def write(path, octets):
    with open(path, "wb") as file:
        file.write(octets)


class Signer:
    """Signs logs of one originator, each after the newest."""

    def __init__(self, folder, keys, host):
        self.folder, self.key, self.host = folder, os.path.join(keys, "private-key.pem"), host
        self.before = None
        os.makedirs(folder, exist_ok=True)

    def octets(self, rsid, text):
        """The text of lines as a signed file."""
        with tempfile.TemporaryDirectory() as folder:
            write(f"{folder}/in", text)
            names = ("--rsid", str(rsid), "--host", self.host, "--app", "ssign")
            status, out, err = tool("sign", "--key", self.key, *names, "--wrap", "--lines", f"{folder}/in")
            assert status == 0, err
            return out

    def link(self, rsid, log=None, aside=None, before=Ellipsis):
        return link_text(rsid, self.before if before is Ellipsis else before, log, aside)

    def make(self, rsid, lines, log=None, aside=None, before=Ellipsis):
        """The octets of a signed file that names the one before; `log` is (name, start, all octets up to its end)."""
        part = None if log is None else log_part(log[0], log[1], log[2], rsid)
        text = self.link(rsid, part, aside, before)
        return self.octets(rsid, chain_message(rsid, text, self.host) + lines)

    def put(self, rsid, name, octets):
        """Has a signed file be the newest."""
        write(f"{self.folder}/{name}", octets)
        self.before = {"name": name, "rsid": rsid, "sha256": sha256(octets)}

    def night(self, number, name="", before=Ellipsis, lines=None, rsid=None):
        """Signs the log of a night. The log lies beside it, as old as the night."""
        rsid = rsid or START + DAY * number
        log = name or f"m-{number:02}.log"
        lines = lines if lines is not None else lines_of(number, self.host)
        octets = self.make(rsid, lines, (log, 0, lines), None, before)
        self.put(rsid, f"{log}.frames", octets)
        self.log(log, lines, rsid)

    def log(self, name, lines, when):
        write(f"{self.folder}/{name}", lines)
        os.utime(f"{self.folder}/{name}", (when, when))


def lines_of(number, host="alpha", count=6):
    """The log of a night: messages of RFC 5424, and one of another form."""
    stamp = time.strftime("%Y-%m-%d", time.gmtime(START + DAY * (number - 1)))
    lines = [f"<13>1 {stamp}T0{i}:00:00Z {host} app - - - message {i} of night {number}" for i in range(count)]
    return "".join(f"{it}\n" for it in [*lines, f"not a message of RFC 5424, night {number}"]).encode()


def build(top):
    """The world: keys, and the folders of alpha and beta below `logs`. Gives their signers and those of a stranger."""
    signers = {}
    for name in ("alpha", "beta", "stranger"):
        os.makedirs(f"{top}/keys/{name}", 0o700)
        status, _, err = tool("make", f"{top}/keys/{name}")
        assert status == 0, err
        signers[name] = Signer(f"{top}/logs/{name}" if name != "stranger" else f"{top}/stranger", f"{top}/keys/{name}",
                               "alpha" if name == "stranger" else name)
    alpha, beta = signers["alpha"], signers["beta"]
    for number in range(1, NIGHTS + 1):
        if number == 5:
            make_aside(alpha)
        else:
            alpha.night(number)
        if number == 6:
            make_late(alpha)
        if number == 7:
            make_beat(alpha)
    for number in range(NIGHTS - 2, NIGHTS + 1):
        beta.night(number, f"b-{number:02}.log")
    for name in ("alpha", "beta"):
        for log in os.listdir(f"{top}/logs/{name}"):
            # the older logs were removed, as logrotate does
            if log.endswith(".log") and int(log[2:4]) < 9:
                os.remove(f"{top}/logs/{name}/{log}")
    return signers


def make_aside(alpha):
    """Night 5, of which a message was set aside."""
    rsid, lines = START + DAY * 5, lines_of(5)
    aside = b"9 too long!"
    write(f"{alpha.folder}/m-05.log.set-aside", aside)
    fields = {"name": "m-05.log.set-aside", "messages": 1, "sha256": sha256(aside)}
    alpha.put(rsid, "m-05.log.frames", alpha.make(rsid, lines, ("m-05.log", 0, lines), fields))
    alpha.log("m-05.log", lines, rsid)


def make_late(alpha):
    """Late lines of night 6."""
    rsid, lines, more = START + DAY * 6 + 60, lines_of(6), b"<13>1 - alpha app - - - late\n"
    alpha.put(rsid, "m-06.log.late-1.frames", alpha.make(rsid, more, ("m-06.log", len(lines), lines + more)))


def make_beat(alpha):
    """A link without a log."""
    rsid = START + DAY * 7 + 3600
    alpha.put(rsid, f"beat-{rsid}.frames", alpha.make(rsid, b""))


BEAT = f"beat-{START + DAY * 7 + 3600}.frames"


def copy(source, target):
    """A copy of a folder or a file in the place of what is there, with its times."""
    if os.path.isdir(target) and not os.path.islink(target):
        shutil.rmtree(target)
    elif os.path.lexists(target):
        os.remove(target)
    if os.path.isdir(source):
        shutil.copytree(source, target, symlinks=True)
    else:
        shutil.copy2(source, target)
