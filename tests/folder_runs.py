"""Runs `ssign-keys sign --folder` over a folder of a test, each in a process that is forked."""
import gzip
import io
import os
import shutil
import subprocess
import sys
import tempfile
import time
from typing import Callable, List, NamedTuple, Optional

from folder_model import bare


class Done(NamedTuple):
    """What a run came to."""

    status: int
    out: str
    err: str


class Box:
    """A folder of logs, the folder of its keys beside it, and runs over it."""

    HOST = "gate"

    def __init__(self, tools: str, program: str, scratch: str) -> None:
        """The tools are read from their folder. Nothing is there yet but a place for folders."""
        sys.path.insert(0, tools)
        from ssign_keys import sign
        from ssign_keys.chain import sign_folder, verifying
        self.loaded = sign, sign_folder, verifying
        self.program = program
        self.scratch = scratch
        self.count = 0
        self.home = ""

    def begin(self, like: Optional[str] = None) -> None:
        """A new home, with a copy of another one in it."""
        self.count += 1
        self.home = os.path.join(self.scratch, f"home-{self.count}")
        if like is None:
            os.makedirs(self.logs)
            os.makedirs(self.keys)
        else:
            subprocess.run(["cp", "-a", like, self.home], check=True)

    def end(self) -> None:
        """The home goes."""
        shutil.rmtree(self.home)

    @property
    def logs(self) -> str:
        return os.path.join(self.home, "logs")

    @property
    def keys(self) -> str:
        return os.path.join(self.home, "keys")

    def at(self, name: str) -> str:
        return os.path.join(self.logs, name)

    # ---- runs

    def main(self, words: List[str], before: Callable[[], None] = lambda: None) -> Done:
        """Runs a command of ssign-keys. `before` is called in its process."""
        with tempfile.TemporaryFile() as out, tempfile.TemporaryFile() as err:
            child = os.fork()
            if child == 0:
                status = 99
                try:
                    os.dup2(out.fileno(), 1)
                    os.dup2(err.fileno(), 2)
                    os.environ["SSIGN_SESSIONS"] = os.path.join(self.keys, "sessions")
                    before()
                    from ssign_keys.cli import main
                    status = main(words)
                    sys.stdout.flush()
                finally:
                    os._exit(status)
            waited = os.waitpid(child, 0)[1]
            status = -os.WTERMSIG(waited) if os.WIFSIGNALED(waited) else os.WEXITSTATUS(waited)
            said = [os.pread(it.fileno(), 1 << 20, 0).decode("utf-8", "backslashreplace") for it in (out, err)]
        return Done(status, *said)

    def sign(self, *words: str, before: Callable[[], None] = lambda: None, program: str = "") -> Done:
        """A run over the folder. No log has to be quiet, where nothing else is said."""
        quiet = [] if any(it.startswith("--quiet") for it in words) else ["--quiet=0"]
        names = [] if any(it.startswith("--host") for it in words) else [f"--host={self.HOST}"]
        key = [] if any(it.startswith("--key") for it in words) else [f"--key={self.keys}/private-key.pem"]
        return self.main(["sign", "--folder", self.logs, f"--ssign={program or self.program}", *key, *names, *quiet, *words], before)

    def verify(self, name: str, *words: str) -> Done:
        """Verifies a signed file with the public key, by a reader that knows nothing of chains."""
        return self.main(["verify", f"--ssign={self.program}", f"--key={self.keys}/public-key.pem", *words, self.at(name)])

    # ---- what is done to the folder

    def put(self, name: str, octets: bytes, age: float = 60) -> None:
        """A file that was written some seconds ago."""
        with open(self.at(name), "wb") as file:
            file.write(octets)
        os.utime(self.at(name), (time.time() - age,) * 2)

    def append(self, name: str, octets: bytes) -> None:
        with open(self.at(name), "ab") as file:
            file.write(octets)

    def read(self, name: str) -> bytes:
        with open(self.at(name), "rb") as file:
            return file.read()

    def remove(self, *names: str) -> None:
        for it in names:
            os.unlink(self.at(it))

    def rename(self, old: str, new: str) -> None:
        os.rename(self.at(old), self.at(new))

    def gz(self, name: str, new: str = "") -> None:
        """Compresses a file, as logrotate does: the time of the old one stays."""
        seen = os.stat(self.at(name))
        packed = io.BytesIO()
        with gzip.GzipFile(fileobj=packed, mode="wb", mtime=0) as file:
            file.write(self.read(name))
        target = new or name + ".gz"
        self.put(target, packed.getvalue())
        os.utime(self.at(target), ns=(seen.st_atime_ns, seen.st_mtime_ns))
        self.remove(name)

    def names(self) -> List[str]:
        """The files that people see."""
        return sorted(it for it in os.listdir(self.logs) if not it.startswith("."))

    def signed(self) -> List[str]:
        return [it for it in self.names() if bare(it).endswith(".frames")]

    def hidden(self) -> List[str]:
        return sorted(it for it in os.listdir(self.logs) if it.startswith(".") and it != ".ssign-seen" and not os.path.isdir(self.at(it)))
