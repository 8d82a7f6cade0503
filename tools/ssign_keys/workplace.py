"""Where a run keeps its passing files, and how it ends: whatever happens, no file and no child of it is left."""
from __future__ import annotations

import contextlib
import errno
import os
import signal
import subprocess
import sys
import tempfile
from types import FrameType, TracebackType
from typing import IO, BinaryIO, Callable, Iterator, List, Mapping, Optional, Sequence, Tuple, Type, Union

from .faults import Fault
from .forked import Forked, work_apart


# what a child reads from or writes to: a file, its number, or subprocess.PIPE
Stream = Union[IO[bytes], int]

NO_ROOM = (errno.ENOSPC, errno.EDQUOT, errno.EFBIG)


class Ended(BaseException):
    """A signal asked this process to end. It is no `Exception`, so that nothing on the way takes it for a fault."""

    def __init__(self, number: int) -> None:
        super().__init__(number)
        self.number = number


class Workplace:
    """A folder for passing files, and the children that were started; both go when the block of `with` ends.

    A signal that asks the process to end is raised as `Ended` within the block. After it the process dies by that same
    signal, so that a shell that waits for it learns of it. While the folder is made or removed, a signal is put off: else
    some of it would be left.
    """

    SIGNALS = (signal.SIGINT, signal.SIGTERM, signal.SIGHUP)

    def __init__(self) -> None:
        self._children: List[Union[subprocess.Popen[bytes], Forked]] = []
        self._puts_off = False
        # the signal that came
        self._number: Optional[int] = None
        self.kept_open: Tuple[int, ...] = ()
        """Descriptors that each child keeps open, as that of a lock: where this process is killed, its child may still write."""

    def __enter__(self) -> Workplace:
        owner = os.getpid()

        def end(number: int, frame: Optional[FrameType]) -> None:
            if os.getpid() != owner:
                # a helper that was forked has nothing to put away
                os._exit(128 + number)
            for it in self.SIGNALS:
                signal.signal(it, signal.SIG_IGN)
            self._number = number
            if not self._puts_off and not is_leaving(frame):
                raise Ended(number)

        self._puts_off = True
        # what whoever started this process had ignored, as nohup does, stays ignored
        self._before = {it: signal.getsignal(it) for it in self.SIGNALS}
        for it, before in self._before.items():
            if before is not signal.SIG_IGN:
                signal.signal(it, end)
        try:
            self._folder = tempfile.TemporaryDirectory(prefix="ssign-keys-")
        except OSError as error:
            self._let_go(self._number)
            raise Fault(f"no folder for passing files can be made: {error.strerror}; look at TMPDIR") from error
        try:
            self._puts_off = False
            self.go_on()
            return self
        except Ended as ended:
            # whoever raises here doesn't come to the end of the block
            self._puts_off = True
            self._folder.cleanup()
            self._let_go(ended.number)
            raise

    def __exit__(
        self, kind: Optional[Type[BaseException]], error: Optional[BaseException], trace: Optional[TracebackType]
    ) -> None:
        self._puts_off = True
        for child in self._children:
            if child.poll() is None:
                child.kill()
                child.wait()
        self._folder.cleanup()
        self._let_go(self._number)
        if isinstance(error, OSError) and error.errno in NO_ROOM:
            # a file that couldn't be written fails once more where it is closed
            raise no_room(error) from error

    def _let_go(self, number: Optional[int]) -> None:
        """Signals do what they did before. If this one came meanwhile, the process dies by it."""
        for it, before in self._before.items():
            signal.signal(it, before)
        if number is not None:
            signal.signal(number, signal.SIG_DFL)
            os.kill(os.getpid(), number)

    def go_on(self) -> None:
        """Raises `Ended` if a signal came. Whoever waits calls it now and then: what a signal raises while Python closes a file that
        nobody refers to any more is dropped without a word.
        """
        if self._number is not None:
            raise Ended(self._number)

    def path(self, name: str) -> str:
        """The path of a passing file of this name."""
        return os.path.join(self._folder.name, name)

    def new_file(self, name: str) -> BinaryIO:
        """A passing file of this name, open for writing and reading."""
        try:
            return open(self.path(name), "w+b")
        except OSError as error:
            raise no_room(error) from error

    def pipe(self, name: str) -> str:
        """The path of a named pipe that is made anew."""
        path = self.path(name)
        try:
            with contextlib.suppress(FileNotFoundError):
                os.remove(path)
            os.mkfifo(path)
        except OSError as error:
            raise no_room(error) from error
        return path

    def start(self, words: Sequence[str], stdin: Stream, stdout: Stream, stderr: Optional[Stream],
              env: Optional[Mapping[str, str]] = None, has_group: bool = False) -> subprocess.Popen[bytes]:
        """Starts a program, which is ended with the block, where it hasn't ended by itself. Raises as Popen does.

        With a group of its own, whoever starts it ends what the program starts: the number of the group is the child's.

        A signal that comes while it starts is raised once the child is known here: else the child would be left.
        """
        with self._starting():
            child = subprocess.Popen(words, stdin=stdin, stdout=stdout, stderr=stderr, env=env,
                                     start_new_session=has_group, pass_fds=self.kept_open)
            self._children.append(child)
        return child

    def fork(self, work: Callable[[], int], stdout: IO[bytes], stderr: IO[bytes]) -> Forked:
        """Has work done in a process of its own, which ends with the status of it. It is ended with the block as others are."""
        with self._starting():
            pid = os.fork()
            if pid == 0:
                work_apart(work, stdout.fileno(), stderr.fileno(), self._before)
            child = Forked(pid)
            self._children.append(child)
        return child

    @contextlib.contextmanager
    def _starting(self) -> Iterator[None]:
        """Puts a signal off that comes while a child starts."""
        self._puts_off = True
        try:
            yield
        finally:
            self._puts_off = False
            self.go_on()


def is_leaving(frame: Optional[FrameType]) -> bool:
    """Whether the block of a workplace is being left here: a signal may come before the first line of that is run."""
    while frame is not None:
        if frame.f_code is Workplace.__exit__.__code__:
            return True
        frame = frame.f_back
    return False


def no_room(error: OSError) -> Fault:
    """What is said where a passing file can't be written."""
    return Fault(f"a passing file can't be written: {error.strerror}; TMPDIR names the folder for it")


def put(file: BinaryIO, octets: bytes) -> None:
    """Writes to a passing file. What was put stands there once `finish` was called."""
    try:
        file.write(octets)
    except OSError as error:
        raise no_room(error) from error


def finish(file: BinaryIO) -> None:
    """Has all that was put stand in the passing file."""
    try:
        file.flush()
    except OSError as error:
        raise no_room(error) from error


def notify(sentence: str) -> None:
    """Writes a line to standard error. That nobody reads it is no fault of the run."""
    try:
        sys.stderr.write(sentence + "\n")
        sys.stderr.flush()
    except (OSError, ValueError, AttributeError):
        pass
