"""Files that are opened with care: short ones that the command line names, read whole, and those of locks."""
from __future__ import annotations

import errno
import os
import re
import stat
from typing import List, Optional

from .faults import Fault
from .words import shown_name

# No file of keys or certificates comes near to it.
LONGEST = 16 * 1024 * 1024
OTHERS_WRITE = stat.S_IWGRP | stat.S_IWOTH
IS_LINK = "it is a link"
NOT_REGULAR = "it is no regular file"
# what names a file that this process has open already
DESCRIPTOR = re.compile(r"/dev/stdin|/(?:dev|proc/self|proc/thread-self)/fd/([0-9]+)")


def read_file(path: str, wanted: str, is_private: bool = False) -> bytes:
    """What stands in a file of keys or certificates. `wanted` is what it should hold, with its article.

    A private one is refused if others may change it: they would choose who signs.
    """
    if not path:
        raise Fault(f"the name of a file is empty: a file with {wanted} is wanted")
    try:
        with open(open_given(path), "rb") as file:
            mode = os.fstat(file.fileno()).st_mode
            if stat.S_ISCHR(mode) or stat.S_ISBLK(mode):
                raise Fault(f"{path} is a device: a file with {wanted} is wanted")
            if is_private and stat.S_ISREG(mode) and mode & OTHERS_WRITE:
                raise Fault(f"others may change the private key {path}, by its mode {mode & 0o7777:04o}: `chmod go-w {path}`, and see "
                            "that it is still yours")
            octets = file.read(LONGEST + 1)
    except IsADirectoryError as fault:
        raise Fault(f"{path} is a folder: a file with {wanted} is wanted") from fault
    except (OSError, ValueError) as fault:
        raise Fault(f"{path} can't be read: {reason(fault)}") from fault
    if not octets:
        raise Fault(f"{path} is empty: a file with {wanted} is wanted")
    if len(octets) > LONGEST:
        raise Fault(f"{path} is no file of keys: it has more than {LONGEST} octets")
    return octets


def open_regular(path: str, flags: int = os.O_RDONLY | os.O_NOFOLLOW, mode: int = 0o600, folder: Optional[int] = None) -> int:
    """Opens a regular file, in the folder of a descriptor where one is given, and gives its number.

    What else has its name isn't waited for. Raises OSError with a plain reason. Without other flags a link isn't followed, so no
    other file is opened than the one of this name.
    """
    try:
        number = os.open(path, flags | os.O_NONBLOCK | os.O_NOCTTY | os.O_CLOEXEC, mode, dir_fd=folder)
    except OSError as fault:
        if fault.errno == errno.ELOOP and flags & os.O_NOFOLLOW:
            raise OSError(fault.errno, IS_LINK, path) from fault
        if fault.errno == errno.ENXIO:
            # a socket, or a device that isn't there
            raise OSError(fault.errno, NOT_REGULAR, path) from fault
        raise
    kind = os.fstat(number).st_mode
    if not stat.S_ISREG(kind):
        os.close(number)
        raise OSError(errno.EISDIR if stat.S_ISDIR(kind) else errno.EINVAL, NOT_REGULAR, path)
    return number


def open_given(path: str, flags: int = 0) -> int:
    """Opens a file for reading that the command line names, and gives its number. Raises OSError with a plain reason.

    A pipe or a device counts where its name is that of an open descriptor: so the shell names what it makes of `<(..)`. Under
    another name somebody may have put it there, and it may keep the run waiting for ever; so it is refused, but for /dev/null.
    """
    named = DESCRIPTOR.fullmatch(path)
    if named is None and path != os.devnull:
        try:
            return open_regular(path, flags)
        except OSError as fault:
            if fault.strerror == NOT_REGULAR and fault.errno == errno.EISDIR:
                raise OSError(fault.errno, os.strerror(fault.errno), path) from fault
            if fault.strerror == NOT_REGULAR:
                raise OSError(fault.errno, f"{NOT_REGULAR}; a pipe is read as /dev/stdin", path) from fault
            raise
    if named is not None and stat.S_ISFIFO(os.stat(path).st_mode):
        # opened by its name, a pipe whose writer is done would keep the run waiting
        return os.dup(int(named[1] or 0))
    number = os.open(path, os.O_RDONLY | os.O_NOCTTY | os.O_CLOEXEC)
    if stat.S_ISDIR(os.fstat(number).st_mode):
        os.close(number)
        raise OSError(errno.EISDIR, os.strerror(errno.EISDIR), path)
    return number


def is_shared(folder: str) -> bool:
    """Whether others than root and this user may put files into a folder. Raises OSError."""
    seen = os.stat(folder)
    return seen.st_uid not in (0, os.geteuid()) or bool(seen.st_mode & OTHERS_WRITE)


def open_lock(path: str) -> int:
    """Opens the file of a lock, which is made where it isn't there. Nothing is written to it.

    It is a regular file and no link: what else stands there isn't waited for, and no other file is made. Raises OSError.
    """
    return open_regular(path, os.O_RDWR | os.O_CREAT | os.O_NOFOLLOW)


def reason(fault: Exception) -> str:
    """What the system says of a failure, without the name of the file."""
    return (fault.strerror if isinstance(fault, OSError) else None) or str(fault)


def pem_parts(text: bytes, label: str) -> List[bytes]:
    """The parts of a PEM text that have a label, each from its BEGIN line to its END line (RFC 7468)."""
    begin = f"-----BEGIN {label}-----".encode()
    end = f"-----END {label}-----".encode()
    parts = []
    place = text.find(begin)
    while place >= 0:
        behind = text.find(end, place)
        if behind < 0:
            break
        behind += len(end)
        parts.append(text[place:behind] + b"\n")
        place = text.find(begin, behind)
    return parts
