"""Octet-counted frames in a piece of a log: a length, a space, and so many octets (RFC 6587, section 3.4.1).

What a frame is, and what is wrong with a log, ssign says. Here frames are only found again.
"""
from __future__ import annotations

import os
import sys
from typing import BinaryIO, Tuple

# how many octets the greatest length of ssign and the space after it have
LENGTH = 8
# the greatest --max-len of ssign
LONGEST = 1048576
PIECE = 1 << 20


def read_at(file: BinaryIO, offset: int, size: int) -> bytes:
    """So many octets from there on, or fewer where the file ends."""
    pieces = []
    while size > 0:
        piece = os.pread(file.fileno(), size, offset)
        if not piece:
            break
        pieces.append(piece)
        offset += len(piece)
        size -= len(piece)
    return b"".join(pieces)


def frame_at(chunk: bytes, at: int) -> Tuple[int, int]:
    """Where the message of the frame at `at` begins, and its length; 0 if no frame begins there, as far as is at hand."""
    space = chunk.find(b" ", at, at + LENGTH)
    digits = chunk[at : max(space, 0)]
    if not digits.isdigit() or digits[0] == 48:
        return 0, 0
    return space + 1, int(digits)


def whole_frames(chunk: bytes, at: int, most: int, longest: int) -> Tuple[int, int]:
    """Where whole frames from `at` on end, and how many they are: at most `most`, and none over `longest` octets."""
    size, went = len(chunk), 0
    # the lines of `frame_at` again, because a call for each message would cost a tenth of a run
    while went < most:
        space = chunk.find(b" ", at, at + LENGTH)
        digits = chunk[at : max(space, 0)]
        if not digits.isdigit() or digits[0] == 48:
            break
        length = int(digits)
        behind = space + 1 + length
        if behind > size or length > longest:
            break
        at = behind
        went += 1
    return at, went


def frames_end(file: BinaryIO, start: int, end: int) -> int:
    """Where the whole frames end that follow one another in a file from its octet `start` on, up to the octet `end`."""
    size = PIECE
    while start < end:
        chunk = read_at(file, start, min(size, end - start))
        behind, _ = whole_frames(chunk, 0, len(chunk), sys.maxsize)
        size = PIECE
        if not behind:
            text, length = frame_at(chunk, 0)
            size = text + length
            if not length or size > end - start or len(chunk) >= size:
                break
        start += behind
    return start
