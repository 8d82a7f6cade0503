"""A report as `verify --raw` prints it: as `ssign review` writes it where only its own lines are findings."""
from __future__ import annotations

from typing import BinaryIO, Iterator

from .output import PIECE
from .report import ASKED_FINDINGS, NOT_IGNORED

ASKED = tuple(it.encode("ascii") for it in (*ASKED_FINDINGS, NOT_IGNORED))


def raw_pieces(report: BinaryIO, only_findings: bool) -> Iterator[bytes]:
    """The pieces of a passing file. The lines that are left out are the first ones, but for those of listed messages."""
    report.seek(0)
    line = report.readline()
    while line.startswith(ASKED):
        line = report.readline()
    yield line
    for piece in iter(lambda: report.read(PIECE), b""):
        if not only_findings:
            yield piece
            continue
        piece += report.readline()
        yield b"".join(it for it in piece.splitlines(True) if not it.startswith(b"ok "))
