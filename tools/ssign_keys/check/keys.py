"""Whose signatures count in a check: the one place that knows by which options keys are given."""
from __future__ import annotations

import argparse
from dataclasses import dataclass
from typing import Optional, Tuple

from .. import cli, sha1
from ..blocks import Session
from ..faults import Fault
from ..frames import LONGEST
from ..identity import Identity
from ..program_facts import found_at, tool_facts
from ..trust import Trust
from ..trust_by_file import FileTrust
from ..trust_file import TRUSTED, Seen, TrustFile
from ..trust_reader import read_trust_file
from ..usage import make_parser
from .record import File, digest


# what says when a file was seen
FIRST = "when a check saw it first"


@dataclass(frozen=True)
class Keys:
    """The keys, and how the files are read that they signed."""

    keys: Tuple[str, ...]
    cas: Tuple[str, ...]
    trust: Optional[str]
    """The trust file, if the keys stand there."""
    is_sha1_allowed: bool
    max_expanded: Optional[int]

    def verify_arguments(self) -> argparse.Namespace:
        """The arguments of a `verify` of one signed file, whose name has to be put in."""
        words = ["verify", "--frames", f"--max-len={LONGEST}"]
        words += [f"--key={it}" for it in self.keys] + [f"--ca={it}" for it in self.cas]
        words += [f"--trust={self.trust}"] if self.trust is not None else []
        words += ["--allow-sha1"] * self.is_sha1_allowed
        arguments = make_parser(cli.TOOL, words).parse_args([*words, "--", "-"])
        arguments.max_expanded = self.max_expanded
        return arguments


@dataclass(frozen=True)
class Judges:
    """What a verdict is made with: the keys as they were read, and the program."""

    arguments: argparse.Namespace
    trust: Trust
    file: Optional[TrustFile]
    program: str
    of: Tuple[str, str, str]
    """The digests of what is trusted, of the rules of a verdict, and of the programs."""

    def holds(self, file: File) -> bool:
        """Whether a clean verdict holds until its turn comes: by the same rules, and with keys of which one is the file's."""
        if file.status or file.of[1] != self.of[1]:
            return False
        if file.of[0] == self.of[0]:
            return True
        if self.file is None:
            return file.key in {it.fingerprint for it in self.trust.given if it.fingerprint}
        return self._names(file)

    def _names(self, file: File) -> bool:
        """Whether the trust file names the key of a file for its session, whatever time its payload states."""
        if file.session is None or file.key is None or self.file is None:
            return False
        *names, rsid = file.session
        host, app, procid = (it.encode("latin-1") for it in names)
        signer = Identity("", file.key, None, "-")
        answer = self.file.judge(Session(host, app, procid, b"%d" % rsid), signer, Seen.at(file.judged, FIRST))
        return answer.answer == TRUSTED

    @property
    def has_times(self) -> bool:
        """Whether a verdict depends on when a file was seen."""
        return self.file is not None and any(it.limits.has_end or it.authority for it in self.file.lines)

    def trust_at(self, seen: int, how: str) -> Trust:
        """The keys for a file whose octets existed at so many seconds, by what shows that."""
        if self.file is None:
            return self.trust
        return FileTrust(self.file, Seen.at(seen, how), False, self.trust.longest)


def add_arguments(parser: argparse.ArgumentParser) -> None:
    """Says which words name keys."""
    parser.add_argument("--key", dest="keys", action="append", default=[], metavar="PUBLIC.pem",
                        help="an originator's public key, which you got by another way than with the files; may be given "
                             "several times")
    parser.add_argument("--ca", action="append", default=[], metavar="CA.pem",
                        help="trust a payload with a certificate that a chain to a self-issued one of these makes one for the "
                             "HOSTNAME of its session")
    parser.add_argument("--trust", metavar="FILE", help="the trust file, which says which key may sign for which sessions, and until "
                        "when, in place of the options above; a time in it is compared with when a check saw a file first")
    sha1.add_arguments(parser)


def read_keys(arguments: argparse.Namespace) -> Keys:
    """What the options name."""
    if not arguments.keys and not arguments.ca and arguments.trust is None:
        raise Fault("no key is given: name the trust file with --trust FILE, or the public key of each originator with --key PUBLIC.pem")
    return Keys(tuple(arguments.keys), tuple(arguments.ca), arguments.trust, arguments.allow_sha1, arguments.max_expanded)


def make_judges(keys: Keys, program: str) -> Judges:
    """Reads the keys, so that whatever is wrong with them is refused before anything else is done."""
    arguments = keys.verify_arguments()
    trust = Trust.from_arguments(arguments)
    file = read_trust_file(keys.trust) if keys.trust is not None else None
    trusted = sorted([it.option, it.fingerprint or "", it.file_sha256 or ""] for it in trust.given)
    trusted += [["--trust", "", file.sha256]] if file is not None else []
    programs = [found_at(program)[1], tool_facts(cli.TOOL.name).sha256]
    return Judges(arguments, trust, file, program, (digest(trusted), digest([keys.is_sha1_allowed]), digest(programs)))
