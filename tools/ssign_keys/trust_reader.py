"""Reads a trust file, and refuses it at the first line that is wrong (docs/dev/FORMATS.md, "A trust file")."""
from __future__ import annotations

import difflib
import hashlib
import os
import re
import stat
from typing import TYPE_CHECKING, Dict, List, Optional, Tuple

from .faults import Fault
from .files import LONGEST, open_regular, reason
from .trust import Trusted, read_session_keys
from .trust_file import MOMENT_WORDS, Limits, Line, TrustFile, read_moment
from .words import shown_name, spelled

if TYPE_CHECKING:
    from .authorities import Authority

BOM = b"\xef\xbb\xbf"
# the greatest lengths of HOSTNAME, APP-NAME and PROCID (RFC 5424, section 6)
FIELDS = (("HOSTNAME", 255), ("APP-NAME", 48), ("PROCID", 128))
FORM = "HOSTNAME APP-NAME PROCID KEY, then the limits of the key"
LIMITS = {"valid-after": "valid_after", "valid-before": "valid_before", "revoked-at": "revoked_at"}
FINGERPRINT, AUTHORITY = "SHA256:", "ca"
# from there on two names differ by a slip of the hand; valid-until is no slip of valid-after
ALIKE = 0.8
DIGITS = re.compile(r"[0-9A-Fa-f]{64}")
CONTROL = re.compile(rb"[\x00-\x08\x0a-\x1f\x7f]")
OPTION = re.compile(r"([A-Za-z][A-Za-z0-9_-]*)=(.*)")


def read_trust_file(path: str) -> TrustFile:
    """A trust file. Raises Fault where it can't be read, and with the number of the first line that is wrong."""
    text = read_text(path)
    *lines, rest = text[len(BOM) if text.startswith(BOM) else 0:].split(b"\n")
    reader = Reader(path)
    for number, line in enumerate(lines, 1):
        try:
            reader.read(number, line.removesuffix(b"\r"))
        except Fault as fault:
            raise Fault(f"line {number} of {path}: {fault}") from fault
    if rest:
        raise Fault(f"the last line of {path} doesn't end with a line feed, so the file may have been cut: look at it, and end "
                    "the line")
    if not reader.lines:
        raise Fault(f"{path} names no key: each line is {FORM}")
    return TrustFile(path, hashlib.sha256(text).hexdigest(), reader.lines)


def read_text(path: str) -> bytes:
    """The octets of a regular file, which not everybody may change."""
    try:
        with open(open_regular(path, os.O_RDONLY), "rb") as file:
            refuse_others(path, os.fstat(file.fileno()).st_mode)
            text = file.read(LONGEST + 1)
    except (OSError, ValueError) as fault:
        raise Fault(f"the trust file {path} can't be read: {reason(fault)}") from fault
    if len(text) > LONGEST:
        raise Fault(f"{path} is no trust file: it has more than {LONGEST} octets")
    return text


def refuse_others(path: str, mode: int) -> None:
    """Refuses a file that everybody may change: they would choose whom it trusts."""
    if mode & stat.S_IWOTH:
        raise Fault(f"everybody may change {path}, by its mode {mode & 0o7777:04o}: `chmod o-w {path}`, and look at what it "
                    "says")


class Reader:
    """Takes the lines one by one. Each file that they name is read once."""

    def __init__(self, path: str) -> None:
        """No line yet."""
        self._folder = os.path.dirname(path)
        self.lines: List[Line] = []
        self._keys: Dict[str, Trusted] = {}
        self._authorities: Dict[str, Authority] = {}
        # what a pattern and a key were first given
        self._first: Dict[Tuple[Tuple[bytes, ...], str], Line] = {}

    def read(self, number: int, text: bytes) -> None:
        """Takes a line without its end. Raises Fault where it is wrong."""
        control = CONTROL.search(text)
        if control is not None:
            raise Fault(f"it has the control character {spelled(control[0])}: words stand between spaces or tabs")
        words = text.split()
        comment = next((place for place, it in enumerate(words) if it.startswith(b"#")), len(words))
        if not comment:
            return
        if comment < 4:
            raise Fault(f"it has {comment} {'word' if comment == 1 else 'words'}, and a line is {FORM}")
        host, app, procid = map(read_pattern, FIELDS, words)
        fingerprint, trusted, authority, limits = self._read_rest([os.fsdecode(it) for it in words[3:comment]])
        self._add(Line(number, (host, app, procid), fingerprint, trusted, authority, limits))

    def _add(self, line: Line) -> None:
        """Keeps a line. Two that differ in their limits alone can't both be meant."""
        first = self._first.setdefault((line.pattern, line.name), line)
        if first.limits != line.limits:
            raise Fault(f"it has the session and the key of line {first.number}, and other limits: keep one of the two")
        self.lines.append(line)

    def _read_rest(self, words: List[str]) -> Tuple[str, Optional[Trusted], Optional[Authority], Limits]:
        """The key and the limits, which stand in any order."""
        keys: List[str] = []
        limits = Limits()
        for word in words:
            option = OPTION.fullmatch(word)
            if option is None or option[1] == AUTHORITY:
                keys.append(word)
            else:
                limits = add_limit(limits, option[1], option[2])
        if len(keys) != 1:
            raise Fault("it names no key: a file, SHA256: with a fingerprint, or ca= with a file" if not keys else
                        f"it names {len(keys)} keys, {shown_name(keys[0])} and {shown_name(keys[1])}: a line is one key, and "
                        "no name of a file has a space")
        if limits.valid_after is not None and limits.valid_before is not None and limits.valid_before <= limits.valid_after:
            raise Fault("its valid-before isn't after its valid-after, so it trusts nothing")
        return (*self._read_key(keys[0]), limits)

    def _read_key(self, word: str) -> Tuple[str, Optional[Trusted], Optional[Authority]]:
        """The fingerprint of a key with the key itself, if that is known, or an authority."""
        if word[:len(FINGERPRINT)].upper() == FINGERPRINT:
            digits = word[len(FINGERPRINT):]
            if not DIGITS.fullmatch(digits):
                raise Fault(f"{FINGERPRINT} isn't followed by the 64 hexadecimal digits of a fingerprint, as `ssign-keys "
                            "verify` prints it")
            return digits.lower(), None, None
        if word.startswith(f"{AUTHORITY}="):
            return "", None, self._authority(self._path(word[len(AUTHORITY) + 1:]))
        trusted = self._key(self._path(word))
        return trusted.key.fingerprint, trusted, None

    def _path(self, name: str) -> str:
        """The path of a file beside the trust file, which is regular, and which not everybody may change."""
        if not name:
            raise Fault("the name of a file is empty after ca=")
        path = os.path.join(self._folder, name)
        try:
            mode = os.stat(path).st_mode
        except OSError as fault:
            raise Fault(f"{path} can't be read: {reason(fault)}") from fault
        if not stat.S_ISREG(mode):
            raise Fault(f"{path} is no regular file")
        refuse_others(path, mode)
        return path

    def _key(self, path: str) -> Trusted:
        """The one key of a file."""
        if path not in self._keys:
            keys = read_session_keys(path)
            if len(keys) != 1:
                raise Fault(f"{path} holds {len(keys)} keys, and a line is one key")
            self._keys[path] = keys[0]
        return self._keys[path]

    def _authority(self, path: str) -> Authority:
        """The authority of a file with a certificate with which a chain may end."""
        from .authorities import read_authority
        if path not in self._authorities:
            found = read_authority(path)
            if not any(found.is_anchor(it) for these in found.certificates.values() for it in these):
                raise Fault(f"no certificate of {path} is self-issued, so no chain can end: add the root's")
            self._authorities[path] = found
        return self._authorities[path]


def read_pattern(field: Tuple[str, int], word: bytes) -> bytes:
    """The pattern of a field. One that can never match is refused."""
    name, longest = field
    if not all(32 < it < 127 for it in word):
        raise Fault(f"no {name} can be {spelled(word)}, because it has printable ASCII alone")
    if len(word.replace(b"*", b"")) > longest:
        raise Fault(f"no {name} can be so long: it has at most {longest} octets")
    while b"**" in word:
        word = word.replace(b"**", b"*")
    return word


def add_limit(limits: Limits, name: str, value: str) -> Limits:
    """The limits with one more."""
    if name not in LIMITS:
        near = difflib.get_close_matches(name.lower(), [*LIMITS, AUTHORITY], 1, ALIKE)
        hint = f"perhaps {near[0]}= is meant" if near else f"there are {', '.join(f'{it}=' for it in LIMITS)} and {AUTHORITY}="
        raise Fault(f"there is no option {shown_name(name)}=: {hint}; a file of such a name begins with ./")
    if limits._asdict()[LIMITS[name]] is not None:
        raise Fault(f"it has {name}= twice")
    moment = read_moment(value)
    if moment is None:
        raise Fault(f"{name}= isn't followed by a time such as {MOMENT_WORDS}")
    return limits._replace(**{LIMITS[name]: moment})
