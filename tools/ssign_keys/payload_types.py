"""The types of a payload, each a letter (RFC 5848, section 5.2.1). Whatever depends on a type asks here."""
from __future__ import annotations

from typing import NamedTuple


class Type(NamedTuple):
    """What a letter means."""

    letter: str
    holds: str
    """What its key blob holds, in words; nothing if no key can be read there."""
    has_blob: bool = True

    @property
    def states_key(self) -> bool:
        """Whether a payload of this type states a key that can be read."""
        return bool(self.holds)


CERTIFICATE = Type("C", "a certificate")
OPENPGP = Type("P", "an OpenPGP key")
KEY = Type("K", "a key")
NO_KEY = Type("N", "", has_blob=False)
UNKNOWN = Type("U", "")
# in the order in which a sentence lists them
TYPES = {it.letter: it for it in (CERTIFICATE, OPENPGP, KEY, NO_KEY, UNKNOWN)}
# the letters as parts of a pattern: those with a key blob, and the one without
WITH_BLOB = "".join(it.letter for it in TYPES.values() if it.has_blob)
WITHOUT_BLOB = "".join(it.letter for it in TYPES.values() if not it.has_blob)
