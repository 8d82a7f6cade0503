"""Verifies one signed file with the signer's own public key, as `ssign-keys check` does, before anything rests on it."""
from __future__ import annotations

import json
from typing import Any, BinaryIO, Dict, Optional

from ..blocks import Session
from ..check.keys import Judges, Keys
from ..check.verdicts import LONGEST_LINK, Firsts, verdict_on
from ..commands import BUDGET
from ..faults import Fault
from ..json_text import compact
from ..keys import PublicKey
from ..reviewed import Reviewed
from ..trust import Trust
from ..workplace import Workplace, finish, put
from .reading import First


class Verifier:
    """Makes a verdict in a process that is forked."""

    def __init__(self, program: str, key: PublicKey, max_expanded: Optional[int], workplace: Workplace) -> None:
        """Has the public key stand in a passing file, and its numbers be looked at once."""
        self._workplace = workplace
        with workplace.new_file("public-key.pem") as file:
            put(file, key.pem())
            finish(file)
        arguments = Keys((workplace.path("public-key.pem"),), (), None, True, max_expanded).verify_arguments()
        self._judges = Judges(arguments, Trust.from_arguments(arguments), None, program, ("", "", ""))

    def sha256(self, file: BinaryIO, first: First) -> str:
        """The SHA-256 of a signed file that is clean, and whose number 1 is this message. Raises Fault with what is wrong."""
        path = f"/proc/self/fd/{file.fileno()}"

        def also(reviewed: Reviewed, firsts: Firsts) -> Dict[str, Any]:
            return {"is_first": is_first(first, reviewed, firsts)}

        def verify() -> int:
            BUDGET.renew()
            try:
                fields = verdict_on(self._judges, path, self._judges.trust, also)
            except (Fault, OSError) as fault:
                fields = {"status": 2, "said": str(fault)}
            put(out, compact(fields).encode("ascii"))
            finish(out)
            return 0

        with self._workplace.new_file("verdict") as out, self._workplace.new_file("verdict-said") as said:
            status = self._workplace.fork(verify, said, said).wait()
            out.seek(0)
            fields: Dict[str, Any] = json.loads(out.read()) if status == 0 else {}
        if fields.get("status") != 0:
            raise Fault(str(fields.get("said", "verify ended by a signal")).replace(f"the log {path} ", "it "))
        if not fields["is_first"]:
            raise Fault("its link isn't the first message of its session")
        return str(fields["sha256"])


def is_first(first: First, reviewed: Reviewed, firsts: Firsts) -> bool:
    """Whether a message is listed as number 1 of the one session, which has its names and its RSID."""
    host, app, procid = first.names.split(b" ")
    session = Session(host, app, procid, b"%d" % first.link.rsid)
    found = [reviewed.inspected.find(it, LONGEST_LINK) for it in firsts.places]
    return list(firsts.places.values()) == [session] and set(reviewed.survey.joined) == {session} and \
        [(it.octets, it.text) for it in found] == [(len(first.message), first.message)]
