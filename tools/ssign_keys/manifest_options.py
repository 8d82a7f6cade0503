"""The options of `verify` that name a manifest. What reads one is loaded if it is named: it takes a fifth of a start."""
from __future__ import annotations

import argparse
from typing import TYPE_CHECKING, Optional

if TYPE_CHECKING:
    from .manifested import Listed


def add_arguments(parser: argparse.ArgumentParser) -> None:
    """Says how a manifest is given, and one of nights."""
    parser.add_argument("--manifest", metavar="FILE", help="also compare the logs with their entries in this manifest, and "
                        "use the counters of these as those of --counters; each difference is a finding")
    parser.add_argument("--from-manifest", action="store_true", help="judge nights of a session that goes on: begin at the "
                        "counters of the entries of the session that stand before those of the logs, as --from does")
    parser.add_argument("--manifest-last", metavar="N:SHA256", help="the last entry of the manifest, which was kept apart; "
                        "that it isn't there is a finding")
    parser.add_argument("--manifest-seen", metavar="N:SHA256", help="the last entry of the manifest when it was checked before, as "
                        "`manifest check` prints it: what entries up to it say a stopped run left out is no finding again")
    parser.add_argument("--nights", metavar="MANIFEST", help="verify every night of this manifest between its own counters, each "
                        "by itself, as many at once as --jobs says, and give one verdict; a LOG may be a folder, of which "
                        "the logs count that the manifest names")


def read_listed(arguments: argparse.Namespace) -> Optional[Listed]:
    """The manifest that the options name, or None where they name none."""
    named = arguments.manifest, arguments.manifest_last, arguments.manifest_seen
    if all(it is None for it in named) and not arguments.from_manifest:
        return None
    from .manifested import Listed
    return Listed.from_arguments(arguments)
