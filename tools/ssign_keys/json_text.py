"""The one spelling of JSON that the tools print: ASCII, without blanks, so that a line holds a value."""
from __future__ import annotations

import json


def compact(value: object) -> str:
    """The text of a value, on one line and without its end."""
    return json.dumps(value, separators=(",", ":"))
