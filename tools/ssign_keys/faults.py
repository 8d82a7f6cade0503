"""What ends a run: a mistake of the caller, or something that is missing here."""


class Fault(Exception):
    """One sentence for a person. The run ends with status 2, and with nothing on standard output."""
