"""Runs ssign-keys as a process: the launcher does it, an installed command, and `python3 -m ssign_keys`."""
import sys

from .launch import require_python


def start() -> None:
    """Ends the process with the status of its command."""
    require_python("ssign-keys")
    from .cli import main
    sys.exit(main(sys.argv[1:]))


if __name__ == "__main__":
    start()
