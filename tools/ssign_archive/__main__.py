"""Runs ssign-archive as a process: the launcher does it, an installed command, and `python3 -m ssign_archive`."""
import sys

from ssign_keys.launch import require_python


def start() -> None:
    """Ends the process with the status of its command."""
    require_python("ssign-archive")
    from .cli import main
    sys.exit(main(sys.argv[1:]))


if __name__ == "__main__":
    start()
