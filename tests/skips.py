"""What a script of Python can't check here: it is said and counted, as `skip` of lib.sh does."""
skipped = 0


def skip(name: str, what: str) -> None:
    """Counts a part that can't be run here, and says which, and why."""
    global skipped
    skipped += 1
    print(f"{name}: skipped: {what}")


def more() -> str:
    """What follows the other counts on the last line."""
    return f", {skipped} skipped" if skipped else ""
