"""What a tool needs of its interpreter, before the rest of its code is read.

An older Python reads this file too, so it has to be written for one.
"""
import os
import sys
from typing import List

OLDEST = (3, 9)
# Where another Python may be: in PATH, and in the folders of the system
NAMES = ("python3",) + tuple("python3.%d" % minor for minor in range(20, 8, -1))
FOLDERS = ("/usr/local/bin", "/usr/bin")
# That a shell started the first Python that it found, so that another one may be better. A Python that was named stays.
FIRST_FOUND = "SSIGN_FIRST_PYTHON"


def require_python(tool: str) -> None:
    """Ends the process with status 2 if this Python is too old for the tool."""
    if sys.version_info < OLDEST:
        words = (tool,) + sys.version_info[:2] + OLDEST
        sys.stderr.write("%s: this Python is %d.%d; it has to be %d.%d or newer\n" % words)
        sys.exit(2)


def has_module(module: str) -> bool:
    """Whether this Python has the module. Nothing is imported for a package in a folder, as nearly all are."""
    if any(os.path.isdir(os.path.join(folder, module)) for folder in sys.path):
        return True
    from importlib.util import find_spec
    return find_spec(module) is not None


def choose_python(module: str) -> None:
    """Runs this process by another Python, if a shell found this one, and only another one is new and has the module.

    If there is none, this Python goes on, and what it lacks is reported where that is needed.
    """
    if not os.environ.pop(FIRST_FOUND, ""):
        return
    if sys.version_info >= OLDEST and (not module or has_module(module)):
        return
    for python in other_pythons():
        if fits(python, module):
            os.execv(python, [python] + sys.argv)


def other_pythons() -> List[str]:
    """The paths of all Pythons that may be there, each once."""
    paths = []  # type: List[str]
    for folder in os.environ.get("PATH", os.defpath).split(os.pathsep) + list(FOLDERS):
        for name in NAMES:
            path = os.path.join(folder, name)
            if os.path.isabs(path) and os.access(path, os.X_OK) and path not in paths:
                paths.append(path)
    return paths


def fits(python: str, module: str) -> bool:
    """Whether a Python runs here, is new enough and has the module."""
    import subprocess
    code = "import sys; sys.exit(sys.version_info < %r)" % (OLDEST,)
    if module:
        code = "import %s; " % module + code
    try:
        return subprocess.call([python, "-c", code], stdin=subprocess.DEVNULL, stdout=subprocess.DEVNULL,
                               stderr=subprocess.DEVNULL) == 0
    except OSError:
        return False
