#!/usr/bin/env python3
"""Sends a signal to a process at each step of making, using and removing a folder for passing files.

    workplace.py

A step is a call or a line of the code of tools/ssign_keys/workplace.py, and of Python's own tempfile and shutil that it
calls: an interpreter looks for signals there, and not between a return and what follows it. For each step a process is
forked, which sends itself SIGTERM there. It has to end by that signal, its folder and all in it have to be gone, and so has
a process that it had started. The last line is `workplace: N passed, M failed`.
"""
import os
import shutil
import signal
import sys
import tempfile
import time

ROOT = os.path.dirname(os.path.dirname(os.path.abspath(__file__)))
sys.path.insert(0, os.path.join(ROOT, "tools"))

from ssign_keys import workplace
from ssign_keys.workplace import Ended, Workplace

FILES = {workplace.__file__, tempfile.__file__, shutil.__file__}


def use(child_file):
    """What a run does: it writes files, starts a program, and leaves."""
    with Workplace() as place:
        with place.new_file("a") as file:
            file.write(b"a")
        child = place.start(["sleep", "60"], 0, 1, None)
        with open(child_file, "w", encoding="ascii") as file:
            file.write(str(child.pid))
        os.mkdir(place.path("folder"))
        place.new_file("folder/b").close()


def run_to(step, child_file):
    """Runs with a signal at this step, in a process of its own. Gives the status."""
    pid = os.fork()
    if pid:
        return os.waitpid(pid, 0)[1]
    passed = 0

    def trace(frame, event, _):
        nonlocal passed
        if frame.f_code.co_filename not in FILES:
            return None
        passed += event != "return"
        if passed == step and event != "return":
            with open(child_file + ".step", "w", encoding="utf-8") as file:
                file.write("%s of %s, line %d" % (event, frame.f_code.co_name, frame.f_lineno))
            os.kill(os.getpid(), signal.SIGTERM)
        return trace

    status = 3
    try:
        sys.settrace(trace)
        use(child_file)
        sys.settrace(None)
        status = 0
    except Ended:
        # nobody is left who could remove anything
        status = 4
    finally:
        os._exit(status)


def is_gone(child_file):
    """Whether the process that was started has ended, if one was."""
    try:
        with open(child_file, encoding="ascii") as file:
            number = int(file.read())
    except (OSError, ValueError):
        return True
    for _ in range(100):
        try:
            os.kill(number, 0)
        except OSError:
            return True
        time.sleep(0.01)
    os.kill(number, signal.SIGKILL)
    return False


def main():
    passed = failed = 0
    with tempfile.TemporaryDirectory() as scratch:
        folder, child_file = os.path.join(scratch, "passing"), os.path.join(scratch, "child")
        os.environ["TMPDIR"] = tempfile.tempdir = folder
        step = 0
        while True:
            step += 1
            os.mkdir(folder)
            status = run_to(step, child_file)
            left, gone = os.listdir(folder), is_gone(child_file)
            shutil.rmtree(folder)
            if os.path.exists(child_file):
                os.remove(child_file)
            with open(child_file + ".step", "a+", encoding="utf-8") as file:
                file.seek(0)
                where = file.read()
                file.truncate(0)
            if status == 0 and not left and gone:
                break
            if os.WIFSIGNALED(status) and os.WTERMSIG(status) == signal.SIGTERM and not left and gone:
                passed += 1
                continue
            failed += 1
            print("workplace: %s: FAILED\n    status %d, %d files left, %s" % (
                where, status, len(left), "its program ended" if gone else "its program was left"))
    print("workplace: %d steps" % (step - 1))
    print("workplace: %d passed, %d failed" % (passed, failed))
    return failed > 0 or passed < 100


if __name__ == "__main__":
    sys.exit(main())
