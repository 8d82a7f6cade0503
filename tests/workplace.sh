#!/usr/bin/env bash
# A signal at each step of making and removing a folder for passing files: see workplace.py.
# shellcheck source=tests/lib.sh
. "$(dirname -- "$0")/lib.sh"
python3 -B "$root/tests/workplace.py"
