#!/usr/bin/env bash
# The memory of `ssign-keys check`, lost, torn, edited, older and killed, and checks of 5,000 files: tests/check_memory.py.
# shellcheck source=tests/lib.sh
. "$(dirname -- "$0")/lib.sh"
need_program
need_cryptography

SSIGN=$program python3 -B "$root/tests/check_memory.py"
