#!/usr/bin/env bash
# `ssign-keys check --part`: tasks that are stopped, torn, edited, doubled or missing, and what a check takes of them:
# tests/check_parts.py.
# shellcheck source=tests/lib.sh
. "$(dirname -- "$0")/lib.sh"
need_program
need_cryptography

SSIGN=$program python3 -B "$root/tests/check_parts.py"
