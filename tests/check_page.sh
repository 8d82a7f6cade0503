#!/usr/bin/env bash
# `ssign-keys check --html`: the page of a check, read by a parser and by tidy, with hostile names, and over 1,000 files:
# tests/check_page.py.
# shellcheck source=tests/lib.sh
. "$(dirname -- "$0")/lib.sh"
need_program
need_cryptography

SSIGN=$program python3 -B "$root/tests/check_page.py"
