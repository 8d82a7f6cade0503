#!/usr/bin/env bash
# `ssign-keys check`: what it finds of more than a hundred damages, and what each act comes to: tests/check.py.
# shellcheck source=tests/lib.sh
. "$(dirname -- "$0")/lib.sh"
need_program
need_cryptography

SSIGN=$program python3 -B "$root/tests/check.py"
