#!/usr/bin/env bash
# `ssign-keys check --trust`: the keys of two originators by one trust file, and how its times go with the memory:
# tests/check_trust.py.
# shellcheck source=tests/lib.sh
. "$(dirname -- "$0")/lib.sh"
need_program
need_cryptography

SSIGN=$program python3 -B "$root/tests/check_trust.py"
