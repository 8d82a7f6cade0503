#!/usr/bin/env bash
# `ssign-keys check` with time stamps beside signed files, and `ssign-keys stamp --folder`: tests/check_stamps.py.
# shellcheck source=tests/lib.sh
. "$(dirname -- "$0")/lib.sh"
need_program
need_cryptography
need_command openssl

SSIGN=$program python3 -B "$root/tests/check_stamps.py"
