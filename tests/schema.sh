#!/usr/bin/env bash
# The JSON Schemas of docs/user/reference/, against what the programs write: tests/schema.py.
# shellcheck source=tests/lib.sh
. "$(dirname -- "$0")/lib.sh"
need_program

SSIGN=$program python3 -B "$root/tests/schema.py"
