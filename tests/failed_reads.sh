#!/usr/bin/env bash
# A read of standard input that fails once, and would go on after: each command ends with F3, writes nothing and reads no
# more. Each read of a log fails in turn: of a file and of a pipe, in both forms, with a terminal as standard error and
# without. See failed_reads.py.
# shellcheck source=tests/lib.sh
. "$(dirname -- "$0")/lib.sh"
need_program
need_command cc

cc -shared -fPIC -o "$scratch/fail.so" "$root/tests/fail.c" -ldl || exit 1
python3 -B "$root/tests/failed_reads.py" "$program" "$scratch/fail.so"
