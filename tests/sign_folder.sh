#!/usr/bin/env bash
# `ssign-keys sign --folder`: a table of what was done to a folder, runs that are killed at each step, folders of thousands of
# files, and what logrotate leaves. folder_model.py reads what was signed.
# shellcheck source=tests/lib.sh
. "$(dirname -- "$0")/lib.sh"
need_program
need_cryptography
for part in sign_folder sign_folder_names sign_folder_kills sign_folder_many sign_folder_logrotate; do
    adds "$part.py" python3 -B "$root/tests/$part.py" "$root/tools" "$program"
done
finish
