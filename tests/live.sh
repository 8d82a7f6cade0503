#!/usr/bin/env bash
# `ssign-keys live`: stopped at each step by a kill, a loss of power and a full disk, in live_kills.py and live_power.py; what it
# does as a process, in live_runs.py; with input that comes in pieces, in live_pieces.py; its wraps, in live_wraps.py; its time
# stamps, in live_stamps.py; many messages with kills, in live_soak.py; and with rsyslog, in live_rsyslog.py. LIVE_ALL=1 tries
# each way at each step, and 1,000,000 messages, which takes half an hour more.
# shellcheck source=tests/lib.sh
. "$(dirname -- "$0")/lib.sh"
need_program
export SSIGN=$program
keys_program=$root/tools/ssign-keys
need_cryptography
cd -- "$scratch" || exit 1
all=()
[[ ! ${LIVE_ALL-} ]] || all=(all)

mkdir keys
"$keys_program" make keys >made || exit 1
adds 'losses of power' python3 -B "$root/tests/live_power.py" "$program" "${all[@]}"
adds 'kills' python3 -B "$root/tests/live_kills.py" "$program" keys "${all[@]}"
adds 'runs' python3 -B "$root/tests/live_runs.py" "$program" keys
adds 'pieces' python3 -B "$root/tests/live_pieces.py"
adds 'wraps' python3 -B "$root/tests/live_wraps.py" "$program"
if command -v openssl >found; then
    adds 'time stamps' python3 -B "$root/tests/live_stamps.py" "$program" keys
else
    skip "no openssl here, so no time stamp is made"
fi
if [[ ${LIVE_ALL-} ]]; then
    adds 'a soak' python3 -B "$root/tests/live_soak.py" "$program" keys 1000000 10000 60
else
    adds 'a soak' python3 -B "$root/tests/live_soak.py" "$program" keys 20000 1000 5
fi
if command -v rsyslogd >found && ls /usr/lib/*/rsyslog/omprog.so >found 2>&1; then
    adds 'rsyslog' python3 -B "$root/tests/live_rsyslog.py" "$program" keys
else
    skip "no rsyslogd with omprog here (apt-get install rsyslog), so it hands nothing over"
fi
finish
