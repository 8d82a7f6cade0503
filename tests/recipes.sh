#!/usr/bin/env bash
# The recipe of docs/user/how-to/sign-rotated-logs.md for each night: logrotate runs its lines as they stand there, another user
# than root signs what is rotated, and the signed files are checked. And what systemd has against the units of the examples.
# shellcheck source=tests/lib.sh
. "$(dirname -- "$0")/lib.sh"
need_program
units=$root/examples/systemd
need_cryptography
cd -- "$scratch" || exit 1
export SSIGN=$program
mkdir bin keys logs
logs=$scratch/logs
# the user that signs: by root another one, if that can run ssign-keys
python=$(command -v python3)
[[ $EUID != 0 || ! -x /usr/bin/python3 ]] || python=/usr/bin/python3
# as_signer WORD..: runs a command as that user
as_signer() {
    if [[ $EUID == 0 ]]; then
        setpriv --reuid=65534 --regid=65534 --groups="$(id -g)" env -u BASH_ENV -u SSIGN_SESSIONS SSIGN="$program" "$@"
    else
        env -u SSIGN_SESSIONS "$@"
    fi
}
# keys WORD..: runs ssign-keys as that user
keys() {
    as_signer timeout "$patience" "$python" -B "$root/tools/ssign-keys" "$@" >out 2>err </dev/null
    status=$?
}

# ---- the units
if command -v systemd-analyze >out; then
    mkdir system
    for unit in "$units"/*.service "$units"/*.timer "$units"/*.socket; do
        # the programs aren't where they say
        sed -E "s:^ExecStart=/usr/(local/sbin|bin)/.*:ExecStart=$(command -v true):" "$unit" >"system/${unit##*/}"
    done
    for unit in system/*; do
        systemd-analyze verify --man=no "$unit" >out 2>&1
        status=$?
        holds "systemd takes ${unit##*/}: status" test "$status" = 0
        holds "systemd takes ${unit##*/} without a word" cmp out <(printf '')
    done
    for timer in "$units"/*.timer; do
        systemd-analyze calendar "$(sed -n 's/^OnCalendar=//p' "$timer")" >out 2>&1
        holds "${timer##*/} names times of each day" grep -q 'Normalized form: \*-\*-\* [0-9:*]*$' out
    done
    if systemd-analyze --help | grep -q -e --offline; then
        for unit in system/*.service; do
            most=13
            # it asks a service of time stamps, over the network
            [[ $unit != */ssign-stamp@.service ]] || most=20
            systemd-analyze security --offline=true --threshold="$most" "$unit" >out 2>&1
            status=$?
            holds "systemd calls ${unit##*/} safe, at most $most of 100: $(tail -n 1 out)" test "$status" = 0
        done
    fi
else
    skip "what needs systemd-analyze, which is missing"
fi
signing=$(sed -n 's/^ExecStart=//p' "$units/ssign-sign.service")
holds 'the unit signs the folder of the recipe' test "$signing" = \
    '/usr/bin/ssign-keys sign --folder /var/log/signed --key /etc/ssign/private-key.pem'
holds 'it is not root' grep -qx 'User=ssign-sign' "$units/ssign-sign.service"

# ---- a night
chmod 711 "$scratch"
[[ $EUID != 0 ]] || chown 65534 keys logs
chmod 2750 logs
if ! as_signer "$python" -B -c 'import cryptography' 2>said ||
    ! as_signer test -x "$program" -a -r "$root/tools/ssign-keys"; then
    leave_out "another user can't run ssign-keys here, so the recipe isn't tried"
fi
keys make "$scratch/keys"
holds 'the user that signs makes its key' test "$status" = 0
read -ra words <<<"${signing#/usr/bin/ssign-keys }"
for ((at = 0; at < ${#words[@]}; at++)); do
    words[at]=${words[at]/#'/var/log/signed'/$logs}
    words[at]=${words[at]/#'/etc/ssign'/$scratch/keys}
done
# night SIGNED..: the unit's command has run, and has printed the names of these signed files
night() {
    sleep 2.1
    keys "${words[@]}"
    holds "signed: $*" test "$status" = 0 -a "$(<out)" = "$(printf '%s\n' "$@")"
}
log=$logs/messages.log
cp "$root/examples/signed/ten-messages.log" "$log"
chmod 640 "$log"
sed -n '/^    \/var\/log\/signed\/messages\.log {$/,/^    }$/p' "$root/docs/user/how-to/sign-rotated-logs.md" | sed 's/^    //' >rotate
holds 'the page has the lines for logrotate' test "$(grep -c '^ *\(daily\|dateext\)$' rotate)" = 2
holds 'its command names the daemon' grep -qx ' *pkill -HUP -x rsyslogd || true' rotate
if command -v logrotate >out; then
    # the daemon of this machine is left alone
    printf '#!/bin/sh\nprintf "%%s\\n" "$*" >>"%s/told"\n' "$scratch" >bin/pkill
    chmod 755 bin/pkill
    sed -i -e "s:^/var/log/signed/messages.log:\"$log\":" -e "s:create 0640 root adm:create 0640 $(id -un) $(id -gn):" rotate
    chmod 644 rotate
    PATH=$scratch/bin:$PATH logrotate -d -s "$scratch/rotations" rotate >out 2>err
    holds 'logrotate takes the lines' test "$?" = 0
    holds 'it finds no mistake in them' test -z "$(grep -i error err)"
    PATH=$scratch/bin:$PATH logrotate -f -s "$scratch/rotations" rotate >out 2>err
    holds 'logrotate rotates' test "$?" = 0
    holds 'the daemon opens the new log' test "$(<told)" = '-HUP -x rsyslogd'
else
    skip "what needs logrotate, which is missing"
    mv "$log" "$log-$(date +%Y%m%d)"
    : >"$log"
fi
rotated=$(find "$logs" -name 'messages.log-*' -printf '%f\n')
holds 'the rotated log has a date in its name' test "${rotated/#messages.log-20[0-9][0-9][0-9][0-9][0-9][0-9]/}" = ''
night "$rotated.frames"
holds 'the log stays as it is' cmp "$logs/$rotated" "$root/examples/signed/ten-messages.log"
holds 'whoever may read the log may read the signed file' test "$(stat -c '%a %g' "$logs/$rotated.frames")" = "640 $(id -g)"
printf '<13>1 - h late - - - one line more\n' >>"$logs/$rotated"
night "$rotated.late-1.frames"
printf '<13>1 - h a - - - the next day\n' >>"$log"
night messages.log.frames
night
holds 'what is signed is not signed again' test ! -s err
cp -r logs copies
tool() {
    timeout "$patience" "$root/tools/ssign-keys" "$@" >out 2>err </dev/null
    status=$?
}
check=(check copies --key keys/public-key.pem --memory memory)
tool "${check[@]}" --begin
expect 'the check of all' 0 '3 files of 1 originator: clean' ''

# ---- after a restore from a backup that lacks the newest signed file
# restored: the folder as in the backup, with another line in the log
restored() {
    rm -r logs
    cp -pr backup logs
    [[ $EUID != 0 ]] || chown 65534 logs
    printf '<13>1 - h a - - - after the restore\n' >>"$log"
}
# copied: what is signed and isn't among the copies yet is copied, and the copies are checked
copied() {
    cp -n logs/*.frames copies
    tool "${check[@]}"
}
cp -pr logs backup
rm backup/messages.log.frames
restored
cp -p copies/messages.log.frames logs
night messages.log.late-1.frames
copied
expect 'restored, and put back: the chain goes on' 0 '4 files of 1 originator: clean' ''
restored
night messages.log.frames
mv logs/messages.log.frames logs/messages.log.other.frames
copied
holds 'restored alone: the check finds it' test "$status.$(grep -c '^copies/[^ ]*\.frames fork: ' out)" = 1.1
finish
