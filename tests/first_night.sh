#!/usr/bin/env bash
# From a Debian with rsyslog to the first checked night: the six commands of docs/user/how-to/sign-rotated-logs.md, each as it
# stands there, with a rsyslogd that this test starts. And three machines under one trust file, checked as
# ssign-check@.service does it.
# shellcheck source=tests/lib.sh
. "$(dirname -- "$0")/lib.sh"
need_program
need_cryptography
export SSIGN=$program
cd -- "$scratch" || exit 1

# ---- the commands of the path: those that would change this machine do here what they do there, in the folder of the test
mkdir bin
# here TEXT: the same, with the folders of the machine in the folder of the test. What the packages install stays where it is.
here() {
    sed -E "s#(^|[ '\"=])/(etc|var|usr/share/doc/suhvatek)/#\1$scratch/\2/#g; s#/usr/lib/rsyslog/rsyslog-rotate#$scratch/bin/rsyslog-rotate#g"
}
# command NAME < TEXT: a command that is found first.
command_here() {
    cat >"bin/$1"
    chmod 755 "bin/$1"
}
command_here ssign-keys <<C
#!/bin/sh
exec $(command -v python3) -B $root/tools/ssign-keys "\$@"
C
PATH=$scratch/bin:$PATH

# ---- three machines, one trust file, and the template
mkdir -p etc/ssign srv/logs var/lib/ssign-check
: >etc/ssign/trust
for host in alpha beta gamma; do
    mkdir -p "srv/logs/$host" "keys/$host"
    chmod 700 "keys/$host"
    ssign-keys make "keys/$host" >out 2>err
    cp "keys/$host/public-key.pem" "etc/ssign/$host.pem"
    echo "$host ssign - $host.pem" >>etc/ssign/trust
    for night in 1 2; do
        printf '<13>1 2026-11-2%sT08:00:00Z %s app - - - message %s\n' "$night" "$host" 1 2>/dev/null >"srv/logs/$host/m-$night.log"
        touch -d '1 hour ago' "srv/logs/$host/m-$night.log"
    done
    ssign-keys sign --folder "srv/logs/$host" --key "keys/$host/private-key.pem" --host "$host" >out 2>err
    holds "$host signs its two logs" test "$?$(wc -l <out)" = 02
done
unit=$root/examples/systemd/ssign-check@.service
# as_unit INSTANCE WORD..: runs the command of the template for an instance, with more words.
as_unit() {
    local instance=$1 command
    shift
    command=$(sed -n 's/^ExecStart=//p' "$unit" | sed "s:/usr/bin/::; s:%f:$scratch/${instance//-//}:; s:%i:$instance:g; s: \$OPTIONS::" | here)
    sh -c "$command \"\$@\"" unit "$@" >out 2>err
    status=$?
}
as_unit srv-logs
holds 'the memory has to be begun: status' test "$status" = 2
holds 'the memory has to be begun: what is said' grep -q -- '--begin begins one' err
as_unit srv-logs --begin
holds 'three machines: status' test "$status" = 0
holds 'three machines: the verdict' test "$(<out)" = '6 files of 3 originators: clean'
holds 'three machines: the alarm' ssign-keys alarm var/lib/ssign-check/srv-logs.json
as_unit srv-logs-beta --begin
holds 'one machine by the same template' test "$status$(<out)" = '02 files of 1 originator: clean'
# gamma's key signs in beta's name: its line is for other sessions
cp -r srv/logs kept
rm srv/logs/beta/*.frames
ssign-keys sign --folder srv/logs/beta --key keys/gamma/private-key.pem --host beta --begin >out 2>err
as_unit srv-logs
holds 'a key of another machine: status' test "$status" = 1
holds 'a key of another machine: only that machine has findings' test "$(grep -c '^beta' out)$(grep -cE '^(alpha|gamma)' out)" = "$(($(wc -l <out) - 1))0"
rm -r srv/logs
mv kept srv/logs
as_unit srv-logs
holds 'the copies are put back' test "$status$(tail -n 1 out)" = '06 files of 3 originators: clean'
rm srv/logs/gamma/m-2.log.frames
as_unit srv-logs
holds 'a newest file is gone' test "$status$(head -n 1 out | cut -d : -f 1)" = '1gamma/m-2.log.frames cut'

# ---- the six commands
for tool in rsyslogd logrotate logger; do
    if ! command -v "$tool" >found; then
        skip "the six commands: $tool is missing"
        finish
    fi
done
if [[ $(id -u) != 0 ]]; then
    skip "the six commands, which root runs"
    finish
fi
mapfile -t commands < <(awk '/^## From rsyslog to the first checked night$/ { inside = 1; next } /^##/ { inside = 0 }
    inside && /^    / { found = 1; print substr($0, 5); next } inside && found { exit }' "$root/docs/user/how-to/sign-rotated-logs.md")
holds 'the page has six commands' test "${#commands[@]}" = 6
rm -r etc var
mkdir -p etc/rsyslog.d etc/logrotate.d var/log var/lib usr/share/doc/suhvatek/examples/{rsyslog,logrotate}
for file in rsyslog/ssign-folder.conf logrotate/ssign-folder; do
    here <"$root/examples/$file" >"usr/share/doc/suhvatek/examples/$file"
done
# what Debian's own rsyslog.conf does, with a socket and a file of this test
cat >etc/rsyslog.conf <<C
module(load="imuxsock" SysSock.Use="off")
input(type="imuxsock" Socket="$scratch/log")
include(file="$scratch/etc/rsyslog.d/*.conf")
action(type="omfile" file="$scratch/var/log/syslog")
C
start_daemon() {
    rm -f log rsyslog.pid
    rsyslogd -n -f "$scratch/etc/rsyslog.conf" -i "$scratch/rsyslog.pid" >daemon.log 2>&1 &
    daemon=$!
    for _ in {1..400}; do
        [[ -S log && -s rsyslog.pid ]] && return
        sleep 0.05
    done
}
end_daemon() {
    kill "$daemon" 2>/dev/null
    wait "$daemon" 2>/dev/null
}
trap 'end_daemon; rm -rf -- "$scratch"' EXIT
# the test restarts its daemon where a command asks systemd for that
command_here systemctl <<C
#!/bin/sh
[ "\$*" = 'restart rsyslog' ] && touch $scratch/restart
C
command_here rsyslog-rotate <<C
#!/bin/sh
kill -HUP "\$(cat $scratch/rsyslog.pid)"
C
# its state would be that of the machine
real=$(command -v logrotate)
command_here logrotate <<C
#!/bin/sh
exec $real -s $scratch/rotated "\$@"
C
# send TEXT..: each is a message, and stands in the log afterwards.
send() {
    local text
    for text in "$@"; do
        logger -u "$scratch/log" -t shop -- "$text"
        for _ in {1..400}; do
            grep -qsF -- "$text" var/log/syslog && break
            sleep 0.05
        done
    done
}
start_daemon
send 'before anything is set up'
for number in "${!commands[@]}"; do
    line=$(here <<<"${commands[number]}")
    bash -c "$line" >"out$number" 2>"err$number"
    holds "command $((number + 1)): ${commands[number]}" test "$?" = 0
    if [[ -e restart ]]; then
        rm restart
        end_daemon
        start_daemon
        send 'order 1 of 3' 'order 2 of 3' '[ssign-cert VER="0111"] is no block'
    fi
done
holds 'the first checked night' test "$(tail -n 1 out5)" = '1 file of 1 originator: clean'
signed=(var/log/signed/messages.log-*.frames)
log=${signed[0]%.frames}
holds 'the log has what was sent' test "$(grep -cE 'order [12] of 3|is no block' "$log")" = 3
ssign-keys verify --trust etc/ssign/trust --json "${signed[0]}" >out 2>err
holds 'each line and the link are listed' test "$(sed -n 's/^{"line":"verdict".*"listed":\([0-9]*\).*/\1/p' out)" = "$(($(wc -l <"$log") + 1))"
# the second night: the fourth command is what logrotate does each day
send 'order 3 of 3'
sleep 1
bash -c "$(here <<<"${commands[3]}")" >out 2>err
holds 'the second night is rotated and signed' test "$?$(find var/log/signed -name '*.frames' | wc -l)" = 02
check=$(here <<<"${commands[5]}")
sh -c "${check% --begin}" >out 2>err
holds 'the second checked night' test "$?$(<out)" = '02 files of 1 originator: clean'
sed -i 's/order 2 of 3/order 9 of 3/' "${signed[0]}"
sh -c "${check% --begin}" >out 2>err
holds 'a change is found' test "$?$(head -n 1 out | cut -d : -f 1)" = "1signed/${signed[0]##*/} damaged"
finish
