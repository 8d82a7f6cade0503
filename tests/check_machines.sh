#!/usr/bin/env bash
# The recipes of docs/user/how-to/check-all-nights.md for a check on many machines, word by word: with GNU parallel, with it over
# SSH, and with Slurm; and that of archives.md there for the log of a collector.
# What isn't installed is left out, and said. Only the names of folders, machines and the port of SSH are others.
# shellcheck source=tests/lib.sh
. "$(dirname -- "$0")/lib.sh"
need_program
need_cryptography
need_command parallel
export PATH=$root/tools:$PATH:/usr/sbin SSIGN=$program PARALLEL_SSH="ssh -F $scratch/ssh_config"
files=20
started=()
trap 'kill -- "${started[@]}" 2>"$scratch/out"; wait; rm -rf -- "$scratch"' EXIT

# recipe WORD [PAGE]: the block of the page, four blanks before each line, that has this word in it; its names are those of the test.
recipe() {
    awk -v word="$1" '/^    / { block = block substr($0, 5) "\n"; next }
        { if (index(block, word)) printf "%s", block; block = "" }
        END { if (index(block, word)) printf "%s", block }' "$root/docs/user/how-to/${2-check-all-nights.md}" |
        sed -e "s:/srv/archive:$scratch/archive:g; s:/etc/ssign/trust:$scratch/trust:g; s:/srv/memory:$scratch/memory:g"
}

# run_recipe: runs what stands in the file `recipe`, and keeps what its last command printed.
run_recipe() {
    (cd -- "$scratch" && timeout 900 bash recipe) >"$scratch/out" 2>"$scratch/err" </dev/null
    status=$?
    # tasks print a line each, in any order
    grep -v '^part \|^Submitted batch job ' "$scratch/out" >"$scratch/checked"
}

# free_ports COUNT: so many ports of this machine that nobody has now.
free_ports() {
    python3 -c 'import socket, sys
held = [socket.create_server(("127.0.0.1", 0)) for _ in range(int(sys.argv[1]))]
print(*(it.getsockname()[1] for it in held))' "$1"
}

# wait_for COMMAND..: waits until it ends with status 0, for a minute at most.
wait_for() {
    local turn
    for ((turn = 0; turn < 240; turn++)); do
        "$@" >"$scratch/out" 2>&1 && return
        sleep 0.25
    done
    return 1
}

# start_ssh: sshd for this user alone, under two names.
start_ssh() {
    local port
    port=$(free_ports 1)
    ssh-keygen -q -t ed25519 -N '' -f "$scratch/host_key"
    ssh-keygen -q -t ed25519 -N '' -f "$scratch/user_key"
    # as root it wants this folder, which its service makes
    [[ $(id -u) != 0 ]] || mkdir -p /run/sshd
    cat >"$scratch/sshd_config" <<C
Port $port
ListenAddress 127.0.0.1
HostKey $scratch/host_key
AuthorizedKeysFile $scratch/user_key.pub
PidFile none
StrictModes no
UsePAM no
SetEnv PATH=$PATH SSIGN=$SSIGN
C
    cat >"$scratch/ssh_config" <<C
Host one.example.org two.example.org
    HostName 127.0.0.1
    Port $port
    IdentityFile $scratch/user_key
    IdentitiesOnly yes
    StrictHostKeyChecking no
    UserKnownHostsFile $scratch/known
    LogLevel ERROR
C
    "$(command -v sshd)" -D -e -f "$scratch/sshd_config" >"$scratch/sshd.log" 2>&1 &
    started+=("$!")
    holds 'sshd answers' wait_for ssh -n -F "$scratch/ssh_config" one.example.org true
}

# start_slurm: a cluster of one node, with a munge of its own.
start_slurm() {
    local folder=$scratch/slurm host me ports
    host=$(hostname -s)
    me=$(id -un)
    read -ra ports < <(free_ports 2)
    mkdir -p "$folder/munge" "$folder/state" "$folder/spool"
    chmod 755 "$scratch" "$folder"
    chmod 700 "$folder/munge"
    head -c 1024 /dev/urandom >"$folder/munge/key"
    chmod 600 "$folder/munge/key"
    munged --force --foreground --socket="$folder/munge/socket" --key-file="$folder/munge/key" --log-file="$folder/munge/log" \
        --pid-file="$folder/munge/pid" --seed-file="$folder/munge/seed" >"$folder/munged.out" 2>&1 &
    started+=("$!")
    cat >"$folder/slurm.conf" <<C
ClusterName=test
SlurmctldHost=$host(127.0.0.1)
SlurmUser=$me
SlurmdUser=$me
AuthType=auth/munge
AuthInfo=socket=$folder/munge/socket
CredType=cred/munge
StateSaveLocation=$folder/state
SlurmdSpoolDir=$folder/spool
SlurmctldPidFile=$folder/slurmctld.pid
SlurmdPidFile=$folder/slurmd.pid
SlurmctldPort=${ports[0]}
SlurmdPort=${ports[1]}
ProctrackType=proctrack/linuxproc
TaskPlugin=task/none
SelectType=select/cons_tres
SelectTypeParameters=CR_Core_Memory
SlurmdParameters=config_overrides
MpiDefault=none
NodeName=$host NodeAddr=127.0.0.1 CPUs=4 RealMemory=32000
PartitionName=all Nodes=ALL Default=YES State=UP
C
    export SLURM_CONF=$folder/slurm.conf
    slurmctld -D >"$folder/slurmctld.out" 2>&1 &
    started+=("$!")
    slurmd -D >"$folder/slurmd.out" 2>&1 &
    started+=("$!")
    wait_for eval 'sinfo -h -o %T | grep -q idle' && return
    tail -n 3 "$folder"/*.out
    tell 'a node of Slurm is idle' '    it is not'
}

# tasks_of FILE..: how many tasks of twenty there were, and how many files they verified.
tasks_of() {
    cat -- "$@" | awk '/^part [0-9]+ of 20: / { count++; sum += $7 } END { print count, sum }'
}

# damage: one night is lost, and one letter changed. What a check has to print of it, but for its acts.
damage() {
    rm "$scratch/archive/gate/g-07.log.frames"
    sed -i 's/gate app - - - event 3 /gate app - - - event 4 /' "$scratch/archive/gate/g-14.log.frames"
}

# begin: the archive as it was signed, and a memory that knows no file.
begin() {
    rm -rf -- "$scratch/archive" "$scratch/memory"
    cp -a -- "$scratch/signed" "$scratch/archive"
    damage
}

# found WHAT: the check after the tasks found both damages, and nothing else; and it had nothing to verify.
found() {
    local said='' wanted
    [[ $status == 1 ]] || said="    status $status"$'\n'
    wanted="gate/g-07.log.frames missing"$'\n'"gate/g-14.log.frames damaged"$'\n'"19 files of 1 originator"
    [[ $(cut -d: -f1 "$scratch/checked") == "$wanted" ]] ||
        said+="    $(cat "$scratch/checked" "$scratch/err")"
    tell "$1" "$said"
    holds "$1: the memory has each verdict once" test "$(grep -c '"kind":"file"' "$scratch/memory/gate.memory")" = 19
    holds "$1: nothing of the tasks is left" test -z "$(find "$scratch/memory" -name '*.part')"
}

mkdir -p "$scratch/signed/gate" "$scratch/keys"
for ((night = 1; night <= files; night++)); do
    printf -v log '%s/signed/gate/g-%02d.log' "$scratch" "$night"
    for event in 1 2 3 4 5; do
        printf '<13>1 2026-01-01T00:00:00Z gate app - - - event %d of night %d\n' "$event" "$night"
    done >"$log"
    touch -d "2026-01-01 00:00:00 UTC + $night days" "$log"
done
holds 'a key is made' ssign-keys make "$scratch/keys"
holds 'all nights are signed' ssign-keys sign --folder "$scratch/signed/gate" --key "$scratch/keys/private-key.pem"
echo "* ssign * keys/public-key.pem" >"$scratch/trust"

# with GNU parallel
recipe 'parallel "${check' >"$scratch/recipe"
cp "$scratch/recipe" "$scratch/parallel"
holds 'the page has three commands' test "$(grep -c check "$scratch/recipe")" = 3
begin
run_recipe
holds 'twenty tasks did all' test "$(tasks_of "$scratch/out")" = '20 19'
found 'tasks by GNU parallel'

# the log of a collector, cut into parts that are reviewed one by one
mkdir "$scratch/cut"
cp "$scratch/keys/public-key.pem" "$scratch/cut"
for host in alpha beta; do
    sed "s/ gate / $host /" "$scratch/signed/gate/g-01.log" >"$scratch/$host.log"
    ssign-keys sign --key "$scratch/keys/private-key.pem" --rsid 7 --host "$host" --app signer --lines "$scratch/$host.log"
done | gzip >"$scratch/cut/collector.log.gz"
recipe 'parallel --tag' archives.md | sed "s:ssign-archive:$root/tools/archive:; 1i cd cut" >"$scratch/recipe"
run_recipe
holds 'parts of a collector: both are clean' test "$status $(grep -c 'Verdict: All 5 announced messages are present' "$scratch/out")" = '0 2'

# with GNU parallel over SSH: two names of this machine, at a port and with a key of the test
if ! command -v sshd >"$scratch/out" || ! command -v ssh-keygen >"$scratch/out"; then
    skip "SSH, because sshd or ssh-keygen is missing (apt-get install openssh-server)"
else
    start_ssh
    { head -n 1 "$scratch/parallel"; recipe 'parallel --sshlogin'; tail -n 1 "$scratch/parallel"; } >"$scratch/recipe"
    begin
    run_recipe
    holds 'twenty tasks over SSH did all' test "$(tasks_of "$scratch/out")" = '20 19'
    holds 'both machines were used' test "$(grep -c 'Accepted publickey' "$scratch/sshd.log")" -gt 2
    found 'tasks by GNU parallel on two machines'
fi

# with Slurm
for each in sbatch slurmctld slurmd munged; do
    command -v "$each" >"$scratch/out" || missing=$each
done
if [[ ${missing-} ]]; then
    skip "Slurm, because $missing is missing (apt-get install slurm-wlm munge)"
else
    start_slurm
    recipe '--job-name=ssign-check' >"$scratch/check.sbatch"
    recipe 'sbatch --wait check.sbatch' >"$scratch/recipe"
    begin
    run_recipe
    found 'an array of Slurm'
    holds 'twenty tasks of Slurm did all' test "$(tasks_of "$scratch"/slurm-*_*.out)" = '20 19'
fi
finish
