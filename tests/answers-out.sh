#!/usr/bin/env bash
# `ssign-keys verify --answers-out FILE`: FILE holds all the answers of a run that succeeded, and isn't there after one
# that failed; and no file, folder or link that has this name is written to, whenever it came there.
# shellcheck source=tests/lib.sh
. "$(dirname -- "$0")/lib.sh"
need_program
export SSIGN=$program
keys_program=$root/tools/ssign-keys
need_cryptography
mkdir -- "$scratch/passing"
export TMPDIR=$scratch/passing
cd -- "$scratch" || exit 1
tried=0

# keys ARG..: runs ssign-keys as `run` does the program.
keys() {
    tried=$((tried + 1))
    timeout "$patience" "$keys_program" "$@" >"$scratch/out" 2>"$scratch/err"
    status=$?
}
# refuses WHAT COMPLAINT: the last run ended with status 2, this complaint and no output.
refuses() {
    expect "$1" 2 '' "$2"
}
# no_answers WHAT: neither the file `there/kept` nor any other is in the folder `there`.
no_answers() {
    holds "$1: no answers, and no part of them" test -z "$(ls -A there)"
}

mkdir keys there
keys make --ver 0121 keys
keys sign --key keys/private-key.pem --ver 0121 --host gate --app signer --rsid 1 --lines "$root/examples/signed/ten-messages.log"
cp out signed
# shellcheck disable=SC2094
"$program" questions <signed >questions
keys answer keys/public-key.pem <questions
cp out answers
verify=(verify --key keys/public-key.pem)

# ---- a run that succeeds, whatever the name is
names=(there/kept there/-dash there/--json 'there/two words' $'there/two\nlines' there/$'\xff\xfe' there/ä 'there/a"b\c' -dash ./-z)
for it in "${names[@]}"; do
    keys "${verify[@]}" --answers-out="$it" signed
    holds "the name $(printf %q "$it"): status 0" test "$status" = 0
    holds "the name $(printf %q "$it"): the answers" cmp answers "./$it"
    holds "the name $(printf %q "$it"): nothing else is kept" test "$(find there -mindepth 1 -print0 | tr -cd '\0' | wc -c)" -le 1
    rm -f -- "./$it"
done
for it in 000:644 022:644 027:640 077:600; do
    (umask "${it%:*}" && exec "$keys_program" "${verify[@]}" --answers-out there/kept signed >out)
    holds "umask ${it%:*}" test "$(stat -c %a there/kept)" = "${it#*:}"
    rm -f there/kept
done
mkdir folder
ln -s ../there folder/link
keys "${verify[@]}" --answers-out folder/link/kept signed
holds 'a link to a folder' cmp answers there/kept
rm there/kept
head -c -3 signed >torn
keys "${verify[@]}" --answers-out there/kept torn
holds 'findings: status 1' test "$status" = 1
holds 'findings: the answers' test -s there/kept
rm there/kept

# ---- a name that is taken
cp signed other
echo mine >regular
mkfifo fifo
# take KIND: something of a kind at there/kept
take() {
    case $1 in
        file) cp regular there/kept ;;
        empty) : >there/kept ;;
        link) ln -s ../regular there/kept ;;
        dangling) ln -s ../nowhere there/kept ;;
        round) ln -s kept there/kept ;;
        folder) mkdir there/kept ;;
        fifo) mkfifo there/kept ;;
        device) ln -s /dev/null there/kept ;;
    esac
}
# is_as_taken KIND: whether that is still there, and nothing else
# shellcheck disable=SC2317
is_as_taken() {
    [[ $(ls -A there) == kept ]] || return 1
    case $1 in
        file) cmp regular there/kept ;;
        empty) [[ -f there/kept && ! -s there/kept ]] ;;
        link) [[ -L there/kept && $(<regular) == mine ]] ;;
        dangling) [[ -L there/kept && ! -e nowhere ]] ;;
        round | device) [[ -L there/kept ]] ;;
        folder) [[ -d there/kept && -z $(ls -A there/kept) ]] ;;
        fifo) [[ -p there/kept ]] ;;
    esac
}
kinds=(file empty link dangling round folder fifo device)
taken="ssign-keys: the file there/kept is there already, and isn't overwritten"
# a program that takes the name while ssign reviews under the answers, after the first look
# shellcheck disable=SC2016
printf '#!/usr/bin/env bash\n. %q\n[[ "$1 ${2-}" != "review --ask="* ]] || eval "$CHANGE"\nexec %q "$@"\n' "$scratch/take.sh" "$program" >changing
chmod +x changing
# a function in the environment doesn't come through the shell that starts the tool
declare -f take >take.sh
# `blind OPTION..`: verify that sees no name taken until it is: as where it is taken a moment after the look
cat >blind.py <<'P'
import os, sys
sys.path.insert(0, os.environ["TOOLS"])
os.path.lexists = lambda path: False
from ssign_keys.__main__ import start
start()
P
# no hard links, as on FAT; no room for a copy
cat >no_links.py <<'P'
import errno, os, sys
sys.path.insert(0, os.environ["TOOLS"])
def link(old, new):
    raise OSError(errno.EPERM, os.strerror(errno.EPERM))
os.link = link
from ssign_keys.__main__ import start
start()
P
cat >no_room.py <<'P'
import errno, os, shutil, sys
sys.path.insert(0, os.environ["TOOLS"])
def copyfileobj(source, target):
    target.write(source.read(100))
    raise OSError(errno.ENOSPC, os.strerror(errno.ENOSPC))
shutil.copyfileobj = copyfileobj
from ssign_keys.__main__ import start
start()
P
cat >no_room_for_a_copy.py <<'P'
import shutil
copy, count = shutil.copyfileobj, 0
def copyfileobj(source, target):
    global count
    count += 1
    if count > 1:
        target.write(source.read(100))
        raise OSError(errno.ENOSPC, os.strerror(errno.ENOSPC))
    copy(source, target)
shutil.copyfileobj = copyfileobj
exec(open("no_links.py").read())
P
# a run whose output nobody reads: once its answers are there, the name is taken by another file where the first word
# is `replaced`, and it is sent the signal of the second word. How it ended is told.
cat >blocked.py <<'P'
import os, signal, subprocess, sys, time
number = signal.Signals["SIG" + sys.argv[2]]
def begin():
    if number != signal.SIGKILL:
        signal.signal(number, signal.SIG_DFL)
child = subprocess.Popen(sys.argv[3:], stdout=subprocess.PIPE, preexec_fn=begin)
for _ in range(300):
    if os.path.exists("there/kept"):
        break
    time.sleep(0.1)
# by now it waits for somebody to read
time.sleep(0.5)
if sys.argv[1] == "replaced":
    with open("there/new", "w") as file:
        file.write("mine\n")
    os.rename("there/new", "there/kept")
child.send_signal(number)
print(signal.Signals(-child.wait(30)).name)
P
export TOOLS=$root/tools
# python FILE ARG..: runs one of these.
python() {
    tried=$((tried + 1))
    timeout "$patience" python3 -B "$@" >"$scratch/out" 2>"$scratch/err"
    status=$?
}
for kind in "${kinds[@]}"; do
    take "$kind"
    keys "${verify[@]}" --answers-out there/kept --ssign ./none signed
    refuses "a name that is taken by: $kind" "$taken"
    holds "a name that is taken by: $kind: it is as it was" is_as_taken "$kind"
    python blind.py "${verify[@]}" --answers-out there/kept signed
    refuses "taken behind the look by: $kind" "$taken"
    holds "taken behind the look by: $kind: it is as it was" is_as_taken "$kind"
    python no_links.py "${verify[@]}" --answers-out there/kept signed
    refuses "without links, taken by: $kind" "$taken"
    rm -rf there/kept
    CHANGE="take $kind" keys "${verify[@]}" --answers-out there/kept --ssign ./changing signed
    refuses "taken while ssign reviews by: $kind" "$taken"
    holds "taken while ssign reviews by: $kind: it is as it was" is_as_taken "$kind"
    rm -rf there/kept
    CHANGE="take $kind" python no_links.py "${verify[@]}" --answers-out there/kept --ssign ./changing signed
    refuses "without links, taken while ssign reviews by: $kind" "$taken"
    holds "without links, taken while ssign reviews by: $kind: it is as it was" is_as_taken "$kind"
    rm -rf there/kept
done
keys "${verify[@]}" --answers-out there signed
refuses 'a folder' "ssign-keys: the file there is there already, and isn't overwritten"
keys "${verify[@]}" --answers-out nowhere/kept --ssign ./none signed
refuses 'no folder, before anything is done' "ssign-keys: the answers can't be kept in nowhere/kept: there is no folder nowhere"
keys "${verify[@]}" --answers-out regular/kept --ssign ./none signed
refuses 'a file for a folder' "ssign-keys: the answers can't be kept in regular/kept: there is no folder regular"
keys "${verify[@]}" --answers-out '' --ssign ./none signed
refuses 'an empty name' 'ssign-keys: --answers-out has an empty name'
long=there/$(head -c 300 /dev/zero | tr '\0' a)
keys "${verify[@]}" --answers-out "$long" signed
refuses 'a long name' "ssign-keys: the answers can't be kept in $long: File name too long"
CHANGE='rmdir there' keys "${verify[@]}" --answers-out there/kept --ssign ./changing signed
refuses 'the folder taken away' "ssign-keys: the answers can't be kept in there/kept: No such file or directory"
mkdir there
CHANGE='mv there elsewhere; mkdir there' keys "${verify[@]}" --answers-out there/kept --ssign ./changing signed
holds 'another folder of that name' cmp answers there/kept
rmdir elsewhere
rm there/kept
if [[ $(id -u) != 0 ]]; then
    chmod a-w there
    keys "${verify[@]}" --answers-out there/kept --ssign ./none signed
    refuses 'a folder that is not to be written to' "ssign-keys: the answers can't be kept in there/kept: Permission denied"
    chmod u+w there
fi
python no_links.py "${verify[@]}" --answers-out there/kept signed
holds 'without links: status 0' test "$status" = 0
holds 'without links: the answers' cmp answers there/kept
holds 'without links: nothing else' test "$(ls -A there)" = kept
rm there/kept

# ---- runs that fail
for form in '' --json --raw; do
    tried=$((tried + 1))
    timeout "$patience" "$keys_program" "${verify[@]}" ${form:+"$form"} --answers-out there/kept signed >/dev/full 2>err
    holds "a full device $form: status 2" test "$?" = 2
    no_answers "a full device $form"
    tried=$((tried + 1))
    timeout "$patience" "$keys_program" "${verify[@]}" ${form:+"$form"} --answers-out there/kept signed 2>err >&-
    holds "a closed standard output $form: status 2" test "$?" = 2
    no_answers "a closed standard output $form"
    CHANGE='exit 2' keys "${verify[@]}" ${form:+"$form"} --answers-out there/kept --ssign ./changing signed
    holds "a review that fails $form: status 2" test "$status" = 2
    no_answers "a review that fails $form"
    CHANGE='kill -9 $$' keys "${verify[@]}" ${form:+"$form"} --answers-out there/kept --ssign ./changing signed
    holds "a review that is killed $form: status 2" test "$status" = 2
    no_answers "a review that is killed $form"
    CHANGE='echo nonsense; exit 0' keys "${verify[@]}" ${form:+"$form"} --answers-out there/kept --ssign ./changing signed
    [[ $form == --raw ]] || no_answers "a review that is none $form"
    rm -f there/kept
done
tried=$((tried + 1))
timeout "$patience" python3 -B no_links.py "${verify[@]}" --answers-out there/kept signed >/dev/full 2>err
holds 'a full device, without links: status 2' test "$?" = 2
no_answers 'a full device, without links'
for it in no_room no_room_for_a_copy; do
    python "$it.py" "${verify[@]}" --answers-out there/kept signed
    refuses "no room for the answers, $it" "ssign-keys: the answers can't be kept in there/kept: No space left on device"
    no_answers "no room for the answers, $it"
done

# ---- signals, while ssign reviews, and while the verdict is written to a pipe that nobody reads
# shellcheck disable=SC2016
printf '#!/bin/sh\ncase "$1 ${2-}" in "review --ask="*) ;; *) exec %q "$@" ;; esac\necho $$ >waiting\nexec sleep 100\n' "$program" >dying && chmod +x dying
for it in INT TERM HUP; do
    rm -f waiting
    tried=$((tried + 1))
    python3 -B "$root/tests/verdicts.py" signal "$it" waiting "$keys_program" "${verify[@]}" --ssign ./dying \
        --answers-out there/kept signed >out 2>err
    holds "SIG$it while ssign reviews" cmp out <(echo "SIG$it")
    no_answers "SIG$it while ssign reviews"
done
# a log with so many unlisted messages that its objects are longer than a pipe
{
    cat signed
    for ((count = 0; count < 3000; count++)); do
        frame "<13>1 - h s - - - message $count"
    done
} >long
# blocked HOW SIGNAL: such a run.
blocked() {
    tried=$((tried + 1))
    timeout "$patience" python3 -B blocked.py "$1" "$2" "$keys_program" "${verify[@]}" --json --answers-out there/kept long >out 2>err
    holds "SIG$2 while the verdict is written, $1" cmp out <(echo "SIG$2")
}
for it in INT TERM HUP; do
    blocked kept "$it"
    no_answers "SIG$it while the verdict is written"
    # what somebody puts in its place meanwhile isn't removed
    blocked replaced "$it"
    holds "SIG$it, another file in its place: it stays" is_as_taken file
    rm -f there/kept
done
holds 'no passing file is left' test -z "$(ls -A -- "$TMPDIR")"
keys "${verify[@]}" --answers-out whole long
blocked kept KILL
holds 'SIGKILL: what stands there is whole' cmp whole there/kept
holds 'SIGKILL: and nothing else' test "$(ls -A there)" = kept

printf '%s: %d runs of ssign-keys\n' "$name" "$tried"
finish
