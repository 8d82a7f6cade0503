#!/usr/bin/env bash
# `ssign-archive`: logs that are split, and folders whose files are joined: plain and compressed, damaged and torn, and of
# names of any octets.
# shellcheck source=tests/lib.sh
. "$(dirname -- "$0")/lib.sh"
need_program
export SSIGN=$program
tool=$root/tools/archive
cd -- "$scratch" || exit 1
mkdir passing
export TMPDIR=$scratch/passing

# archive WORD..: runs the tool as `run` does the program.
archive() {
    timeout "$patience" "$tool" "$@" </dev/null >out 2>err
    status=$?
}
# says WHAT STATUS LINE..: the last run ended so, and each LINE stands in its output. Blanks are alike.
says() {
    local what=$1 wanted=$2 line fault=''
    [[ $status == "$wanted" ]] || fault+="    status $status, and not $wanted"$'\n'
    tr -s ' ' <out >squeezed
    for line in "${@:3}"; do
        grep -Fqx -e "$line" squeezed || fault+="    no line: $line"$'\n'
    done
    [[ -z $fault ]] || fault+="$(head -c 3000 out err | cat -v)"
    tell "$what" "$fault"
}
# refuses WHAT SENTENCE: the last run ended with status 2 and this complaint, and wrote nothing.
refuses() {
    expect "$1" 2 '' "ssign-archive: $2"
}
# size_of_frame N: how many octets the frame N of standard input has; the last is -1.
size_of_frame() {
    python3 -B -c 'import sys
sys.path.insert(0, sys.argv[1])
from archives import frames, unframed
print(len(frames([list(unframed(sys.stdin.buffer.read()))[int(sys.argv[2])]])))' "$root/tests" "$1"
}

# ---- splits, which run beside each other
seeds=()
for seed in 1 2 3 4; do
    python3 -B "$root/tests/archive_splits.py" "$seed" >"seed-$seed" 2>&1 &
    seeds+=($!)
done
python3 -B "$root/tests/archives.py" "$scratch" || exit 1
for seed in 1 2 3 4; do
    fault=''
    wait "${seeds[seed - 1]}" || fault="    $(tail -c 1000 "seed-$seed")"
    tell "split: the parts add up to the whole, or it says that they don't: seed $seed" "$fault"
done
archive split --by host archive/gate-1 archive/gate-1
refuses 'split: the folder is there' "$scratch/archive/gate-1 is there already"
archive split --by host archive/gate-4 split-whole
says 'split: a folder of one originator' 0 'host,gate-4: 354 messages, 34 blocks' '354 messages in 1 part'
archive join archive/gate-4
holds 'split: its one part is the whole log' cmp out split-whole/host,gate-4/log
cp out joined
truncate -s -5 joined
archive split --by session joined split-torn
holds 'split: a log that breaks off: status' test "$status" = 1
holds 'split: a log that breaks off is told' grep -q '^ssign-archive: at joined octet [0-9]*: torn, ' err
printf 'x' >>joined
archive split --by session joined split-torn
refuses 'split: into parts that are there' "$scratch/split-torn is there already"
{ cat split-whole/host,gate-4/log && printf 'x 9'; } >joined
archive split --by session joined split-bad
holds 'split: no frame: status' test "$status" = 1
size=$(stat -c %s split-whole/host,gate-4/log)
holds 'split: octets that are no frame are reported' grep -qx "ssign-archive: at joined octet $size: damaged, 3 octets from there on are no message" err
# what is damaged is left out, and all messages around it are there
first=$(size_of_frame 0 <split-whole/host,gate-4/log)
{ head -c "$first" split-whole/host,gate-4/log && printf 'no frame' && tail -c +$((first + 1)) split-whole/host,gate-4/log; } >joined
archive split --by host joined split-damaged
holds 'split: damaged octets: status' test "$status" = 1
holds 'split: damaged octets: the parts are those of the whole' cmp split-damaged/host,gate-4/log split-whole/host,gate-4/log
mkdir damaged && gzip -c joined >damaged/1.gz && cp split-whole/host,gate-4/log damaged/2 && cp joined damaged/3
archive join damaged
holds 'join: damaged octets: status' test "$status" = 1
holds 'join: damaged octets: the messages' cmp out <(cat split-whole/host,gate-4/log{,,})
holds 'join: damaged octets are reported' cmp err <(for file in 1.gz 3; do
    echo "ssign-archive: at damaged/$file octet $first: damaged, 8 octets from there on are no message"
done)
printf '\x89PNG\r\n\x1a\n' >damaged/2
archive join damaged
holds 'join: a picture: status' test "$status" = 2
holds 'join: a picture' grep -qx "ssign-archive: at damaged/2 octet 0: unread, what follows in this file isn't read: no frame begins there" err
holds 'join: a picture: the messages of the others' cmp out <(cat split-whole/host,gate-4/log{,})
rm -r damaged
# messages as long as a piece that is read: no more of them wait than can be read otherwise before damage
mkdir longest && python3 -B -c 'import sys
for _ in range(96):
    sys.stdout.buffer.write(b"1048576 <13>1 - h a - - - " + b"x" * (1048576 - 18))' >longest/log
(ulimit -v 120000 && exec timeout "$patience" "$tool" join --max-len 1048576 longest >out 2>err)
holds 'join: long messages, in little memory' cmp out longest/log
rm -r longest

# ---- the files of a folder
zcat_all() {
    local file
    for file in archive/"$1"/*; do
        case $file in
        *.gz) gzip -dc "$file" ;;
        *.xz) xz -dc "$file" ;;
        *) cat "$file" ;;
        esac
    done
}
if command -v xz >out; then
    archive join archive/gate-3
    holds 'join: the files in the order of their names' cmp out <(zcat_all gate-3)
else
    skip "no xz here, so nothing is compared with what it expands"
fi
# a session of one originator, whose blocks `split` finds again
archive join archive/gate-2
mv out whole
archive split --by session whole sessions
says 'split: a session for each night' 0 '360 messages in 8 parts'

# harm FILE COMMAND..: runs the command on a copy of the folder of originator 1, and joins it.
harm() {
    rm -rf harmed && cp -r archive/gate-1 harmed
    (cd harmed && "${@:2}" "$1") || exit 1
    archive join harmed
}
# shellcheck disable=SC2317 # called by name
flip() {
    python3 -c 'import sys
name = sys.argv[1]
octets = bytearray(open(name, "rb").read())
octets[len(octets) // 2] ^= 0x55
open(name, "wb").write(octets)' "$1"
}
harm night-4.log.gz flip
holds 'join: a damaged .gz: status' test "$status" = 2
holds 'join: a damaged .gz is told with its file' grep -q "^ssign-archive: at harmed/night-4.log.gz octet 0: unread, what follows in this file isn't read: it is compressed by gzip and damaged: " err
harm night-4.log.gz truncate -s -9
holds 'join: a .gz that breaks off: status' test "$status" = 2
holds 'join: a .gz that breaks off is read up to there' grep -q "octet [1-9][0-9]*: unread, what follows in this file isn't read: it is compressed by gzip and damaged: its end is missing$" err
harm night-3.log truncate -s -5
holds 'join: a torn file: status' test "$status" = 1
holds 'join: a torn file is told' grep -q '^ssign-archive: at harmed/night-3.log octet [0-9]*: torn, the file breaks off in the message that begins there$' err
if command -v xz >found; then
    holds 'join: the files after it are read' test "$(tail -c 20 out | sha256sum)" = "$(zcat_all gate-1 | tail -c 20 | sha256sum)"
else
    skip "what is read after a torn file, because xz is missing"
fi
patience=20
for kind in 'mkfifo log' 'ln -s /dev/zero log' 'ln -s /dev/tty log' 'python3 -c "import socket; socket.socket(socket.AF_UNIX).bind(\"log\")"'; do
    rm -rf odd && mkdir odd && (cd odd && eval "$kind")
    archive join odd
    refuses "$kind" 'odd/log is no regular file'
done
rm -rf odd && mkdir odd
archive join odd
refuses 'join: an empty folder' 'no file lies in odd'
ln -s nowhere odd/log
archive join odd
refuses 'join: a link to nothing' "odd/log can't be read: No such file or directory"
rm odd/log && mkdir odd/inner && ln -s ../archive/gate-4/night-3.log odd/log && : >odd/inner.places
archive join odd
holds 'join: a link to a file' cmp out archive/gate-4/night-3.log
archive join nowhere
refuses 'join: no such folder' "the folder nowhere can't be read: No such file or directory"
archive join --max-len 0 archive/gate-1
refuses 'join: no such limit' "--max-len: '0' is no number from 1 to 1048576"

# ---- names: none is taken for an option, and each is read
mkdir names
for part in '-dash' '--help' '--' $'\xff\xfe not utf-8' $'latin-\xe9' $'an\nLF' 'two  spaces ' 'back\slash' '{}' '$(touch hit)' '*' '%2E' "$(printf 'a%.0s' {1..255})"; do
    mkdir -- "names/$part" && cp archive/gate-4/night-3.log "names/$part/$part"
    for locale in C.UTF-8 POSIX; do
        (cd names && LC_ALL=$locale PYTHONUTF8=0 PYTHONCOERCECLOCALE=0 timeout "$patience" "$tool" join -- "$part" </dev/null >../out 2>../err)
        holds "join: ${part@Q}, locale $locale" cmp out archive/gate-4/night-3.log
    done
    rm -rf split
    (cd names && timeout "$patience" "$tool" split --by host -- "$part" ../split </dev/null >../out 2>../err)
    holds "split: ${part@Q}" cmp split/host,gate-4/log archive/gate-4/night-3.log
done
holds 'names: nothing was run' test ! -e hit -a ! -e names/hit
holds 'nothing passing is left' test -z "$(ls passing)"
finish
