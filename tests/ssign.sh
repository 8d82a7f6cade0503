#!/usr/bin/env bash
# The script ./ssign, over a copy of what it looks at: it is the program of the sources at hand, built here or recorded, or
# it says what to do and builds nothing. `./ssign --build` builds one, with the command rt, for which a small script stands
# here. With it what belongs to the recorded program: the scripts of release/, and tests/release.sh.
# shellcheck source=tests/lib.sh
. "$(dirname -- "$0")/lib.sh"
need_program

copy=$scratch/copy
log=$root/examples/four-messages.frames
answers=$root/examples/four-messages.answers
report='session h s - 1 joined
ok h s - 1 0 0 1 0
ok h s - 1 0 0 2 1
end 4'
toolchain='a-kit logic 0123'

# a PATH of the tools that the scripts use, and one with an rt in front of them
tools=$scratch/tools
with_rt=$scratch/with_rt:$tools
mkdir -- "$tools" "$scratch/with_rt"
for tool in bash chmod cp dirname env find flock grep mkdir mv nproc readlink rm sed sha256sum sleep sort tail touch; do
    found=$(command -v "$tool") && ln -s -- "$found" "$tools/$tool"
done

# the scripts and a few of the sources that they look at, all of an old date, and the same with a recorded program
sources=$scratch/sources
with_release=$scratch/with_release
for crate in "$root"/crates/*/; do
    crate=${crate%/}
    for part in src specs; do
        for file in lib.rt main.rt Lib.antt CommandLine.antt; do
            [[ -f $crate/$part/$file ]] || continue
            mkdir -p -- "$sources/crates/${crate##*/}/$part"
            cp -- "$crate/$part/$file" "$sources/crates/${crate##*/}/$part/$file"
        done
    done
done
mkdir -- "$sources/release" "$sources/tools"
cp -- "$root/ssign" "$root/crates.txt" "$sources/"
cp -- "$root/release/"*.sh "$sources/release/"
cp -- "$root/tools/build.sh" "$sources/tools/"
find "$sources" -exec touch -d '2001-01-01 00:00' -- {} +

# sum_of FILE: its SHA-256, by another program than the scripts use.
sum_of() {
    python3 -c 'import hashlib, sys; print(hashlib.sha256(open(sys.argv[1], "rb").read()).hexdigest())' "$1"
}

# write_text PROGRAM FOLDER: the text beside a program, as one of the sources of the copy in this folder.
write_text() {
    printf 'program %s\ntoolchain %s\nsources %s\n' "$(sum_of "$1")" "$toolchain" "$("$2/release/sources.sh")" >"$1.txt"
}

# fresh: a copy without a program.
fresh() {
    rm -rf -- "$copy"
    cp -a -- "$sources" "$copy"
}

# put_built: puts the program into the copy, as one that was built there of its sources.
own=$copy/crates/ssign/out/ssign
put_built() {
    mkdir -- "${own%/*}"
    cp -- "$program" "$own"
    write_text "$own" "$copy"
}

built() {
    fresh
    put_built
}

# In a copy the recorded program is the program of this test, with a text of the copy's own sources. So these checks say
# nothing of the one in release/, which tests/release.sh looks at.
recorded=$copy/release/ssign-x86_64-linux
cp -a -- "$sources" "$with_release"
mkdir -p -- "$with_release/tests" "$with_release/docs/dev"
# shellcheck disable=SC2016 # backquotes of a page
printf 'It was proved with `%s`.\n' "$toolchain" >"$with_release/docs/dev/PROOFS.md"
cp -- "$root/tests/lib.sh" "$root/tests/release.sh" "$with_release/tests/"
cp -- "$program" "$with_release/release/ssign-x86_64-linux"
chmod 755 -- "$with_release/release/ssign-x86_64-linux"
write_text "$with_release/release/ssign-x86_64-linux" "$with_release"

# with_record: a fresh copy with a recorded program.
with_record() {
    rm -rf -- "$copy"
    cp -a -- "$with_release" "$copy"
}

# edit FILE OLD NEW: puts NEW in the place of the first OLD, both Python's octets, and keeps the date.
edit() {
    touch -r "$1" -- "$scratch/date"
    python3 - "$@" <<'P'
import ast, sys
name, old, new = sys.argv[1], *(ast.literal_eval(f"b'{it}'") for it in sys.argv[2:])
with open(name, "rb") as file:
    octets = file.read()
assert old in octets and old != new, "no such octets"
with open(name, "wb") as file:
    file.write(octets.replace(old, new, 1))
P
    touch -r "$scratch/date" -- "$1"
}

# other_source: one letter of a comment, in a file that keeps its length and date.
other_source() {
    edit "$copy/crates/ss_frame/src/lib.rt" '//!' '//?'
}

# rt TEXT: makes TEXT the script that stands for rt, where the program is asked for. It runs in the folder of the crate,
# and $made is the program that it may bring about. A library that is asked for alone is noted in $libraries; the one
# that $refused names, if any, isn't proved. Each call but the one for the version leaves the mark `called`.
libraries=$scratch/libraries
refused=$scratch/refused
rt() {
    cat >"$scratch/with_rt/rt" <<R
#!/usr/bin/env bash
made=$(printf %q "$program")
[[ \$1 == version ]] && echo 'a complaint, which is no part of it' >&2 && echo $(printf %q "$toolchain") && exit
: >$(printf %q "$scratch/called")
if [[ \$1 == lib ]]; then
    printf '%s\n' "\${PWD##*/}" >>$(printf %q "$libraries")
    [[ \${PWD##*/} != "\$(<$(printf %q "$refused"))" ]] || { echo 'error: no proof of a library'; exit 1; }
    exit 0
fi
$1
R
    chmod +x "$scratch/with_rt/rt"
}
: >"$refused"
# shellcheck disable=SC2016 # for that script
proves='while read -r line; do printf "%s\n" "$line" >&2; done
echo "rt: chose --jobs 2 for ss_frame" >&2
echo "so far: 0 of 85 functions checked; the verdict comes last" >&2
echo "so far: 85 of 85 functions checked" >&2
echo "fn ss_frame::write::write_frame: proved" >&2
echo "rt: chose --jobs 2 for ssign" >&2
echo "the help of the program"
mkdir -p out && cp -- "$made" out/ssign'
rt "$proves"

# ssign PATH ARG..: runs the script of the copy with that PATH, on this function's standard input.
ssign() {
    local path=$1
    shift
    timeout "$patience" env PATH="$path" bash "$copy/ssign" "$@" >"$scratch/out" 2>"$scratch/err"
    status=$?
}

# said WHAT TEXT: one check, that TEXT stands in what the last run wrote on standard error.
said() {
    holds "$1" grep -qF -- "$2" "$scratch/err"
}

# quiet WHAT: one check, that rt wasn't called.
quiet() {
    holds "$1: no build" test ! -e "$scratch/called"
    rm -f -- "$scratch/called"
}

# none WHAT FAULTS: three checks, that nothing is run and nothing is built, and that one sentence says so.
none() {
    ssign "$with_rt" review <"$log"
    expect "$1: not run" 2 '' "ssign: no program is run: $2; ./ssign --build proves and builds one"
    quiet "$1"
}
of_others='of other sources'
own_is="the program built here"
recorded_is="the recorded program"

# ---- The program is there
built
ssign "$tools" review --answers "$answers" <"$log"
expect 'a program of these sources: input, output, status 0' 0 "$report" ''
ssign "$tools" review --lines < <(printf 'one\ntwo\nthr')
expect 'status 1' 1 $'unlisted 0\nunlisted 1\ntorn 8\nend 2' ''
ssign "$tools" review <"$root"
expect 'status 2, and a refusal' 2 '' 'ssign: F3'
ssign "$tools" review --answers 'no such file' </dev/null
expect 'a word with spaces' 2 '' 'ssign: A2'
ln -s -- "$copy/ssign" "$scratch/link"
(cd / && PATH=$tools exec "$scratch/link" review </dev/null) >"$scratch/out" 2>"$scratch/err"
status=$?
expect 'from another folder, by a link' 0 'end 0' ''
find "$copy" -exec touch -- {} +
touch -d '2001-01-01' -- "$own"
ssign "$tools" review </dev/null
expect 'dates do not count' 0 'end 0' ''

# as_program WHAT ARG..: one check, that the script does with these words what the program does.
as_program() {
    local what=$1
    shift
    run "$@" </dev/null
    local wanted=$status output complained
    # the program calls itself by the name of its file
    output=$(sed "s/${program##*/}/ssign/g" "$scratch/out")
    complained=$(sed "s/${program##*/}/ssign/g" "$scratch/err")
    ssign "$with_rt" "$@" </dev/null
    expect "$what" "$wanted" "$output" "$complained"
}
for kind in built with_record; do
    "$kind"
    as_program "$kind: a command" review
    as_program "$kind: the help of a command" sign --help
    as_program "$kind: words with spaces, newlines and other octets" explain $'no such\ncode \xff'
    as_program "$kind: a wrong command line" reviev
    as_program "$kind: no words"
    as_program "$kind: an empty word" ''
    as_program "$kind: what begins as --build does" --build=x
    as_program "$kind: --build behind another word" review --build
    quiet "$kind"
done
# the program that prints its words shows each octet of them
built
cp -- "$(type -P printf)" "$own"
write_text "$own" "$copy"
ssign "$tools" '%s|' '' 'a b' $'c\nd\xff' '*' --build
holds 'each word arrives, octet for octet' cmp -- "$scratch/out" <(printf '|a b|c\nd\xff|*|--build|')

# ---- It isn't, or isn't that of the sources: one sentence, and no build
fresh
none 'no program' 'none is built or recorded'
built
other_source
none 'one octet of a source' "$own_is is $of_others"
for part in crates.txt crates/ssign/specs/CommandLine.antt crates/ss_block/src/lib.rt; do
    with_record
    printf '\n' >>"$copy/$part"
    none "an octet more in $part" "$recorded_is is $of_others"
done
with_record
mv -- "$copy/crates/ss_frame/src/lib.rt" "$copy/crates/ss_frame/src/bil.rt"
none 'a file with another name' "$recorded_is is $of_others"
for part in src/chunk.rt~ specs/.Frame.antt.swp; do
    with_record
    echo more >"$copy/crates/ss_frame/$part"
    none "a stray file $part" "$recorded_is is $of_others (crates/ss_frame/$part stands among them, and is none: move it away)"
done
with_record
put_built
other_source
none 'both of other sources' "$own_is is $of_others, and $recorded_is is $of_others"
for words in --help --version help 'explain gap' reviev ''; do
    # shellcheck disable=SC2086 # several words
    ssign "$with_rt" $words </dev/null
    holds "both of other sources: $words: status 2" test "$status" = 2
    quiet "both of other sources: $words"
done
with_record
for part in proofs/more.antt must-fail/more.edit README.md; do
    mkdir -p -- "$copy/crates/ss_frame/${part%/*}" 2>/dev/null
    echo more >"$copy/crates/ss_frame/${part/README.md/..\/README.md}"
done
printf '\n' >>"$copy/crates/test_rows/src/lib.rt"
ssign "$tools" review </dev/null
expect 'a proof, a page and a test crate do not count' 0 'end 0' ''
with_record
rm -- "$copy/crates/ss_frame/src/lib.rt" && rmdir -- "$copy/crates/ss_frame/src"
ssign "$with_rt" review </dev/null
expect 'a source that went' 2 '' "ssign: no program is run: $recorded_is cannot be compared with the sources: sources.sh: there is no folder crates/ss_frame/src; ./ssign --build proves and builds one"
with_record
mkdir -- "$scratch/no_find"
cp -P -- "$tools"/* "$scratch/no_find/" && rm -- "$scratch/no_find/find"
ssign "$scratch/no_find" review </dev/null
expect 'where nothing can tell' 2 '' 'SOME TEXT'

# ---- The program that was built here goes first, here one that prints its words
with_own() {
    with_record
    put_built
    cp -- "$(type -P echo)" "$own"
    write_text "$own" "$copy"
}
with_own
ssign "$tools" review </dev/null
expect 'both of these sources: the one that was built here' 0 'review' ''
rm -- "$own.txt"
ssign "$tools" review </dev/null
expect 'one without a text, as a broken-off build leaves it: the recorded one' 0 'end 0' ''
for text in '' 'abc' $'\177ELF and nothing else'; do
    with_own
    printf '%s' "$text" >"$own"
    ssign "$tools" review </dev/null
    expect "one of ${#text} octets: the recorded one" 0 'end 0' ''
    write_text "$own" "$copy"
    ssign "$tools" review </dev/null
    expect "one of ${#text} octets, with its text: the recorded one" 0 'end 0' ''
done
with_own
timeout "$patience" env PATH="$tools" SHELLOPTS=noglob bash "$copy/ssign" review >"$scratch/out" 2>"$scratch/err" </dev/null
status=$?
expect 'where no pattern stands for a file' 0 'review' ''
with_own
mv -- "$copy/crates/ss_frame/src/lib.rt" "$scratch/elsewhere.rt"
ln -s -- "$scratch/elsewhere.rt" "$copy/crates/ss_frame/src/lib.rt"
ssign "$tools" review </dev/null
expect 'where a link leads to a source' 0 'review' ''
printf '\n' >>"$scratch/elsewhere.rt"
none 'and the source that it leads to changed' "$own_is is $of_others, and $recorded_is is $of_others"

# ---- The stamp, by which the answer holds until something that it rests on changes
# without sha256sum nothing but the stamp can answer
no_sum=$scratch/no_sum
mkdir -- "$no_sum"
cp -P -- "$tools"/* "$no_sum/" && rm -- "$no_sum/sha256sum"

# at FOLDER: has what follows look at this copy.
at() {
    copy=$1
    own=$copy/crates/ssign/out/ssign
    recorded=$copy/release/ssign-x86_64-linux
}

# held WHAT OUTPUT: one check, that the stamp alone answers, with the recorded program or the one that prints its words.
held() {
    ssign "$no_sum" review </dev/null
    expect "$1" 0 "$2" ''
}

# dated FILE COMMAND..: runs the command, and gives the file or folder its date back.
dated() {
    local date
    date=$(date -r "$1" +@%s.%N)
    "${@:2}"
    touch -d "$date" -- "$1"
}

# as_before FILE: a copy of the file or folder, of its date, with one octet changed. It prints its name.
as_before() {
    local other=$scratch/other.$RANDOM
    cp -a -- "$1" "$other"
    if [[ -d $1 ]]; then
        edit "$(find "$other" -path '*ss_frame/src/lib.rt' -o -path "$other/lib.rt")" '//!' '//?'
    else
        edit "$other" "${@:2}"
    fi
    printf '%s' "$other"
}

# trick WHAT BEFORE AFTER FAULT: after the first command a copy gets a stamp, and after the second one the copy is refused
# for this fault. Each leaves sizes and dates as they are. A fault that is empty: the program that prints its words answers.
tricks=()
trick() {
    tricks+=("$@")
}
export lib=crates/ss_frame/src/lib.rt
source_changed="$recorded_is is $of_others"
trick 'one octet of a source' : other_source "$source_changed"
trick 'one octet of crates.txt' : 'edit crates.txt Each each' "$source_changed"
trick 'a source more' : 'dated ${lib%/*} cp -p $lib ${lib%/*}/more.rt' "$source_changed"
trick 'a source less' 'cp -p $lib ${lib%/*}/more.rt; write_text "$recorded" "$copy"' \
    'dated ${lib%/*} rm ${lib%/*}/more.rt' "$source_changed"
trick 'a source in the place of another' : 'other=$(as_before $lib //! //?); dated ${lib%/*} mv $other $lib' "$source_changed"
trick 'a folder in the place of another' : 'other=$(as_before ${lib%/*})
    dated crates/ss_frame eval "mv ${lib%/*} $scratch/gone.1; mv $other ${lib%/*}"' "$source_changed"
trick 'all crates in the place of others' : 'other=$(as_before crates); dated . eval "mv crates $scratch/gone.2; mv $other crates"' \
    "$source_changed"
trick 'a source by another name of its file' 'ln $lib $scratch/alias' 'edit $scratch/alias //! //?' "$source_changed"
trick 'a source that a link leads to' 'cp -p $lib $scratch/led; ln -sf $scratch/led $lib' 'edit $scratch/led //! //?' "$source_changed"
trick 'a first folder of definitions' 'rm -r crates/ss_frame/specs; write_text "$recorded" "$copy"' \
    'dated crates/ss_frame cp -a crates/ss_block/specs crates/ss_frame/specs' "$source_changed"
wrong_sum="$recorded_is hasn't the SHA-256 that its text gives"
trick 'one octet of the program' : 'edit "$recorded" "\177ELF" "#!LF"' "$wrong_sum"
trick 'a program in its place' : 'other=$(as_before "$recorded" "\177ELF" "#!LF"); dated release mv $other "$recorded"' "$wrong_sum"
trick 'one octet of the text' : 'edit "$recorded.txt" "sources " "sources-"' "$recorded_is has a text that isn't as release/describe.sh writes it"
trick 'no text' : 'dated release rm "$recorded.txt"' "$recorded_is has no text beside it"
trick 'a program that may not be executed' : 'chmod a-x "$recorded"' "$recorded_is may not be executed (chmod +x)"
trick 'another judge' : 'echo "echo is bad; exit 1" >release/fault.sh' "$recorded_is is bad"
trick 'a program that was built' : 'dated crates/ssign put_echo' ''
trick 'a copy of all' : 'cp -a . $scratch/stamped/all; at $scratch/stamped/all; other_source' "$source_changed"

# put_echo: puts a program that prints its words into the copy, as one that was built there.
put_echo() {
    put_built
    cp -- "$(type -P echo)" "$own"
    write_text "$own" "$copy"
}

mkdir -- "$scratch/stamped"
for ((i = 0; i < ${#tricks[@]}; i += 4)); do
    at "$scratch/stamped/$i"
    cp -a -- "$with_release" "$copy"
    (cd -- "$copy" && eval "${tricks[i + 1]}")
done
for more in built limited many odd another; do
    cp -a -- "$with_release" "$scratch/stamped/$more"
done
at "$scratch/stamped/built"
put_echo
# what changed just now could change once more at the same time, so the answer isn't kept yet
at "$scratch/copy"
for ((i = 0; i < 10; i++)); do
    with_record
    ssign "$tools" review </dev/null
    other_source
    ssign "$tools" review </dev/null
    holds "a change just after a run, $i" test "$status" = 2
done
holds 'so no stamp is left' test ! -e "$copy/release/stamp"
sleep 3
for ((i = 0; i < ${#tricks[@]}; i += 4)); do
    at "$scratch/stamped/$i"
    ssign "$tools" review </dev/null
    held "${tricks[i]}: a stamp" 'end 0'
    cd -- "$copy" && eval "${tricks[i + 2]}"
    if [[ ${tricks[i + 3]} ]]; then
        none "${tricks[i]}" "${tricks[i + 3]}"
    else
        ssign "$tools" review </dev/null
        expect "${tricks[i]}" 0 'review' ''
    fi
done
cd -- "$root" || exit 1
at "$scratch/stamped/built"
ssign "$tools" --which </dev/null
expect 'a stamp of the one that was built here' 0 "$own" ''
held 'it answers' 'review'
ssign "$no_sum" --which </dev/null
expect 'and for --which' 0 "$own" ''
rm -- "$own"
ssign "$tools" review </dev/null
expect 'it goes: the recorded one' 0 'end 0' ''
none_read="$recorded_is cannot be read"
at "$scratch/stamped/odd"
stamp=$copy/release/stamp
ssign "$tools" review </dev/null
cp -- "$stamp" "$scratch/whole"
sed -E "s/ ([0-9]+)(\.[0-9]+ [^ ]*lib.rt)\$/ 9\1\2/" "$scratch/whole" >"$scratch/later"
for text in '' 'end' "$(<"$scratch/later")" "$(head -n -1 -- "$scratch/whole")" "$(tail -n +2 -- "$scratch/whole")"; do
    printf '%s' "$text" >"$stamp"
    ssign "$no_sum" review </dev/null
    expect "a stamp of ${#text} octets, as one with a clock set back, is none" 2 '' \
        "ssign: no program is run: $none_read; ./ssign --build proves and builds one"
done
for kind in 'mkdir' 'mkfifo' 'ln -s nowhere'; do
    rm -f -- "$stamp"
    $kind "$stamp"
    ssign "$tools" review </dev/null
    expect "$kind in its place" 0 'end 0' ''
    rm -rf -- "$stamp"
done
at "$scratch/stamped/many"
for ((i = 0; i < 8; i++)); do
    PATH=$tools bash "$copy/ssign" --which </dev/null >"$scratch/which.$i" 2>&1 &
done
wait
for ((i = 0; i < 8; i++)); do
    holds "eight at once, $i" test "$(<"$scratch/which.$i")" = "$recorded"
done
holds 'one stamp is left' test "$(cd -- "$copy/release" && echo stamp*)" = stamp
held 'and it answers' 'end 0'
at "$scratch/copy"

# ---- A recorded program that isn't one, or whose text isn't whole, is never run
# gate WORD..: runs tests/release.sh of the copy with these settings, on the program of this test.
gate() {
    timeout "$patience" env -u CI SSIGN="$program" PATH="$scratch/with_rt:$PATH" "$@" bash "$copy/tests/release.sh" \
        >"$scratch/out" 2>"$scratch/err" </dev/null
    status=$?
}

# gate_says WHAT STATUS TEXT: two checks of it.
gate_says() {
    holds "$1: status $2" test "$status" = "$2"
    holds "$1: it says so" grep -qF -- "$3" "$scratch/out"
}

# never WHAT FAULT: that it isn't run, why, and that tests/release.sh fails over it.
never() {
    none "$1" "$recorded_is $2"
    gate
    holds "$1: tests/release.sh fails" test "$status" = 1
}
for at in first last; do
    with_record
    if [[ $at == first ]]; then
        edit "$recorded" '\177ELF' '#!LF'
    else
        printf '\0' >>"$recorded"
    fi
    never "the $at octet of the recorded program" "hasn't the SHA-256 that its text gives"
done
not_whole="has a text that isn't as release/describe.sh writes it"
for line in program toolchain sources; do
    with_record
    sed -i "/^$line /d" "$recorded.txt"
    never "a text without the line $line" "$not_whole"
    with_record
    sed -i "s/^$line .*/$line /" "$recorded.txt"
    never "a text with an empty line $line" "$not_whole"
done
with_record
echo more >>"$recorded.txt"
never 'a text with a line more' "$not_whole"
with_record
rm -- "$recorded.txt"
never 'no text' 'has no text beside it'
with_record
rm -- "$recorded"
never 'a text alone' "isn't there"
with_record
chmod a-x -- "$recorded"
never 'a program that may not be executed' 'may not be executed (chmod +x)'

# with the right SHA-256 and of the right sources, but for another machine
with_record
python3 -c 'import sys
with open(sys.argv[1], "r+b") as file: file.seek(18); file.write(b"\xb7\0")' "$recorded"
write_text "$recorded" "$copy"
none 'a program for another processor' "$recorded_is doesn't run on this machine"
with_record
edit "$recorded" 'ld-linux-x86-64.so.2' 'ld-linux-x86-64.so.9'
write_text "$recorded" "$copy"
none 'a program for another C library' "$recorded_is doesn't run on this machine"
with_record
printf ': >%q\n' "$scratch/called" >"$recorded"
write_text "$recorded" "$copy"
none 'a text in its place' "$recorded_is doesn't run on this machine"

# ---- A clone that nothing was built in, as another user where that can be had: it may be read, and no more
chmod 711 -- "$scratch"
clone=$scratch/clone
mkdir -- "$clone"
if git -C "$root" rev-parse --is-inside-work-tree >/dev/null 2>&1; then
    (cd -- "$root" && git ls-files -z | grep -zv '^release/ssign-' | tar -c --null -T - 2>/dev/null) | tar -x -C "$clone"
else
    (cd -- "$root" && tar -c --exclude='./crates/*/out' --exclude=./.git .) | tar -x -C "$clone"
fi
cp -- "$program" "$clone/release/ssign-x86_64-linux"
chmod 755 -- "$clone/release/ssign-x86_64-linux"
write_text "$clone/release/ssign-x86_64-linux" "$clone"
as_another=()
[[ $(id -u) == 0 ]] && command -v setpriv >/dev/null && as_another=(setpriv --reuid=65534 --regid=65534 --clear-groups)
"${as_another[@]}" test -r "$clone/ssign" 2>/dev/null || as_another=()
cp -- "$answers" "$scratch/answers"
chmod 644 -- "$scratch/answers"
chmod -R a-w -- "$clone"
find "$clone" | sort >"$scratch/before"
before=$(date +%s%N)
timeout "$patience" "${as_another[@]}" env -i PATH="$tools" HOME=/nonexistent "$clone/ssign" review --answers "$scratch/answers" \
    >"$scratch/out" 2>"$scratch/err" <"$log"
status=$?
took=$((($(date +%s%N) - before) / 1000000))
expect 'a clone that nothing was built in: input, output, status' 0 "$report" ''
echo "$name: the answer of a clone took $took ms"
holds 'it answers within 5 s' test "$took" -lt 5000
find "$clone" | sort >"$scratch/after"
holds 'nothing is written there' cmp -- "$scratch/before" "$scratch/after"
chmod -R u+w -- "$clone"
# the owner's stamp answers for another user too
at "$scratch/stamped/another"
chmod 711 -- "$scratch/stamped"
(umask 077 && PATH=$tools bash "$copy/ssign" review </dev/null >"$scratch/out")
"${as_another[@]}" env -i PATH="$no_sum" "$BASH" "$copy/ssign" review </dev/null >"$scratch/out" 2>"$scratch/err"
status=$?
expect 'a stamp that another user left' 0 'end 0' ''
other_source
"${as_another[@]}" env -i PATH="$tools" "$BASH" "$copy/ssign" review </dev/null >"$scratch/out" 2>"$scratch/err"
status=$?
expect 'and after a change' 2 '' "ssign: no program is run: $recorded_is is $of_others; ./ssign --build proves and builds one"
at "$scratch/copy"

# ---- --build
fresh
rm -f -- "$libraries"
ssign "$with_rt" --build </dev/null
expect 'a build: status, and no output' 0 '' 'SOME TEXT'
said 'the time that it takes is reported' ' minutes on this machine'
said 'the file is named' "$copy/crates/ssign/out/ssign.log"
said 'the crate is reported' 'ssign: ss_frame'
said 'no recorded program' "ssign: there is no recorded program to compare it with, or its text isn't whole"
holds 'what the prover says is in the file' grep -q '^fn ss_frame::write::write_frame: proved$' "$copy/crates/ssign/out/ssign.log"
holds 'and not on standard error' test -z "$(grep '^fn ' "$scratch/err")"
each='ss_octets ss_frame ss_message ss_payload ss_block ss_signed ss_origin ss_review ss_report ss_answers ss_signing'
holds 'each library was asked for by itself before, lowest first' test "$(tr '\n' ' ' <"$libraries")" = "$each "
rm -- "$scratch/called"
ssign "$with_rt" review --answers "$answers" <"$log"
expect 'the run after it' 0 "$report" ''
quiet 'the run after it'
cat >"$scratch/from_terminal.py" <<'P'
"""Runs the words with a terminal as standard input, on which nobody types anything but Ctrl-D."""
import os, subprocess, sys
ours, theirs = os.openpty()
run = subprocess.Popen(sys.argv[1:], stdin=theirs)
os.close(theirs)
os.write(ours, b"\x04")
sys.exit(run.wait(timeout=60))
P
waits='ssign: standard input is a terminal: this waits for what you type, up to Ctrl-D at the front of a line'
for words in inspect 'review --salvage' 'plan --rsid 1 --payload=-'; do
    # shellcheck disable=SC2086
    python3 "$scratch/from_terminal.py" env PATH="$with_rt" bash "$copy/ssign" $words >"$scratch/out" 2>"$scratch/err"
    holds "$words waits for a terminal, and says so" test "$(head -n 1 -- "$scratch/err")" = "$waits"
done
python3 "$scratch/from_terminal.py" env PATH="$with_rt" bash "$copy/ssign" inspect >"$scratch/out" 2>"$scratch/err"
holds 'what is typed is the log' cmp -- "$scratch/out" <(echo 'end 0')
for words in 'inspect --help' 'sign -h' --version 'explain F1'; do
    # shellcheck disable=SC2086
    python3 "$scratch/from_terminal.py" env PATH="$with_rt" bash "$copy/ssign" $words >"$scratch/out" 2>"$scratch/err"
    holds "$words waits for nothing" test ! -s "$scratch/err"
done
cat >"$scratch/on_terminal.py" <<'P'
"""Runs the words on a terminal as standard error alone, and prints what came there."""
import os, subprocess, sys
ours, theirs = os.openpty()
run = subprocess.Popen(sys.argv[1:], stdin=subprocess.DEVNULL, stdout=subprocess.DEVNULL, stderr=theirs)
os.close(theirs)
try:
    while piece := os.read(ours, 4096):
        os.write(1, piece)
except OSError:
    pass
sys.exit(run.wait())
P
fresh
python3 "$scratch/on_terminal.py" env PATH="$with_rt" bash "$copy/ssign" --build >"$scratch/err"
holds 'on a terminal one line is written over' grep -q $'\rssign: ss_frame, 85 of 85 functions .*\rssign: ssign' "$scratch/err"
for words in review '' --build; do
    ssign "$with_rt" --build "$words" </dev/null
    expect "--build with another word: $words" 2 '' 'ssign: --build stands alone'
done

# A library that was begun before is left to the program's own build
fresh
mkdir -p -- "$copy/crates/ss_block/out/incremental"
rm -- "$libraries"
ssign "$with_rt" --build </dev/null
expect 'a build after a library was begun' 0 '' 'SOME TEXT'
holds 'it was not asked for' test "$(tr '\n' ' ' <"$libraries")" = "${each/ ss_block/} "

# With a recorded program of these sources too, and again
rm -f -- "$scratch/called"
with_record
ssign "$with_rt" --build </dev/null
holds 'beside a recorded program: status 0' test "$status" = 0
said 'it is the recorded one' "ssign: it is the recorded program, octet for octet: SHA-256 $(sum_of "$program")"
holds 'it was built' cmp -- "$program" "$own"
holds 'and rt did it' test -e "$scratch/called"
rm -- "$scratch/called"
ssign "$with_rt" --build </dev/null
expect '--build again' 0 '' $'ssign: the program is built from these sources already\nssign: it is the recorded program, octet for octet: SHA-256 '"$(sum_of "$program")"
quiet '--build again'
ssign "$tools" --build </dev/null
holds 'which needs no toolchain' test "$status" = 0
touch -- "$copy/crates/ss_frame/src/lib.rt"
ssign "$with_rt" --build </dev/null
quiet '--build after another date alone'
other_source
ssign "$with_rt" --build </dev/null
holds '--build after a source changed' test -e "$scratch/called"
said 'the same program of other sources' "ssign: it is the recorded program, octet for octet: SHA-256 $(sum_of "$program")"
cp -- "$program" "$scratch/longer"
printf '\0' >>"$scratch/longer"
write_differing="${proves/\$made/$(printf '%q' "$scratch/longer")}"
rt "$write_differing"
with_record
ssign "$with_rt" --build </dev/null
said 'another program' "ssign: it differs from the recorded program, with the same sources and toolchain: SHA-256 $(sum_of "$scratch/longer"), and $(sum_of "$program") is recorded"
holds 'another program: status 0' test "$status" = 0
with_record
sed -i 's/^toolchain .*/toolchain another/' "$recorded.txt"
ssign "$with_rt" --build </dev/null
said 'another toolchain' "ssign: it differs from the recorded program, which another toolchain made: another, and here $toolchain"
with_record
other_source
ssign "$with_rt" --build </dev/null
said 'other sources' 'ssign: it differs from the recorded program, which is of other sources'

# A build that ends badly
rm -f -- "$scratch/called"
fresh
ssign "$tools" --build </dev/null
expect 'no rt' 2 '' "ssign: the command rt of the Rattle toolchain, which builds the program, isn't in PATH"
: >"$copy/crates/ssign/out"
ssign "$with_rt" --build </dev/null
expect 'no folder to build in' 2 '' "ssign: nothing can be written to $copy/crates/ssign/out, where the program is built"
quiet 'nothing is begun'
rt "$proves"
fresh
echo ss_payload >"$refused"
rm -- "$libraries"
ssign "$with_rt" --build </dev/null
expect 'a library that is not proved' 2 '' 'SOME TEXT'
said 'its last line is shown' 'error: no proof of a library'
holds 'no library above it was asked for' test "$(tr '\n' ' ' <"$libraries")" = 'ss_octets ss_frame ss_message ss_payload '
: >"$refused"
rt 'echo "rt: chose --jobs 2 for ss_frame"
echo "error: no proof" >&2
exit 1'
built
other_source
ssign "$with_rt" --build </dev/null
expect 'a proof that fails' 2 '' 'SOME TEXT'
said 'its file is named' "$copy/crates/ssign/out/ssign.log"
said 'its last lines are shown' 'error: no proof'
rm -- "$scratch/called"
edit "$copy/crates/ss_frame/src/lib.rt" '//?' '//!'
none 'the older program, of the sources as they were' "$own_is has no text beside it"

# broken off while the program is written
# shellcheck disable=SC2016 # for that script
rt 'mkdir -p out; printf half >out/ssign; chmod +x out/ssign; kill -9 $PPID; kill -9 0'
fresh
(set -m; PATH=$with_rt bash "$copy/ssign" --build </dev/null >"$scratch/out" 2>/dev/null & wait $!) 2>/dev/null
holds 'half a program was left' test -x "$own"
rm -- "$scratch/called"
none 'half a program' "$own_is has no text beside it"
rt "$proves"
ssign "$with_rt" --build </dev/null
ssign "$tools" review <"$root/examples/torn.frames"
expect 'a program built after it' 1 $'unlisted 0\nunlisted 1\ntorn 64\nend 2' ''

# A source that changes while the program is built. The dates are set, because two that are near each other may be one
# where a file system keeps whole seconds.
for change in 'printf "\n" >>../ss_frame/src/lib.rt' ':' 'printf "\n" >../ss_frame/src/more.rt'; do
    rt "$proves
$change
touch -d '1 minute' ../ss_frame/src/lib.rt"
    fresh
    ssign "$with_rt" --build </dev/null
    expect "during a build: $change: status" 2 '' 'SOME TEXT'
    said "during a build: $change: it is said" 'describe.sh: '
    said "during a build: $change: and what to do" './ssign --build again'
    rm -f -- "$scratch/called"
    none "during a build: $change" "$own_is has no text beside it"
done

rt "$proves"
# tests/release.sh over copies
rt "$proves"
with_record
gate CI=true
gate_says 'the gate over a recorded build of this program' 0 '7 passed, 0 failed'
other_source
gate
gate_says 'the gate over other sources' 1 'release/renew.sh renews'
rm -- "$copy/crates/ss_frame/src/lib.rt"
gate
gate_says 'the gate over a source less' 1 'release/renew.sh renews'
with_record
cp -- "$scratch/longer" "$recorded"
write_text "$recorded" "$copy"
both=$(printf '%s here, and %s is recorded' "$(sum_of "$program")" "$(sum_of "$scratch/longer")")
gate
gate_says 'the gate over another program, elsewhere' 0 "$both"
gate_says 'the gate over another program, elsewhere' 0 'release: warning: '
gate CI=true
gate_says 'the gate over another program, where CI is set' 1 "$both"
sed -i 's/^toolchain .*/toolchain another/' "$recorded.txt"
gate
gate_says 'the gate over another toolchain, elsewhere' 1 "another toolchain made: another, and here $toolchain"
gate_says 'the gate over a toolchain that no page names' 1 'docs/dev/PROOFS.md names the toolchain'
gate CI=true
gate_says 'the gate over another toolchain, where CI is set' 1 "SHA-256 of the program that $toolchain built: $both"
# shellcheck disable=SC2016 # backquotes of a page
echo 'It was proved with `another`.' >"$copy/docs/dev/PROOFS.md"
gate
gate_says 'the gate over another toolchain that the page names' 0 "another toolchain made: another, and here $toolchain"
gate CI=true
gate_says 'the same, where CI is set' 1 "SHA-256 of the program that $toolchain built: $both"
cp -- "$program" "$recorded"
write_text "$recorded" "$copy"
sed -i 's/^toolchain .*/toolchain another/' "$recorded.txt"
gate CI=true
gate_says 'the gate over another toolchain that made this program' 0 '7 passed, 0 failed'
# release/renew.sh
renew() {
    timeout "$patience" env PATH="$scratch/with_rt:$PATH" bash "$copy/release/renew.sh" >"$scratch/out" 2>"$scratch/err" </dev/null
    status=$?
}
with_record
other_source
rm -- "$recorded"
renew
holds 'renew.sh: status 0' test "$status" = 0
holds 'renew.sh: the program' cmp -- "$program" "$recorded"
holds 'renew.sh: the program may be executed' test -x "$recorded"
gate CI=true
gate_says 'renew.sh: the gate behind it' 0 '7 passed, 0 failed'
rm -r -- "$copy/crates/ssign/out"
ssign "$tools" review </dev/null
expect 'renew.sh: the recorded program runs' 0 'end 0' ''
rt "[[ -e out/ssign.stamp ]] && made=$(printf '%q' "$scratch/longer")
$proves
touch out/ssign.stamp"
with_record
renew
holds 'renew.sh: a program that rt builds again, by contents' cmp -- "$scratch/longer" "$recorded"
rt "$proves
printf '\n' >>../ss_frame/src/lib.rt
touch -d '1 minute' ../ss_frame/src/lib.rt"
with_record
cp -- "$recorded.txt" "$scratch/text"
other_source
renew
holds 'renew.sh: a source that changes meanwhile: status 2' test "$status" = 2
holds 'renew.sh: and nothing is recorded' cmp -- "$recorded.txt" "$scratch/text"
holds 'renew.sh: nor left' test "$(find "$copy/release" | wc -l)" = 7

# release/sources.sh
cat >"$scratch/sources.py" <<'P'
"""Prints the hash of the sources below a folder, by its definition and not by the script."""
import hashlib, os, sys
root = os.fsencode(sys.argv[1])
libraries = {}
with open(os.path.join(root, b"crates.txt"), "rb") as file:
    for line in file:
        name, colon, below = line.partition(b"#")[0].partition(b":")
        if colon:
            libraries[name.split()[0]] = below.split()
seen, left = set(), [b"ssign"]
while left:
    crate = left.pop()
    if crate in libraries and crate not in seen:
        seen.add(crate)
        left += libraries[crate]
names = [b"crates.txt"]
for crate in seen:
    for part in b"src", b"specs":
        for folder, _, files in os.walk(os.path.join(root, b"crates", crate, part)):
            names += [os.path.relpath(os.path.join(folder, it), root) for it in files]
rows = []
for name in names:
    with open(os.path.join(root, name), "rb") as file:
        rows.append(hashlib.sha256(file.read()).hexdigest().encode() + b"  " + name + b"\0")
print(hashlib.sha256(b"".join(sorted(rows))).hexdigest())
P
# same_sources WHAT: one check, that the script gives what the definition does.
same_sources() {
    holds "sources.sh: $1" test "$("$copy/release/sources.sh")" = "$(python3 "$scratch/sources.py" "$copy")"
}
with_record
same_sources 'as defined'
before=$("$copy/release/sources.sh")
find "$copy" -exec touch -d '2031-01-01' -- {} +
chmod -R go-rwx -- "$copy"
holds 'sources.sh: dates, modes, umask and locale do not count' test "$before" = \
    "$(umask 077; cd / && env -i PATH="$tools" LC_ALL=C.UTF-8 TZ=Asia/Tokyo "$copy/release/sources.sh")"
mv -- "$copy/crates/ss_frame/src/lib.rt" "$scratch/lib.rt"
ln -s -- "$scratch/lib.rt" "$copy/crates/ss_frame/src/lib.rt"
holds 'sources.sh: a link counts as what it leads to' test "$before" = "$("$copy/release/sources.sh")"
odd=$'-o \xff\n\\\'"*'
echo one >"$copy/crates/ss_frame/src/$odd"
same_sources 'a name of any octets'
holds 'sources.sh: it counts' test "$before" != "$("$copy/release/sources.sh")"
printf '# behind all others\nss_else: ss_frame\nss_frame may_abort=0: itoa thiserror test_rows#' >>"$copy/crates.txt"
same_sources 'a comment, a crate that the program does not stand on, and one that it does'
printf '\n# nothing\n\n' >>"$copy/crates.txt"
same_sources 'a last line that says nothing'
mkfifo -- "$copy/crates/ss_frame/src/pipe"
holds 'sources.sh: a pipe among the sources is refused' test "$(timeout 10 "$copy/release/sources.sh" 2>&1; echo $?)" = \
    $'sources.sh: crates/ss_frame/src/pipe is neither a file nor a folder\n2'
ssign "$tools" review </dev/null
expect 'and ./ssign does not hang there' 2 '' 'SOME TEXT'

# a command that only ssign-keys has, whatever program is here
list_commands
ours=" ${commands[*]} "
theirs=0
while read -r word; do
    [[ $ours != *" $word "* && $word != help ]] || continue
    theirs=$((theirs + 1))
    ssign "$tools" "$word" --key x </dev/null
    expect "./ssign $word" 2 '' "ssign: $word is a command of ssign-keys: tools/ssign-keys $word"
done < <("$root/tools/ssign-keys" --help </dev/null | sed -nE 's/^    ([a-z]+) .*/\1/p')
holds 'some commands are of ssign-keys alone' test "$theirs" = 9

# A limit of file sizes is a failed write and no signal: 1024 octets come, and then W1
seq 1 500 >"$scratch/many"
run inspect --lines <"$scratch/many"
head -c 1024 -- "$scratch/out" >"$scratch/front"
limited() {
    (ulimit -f 1 && ssign "$tools" inspect --lines <"$scratch/many"; exit "$status")
    status=$?
    expect "$1: status" 2 'SOME TEXT' 'ssign: W1'
    holds "$1: what fits" cmp -- "$scratch/front" "$scratch/out"
}
at "$scratch/stamped/limited"
limited 'a file size limit, the recorded program'
holds 'a stamp that does not fit is none' test "$(cd -- "$copy/release" && echo stamp*)" = 'stamp*'
at "$scratch/copy"
built
limited 'a file size limit, a program of one'\''s own'

finish
