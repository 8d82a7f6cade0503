#!/usr/bin/env bash
# `ssign-keys manifest` and `verify --manifest`: three nights that were signed, their manifest, and each kind of damage to
# either. The hashes that the manifest has to hold are made by sha256sum. manifest_cases.py has long manifests.
# shellcheck source=tests/lib.sh
. "$(dirname -- "$0")/lib.sh"
need_program
export SSIGN=$program
keys=$root/tools/ssign-keys
cd -- "$scratch" || exit 1
mkdir passing key nights
export TMPDIR=$scratch/passing
need_cryptography
holds 'a key' "$keys" make key

# tool WORD..: runs ssign-keys as `run` does the program.
tool() {
    timeout "$patience" "$keys" "$@" </dev/null >out 2>err
    status=$?
}
# refuses WHAT SENTENCE: the last run ended with status 2 and this one line, and wrote nothing.
refuses() {
    expect "$1" 2 '' "ssign-keys: $2"
}
# finds WHAT STATUS LINE..: the last run ended so, and each LINE stands in its output.
finds() {
    local what=$1 wanted=$2 line fault=''
    [[ $status == "$wanted" ]] || fault+="    status $status, and not $wanted"$'\n'
    for line in "${@:3}"; do
        grep -Fqx -e "$line" out || fault+="    no line: $line"$'\n'
    done
    [[ -z $fault ]] || fault+="$(head -c 2500 out err | cat -v)"
    tell "$what" "$fault"
}
# sign_night N [RSID]: nights/night-N.frames, and its counters in counters-N
sign_night() {
    local number=$1
    for text in one two three four; do
        printf '<13>1 2026-01-0%sT00:00:01Z h app - - - message %s of the night\n' "$number" "$text"
    done >messages
    "$keys" sign --key key/private-key.pem --rsid "${2:-$number}" --host gate --app signer --lines messages >"nights/night-$number.frames" || exit 1
    "$program" questions <"nights/night-$number.frames" | "$keys" answer key/public-key.pem >answers || exit 1
    "$program" counters --answers answers <"nights/night-$number.frames" >"counters-$number" || exit 1
}
add() {
    tool manifest add manifest "nights/night-$1.frames" --counters "counters-$1" --signed "2026-01-0$1T04:00:00Z" "${@:2}"
}
for number in 1 2 3 4; do
    sign_night "$number"
done
printf '5 a b c7 [ssign]' >aside.frames

# ---- add
add 1
refuses 'no manifest' "the manifest manifest isn't there; to begin one, make an empty file of this name"
: >manifest
zeros=$(printf '%064d' 0)
add 1 --last "0:$zeros"
expect 'the first entry' 0 "1:$(sha256sum <manifest | cut -c 1-64)" ''
size=$(stat -c %s nights/night-1.frames)
sum=$(sha256sum <nights/night-1.frames | cut -c 1-64)
wanted='{"entry":1,"previous":"'$zeros'","signed":"2026-01-01T04:00:00Z","name":"night-1.frames","size":'$size',"sha256":"'$sum'","host":"gate","app":"signer","procid":"-","rsid":1,"groups":[{"sg":0,"spri":0,"first":1,"last":4}],"counters":["count gate signer - 1 1","count gate signer - 1 0 0 5"],"set_aside":null}'
holds 'the first entry: its line' cmp manifest <(printf '%s\n' "$wanted")
first=$(cat out)
add 2 --last "$first" --set-aside aside.frames
second=$(cat out)
expect 'the second entry' 0 "2:$(tail -n 1 manifest | sha256sum | cut -c 1-64)" ''
holds 'the second entry repeats the hash of the first' grep -Fq "\"previous\":\"${first#1:}\"" <(tail -n 1 manifest)
holds 'the second entry has what was set aside' grep -Fq ',"set_aside":{"name":"aside.frames","size":16,"sha256":"'"$(sha256sum <aside.frames | cut -c 1-64)"'","messages":2}}' <(tail -n 1 manifest)
cp manifest two
add 2 --last "$first" --set-aside aside.frames
expect 'a run that was ended before it said so, again' 0 "$second" "ssign-keys: the entry 2 is of this log already, so nothing is added"
holds 'and nothing is added' cmp manifest two
add 3 --last "$second"
third=$(cat out)
expect 'the third entry' 0 "3:$(tail -n 1 manifest | sha256sum | cut -c 1-64)" ''
holds 'other tools read it' python3 -c 'import json, sys
assert [json.loads(it)["entry"] for it in open("manifest")] == [1, 2, 3]'
cp manifest whole
cp aside.frames nights

# what add refuses, each time with the manifest as it was
: >empty
wrong() {
    local what=$1 sentence=$2
    shift 2
    tool manifest add manifest "$@"
    refuses "add: $what" "$sentence"
    cmp manifest whole >/dev/null || tell "add: $what: the manifest" '    it was changed'
}
cp nights/night-4.frames $'nights/\xff'
cp nights/night-2.frames elsewhere.frames
cp counters-4 two-sessions && cat counters-3 >>two-sessions
sed 's/ 5$/ 6/' counters-4 >./more
{ head -n 1 counters-4; echo end 1; } >fewer
head -n 2 counters-4 >cut-counters
wrong 'the counters of another log' 'the log holds a block of the session gate signer - 4, and the counters are of gate signer - 3' nights/night-4.frames --counters counters-3
wrong 'counters of two sessions' "the counters file two-sessions has 2 sessions and 2 lines with a GBC: an entry is of one session, which has one" nights/night-4.frames --counters two-sessions
wrong 'a greater counter' "the counters aren't those of the log: the signature blocks in it go to other numbers" nights/night-4.frames --counters more
wrong 'a counter less' "the counters aren't those of the log: the signature blocks in it go to other numbers" nights/night-4.frames --counters fewer
wrong 'counters that were cut off' "the counters file cut-counters isn't whole: its counters have no end, as where the file was cut off" nights/night-4.frames --counters cut-counters
wrong 'no counter' 'the counters file empty is empty, so it shows nothing: `ssign counters` writes a line for each joined session, so make it again from a log that is whole' nights/night-4.frames --counters empty
wrong 'no counters' '`manifest add` needs the counters of the log: --counters FILE' nights/night-4.frames
wrong 'a log without blocks' "the log holds no block, so it isn't a signed log" empty --counters counters-4
wrong 'a name that is not UTF-8' 'nights/\xff has a name that isn'"'t UTF-8, which a manifest can't hold: give it another one" $'nights/\xff' --counters counters-4
wrong 'standard input' "standard input has no name that a manifest could hold: name the log's file" - --counters counters-4
wrong 'a log twice' 'the entry 2 of the manifest manifest has this log already' nights/night-2.frames --counters counters-2
wrong 'a session twice' 'the entry 2 of the manifest manifest has this session already' elsewhere.frames --counters counters-2
wrong 'another last entry' "the manifest manifest ends with the entry $third, and not with the one that --last names: its end was cut, or entries were added" nights/night-4.frames --counters counters-4 --last "$second"
wrong 'a last entry that is none' '--last 3: this is no number of an entry, a colon and 64 digits of a SHA-256, as `ssign-keys manifest add` prints them' nights/night-4.frames --counters counters-4 --last 3
wrong 'a time that is none' '--signed 2026-02-30T00:00:00Z: this is no time in UTC as 2026-11-27T04:00:00Z' nights/night-4.frames --counters counters-4 --signed 2026-02-30T00:00:00Z
wrong 'set aside: no frames' "messages isn't a file of whole frames: nothing is one at its octet 0" nights/night-4.frames --counters counters-4 --set-aside messages
wrong 'an option of check' "--json doesn't go with \`manifest add\`" nights/night-4.frames --counters counters-4 --json
rm $'nights/\xff'
head -c -3 nights/night-4.frames >cut.frames
wrong 'a log that breaks off' "the log breaks off, so it isn't the log that was signed" cut.frames --counters counters-4
head -c -20 whole >manifest
add 4
refuses 'a manifest that breaks off' "the manifest manifest breaks off in its line 3, as where a run was ended while it wrote: look at that line, take it away (\`head -n 2\`), and add its log again"
sed '2d' whole >manifest
add 4
refuses 'a manifest without a line' "the line 2 of the manifest manifest doesn't follow the line before: a line was changed, put in or taken out"
cp two manifest
add 4 --last "$third"
refuses 'a manifest whose end was cut' "the manifest manifest ends with the entry $second, and not with the one that --last names: its end was cut, or entries were added"
: >manifest
add 4 --last "$third"
refuses 'an emptied manifest' "the manifest manifest ends with the entry 0:$zeros, and not with the one that --last names: its end was cut, or entries were added"
rm manifest && mkfifo manifest
add 4
refuses 'a pipe' 'the manifest manifest is no regular file'
rm manifest && mkdir manifest
add 4
refuses 'a folder' "the manifest manifest can't be opened: Is a directory"
rmdir manifest
cp whole manifest
# a file that can't grow: the manifest stays as it was
bash -c 'ulimit -f "$1"; shift; exec "$@"' bash 1 "$keys" manifest add manifest nights/night-4.frames --counters counters-4 >out 2>err </dev/null
status=$?
holds 'no room: status' test "$status" = 2
holds 'no room: the manifest stays' cmp manifest whole
"$keys" manifest add manifest nights/night-4.frames --counters counters-4 --signed 2026-01-04T04:00:00Z >/dev/full 2>err </dev/null
status=$?
holds 'standard output is full: status' test "$status" = 2
fourth=4:$(tail -n 1 manifest | sha256sum | cut -c 1-64)
holds 'standard output is full: the entry is told' grep -Fq "ssign-keys: the entry stands in the manifest as $fourth, but standard output can't be written" err
add 4 --last "$third"
expect 'standard output is full: again' 0 "$fourth" "ssign-keys: the entry 4 is of this log already, so nothing is added"
# many at once: each gets an entry of its own
: >manifest
pids=()
for number in 1 2 3 4; do
    "$keys" manifest add manifest "nights/night-$number.frames" --counters "counters-$number" >"out-$number" 2>"err-$number" </dev/null &
    pids+=($!)
done
for it in "${pids[@]}"; do
    wait "$it"
done
holds 'four at once: each line follows the one before, whatever their order' python3 -c 'import hashlib, json
before = "0" * 64
for number, line in enumerate(open("manifest", "rb"), 1):
    it = json.loads(line)
    assert (it["entry"], it["previous"]) == (number, before)
    before = hashlib.sha256(line).hexdigest()
assert number == sum(bool(open(f"out-{it}").read()) for it in range(1, 5)) >= 1'

# ---- check: damage to logs and manifests. RSIDs are those of the nights.
cp whole manifest
mv nights/night-4.frames .
harms=0
# harm WHAT STATUS LINE.. -- COMMAND..: the command harms a copy of nights and manifest, and check finds it
harm() {
    local what=$1 wanted=$2 found=()
    shift 2
    while [[ $1 != -- ]]; do
        found+=("$1")
        shift
    done
    shift
    rm -rf harmed && mkdir harmed && cp -r nights whole harmed && mv harmed/whole harmed/manifest
    (cd harmed && "$@") || exit 1
    (cd harmed && timeout "$patience" "$keys" manifest check manifest nights --last "$third" >../out 2>../err </dev/null)
    status=$?
    harms=$((harms + 1))
    finds "check: $what" "$wanted" "${found[@]}"
}
clean="Clean. 3 entries, 4 logs; the last entry is $third"
harm 'nothing' 0 "$clean" -- true
holds 'nothing: no word on standard error' test ! -s err
harm 'a log in a folder below' 0 "$clean" -- bash -c 'mkdir nights/below && cp nights/night-1.frames nights/below'
holds 'a log in a folder below is named' test "$(<err)" = "ssign-keys: warning: nights/below/night-1.frames lies below the folder of the logs, and isn't looked at: check its folder by itself, or move it"
s2=$(stat -c %s nights/night-2.frames)
harm 'a night that is gone' 1 "night-2.frames: missing, entry 2 names it, and it isn't here" -- rm nights/night-2.frames
harm 'all nights gone' 1 "night-1.frames: missing, entry 1 names it, and it isn't here" "night-3.frames: missing, entry 3 names it, and it isn't here" -- bash -c 'rm nights/*'
harm 'an emptied night' 1 "night-2.frames: empty, entry 2 has $s2 octets" -- truncate -s 0 nights/night-2.frames
harm 'a shorter night' 1 "night-2.frames: shorter, it has $((s2 - 9)) octets, and entry 2 has $s2" -- truncate -s -9 nights/night-2.frames
harm 'a longer night' 1 "night-2.frames: longer, it has $((s2 + 9)) octets, and entry 2 has $s2" -- truncate -s +9 nights/night-2.frames
# a night put in place of another, and two that changed places
harm 'another night in its place' 1 'night-3.frames: renamed, it has the octets of night-2.frames in entry 2' -- cp nights/night-2.frames nights/night-3.frames
harm 'another name' 1 'other: renamed, it has the octets of night-2.frames in entry 2' "night-2.frames: missing, entry 2 names it, and it isn't here" -- mv nights/night-2.frames nights/other
harm 'a night with other octets' 1 'night-2.frames: changed, it has the size of entry 2, and another SHA-256' -- sed -i 's/of the night/at the night/' nights/night-2.frames
harm 'a log more' 1 'night-4.frames: unknown, no entry names this log' -- cp ../night-4.frames nights
harm 'a log with a strange name' 1 'x\x0ay: unknown, no entry names this log' -- cp ../night-4.frames $'nights/x\ny'
harm 'what was set aside is gone' 1 "aside.frames: missing, entry 2 names it, and it isn't here" -- rm nights/aside.frames
harm 'what was set aside is shorter' 1 'aside.frames: shorter, it has 15 octets, and entry 2 has 16' -- truncate -s 15 nights/aside.frames
harm 'compressed logs' 0 "$clean" -- bash -c 'gzip nights/night-1.frames; xz nights/night-2.frames || true'
harm 'a compressed log of another night' 1 'night-1.frames.gz: renamed, it has the octets of night-2.frames in entry 2' -- bash -c 'gzip -c nights/night-2.frames >nights/night-1.frames.gz; rm nights/night-1.frames'
harm 'the last entry cut off' 1 'entry 3: cut, the manifest has 2 entries, and this one was kept' 'night-3.frames: unknown, no entry names this log' -- sed -i '$d' manifest
harm 'the middle entry taken out' 1 "line 2: broken, it doesn't follow the line before; a line was changed, put in or taken out" 'line 2: skipped, no line before it has RSID 2 of gate signer -' -- sed -i 2d manifest
harm 'an entry twice' 1 "line 3: broken, it doesn't follow the line before; a line was changed, put in or taken out" 'line 3: twice, the line 2 has this log too' -- sed -i 2p manifest
harm 'a name in an entry changed' 1 "line 2: broken, it doesn't follow the line before; a line was changed, put in or taken out" -- sed -i '1s/night-1/night-7/' manifest
harm 'the last entry changed' 1 "entry 3: replaced, it isn't the one whose SHA-256 was kept" -- sed -i '3s/2026/2025/' manifest
harm 'entries that changed places' 1 "line 1: broken, it doesn't follow the line before; a line was changed, put in or taken out" -- sed -i '1{h;d};2G' manifest
harm 'a manifest that breaks off' 1 'line 3: torn, the manifest breaks off in this line' -- truncate -s -1 manifest
harm 'an emptied manifest' 1 'entry 3: cut, the manifest has 0 entries, and this one was kept' 'night-1.frames: unknown, no entry names this log' -- truncate -s 0 manifest
echo "$name: $harms cases of damage were checked"
# RSIDs that were skipped, in a manifest whose lines follow each other
sign_night 5 7
mv night-4.frames nights
cp whole manifest
add 4
add 5
tool manifest check manifest nights
finds 'check: two RSIDs are skipped' 1 'line 5: skipped, no line before it has RSID 5 to 6 of gate signer -'
tool manifest check manifest nights --json
finds 'check: as JSON' 1 '{"line":"manifest","kind":"skipped","where":"line 5","entry":5,"what":"skipped, no line before it has RSID 5 to 6 of gate signer -"}' \
    '{"line":"total","status":1,"entries":5,"logs":6,"findings":1,"last":"5:'"$(tail -n 1 manifest | sha256sum | cut -c 1-64)"'"}'
tool manifest check manifest nights --logs 'night-[12]*'
finds 'check: a pattern' 1 "night-3.frames: missing, entry 3 names it, and it isn't here"
mkdir bare
: >none
tool manifest check none bare
finds 'check: nothing to compare' 1 'manifest: empty, it names no log, and none is here: so nothing is shown' \
    '1 finding. 0 entries, 0 logs; the last entry is 0:0000000000000000000000000000000000000000000000000000000000000000'
tool manifest check none bare --json
finds 'check: nothing to compare, as JSON' 1 '{"line":"manifest","kind":"empty","where":"manifest","entry":null,"what":"empty, it names no log, and none is here: so nothing is shown"}' \
    '{"line":"total","status":1,"entries":0,"logs":0,"findings":1,"last":"0:0000000000000000000000000000000000000000000000000000000000000000"}'
tool manifest check manifest nowhere
refuses 'check: no folder' "the folder nowhere can't be read: No such file or directory"
mkfifo nights/pipe
tool manifest check manifest nights
refuses 'check: a pipe among the logs' 'nights/pipe is no regular file'
rm nights/pipe

# manifests whose lines follow each other, as whoever can write the file makes them: chain CODE has Python change the objects
# `it` of a manifest, and gives each line the SHA-256 of the line before
chain() {
    python3 -B -c 'import hashlib, json, sys
it = [json.loads(line) for line in open("whole")]
exec(sys.argv[1])
before = "0" * 64
with open("manifest", "wb") as file:
    for number, fields in enumerate(it, 1):
        fields.update(entry=number, previous=before)
        line = json.dumps(fields, separators=(",", ":")).encode() + b"\n"
        before = hashlib.sha256(line).hexdigest()
        file.write(line)' "$1"
}
# kinds: the word of each finding, with the lines or entries that it names
kinds() {
    python3 -B -c 'import json
found = [json.loads(line) for line in open("out")]
print(*(it["kind"] + ":" + it["where"].split()[-1] for it in found if it["line"] == "manifest"))'
}
# chained WHAT KINDS CODE: such a manifest has these findings and no other, by text and by JSON
chained() {
    chain "$3"
    tool manifest check manifest nights --json
    holds "check: $1" test "$status.$(kinds)" = "${4-1}.$2"
}
mkdir later
mv nights/night-4.frames nights/night-5.frames later
chained 'the same, made by hand' '' '' 0
chained 'a session that goes back' 'skipped:2 order:3' 'it[1], it[2] = it[2], it[1]'
chained 'all sessions go back' 'order:2 order:3' 'it.reverse()'
chained 'a log twice, of two sessions' 'twice:4' 'it.append(json.loads(json.dumps(it[2]).replace("- 3", "- 4"))); it[3].update(rsid=4, name="night-3.frames")'
chained 'a session twice, with another log' 'twice:4 missing:night-9.frames' 'it.append({**it[2], "name": "night-9.frames", "sha256": "ab" * 32})'
chained 'one file in two entries' 'twice:4 missing:night-9.frames' 'it.append(json.loads(json.dumps(it[2]).replace("- 3", "- 4"))); it[3].update(rsid=4, name="night-9.frames")'
chained 'the first entry taken out' 'unknown:night-1.frames' 'del it[0]'
chained 'another hash' 'changed:night-1.frames' 'it[0]["sha256"] = "ab" * 32'
# with the last entry that was kept, a manifest that was made anew is told, whichever line was changed
for code in 'it[0]["signed"] = "2025-01-01T00:00:00Z"' 'it[1]["signed"] = "2025-01-01T00:00:00Z"' 'it[2]["signed"] = "2025-01-01T00:00:00Z"'; do
    chain "$code"
    tool manifest check manifest nights --last "$third" --json
    holds "check: a manifest made anew, $code" test "$status.$(kinds)" = 1.replaced:3
done
# with --sizes no log is read: what has the size of its entry isn't told, and all else is
cp whole manifest
cp -r nights sized
sed -i 's/of the night/at the night/' sized/night-1.frames
tool manifest check manifest sized --sizes --json
holds 'check: sizes alone: other octets' test "$status.$(kinds)" = 0.
truncate -s -1 sized/night-2.frames
: >sized/night-3.frames
rm sized/aside.frames
cp sized/night-1.frames sized/other
tool manifest check manifest sized --sizes --json
holds 'check: sizes alone: all else' test "$status.$(kinds)" = '1.shorter:night-2.frames empty:night-3.frames unknown:other missing:aside.frames'
rm -r sized

# ---- copies: a line for each that was compared; what was copied may be gone
mkdir copies
cp nights/night-2.frames nights/aside.frames copies
copied() {
    tool manifest copied manifest "$@"
}
copied copies/night-2.frames --to archive.example.org
holds 'copied: its number and hash' cmp out <(printf '4:%s\n' "$(tail -n 1 manifest | sha256sum | cut -c 1-64)")
fourth_line=$(cat out)
holds 'copied: the line' python3 -c 'import hashlib, json
lines = open("manifest", "rb").readlines()
it = json.loads(lines[3])
assert it["previous"] == hashlib.sha256(lines[2]).hexdigest() and it["entry"] == 4
assert it["sha256"] == hashlib.sha256(open("nights/night-2.frames", "rb").read()).hexdigest()
assert (it["name"], it["to"]) == ("night-2.frames", "archive.example.org")'
cp manifest with-copy
copied copies/night-2.frames --to archive.example.org
holds 'copied again: no line more' cmp manifest with-copy
holds 'copied again: the same number' test "$(cat out)" = "$fourth_line"
# uncopied WHAT ARG..: it is refused, and the manifest stays
uncopied() {
    copied "${@:2}"
    holds "copied: $1: refused" test "$status" = 2 -a ! -s out -a "$(wc -l <err)" = 1
    holds "copied: $1: the manifest stays" cmp manifest with-copy
}
sed 's/of the night/at the night/' nights/night-1.frames >copies/night-1.frames
uncopied 'other octets of the same size' copies/night-1.frames --to x
head -c -1 nights/night-1.frames >copies/night-1.frames
uncopied 'an octet less' copies/night-1.frames --to x
cp nights/night-3.frames copies/night-1.frames
uncopied 'another night' copies/night-1.frames --to x
cp nights/night-1.frames copies/unknown
uncopied 'a name that no entry has' copies/unknown --to x
cp nights/night-1.frames copies
uncopied 'no place' copies/night-1.frames
uncopied 'an empty place' copies/night-1.frames --to ''
uncopied 'a place of two lines' copies/night-1.frames --to $'a\nb'
uncopied 'another last entry' copies/night-1.frames --to x --last "$second"
copied copies/aside.frames --to archive.example.org --last "$fourth_line"
holds 'copied: what was set aside' test "$status" = 0
rm nights/night-2.frames nights/aside.frames
tool manifest check manifest nights
holds 'check: what was copied may be gone' test "$status" = 0
rm nights/night-1.frames
tool manifest check manifest nights --json
holds 'check: what was not copied may not' test "$status.$(kinds)" = 1.missing:night-1.frames
# a line about a copy that somebody put there by hand: of a file that no entry before it has
cp manifest with-copies
# forged NAME SHA256 [LINES]: such a line after so many lines of the manifest
forged() {
    head -n "${3:-99}" whole >manifest
    printf '{"entry":%s,"previous":"%s","copied":"2026-01-09T04:00:00Z","name":"%s","sha256":"%s","to":"x"}\n' "$(($(wc -l <manifest) + 1))" \
        "$(tail -n 1 manifest | sha256sum | cut -c 1-64)" "$1" "$2" >>manifest
    tool manifest check manifest nights --json
}
forged night-1.frames "$(sha256sum <nights/night-3.frames | cut -c 1-64)"
holds 'check: a copy with another SHA-256' test "$status.$(kinds)" = '1.copied:4 missing:night-1.frames missing:night-2.frames missing:aside.frames'
forged night-7.frames "$(sha256sum <copies/night-1.frames | cut -c 1-64)"
holds 'check: a copy of another name' test "$status.$(kinds)" = '1.copied:4 missing:night-1.frames missing:night-2.frames missing:aside.frames'
forged night-2.frames "$(sha256sum <copies/night-2.frames | cut -c 1-64)" 1
holds 'check: a copy of a file that has no entry yet' test "$status.$(kinds)" = '1.copied:2 unknown:night-3.frames missing:night-1.frames'
forged night-1.frames "$(sha256sum <copies/night-1.frames | cut -c 1-64)"
holds 'check: a copy with its name and SHA-256' test "$status.$(kinds)" = '1.missing:night-2.frames missing:aside.frames'
forged night-1.frames "$(printf '%064d' 7)"
tool manifest check manifest nights
finds 'check: the sentence about a copy of nothing' 1 'line 4: copied, no line before it has a file night-1.frames with the SHA-256 of the copy'
cp with-copies manifest
sed -i 4d manifest
tool manifest check manifest nights --json
holds 'check: the line of a copy taken out' test "$status.$(kinds)" = '1.broken:4 missing:night-1.frames missing:night-2.frames'
cp copies/night-2.frames copies/aside.frames copies/night-1.frames later/* nights

# ---- long manifests
python3 -B "$root/tests/manifest_cases.py" >told 2>err
holds 'the cases run to their end' test "$?" = 0 -a ! -s err
while read -r word what; do
    [[ $word == passed ]] && tell "$what" '' || tell "${what%%: *}" "    ${what#*: }"
done <told

# ---- lines that are no entry: each is refused with its number
cat >bad-lines.py <<'END'
"""Reads manifests whose second line is made by each word of the command line, and sees that each is refused."""
import json
import sys

sys.path.insert(0, sys.argv[1])
from ssign_keys.faults import Fault
from ssign_keys.manifest_form import read_manifest

whole = open("whole", "rb").readlines()
for code in sys.argv[2:]:
    lines = list(whole)
    it = json.loads(lines[1])
    if code.startswith("it"):
        exec(code)
        lines[1] = json.dumps(it, separators=(",", ":")).encode() + b"\n"
    else:
        lines[1] = eval(code)
    with open("manifest", "wb") as file:
        file.write(b"".join(lines))
    try:
        read_manifest("manifest")
        sys.exit(f"not refused: {code}")
    except Fault as fault:
        if not str(fault).startswith("the line 2 of the manifest manifest is no entry: "):
            sys.exit(f"{code}: {fault}")
print(len(sys.argv) - 2, "bad lines were tried")
END
bad_lines=('b"\n"' 'b"null\n"' 'b"[]\n"' 'b"7\n"' 'b"\xff\n"' 'b"[" * 100000 + b"\n"' 'b"{}\n"' 'b" " + lines[1]' 'lines[1][:-1] + b" \n"' \
    'lines[1][:-1] + b"\r\n"' 'lines[1].replace(b":", b": ", 1)' 'lines[1][:-1] * 2 + b"\n"' 'b"x" * 2000000 + b"\n"' \
    'lines[1].replace(b"{", b"{\"entry\":2,", 1)' 'lines[1].replace(b"night-2", "night-ä".encode())' 'lines[1].replace(b"night-2", b"\\u006eight-2")' \
    'lines[1].replace(b"\"rsid\":2", b"\"rsid\":2.0")' 'lines[1].replace(b"\"rsid\":2", b"\"rsid\":NaN")' 'lines[1].replace(b"\"rsid\":2", b"\"rsid\":02")' \
    'it["entry"] = 0' 'it["entry"] = True' 'it["entry"] = "2"' 'it["previous"] = it["previous"].upper() + ""; it["previous"] = "A" + it["previous"][1:]' \
    'it["previous"] = "0"' 'it["signed"] = "2026-01-02"' 'it["signed"] = "2026-01-02T24:00:00Z"' 'it["signed"] = "2026-01-02T04:00:00+01:00"' \
    'it["name"] = "a/b"' 'it["name"] = ""' 'it["name"] = ".."' 'it["name"] = "a\0b"' 'it["name"] = "\ud800"' 'it["name"] = None' 'it["size"] = 0' \
    'it["size"] = -1' 'it["size"] = 1 << 70' 'it["sha256"] = "g" * 64' 'it["host"] = ""' 'it["host"] = "a b"' 'it["host"] = "ä"' \
    'it["host"] = "a" * 256' 'it["app"] = "a" * 49' 'it["procid"] = "a" * 129' 'it["rsid"] = 10000000000' 'it["rsid"] = 3' 'it["groups"] = {}' \
    'it["groups"] = None' 'it["groups"] = []' 'it["groups"][0]["sg"] = 4' 'it["groups"][0]["spri"] = 192' 'it["groups"][0]["first"] = 5' \
    'it["groups"][0]["last"] = 5' 'it["groups"][0]["x"] = 5' 'it["groups"] *= 2' 'it["counters"] = []' 'it["counters"] = [7]' 'it["counters"][0] += "x"' \
    'it["counters"][1] = "count gate signer - 2 0 0 6"' 'it["counters"].append("x")' 'it["counters"].reverse()' 'it["set_aside"] = {}' 'it["set_aside"] = 7' \
    'it["set_aside"]["name"] = "a/b"' 'it["set_aside"]["messages"] = "2"' 'it["more"] = 1' 'it.pop("set_aside")')
python3 -B bad-lines.py "$root/tools" "${bad_lines[@]}" >out 2>err
status=$?
holds 'bad lines are refused by their number' test "$status" = 0
[[ $status == 0 ]] || cat err
sed "s/^/$name: /" out
tool manifest check manifest nights
holds 'a bad line: one line, status 2' test "$status" = 2 -a ! -s out -a "$(wc -l <err)" = 1

# ---- verify
cp whole manifest
verify() {
    tool verify --key key/public-key.pem --manifest manifest "$@"
}
verify nights/night-1.frames nights/night-2.frames nights/night-3.frames
finds 'verify: three nights' 0 'Manifest manifest: each log, its session and its numbers are those of its entry.' \
    'Verdict: All 12 announced messages are present and unchanged, and each other stored message is a verified block. Nothing is missing up to the counters.'
gzip -k nights/night-1.frames
verify nights/night-1.frames.gz
finds 'verify: a compressed night' 0 'Manifest manifest: each log, its session and its numbers are those of its entry.'
verify nights/night-4.frames
finds 'verify: a log without an entry' 1 'Manifest manifest: 2 findings.' '  nights/night-4.frames: unknown, no entry names this log' \
    '  session gate signer - 4: unknown, no entry of these logs has it'
holds 'verify: a log without an entry: the verdict' grep -q '^Verdict: FINDINGS: of 4 announced messages 4 are present and unchanged; .*2 differences from the manifest\.' out
cp nights/night-2.frames other
verify other
finds 'verify: another name' 1 '  other: renamed, it has the octets of night-2.frames in entry 2'
mkdir swapped
cp nights/night-2.frames swapped/night-3.frames
verify swapped/night-3.frames
finds 'verify: another night in its place' 1 '  swapped/night-3.frames: renamed, it has the octets of night-2.frames in entry 2' \
    '  session gate signer - 2: unknown, no entry of these logs has it' "  swapped/night-3.frames: session, entry 3 has the session gate signer - 3, which isn't here"
: >swapped/night-3.frames
verify swapped/night-3.frames
s3=$(stat -c %s nights/night-3.frames)
finds 'verify: an emptied night' 1 "  swapped/night-3.frames: empty, entry 3 has $s3 octets"
# a night whose last block was cut off, with its messages: its counters show it
python3 -B -c 'import sys
sys.path.insert(0, sys.argv[1])
from archives import frames, unframed
kept = list(unframed(open("nights/night-3.frames", "rb").read()))
kept = [it for it in kept if b"[ssign-cert " in it]
open("swapped/night-3.frames", "wb").write(frames(kept))' "$root/tests"
verify swapped/night-3.frames
finds 'verify: only certificates are left' 1 "  swapped/night-3.frames: shorter, it has $(stat -c %s swapped/night-3.frames) octets, and entry 3 has $s3" \
    '  swapped/night-3.frames: numbers, entry 3 has numbers 1 to 4 of SG 0, SPRI 0, and here are no numbers'
holds 'verify: what is missing is named by the counters of the entry' grep -Fq '4 messages up to the counters are missing' out
# a night in which an octet was lost: all its other messages are judged
sed '0,/ two/s/ two/ tw/' nights/night-3.frames >swapped/night-3.frames
verify swapped/night-3.frames
finds 'verify: a damaged night' 1 '    missing: number 2' "  swapped/night-3.frames: shorter, it has $((s3 - 1)) octets, and entry 3 has $s3"
holds 'verify: a damaged night: the verdict' grep -q '^Verdict: FINDINGS: .*; 1 stretch of the log is damaged ([0-9]* octets); 1 difference from the manifest\.' out
verify --from-manifest swapped/night-3.frames
finds 'verify: a damaged night of a session that goes on' 1 '    missing: number 2'
verify nights/night-2.frames nights/night-2.frames
finds 'verify: a log twice' 1 '  nights/night-2.frames: twice, entry 2 is of nights/night-2.frames too'
verify nights/night-3.frames --manifest-last "$third"
finds 'verify: the last entry that was kept' 0 'Manifest manifest: each log, its session and its numbers are those of its entry.'
for each in 3 "0:${third#3:}" "03:${third#3:}"; do
    verify nights/night-3.frames --manifest-last "$each"
    holds "verify: the last entry $each, which is none" test "$status.$(wc -c <out).$(wc -l <err).$(grep -c '^ssign-keys: --manifest-last' err)" = 2.0.1.1
done
cp two manifest
verify nights/night-2.frames --manifest-last "$third"
finds 'verify: a manifest that was cut' 1 '  entry 3: cut, the manifest has 2 entries, and this one was kept'
cp whole manifest
verify - <nights/night-2.frames
timeout "$patience" "$keys" verify --key key/public-key.pem --manifest manifest - <nights/night-2.frames >out 2>err
status=$?
finds 'verify: standard input is known by its octets' 0 'Manifest manifest: each log, its session and its numbers are those of its entry.'
mkdir stranger
"$keys" make stranger
tool verify --key stranger/public-key.pem --manifest manifest nights/night-2.frames --json
holds 'verify: the session of an entry, under another key' test "$status.$(kinds)" = 1.session:nights/night-2.frames
verify --json nights/night-4.frames
finds 'verify: as JSON' 1 '{"line":"manifest","kind":"unknown","where":"nights/night-4.frames","entry":null,"what":"unknown, no entry names this log"}'
verify --raw other
holds 'verify: the report alone: status' test "$status" = 1
holds 'verify: the report alone: what was found stands on standard error' grep -Fqx 'ssign-keys: other: renamed, it has the octets of night-2.frames in entry 2' err
holds 'verify: the report alone' grep -qx 'end [0-9]*' out
sed -i '2s/:/: /' manifest
verify nights/night-2.frames
holds 'verify: a bad line: status' test "$status" = 2
holds 'verify: a bad line: nothing is printed' test ! -s out
holds 'nothing passing is left' test -z "$(ls passing)"

finish
