#!/usr/bin/env bash
# `ssign-keys sign --set-aside` and `verify --counters-out`: messages that can't be signed are put apart with their places
# and all others are signed, in logs of both forms; files stand there whole, and only after a run that succeeded.
# shellcheck source=tests/lib.sh
. "$(dirname -- "$0")/lib.sh"
need_program
need_cryptography
export SSIGN=$program
cd -- "$scratch" || exit 1
mkdir keys passing
export TMPDIR=$scratch/passing

# keys ARG..: runs ssign-keys, as `run` does the program.
keys() {
    timeout "$patience" "$root/tools/ssign-keys" "$@" >out 2>err
    status=$?
}
keys make keys

# Odd messages that real senders make, one a line; by RFC 5424, section 6, each is wrong in the part that stands in front.
odd() {
    printf '%s\n' 'unparsed M5 8|<13>1 - h aaaaaaaaaaaaaaaaaaaaaaaaaaaaaaaaaaaaaaaaaaaaaaaaaaaaaaaaaaaaaaaa p m - a tag of 64 letters' \
        'unparsed M3 6|<13>1 2020-01-01T00:00:60Z h a p m - a leap second' \
        'unparsed M3 6|<13>1 2020-01-01T00:00:00.123456789Z h a p m - nine decimals' \
        'unparsed M4 8|<13>1 - hé a p m - a letter of two octets' \
        'unparsed M1 0|<999>1 - h a p m - a PRI of 999' \
        'unparsed M1 0|Jan 15 09:12:44 gate sshd[811]: the old form' \
        'unparsed M11 20|<13>1 - h a p m [x][x] an element that stands twice' \
        'spoilt S2|<13>1 - h a p m [ssign x="1"] a stranger'
}
# The wanted places and the messages, between messages of RFC 5424. What M counts from is checked by `ssign inspect` alone.
place=0
while IFS='|' read -r what text; do
    printf '<13>1 - h a p m - number %d\n' "$place" >>good.log
    printf '<13>1 - h a p m - number %d\n%s\n' "$place" "$text" >>all.log
    printf '%s\n' "$text" >>odd.log
    place=$((place + 2))
    printf '%d %s\n' $((place - 1)) "$what" >>wanted
done < <(odd)
while IFS= read -r text; do
    LC_ALL=C
    printf '%d %s' "${#text}" "$text"
done <all.log >all.frames
unset LC_ALL
# the octet at which each fails is the program's: the words in front of it are of this table
inspected=$("$program" inspect --findings --lines <all.log | grep -v '^end ' | sed -E 's/^([a-z]+) ([0-9]+) /\2 \1 /')
holds 'the parts that are wrong' cmp <(cut -d ' ' -f 1-3 wanted) <(cut -d ' ' -f 1-3 <<<"$inspected")

sign=(sign --key keys/private-key.pem --rsid 1 --host h --app s)
for form in log frames; do
    option=()
    [[ $form == frames ]] || option=(--lines)
    keys "${sign[@]}" "${option[@]}" --set-aside "aside.$form" "all.$form"
    mv out "signed.$form"
    holds "$form: the status" test "$status" = 1
    holds "$form: how many" grep -qxF "ssign-keys: 8 messages can't be signed, and were set aside in aside.$form:" err
    holds "$form: each is named" test "$(grep -c '^  place ' err)" = 8
    holds "$form: where one is wrong" grep -qxF "  place 1: M5 at octet 10: $(sentence_of M5)" err
    holds "$form: the messages as they came" cmp odd.log <("$program" extract --lines-out --place 0 --place 1 --place 2 --place 3 \
        --place 4 --place 5 --place 6 --place 7 <"aside.$form")
    holds "$form: their places" cmp "aside.$form.places" <(printf '%s\n' "$inspected")
    keys verify --key keys/public-key.pem --raw --answers-out "answers.$form" --counters-out "counters.$form" "signed.$form"
    holds "$form: what was signed is clean" test "$status" = 0
    holds "$form: the others are signed, in their order" cmp good.log <("$program" extract --lines-out --answers "answers.$form" <"signed.$form")
    holds "$form: the counters are those of ssign counters" cmp "counters.$form" <("$program" counters --answers "answers.$form" <"signed.$form")
done
holds 'lines and frames are set aside alike' cmp aside.log aside.frames

# where nothing is odd, nothing is put apart
keys "${sign[@]}" --lines --set-aside none good.log
holds 'nothing is odd: the status' test "$status" = 0
holds 'nothing is odd: no file' test ! -e none -a ! -e none.places

# refuses WHAT SENTENCE: the last run did so, wrote nothing, and left no file behind.
refuses() {
    expect "$1" 2 '' "ssign-keys: $2"
    holds "$1: no file is left" test -z "$(find . -name 'new*' -o -name '.ssign-keys-*')"
    holds "$1: no passing file is left" test -z "$(ls passing)"
}
keys "${sign[@]}" --lines --set-aside aside.log all.log
refuses 'a name that is taken' "the file aside.log is there already, and isn't overwritten"
: >new.places
keys "${sign[@]}" --lines --set-aside new all.log
expect 'a name of places that is taken' 2 '' "ssign-keys: the file new.places is there already, and isn't overwritten"
rm new.places
ln -s nowhere new
keys "${sign[@]}" --lines --set-aside new all.log
expect 'a link' 2 '' "ssign-keys: the file new is there already, and isn't overwritten"
rm new
keys "${sign[@]}" --lines --set-aside no/new all.log
refuses 'no folder' "messages can't be kept in no/new: there is no folder no"
head -c -1 all.frames >torn.frames
keys "${sign[@]}" --set-aside new torn.frames
text=$(tail -n 1 all.log)
offset=$(($(wc -c <all.frames) - $(printf '%d %s' "${#text}" "$text" | wc -c)))
refuses 'frames that break off' "the log torn.frames breaks off in the message that begins at its octet $offset, so it can't be signed"

# Lines that no message is: each piece of them is of this table, with the line of its place.
long=$(printf '%0200d' 0)
{ printf '\n\n'; head -n 2 all.log; printf '\n%s\n' "$long"; head -n 1 good.log; printf '%s' "$long"; } >rough.log
keys "${sign[@]}" --lines --max-len 190 --frag 10 --count 1 --set-aside rough rough.log
mv out rough.signed
holds 'rough lines: the status' test "$status" = 1
holds 'rough lines: their places' cmp <(cut -d ' ' -f 1-3 rough.places) <(printf '%s\n' '0 empty' '1 empty' '3 unparsed M5' '4 empty' '5 long 200' '7 torn')
holds 'rough lines: what is wrong' grep -qxF '  place 5: a line that is longer than --max-len' err
holds 'rough lines: as they came' cmp rough <(printf '1 \n1 \n'; LC_ALL=C; text=$(head -n 1 odd.log); printf '%d %s1 \n200 %s200 %s' "${#text}" "$text" "$long" "$long")
keys verify --key keys/public-key.pem --raw --answers-out rough.answers rough.signed
holds 'rough lines: the others are signed' cmp <(head -n 1 good.log; head -n 1 good.log) <("$program" extract --lines-out --answers rough.answers <rough.signed)
printf '\n' >empty.log
keys "${sign[@]}" --lines --set-aside lone empty.log
holds 'an empty line alone' test "$status" = 1 -a "$(<lone.places)" = '0 empty'
timeout "$patience" "$root/tools/ssign-keys" "${sign[@]}" --lines --set-aside new all.log >/dev/full 2>err
holds 'a full disk: status 2' test "$?" = 2
holds 'a full disk: no file is left' test ! -e new -a ! -e new.places
mkdir -m 500 shut
if [[ $EUID != 0 ]]; then
    keys "${sign[@]}" --lines --set-aside shut/new all.log
    refuses 'a folder that is shut' "messages can't be kept in shut/new: Permission denied"
fi
keys verify --key keys/public-key.pem --counters-out counters.log signed.log
expect 'counters: a name that is taken' 2 '' "ssign-keys: the file counters.log is there already, and isn't overwritten"
timeout "$patience" "$root/tools/ssign-keys" verify --key keys/public-key.pem --counters-out new signed.log >/dev/full 2>err
holds 'counters: a full disk: status 2' test "$?" = 2
holds 'counters: a full disk: no file is left' test ! -e new

# 50,000 messages of which every tenth is odd: no message is looked at twice
python3 -c '
for number in range(50000):
    print("<13>1 - h a p m - " + "x" * 40 if number % 10 else "odd")' >many.log
before=$(date +%s)
timeout 300 "$root/tools/ssign-keys" "${sign[@]}" --lines --set-aside many.aside many.log >many.signed 2>err
holds 'many: the status' test "$?" = 1
holds 'many: how many' grep -qF "5000 messages can't be signed, and were set aside in many.aside:" err
holds 'many: their places' test "$(wc -l <many.aside.places)" = 5000
holds 'many: they are all kept' test "$("$program" inspect <many.aside | tail -n 1)" = 'end 5000'
echo "$name: many messages took $(($(date +%s) - before)) seconds"
finish
