#!/usr/bin/env bash
# What a clean report doesn't show: a log for each case of docs/user/explanation/what-a-clean-report-shows.md, with the
# report on it, worked out by hand. A signer who always gives three octets 0 signs them, and each question about an
# untouched log is answered with yes. That stands for a checker: every real checker of these logs would do the same.
#
# All logs are lines here, so that the message at place N is line N + 1 of its file.
# shellcheck source=tests/lib.sh
. "$(dirname -- "$0")/lib.sh"
need_program

key='2026-01-15T00:00:00Z K S0VZ'
other_key='2026-01-15T00:00:00Z K T1RIRVI='

# message PRI TEXT..: one message for each TEXT.
message() {
    local pri=$1 text
    shift
    for text in "$@"; do
        printf '<%d>1 2026-01-15T09:00:00Z gate app - - - %s\n' "$pri" "$text"
    done
}

# as_lines: octet-counted frames as lines.
as_lines() {
    python3 -c '
import sys
log = sys.stdin.buffer.read()
while log:
    length, _, log = log.partition(b" ")
    sys.stdout.buffer.write(log[:int(length)] + b"\n")
    log = log[int(length):]'
}

# signed NAME HOST RSID PAYLOAD OPTION..: signs the messages of standard input, two in a block, into the file NAME.
signed() {
    local made=$scratch/$1
    local options=(--host "$2" --app signer --rsid "$3" --payload "$4" --count 2 --lines "${@:5}")
    cat >"$made.messages"
    "$program" plan "${options[@]}" <"$made.messages" | sed 's/^want \(.*\)/seal \1 AAAA/' >"$made.seals"
    "$program" sign "${options[@]}" --answers "$made.seals" <"$made.messages" | as_lines >"$made"
}

# accepted NAME..: answers that say yes to all of these logs as they were signed.
accepted() {
    (cd -- "$scratch" && cat -- "$@") | "$program" questions --lines | answered >"$scratch/answers"
}

# places NAME PLACE..: the messages at these places of a log.
places() {
    local made=$scratch/$1 place
    shift
    for place in "$@"; do
        sed -n "$((place + 1))p" "$made"
    done
}

# told WHAT STATUS REPORT: one check, of the report on the log of standard input.
told() {
    run review --lines --answers "$scratch/answers"
    expect "$1" "$2" "$3" ''
}

# missing WHAT STATUS REPORT: the same, of the findings with missing blocks.
missing() {
    run review --whole --findings --lines --answers "$scratch/answers"
    expect "$1, with --whole" "$2" "$3" ''
}

# counted WHAT LINES: one check, of the lines `signature` of an inspection of the log of standard input.
counted() {
    run inspect --lines
    holds "$1" cmp -- <(grep '^signature ' "$scratch/out") <(lines "$2")
}

message 13 one two three four five six | signed week gate 7 "$key"
accepted week
told 'a log as it was signed' 0 'session gate signer - 7 joined
ok gate signer - 7 0 0 1 1
ok gate signer - 7 0 0 2 2
ok gate signer - 7 0 0 3 4
ok gate signer - 7 0 0 4 5
ok gate signer - 7 0 0 5 7
ok gate signer - 7 0 0 6 8
end 10' <"$scratch/week"
told 'a tail is cut off behind a block' 0 'session gate signer - 7 joined
ok gate signer - 7 0 0 1 1
ok gate signer - 7 0 0 2 2
ok gate signer - 7 0 0 3 4
ok gate signer - 7 0 0 4 5
end 7' < <(head -n 7 -- "$scratch/week")
missing 'a tail is cut off behind a block' 0 'session gate signer - 7 joined
end 7' < <(head -n 7 -- "$scratch/week")
told 'a tail is cut off behind a message' 1 'session gate signer - 7 joined
ok gate signer - 7 0 0 1 1
ok gate signer - 7 0 0 2 2
ok gate signer - 7 0 0 3 4
ok gate signer - 7 0 0 4 5
unlisted 7
end 8' < <(head -n 8 -- "$scratch/week")
told 'the messages stand in another order' 0 'session gate signer - 7 joined
ok gate signer - 7 0 0 1 8
ok gate signer - 7 0 0 2 7
ok gate signer - 7 0 0 3 5
ok gate signer - 7 0 0 4 4
ok gate signer - 7 0 0 5 2
ok gate signer - 7 0 0 6 1
end 10' < <(tac -- "$scratch/week")

# Two groups: the places are certificate, a, b, a and its block, b and its block, a, a and their block, b, b and theirs
{
    message 13 a1
    message 14 b1
    message 13 a2
    message 14 b2
    message 13 a3 a4
    message 14 b3 b4
} | signed groups gate 7 "$key" --groups pri
accepted groups
told 'two groups as they were signed' 0 'session gate signer - 7 joined
ok gate signer - 7 1 13 1 1
ok gate signer - 7 1 13 2 3
ok gate signer - 7 1 13 3 7
ok gate signer - 7 1 13 4 8
ok gate signer - 7 1 14 1 2
ok gate signer - 7 1 14 2 5
ok gate signer - 7 1 14 3 10
ok gate signer - 7 1 14 4 11
end 13' <"$scratch/groups"
counted 'GBC counts the blocks of all groups' 'signature 4 gate signer - 7 1 13 0 1 2
signature 6 gate signer - 7 1 14 1 1 2
signature 9 gate signer - 7 1 13 2 3 2
signature 12 gate signer - 7 1 14 3 3 2' <"$scratch/groups"
missing 'two groups as they were signed' 0 'session gate signer - 7 joined
end 13' <"$scratch/groups"
places groups 0 1 3 4 7 8 9 >"$scratch/one-group"
told 'a group is taken out' 0 'session gate signer - 7 joined
ok gate signer - 7 1 13 1 1
ok gate signer - 7 1 13 2 2
ok gate signer - 7 1 13 3 4
ok gate signer - 7 1 13 4 5
end 7' <"$scratch/one-group"
counted 'GBC has a gap where the blocks of a group are missing' 'signature 3 gate signer - 7 1 13 0 1 2
signature 6 gate signer - 7 1 13 2 3 2' <"$scratch/one-group"
missing 'a group is taken out' 1 'session gate signer - 7 joined
blocks gate signer - 7 1 1
end 7' <"$scratch/one-group"
places groups 0 1 2 3 4 5 6 10 11 12 >"$scratch/no-last-block"
told 'the last block of a group is taken out, with its messages' 0 'session gate signer - 7 joined
ok gate signer - 7 1 13 1 1
ok gate signer - 7 1 13 2 3
ok gate signer - 7 1 14 1 2
ok gate signer - 7 1 14 2 5
ok gate signer - 7 1 14 3 7
ok gate signer - 7 1 14 4 8
end 10' <"$scratch/no-last-block"
counted 'GBC has a gap where the last block of a group is missing' 'signature 4 gate signer - 7 1 13 0 1 2
signature 6 gate signer - 7 1 14 1 1 2
signature 9 gate signer - 7 1 14 3 3 2' <"$scratch/no-last-block"
missing 'the last block of a group is taken out, with its messages' 1 'session gate signer - 7 joined
blocks gate signer - 7 2 2
end 10' <"$scratch/no-last-block"
places groups 0 1 2 3 4 5 6 7 8 9 >"$scratch/no-very-last-block"
missing 'the very last block is taken out, with its messages' 0 'session gate signer - 7 joined
end 10' <"$scratch/no-very-last-block"

# Two sessions of one key
message 13 old1 old2 | signed old gate 7 "$key"
message 13 new1 new2 | signed new gate 8 "$key"
accepted old new
told 'two sessions as they were signed' 0 'session gate signer - 7 joined
ok gate signer - 7 0 0 1 1
ok gate signer - 7 0 0 2 2
session gate signer - 8 joined
ok gate signer - 8 0 0 1 5
ok gate signer - 8 0 0 2 6
end 8' < <(cat -- "$scratch/old" "$scratch/new")
told 'a session is taken out' 0 'session gate signer - 8 joined
ok gate signer - 8 0 0 1 1
ok gate signer - 8 0 0 2 2
end 4' <"$scratch/new"
told 'an older session stands in place of the present one' 0 'session gate signer - 7 joined
ok gate signer - 7 0 0 1 1
ok gate signer - 7 0 0 2 2
end 4' <"$scratch/old"
missing 'all of a session but its certificate block is taken out' 0 'session gate signer - 7 joined
session gate signer - 8 joined
end 5' < <(head -n 1 -- "$scratch/old" && cat -- "$scratch/new")
told 'all of a session but its certificate block is taken out' 0 'session gate signer - 7 joined
session gate signer - 8 joined
ok gate signer - 8 0 0 1 2
ok gate signer - 8 0 0 2 3
end 5' < <(head -n 1 -- "$scratch/old" && cat -- "$scratch/new")

# Two runs with one RSID and one payload
message 13 past1 past2 past3 past4 | signed past gate 7 "$key"
message 13 now1 now2 | signed now gate 7 "$key"
accepted past now
told 'old messages and their block count for a later run with the same RSID' 0 'session gate signer - 7 joined
ok gate signer - 7 0 0 1 1
ok gate signer - 7 0 0 2 2
ok gate signer - 7 0 0 3 4
ok gate signer - 7 0 0 4 5
end 7' < <(cat -- "$scratch/now" && places past 4 5 6)
message 13 now1 now2 | signed later gate 7 '2026-01-16T00:00:00Z K S0VZ'
# the older block is asked about under the later payload, which states the same key
(cat -- "$scratch/later" && places past 4 5 6) >"$scratch/mixed"
accepted mixed
told 'so they do where the payload of the later run has another time' 0 'session gate signer - 7 joined
ok gate signer - 7 0 0 1 1
ok gate signer - 7 0 0 2 2
ok gate signer - 7 0 0 3 4
ok gate signer - 7 0 0 4 5
end 7' <"$scratch/mixed"
accepted past later
told 'with the certificate blocks of both, the session is disputed' 1 'session gate signer - 7 disputed
unlisted 1
unlisted 2
unlisted 5
unlisted 6
refused 0
refused 3
refused 4
refused 7
end 8' < <(cat -- "$scratch/later" && places past 0 4 5 6)

# Two keys, and the second signs as a session of the first one's host
message 13 mine | signed mine gate 7 "$key"
message 13 forged | signed forged gate 8 "$other_key"
accepted mine forged
told 'one of two trusted keys signs under the name of the other' 0 'session gate signer - 7 joined
ok gate signer - 7 0 0 1 1
session gate signer - 8 joined
ok gate signer - 8 0 0 1 4
end 6' < <(cat -- "$scratch/mine" "$scratch/forged")
accepted mine
told 'the same log with the answers of one key' 1 'session gate signer - 7 joined
ok gate signer - 7 0 0 1 1
session gate signer - 8 untrusted
unlisted 4
refused 3
refused 5
end 6' < <(cat -- "$scratch/mine" "$scratch/forged")

# Two originators sign the same messages, which are stored once
message 13 shared1 shared2 | signed first gate 7 "$key"
message 13 shared1 shared2 | signed second relay 1 "$other_key"
accepted first second
told 'messages that two originators signed are stored once' 1 'session gate signer - 7 joined
ok gate signer - 7 0 0 1 1
ok gate signer - 7 0 0 2 2
session relay signer - 1 joined
gap relay signer - 1 0 0 1 lost
gap relay signer - 1 0 0 2 lost
end 6' < <(cat -- "$scratch/first" && places second 0 3)
told 'messages that two originators signed are stored twice' 0 'session gate signer - 7 joined
ok gate signer - 7 0 0 1 1
ok gate signer - 7 0 0 2 2
session relay signer - 1 joined
ok relay signer - 1 0 0 1 5
ok relay signer - 1 0 0 2 6
end 8' < <(cat -- "$scratch/first" "$scratch/second")

# Counters of the two first logs that were kept, and those of the logs whose ends were cut off
kept() {
    run counters --lines --answers "$scratch/answers"
    expect "the counters: $1" 0 "$2
end $(wc -l <<<"$2")" ''
}
accepted week
kept 'a log as it was signed' 'count gate signer - 7 3
count gate signer - 7 0 0 7' <"$scratch/week"
kept 'a tail is cut off behind a block' 'count gate signer - 7 2
count gate signer - 7 0 0 5' < <(head -n 7 -- "$scratch/week")
accepted groups
kept 'two groups as they were signed' 'count gate signer - 7 4
count gate signer - 7 1 13 5
count gate signer - 7 1 14 5' <"$scratch/groups"
kept 'the last block of the session is taken out, with its messages' 'count gate signer - 7 3
count gate signer - 7 1 13 5
count gate signer - 7 1 14 3' < <(places groups 0 1 2 3 4 5 6 7 8 9)
kept 'the last block of a group is taken out, with its messages' 'count gate signer - 7 4
count gate signer - 7 1 13 3
count gate signer - 7 1 14 5' < <(places groups 0 1 2 3 4 5 6 10 11 12)
kept 'a group is taken out' 'count gate signer - 7 3
count gate signer - 7 1 13 5' < <(places groups 0 1 3 4 7 8 9)

# Each case stands on the page in bold letters, and nothing else does
cat >"$scratch/cases" <<'END'
A tail is cut off right after a block.
A group is taken out, with its messages and blocks; or the last block of a group, with its messages.
A session is taken out, or all of it but its certificate blocks.
An older session of the same key stands in place of the present one.
The messages stand in another order.
A clock was wrong, or the log was signed later.
An RSID was used twice, with the same names and key.
Two keys are trusted, and one originator signs under the other's HOSTNAME.
Two originators sign the same message, and it is stored once.
END
holds 'the page has these cases' diff "$scratch/cases" <(sed -n 's/^\*\*\(.*\)\*\*.*/\1/p' \
    "$root/docs/user/explanation/what-a-clean-report-shows.md")

# Questions that nobody checked are no answers. Answers that nobody checked let a forged log pass
message 13 forged1 forged2 | signed stranger gate 9 "$other_key"
"$program" questions --lines <"$scratch/stranger" >"$scratch/answers"
run review --lines --answers "$scratch/answers" <"$scratch/stranger"
expect 'questions given as answers' 2 '' 'ssign: A1 1'
accepted stranger
told 'answers that nobody checked' 0 'session gate signer - 9 joined
ok gate signer - 9 0 0 1 1
ok gate signer - 9 0 0 2 2
end 4' <"$scratch/stranger"

finish
