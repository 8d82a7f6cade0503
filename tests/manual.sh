#!/usr/bin/env bash
# The manual pages, and the lists of clauses, edits and decisions: that they are what tools/make-pages makes, that `man`
# and mandoc complain of nothing, and that each command has the options of its --help and no other, with their values and
# the texts of both.
# shellcheck source=tests/lib.sh
. "$(dirname -- "$0")/lib.sh"
need_program
export SSIGN=$program
pages=(ssign.1 ssign-keys.1 ssign-archive.1 ssign-answers.5 ssign-report.5)

has_cryptography=
python3 -c 'import cryptography' 2>"$scratch/err" && has_cryptography=1
python3 -B "$root/tools/make-pages" "$scratch/made" >"$scratch/out" 2>"$scratch/err"
status=$?
if [[ $has_cryptography ]]; then
    expect 'the pages are made' 0 '' ''
    for page in "${pages[@]}"; do
        holds "man/$page is what tools/make-pages makes: run make pages" cmp -- "$scratch/made/man/$page" "$root/man/$page"
    done
    holds 'no other page is made' test "$(ls "$scratch/made/man")" = "$(printf '%s\n' "${pages[@]}" | sort)"
    while IFS= read -r page; do
        holds "$page has the lists that tools/make-pages makes: run make pages" cmp -- "$scratch/made/$page" "$root/$page"
    done < <(cd -- "$scratch/made" && find crates docs -type f | sort)
    holds 'the lists of each crate, of edits and of decisions are made' \
        test "$(cd -- "$scratch/made" && find crates docs -type f | grep -vc '^crates/[a-z_]*/README.md$')" = 2
    holds 'nothing else is made' test "$(ls "$scratch/made")" = $'completions\ncrates\ndocs\nman'
else
    # the help of a command loads all of it
    skip "what needs the help of ssign-keys, since the Python module cryptography is missing"
    holds 'make-pages says what is missing' grep -q '^make-pages: ssign-keys .* the Python module cryptography is missing' "$scratch/err"
    holds 'nothing is made' test ! -e "$scratch/made"
fi
holds 'the pages are ASCII' test -z "$(LC_ALL=C grep -l '[^ -~]' "${pages[@]/#/$root/man/}")"
python3 -B "$root/tools/make-pages" a b 2>"$scratch/err"
holds 'two folders are refused' test "$?" = 2

# help COMMAND..: what a command says of itself, an option with its values a line, sorted.
help() {
    COLUMNS=10000 "$@" --help </dev/null | sed -nE 's/^ +((-[a-zA-Z], )?--[a-z][a-z0-9-]*(( [^ ]+)*))(  .*)?$/\1/p' |
        sed -e 's/[<>]//g' -e 's/{0111,0121}/VER/' | sort
}

# shown PAGE SECTION: the tags that begin with a hyphen in a part of a rendered page, sorted.
shown() {
    awk -v part="$2" '/^ ? ? ?[^ ]/ { on = ($0 ~ "^ *" part "$") } on' "$scratch/$1.txt" |
        sed -nE 's/^ {7}(-.*)$/\1/p' | sed -E 's/^((-[a-zA-Z], )?--[a-z0-9-]+( [A-Z][A-Za-z.]*)*)  +.*/\1/; s/^(--[a-z0-9-]+) [A-Z][a-z].*/\1/' | sort
}

# lacks TEXT: reads lines, and says which of them TEXT hasn't. Blanks are alike.
lacks() {
    local line
    while IFS= read -r line; do
        [[ $1 == *"$line"* ]] || printf '    it lacks: %s\n' "$line"
    done
}

# texts COMMAND..: the texts of the options of a command, a line each, up to their defaults. The first letter may be
# another one in the page.
texts() {
    COLUMNS=10000 "$@" --help </dev/null | sed -nE 's/^ +(-[a-zA-Z], )?(--[a-z][a-z0-9-]*( [^ ]+)*)?  +//p' | sed -e 's/^.//' -e 's/`//g' -e 's/ *[([]default.*//'
}

if ! command -v man >"$scratch/out"; then
    skip "what needs man, which is missing"
else
    for page in "${pages[@]}"; do
        # a terminal and its width don't count
        MANWIDTH=1000 LC_ALL=C.UTF-8 man --warnings -l "$root/man/$page" >"$scratch/$page.raw" 2>"$scratch/err"
        status=$?
        col -bx <"$scratch/$page.raw" | sed -e 's/‐/-/g' -e "s/’/'/g" >"$scratch/$page.txt"
        holds "man shows man/$page" test "$status" = 0
        holds "man complains of nothing in man/$page" cmp -- "$scratch/err" <(printf '')
        for heading in NAME DESCRIPTION EXAMPLES 'SEE ALSO'; do
            holds "man/$page has a section $heading" grep -qx "$heading" "$scratch/$page.txt"
        done
        # the words after SEE ALSO are pages that are here
        for other in $(awk '/^SEE ALSO/ { on = 1; next } /^[^ ]/ { on = 0 } on' "$scratch/$page.txt" | tr -d ' ' | tr ',' ' '); do
            other=${other%')'}
            holds "man/$page names a page that is here: $other" test -f "$root/man/${other/'('/.}"
        done
    done
    if command -v lexgrog >"$scratch/out"; then
        for page in "${pages[@]}"; do
            holds "lexgrog finds the name of man/$page" grep -qF "\"${page%.*} - " <(lexgrog "$root/man/$page")
        done
    else
        skip "what needs lexgrog, which is missing"
    fi

    # compare PAGE COMMAND..: the commands of a program, each with its options, and the program's own.
    compare() {
        local page=$1 command said
        shift
        local text
        text=$(tr -s ' \n' '  ' <"$scratch/$page.txt")
        local commands=()
        mapfile -t commands < <("$@" --help </dev/null | sed -nE 's/^ {2,4}([a-z]+)  +[A-Za-z].*/\1/p' | grep -vx help)
        holds "${page%.*} has commands" test "${#commands[@]}" -ge 2
        holds "man/$page has a part for each command, and no other" \
            cmp -- <(printf '%s\n' "${commands[@]}" | sort) <(sed -n "s/^   ${page%.*} \([a-z]*\)\$/\1/p" "$scratch/$page.txt" | sort)
        for command in "${commands[@]}"; do
            said=$(help "$@" "$command")
            holds "${page%.*} $command has options" test "$said"
            holds "man/$page has the options of ${page%.*} $command, and no other" \
                diff <(printf '%s\n' "$said") <(shown "$page" "${page%.*} $command")
            said=$(texts "$@" "$command" | lacks "$text")
            tell "man/$page has the texts of ${page%.*} $command" "$said"
        done
        holds "man/$page has the options of ${page%.*}, and no other" diff <(help "$@") <(shown "$page" OPTIONS)
    }
    compare ssign.1 "$program"
    [[ ! $has_cryptography ]] || compare ssign-keys.1 "$root/tools/ssign-keys"
    compare ssign-archive.1 "$root/tools/archive"

    # each code that `explain` knows stands in the page, in its order
    codes=$("$program" explain nothing 2>&1 </dev/null | sed -n 's/^The codes: //p')
    holds 'explain names its codes' test "$codes"
    holds 'ssign.1 has the codes of explain' test "$(awk '/^CODES/ { on = 1; next } /^[^ ]/ { on = 0 } on' "$scratch/ssign.1.txt" |
        tail -n +2 | tr -s ' \n' '  ' | sed 's/^.*words: //; s/^ //; s/ $//')" = "$codes"

    # lines of docs/dev/FORMATS.md
    for words in 'trust PAYLOAD' 'yes PAYLOAD OCTETS SIGNATURE' 'seal OCTETS SIGNATURE' 'want OCTETS'; do
        holds "ssign-answers.5 has a line $words" grep -Eqx " {7}$words" "$scratch/ssign-answers.5.txt"
    done
    while IFS= read -r line; do
        line=${line#'| `'}
        holds "ssign-report.5 has a line ${line%%'`'*}" grep -qE "^ {7}${line%%'`'*}( |\$)" "$scratch/ssign-report.5.txt"
    done < <(awk '/^## A report$/ { on = 1; next } /^## / { on = 0 } on && /^\| `/' "$root/docs/dev/FORMATS.md")
fi

if command -v mandoc >"$scratch/out"; then
    for page in "${pages[@]}"; do
        holds "mandoc complains of nothing in man/$page" mandoc -Tlint -Wall "$root/man/$page"
    done
else
    skip "what needs mandoc, which is missing"
fi

finish
