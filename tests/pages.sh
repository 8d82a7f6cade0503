#!/usr/bin/env bash
# The pages, against what is there: links and headings, paths of the repository, the rows of tests/README.md, words that
# the glossary gives up, the crates, the laws of docs/dev/LAWS.md, the tests that SECURITY.md names, and how long README.md
# and the book are. pages.py does it. Each kind of fault is planted in a small repository, and found.
# shellcheck source=tests/lib.sh disable=SC2016
. "$(dirname -- "$0")/lib.sh"

# faults KIND FOLDER: what pages.py finds of this kind, or that it failed without a finding.
faults() {
    local found
    found=$(python3 -B "$root/tests/pages.py" "$1" "$2" 2>&1) || printf '%s\n' "${found:-    pages.py failed}"
}
kinds=(links paths rows words crates laws promises budgets)
for kind in "${kinds[@]}"; do
    tell "the $kind of the pages" "$(faults "$kind" "$root")"
done

# sentence N: N words.
sentence() {
    seq -s ' ' -f 'a%.0f' "$1"
}
# text SENTENCES: as many sentences of ten words, a line each.
text() {
    local number
    for ((number = 0; number < $1; number++)); do
        echo "$(sentence 10)."
    done
}

# begin: a small repository, in which nothing is wrong
small=$scratch/small
begin() {
    rm -rf -- "$small"
    mkdir -p -- "$small"/{docs/{dev,user/how-to},tests,crates/ss_a/{src/laws,specs}}
    cat >"$small/README.md" <<'S'
# It `is` so

See [the guide](docs/guide.md), [its end](docs/guide.md#its-end), [another end](docs/guide.md#its-end-1),
[this page](#it-is-so) and [a site](https://example.org/none#none). `docs/guide.md`, "Its end", says it too.
Code is in `crates/ss_a/src/one.rt`, `crates/NAME/src/one.rt`, `src/one.rt` and `docs/*.md`. `want of memory` is code.

    [no link](none.md), `docs/none.md`, want of memory
S
    printf '# Guide\n\n## Its end\n\n## Its end\n\n[back](../README.md) to `docs/guide.md`\n' >"$small/docs/guide.md"
    printf '# Words\n\n| Word | Not |\n|---|---|\n| out of memory | want of memory |\n' >"$small/docs/dev/glossary.md"
    printf '# Parts\n\n`ss_a` is one.\n' >"$small/docs/dev/ARCHITECTURE.md"
    printf '# Tests\n\n| `a.sh`, `b.py` | tests |\n' >"$small/tests/README.md"
    printf '# a\n\nIts `src/one.rt`.\n' >"$small/crates/ss_a/README.md"
    printf '# Each crate\nss_a: itoa\n' >"$small/crates.txt"
    printf '# Security\n\n- no promise\n\n## What is promised\n\n- It is so. Tests: `tests/a.sh`, `tests/a.sh` "it is", `tests/a.sh` "so".\n' \
        >"$small/SECURITY.md"
    # each sentence and each cell is as long as it may be
    {
        printf '# Book\n\n%s. %s.\n(%s.) %s:\n\n    %s %s\n\n' "$(sentence 25)" "$(sentence 20)" "$(sentence 24)" "$(sentence 25)" \
            "$(sentence 25)" "$(sentence 25)"
        printf -- '- **%s.** `a b. c d` e.g. %s\n  %s\n- %s\n1. %s\n\n' "$(sentence 25)" "$(sentence 11)" "$(sentence 12)" \
            "$(sentence 25)" "$(sentence 25)"
        printf '| a | b |\n|---|---|\n| %s `a | b c` | %s |\n' "$(sentence 24)" "$(sentence 25)"
    } >"$small/docs/user/index.md"
    printf '# Page\n\n[%s](../../dev/glossary.md) %s? It is\n[the](../index.md) end.\n' "$(sentence 12)" "$(sentence 13)" \
        >"$small/docs/user/how-to/page.md"
    echo "tell 'it is' # b.py" >"$small/tests/a.sh"
    echo "tell('so')" >"$small/tests/b.py"
    touch -- "$small/crates/ss_a/src/one.rt" "$small/crates/ss_a/specs/Ones.antt"
    cat >"$small/crates/ss_a/src/laws.rt" <<'S'
ghost use Rattle.ss_a.specs.Ones.{
  IsOne,
  IsTwo,
};

/// One is one.
pub fn one_is_one<J: Seals>()
    ensures { IsOne J.asked }
{}
S
    printf '\n/// Two is more.\npub fn two_is_more()\n    ensures { 1 < 2 }\n{}\n' >"$small/crates/ss_a/src/laws/twos.rt"
    printf '# Laws\n\n[`one_is_one`](../../crates/ss_a/specs/Ones.antt) [`twos::two_is_more`](../../crates/ss_a/src/laws/twos.rt)\n' \
        >"$small/docs/dev/LAWS.md"
}
begin
for kind in "${kinds[@]}"; do
    tell "a small repository: $kind" "$(faults "$kind" "$small")"
done

# finds WHAT KIND FAULT: with what was planted, pages.py finds this fault of the kind and no other. Then all is mended.
finds() {
    local found
    found=$(faults "$2" "$small")
    [[ $found == "    $3" ]] && found='' || found=${found:-    it finds nothing}
    tell "$1" "$found"
    begin
}
echo '[x](docs/none.md)' >>"$small/README.md"
finds 'a link to no file' links 'README.md:8: docs/none.md: no such file'
echo '[x](../small/README.md)' >>"$small/README.md"
finds 'a link out of the repository' links 'README.md:8: ../small/README.md: no such file'
echo '[x](guide.md#its-ends)' >>"$small/docs/guide.md"
finds 'a link to no heading' links 'docs/guide.md:8: guide.md#its-ends: no such heading'
echo '[x](#its-end-2)' >>"$small/docs/guide.md"
finds 'a heading that is there twice, and not three times' links 'docs/guide.md:8: #its-end-2: no such heading'
sed -i 's/^## Its end/## Its ends/' "$small/docs/guide.md"
sed -i '3,4s/guide.md#its-end/guide.md#its-ends/g' "$small/README.md"
finds 'a heading that is named, and has another name' links 'README.md:4: docs/guide.md has no heading "Its end"'
rm -- "$small/docs/guide.md"
holds 'a page that is gone' grep -q 'README.md:3: docs/guide.md: no such file' <(faults links "$small")
begin
echo '`src/two.rt`' >>"$small/crates/ss_a/README.md"
finds 'a path that is not there' paths 'crates/ss_a/README.md:4: there is no src/two.rt'
echo '`crates/NAME/specs/one.rt`' >>"$small/README.md"
finds 'a path of any crate that no crate has' paths 'README.md:8: there is no crates/NAME/specs/one.rt'
touch -- "$small/tests/c.sh"
finds 'a script without a row' rows 'tests/README.md has 0 rows of tests/c.sh'
touch -- "$small/tests/c.py"
finds 'a helper without a row' rows 'tests/README.md has 0 rows of tests/c.py'
rm -- "$small/tests/b.py"
finds 'a row without its file' rows 'tests/README.md has a row of b.py, which isn'\''t there'
echo '| `a.sh` | tests |' >>"$small/tests/README.md"
finds 'a script with two rows' rows 'tests/README.md has 2 rows of tests/a.sh'
for word in 'want of memory' 'Says of' 'is told as' 'has it that'; do
    echo "It $word it." >>"$small/crates/ss_a/README.md"
    finds "the words $word" words "crates/ss_a/README.md:4: \"${word,,}\""
done
echo '| want of memory | memory |' >>"$small/docs/dev/glossary.md"
finds 'a word that the glossary gives up, in another column' words 'docs/dev/glossary.md:6: "want of memory"'
rm -- "$small/crates/ss_a/README.md"
finds 'a crate without a README' crates 'crates/ss_a has no README.md'
echo 'ss_b: ss_a' >>"$small/crates.txt"
mkdir -- "$small/crates/ss_b" && touch -- "$small/crates/ss_b/README.md"
finds 'a crate that the architecture does not name' crates "docs/dev/ARCHITECTURE.md doesn't name \`ss_b\`"
mkdir -- "$small/crates/ss_b"
finds 'a folder that is no crate' crates "crates.txt doesn't name crates/ss_b"
printf '\n/// Two is two.\npub fn two_is_two()\n    ensures { IsTwo }\n{}\n' >>"$small/crates/ss_a/src/laws.rt"
finds 'a law that the page does not name' laws 'docs/dev/LAWS.md has no link from two_is_two to crates/ss_a/specs/Ones.antt'
sed -i 's/specs\.Ones/specs.Others/' "$small/crates/ss_a/src/laws.rt"
finds 'a law that is stated in another file' laws 'docs/dev/LAWS.md has no link from one_is_one to crates/ss_a/specs/Others.antt'
echo '[`two_is_one`](../../crates/ss_a/specs/Ones.antt)' >>"$small/docs/dev/LAWS.md"
finds 'a law that is not there' laws 'docs/dev/LAWS.md names two_is_one, which is no law of ss_a'
rm -- "$small/docs/dev/LAWS.md"
holds 'no page of laws' grep -q 'pages.py failed\|No such file' <(faults laws "$small")
begin
echo '- It is not.' >>"$small/SECURITY.md"
finds 'a promise without a test' promises 'SECURITY.md:8: no test is named'
sed -i 's/"so"/"sos"/' "$small/SECURITY.md"
finds 'a check that no script has' promises 'SECURITY.md:7: tests/a.sh has no "sos"'
sed -i 's/ # b.py//' "$small/tests/a.sh"
finds 'a check of another script'\''s helper' promises 'SECURITY.md:7: tests/a.sh has no "so"'
echo '- It is. Tests: `tests/none.sh`.' >>"$small/SECURITY.md"
finds 'a test that is not there' paths 'SECURITY.md:8: there is no tests/none.sh'
text 90 >>"$small/README.md"
holds 'a README that is too long' grep -qE '^    README\.md: 9[0-9]{2} words, and at most 900$' <(faults budgets "$small")
begin
text 120 >"$small/docs/user/how-to/long.md"
tell 'a page of 1,200 words' "$(faults budgets "$small")"
echo one >>"$small/docs/user/how-to/long.md"
finds 'a page of the book that is too long' budgets 'docs/user/how-to/long.md: 1201 words, and at most 1200'
for number in {1..10}; do text 119 >"$small/docs/user/how-to/$number.md"; done
holds 'a book that is too long' grep -qE '^    docs/user/\*\.md and docs/user/\*/\*\.md: 12[0-9]{3} words, and at most 12000$' <(faults budgets "$small")
begin
for long in "$(sentence 26)." "- $(sentence 26)" "**$(sentence 26)**" "$(sentence 13)"$'\n'"$(sentence 13)" "## $(sentence 26)" \
    "$(sentence 24) \`a\` \`b c\`." "$(sentence 13) [$(sentence 12)](../index.md) a26?" "$(sentence 25) etc. a26"; do
    printf '\n%s\n' "$long" >>"$small/docs/user/how-to/page.md"
    holds "a long sentence: ${long//[[:space:]]/ }" grep -qE '^    docs/user/how-to/page\.md:6: a sentence of 2[67] words: a1 a2 a3 ' \
        <(faults budgets "$small")
    begin
done
printf '\n| a | %s |\n' "$(sentence 26)" >>"$small/docs/user/how-to/page.md"
finds 'a long cell' budgets 'docs/user/how-to/page.md:6: a cell of 26 words: a1 a2 a3 a4 a5 a6 ..'
printf '\n%s\n' "$(sentence 26)" >>"$small/README.md"
finds 'a long sentence of the README' budgets 'README.md:9: a sentence of 26 words: a1 a2 a3 a4 a5 a6 ..'
printf '\n%s\n' "$(sentence 26)" >>"$small/docs/guide.md"
tell 'a long sentence of another page' "$(faults budgets "$small")"
begin
echo '# nothing' >"$small/crates.txt"
finds 'no crates at all' crates 'there are no pages or no crates'
finish
