#!/usr/bin/env bash
# The pages that end in a list from the sources. tests/readme.sh has crate_readmes.py check the README of each crate; here
# it checks the pages of edits. Then each kind of fault is planted in a small repository, and found.
# shellcheck source=tests/lib.sh disable=SC2016
. "$(dirname -- "$0")/lib.sh"

# faults NAME FOLDER: what crate_readmes.py finds of a crate, or with --edits, or that it failed without a finding.
faults() {
    local found
    found=$(python3 -B "$root/tests/crate_readmes.py" "$1" "$2" 2>&1) || printf '%s\n' "${found:-    crate_readmes.py failed}"
}
tell 'the pages of edits' "$(faults --edits "$root")"

# remake: the lists of the small repository, as tools/make-pages makes them
small=$scratch/small
remake() {
    python3 -B - "$root/tools" "$small" <<'P'
import sys
sys.path.insert(0, sys.argv[1])
from pages.clauses import with_lists
for name, text in with_lists(sys.argv[2]).items():
    with open(f"{sys.argv[2]}/{name}", "w", encoding="utf-8") as file:
        file.write(text)
P
}

# begin: a small repository, in which nothing is wrong
begin() {
    rm -rf -- "$small"
    mkdir -p -- "$small"/{docs/dev,mutants/ss_wrap,crates/{ss_wrap/{src/laws,specs,must-fail},ss_a/src/ones,test_origins/src}}
    printf '# Each crate\nss_wrap: itoa\nss_a: ss_wrap\ntest_origins: ss_wrap # tests\n' >"$small/crates.txt"
    printf '# Bodies\n\nIt is so.\n' >"$small/docs/dev/wrong-bodies.md"
    printf '# Edits\n\nIt is so.\n' >"$small/mutants/README.md"
    printf '# Laws\n\n## 1. None\n\n## 2. One, or more\n\n[`two_is_two`](../../crates/ss_wrap/src/laws.rt)\n' >"$small/docs/dev/LAWS.md"
    touch -- "$small"/mutants/ss_wrap/{README.md,two.edit,three.edit} "$small/crates/ss_wrap/must-fail/one.edit"
    cat >"$small/crates/ss_wrap/src/lib.rt" <<'R'
//! A library.
mod inner;
mod kept;
pub mod open;

pub use inner::{one, Two};
pub use kept::Keeps;
R
    cat >"$small/crates/ss_wrap/src/inner.rt" <<'R'
ghost use Rattle.std.specs.Prelude.{◌≡◌};
ghost use Rattle.ss_wrap.specs.Ones.{
  is_one,
  IsTwo,
};

/// One.
pub fn one(text: &[u8; 3]) -> u64
    requires { 1 < 2 }
    // It is.
    ensures value { result ≡ is_one (record { one = 1 }) × IsTwo result }
    ensures { result ≡ 1 || 2 }
{
    1
}

/// Nobody else sees it.
pub fn hidden() {}

impl<T> Two<T> {
    /// Two.
    pub fn two(&self) -> u64 {
        2
    }

    fn three(&self) {}
}

impl<T> Model for Two<T> {
    ghost view = { λ t. t };
}

impl Keeps for Two<u8> {
    ghost held = { is_one };

    fn keep(&self) {}
}
R
    printf '/// Keeps.\npub trait Keeps {\n    /// Keep.\n    fn keep(&self)\n        ensures { kept self.now };\n}\n' \
        >"$small/crates/ss_wrap/src/kept.rt"
    printf '/// Four.\npub fn four() -> u64 {\n    4\n}\n' >"$small/crates/ss_wrap/src/open.rt"
    touch -- "$small/crates/ss_wrap/specs/Ones.antt" "$small/crates/ss_wrap/src/laws/twos.rt"
    printf '/// Two.\npub fn two_is_two()\n    ensures { 2 ≡ 2 }\n{}\n' >"$small/crates/ss_wrap/src/laws.rt"
    printf '//! Laws.\npub mod ones;\n' >"$small/crates/ss_a/src/lib.rt"
    printf 'pub mod cases;\nmod own;\n\n/// One.\npub fn one_is_one<J: Seals>()\n    ensures { 1 ≡ 1 }\n{}\n' \
        >"$small/crates/ss_a/src/ones.rt"
    printf '/// One.\npub fn one_is_one()\n    ensures { 1 < 2 }\n{}\n' | tee "$small/crates/ss_a/src/ones/own.rt" \
        >"$small/crates/ss_a/src/ones/cases.rt"
    printf '//! Tests.\n' >"$small/crates/test_origins/src/lib.rt"
    printf 'fn example() {\n    let one = 1;\n    let two = 2;\n}\n' >"$small/crates/test_origins/src/examples.rt"
    printf '# ss_wrap\n\nIt wraps (RFC 1).\n\n    let one = 1;\n    let two = 2;\n\n- It is [one](docs/one.md). It is.\n\n| a |\n|---|\n| b |\n' \
        >"$small/crates/ss_wrap/README.md"
    printf '# ss_a\n\nIt states laws.\n' >"$small/crates/ss_a/README.md"
    printf '# test_origins\n\nIt tests.\n' >"$small/crates/test_origins/README.md"
    remake
}
begin
for crate in ss_wrap ss_a test_origins --edits; do
    tell "a small repository: $crate" "$(faults "$crate" "$small")"
done

# what the lists are
expect_list() {
    tell "$1" "$(diff <(sed -n '/^| \[/p; /^- \[/p; /^No /p; /^The laws/p' "$small/$2") <(printf '%s\n' "${@:3}"))"
}
expect_list 'the clauses of each public function are listed' crates/ss_wrap/README.md \
    '| [`one`](src/inner.rt) | `value`: [`is_one`](specs/Ones.antt), [`IsTwo`](specs/Ones.antt); `ensures`: `result ≡ 1 \|\| 2` | `requires`: `1 < 2` |' \
    '| [`Two::two`](src/inner.rt) | no clause | |' \
    '| [`impl Keeps for Two`](src/inner.rt) | `held`: [`is_one`](specs/Ones.antt) | |' \
    '| [`Keeps::keep`](src/kept.rt) | `ensures`: `kept self.now` | |' \
    '| [`open::four`](src/open.rt) | no clause | |' \
    'The laws of this crate, with their premises: [2. One, or more](../../docs/dev/LAWS.md#2-one-or-more).'
expect_list 'the functions of a module in a module are listed if both are public' crates/ss_a/README.md \
    '| [`ones::one_is_one`](src/ones.rt) | `ensures`: `1 ≡ 1` |' \
    '| [`ones::cases::one_is_one`](src/ones/cases.rt) | `ensures`: `1 < 2` |'
expect_list 'a crate without public functions says so' crates/test_origins/README.md 'No function of this crate is public.'
expect_list 'the edits of each folder are listed' docs/dev/wrong-bodies.md \
    '- [Each run](../../crates/ss_wrap/must-fail), 1: `one`' '- [Apart](../../mutants/ss_wrap), 2: `three`, `two`'

# finds WHAT NAME FAULT: with what was planted, this fault is found and no other. Then all is mended.
finds() {
    local found
    found=$(faults "$2" "$small")
    [[ $found == "    $3" ]] && found='' || found=${found:-    it finds nothing}
    tell "$1" "$found"
    begin
}

# words N: as many words, in sentences of ten.
words() {
    local i
    for ((i = 1; i <= $1; i++)); do
        ((i % 10)) && printf 'word ' || printf 'word. '
    done
}

# put FILE TEXT: the text stands before the list of the file.
put() {
    sed -i "s/^## Clauses/${2% }\n\n&/" "$small/$1"
}
readme=crates/ss_wrap/README.md
sed -i 's/ensures value/ensures values/' "$small/crates/ss_wrap/src/inner.rt"
finds 'a clause with another name' ss_wrap "$readme, line 13: the list of clauses isn't that of the sources: run make pages"
sed -i 's/`Two::two`/`Two::twos`/' "$small/$readme"
finds 'a list that was changed' ss_wrap "$readme, line 13: the list of clauses isn't that of the sources: run make pages"
printf '\nIt ends.\n' >>"$small/$readme"
finds 'a text after the list' ss_wrap "$readme, line 13: the list of clauses isn't that of the sources: run make pages"
own=$(sed '/^## Clauses/,$d' "$small/$readme" | wc -w)
put "$readme" "$(words $((150 - own)))"
tell '150 words before the list' "$(faults ss_wrap "$small")"
begin
put "$readme" "$(words $((151 - own)))"
finds '151 words before the list' ss_wrap "$readme, line 1: 151 words stand before the list of clauses, and at most 150 may"
long=$(printf 'word %.0s' {1..25})
put "$readme" "It is. It ${long% }. It is."
finds 'a sentence of 26 words' ss_wrap "$readme, line 14: a sentence has 26 words: It ${long% }."
put "$readme" "It is. ${long% }. It is."
tell 'a sentence of 25 words' "$(faults ss_wrap "$small")"
begin
put "$readme" "- It is ([one](a.md)). \`b\` ${long% }."
finds 'a sentence of 26 words in a list, after another one' ss_wrap "$readme, line 14: a sentence has 26 words: code ${long% }."
put "$readme" "| a | b ${long% } |"
finds 'a cell of 26 words' ss_wrap "$readme, line 14: a cell has 26 words: b ${long% }"
sed -i 's/^It wraps (RFC 1)\./It wraps. It is./' "$small/$readme"
finds 'a first paragraph of two sentences' ss_wrap "$readme, line 3: the first paragraph isn't one sentence: It wraps. It is."
sed -i 's/let two = 2/let two = 3/' "$small/$readme"
finds 'an example that no test crate has' ss_wrap \
    "$readme, line 7: crates/test_origins/src/examples.rt doesn't have the example: let two = 3;"
sed -i '/^    let/d' "$small/$readme"
finds 'a library without an example' ss_wrap "$readme, line 11: the example has 0 lines, and not 1 to 5"
printf '/// More.\nfn more() -> u64 {\n    2\n}\n' >"$small/crates/ss_a/src/more.rt"
remake
finds 'a library of which no test crate is known' ss_a \
    'crates/ss_a/README.md, line 1: no test crate is named for the example of this library'
touch -- "$small/mutants/ss_wrap/four.edit"
finds 'an edit that the page does not list' --edits \
    'docs/dev/wrong-bodies.md, line 1: the list of edits isn'\''t that of the folders: run make pages'
own=$(cat -- "$small/mutants/README.md" <(sed '/^## Edits/,$d' "$small/docs/dev/wrong-bodies.md") | wc -w)
words $((301 - own)) >>"$small/mutants/README.md"
finds '301 words about edits' --edits 'docs/dev/wrong-bodies.md, line 1: with mutants/README.md it has 301 words beside the list: over 300'
printf '\nIt %s.\n' "${long% }" >>"$small/mutants/README.md"
finds 'a sentence of 26 words about edits' --edits "mutants/README.md, line 5: a sentence has 26 words: It ${long% }."
finish
