#!/usr/bin/env bash
# The book of docs/user: the tutorial prints what it shows, and tools/make-docs builds HTML whose links lead somewhere, which
# asks for nothing outside, and whose search knows each page and needs no network. book.py looks at it.
# shellcheck source=tests/lib.sh
. "$(dirname -- "$0")/lib.sh"
need_program
export SSIGN=$program
book=$root/docs/user
cd -- "$scratch" || exit 1

# look WORD..: runs the helper.
look() {
    python3 -B "$root/tests/book.py" "$@"
}
holds 'the first page links to each other one' look index "$book"

if ! python3 -c 'import cryptography' 2>err; then
    echo "$name: skipped the tutorial and the HTML, because the Python module cryptography is missing"
    finish
fi

# ---- the tutorial: the blocks of each page, one after the other
for page in "$book"/tutorial/*.md; do
    mkdir -- run passing
    ln -s -- "$root/tools" "$root/examples" run
    holds "tutorial/${page##*/} prints what it shows" \
        env -u SSIGN_SESSIONS HOME="$scratch/run" TMPDIR="$scratch/passing" timeout 600 python3 -B "$root/tests/book.py" run "$page" run
    rm -rf -- run passing
done

# ---- what is missing
mkdir broken
echo 'raise ImportError("none here")' >broken/myst_parser.py
PYTHONPATH=$scratch/broken "$root/tools/make-docs" html >out 2>err
status=$?
expect 'without the reader of Markdown' 2 '' \
    'make-docs: Sphinx or its reader of Markdown is missing: apt-get install python3-sphinx python3-myst-parser python3-cryptography'
holds 'nothing is built then' test ! -e html
"$root/tools/make-docs" one two >out 2>err
status=$?
expect 'two folders' 2 '' 'make-docs: it takes one folder, or no word'

# build FOLDER ROOT: builds the book of a repository.
build() {
    timeout 600 "$2/tools/make-docs" "$1" >out 2>err
    status=$?
}
build html "$root"
if [[ $status == 2 ]]; then
    echo "$name: skipped the book as HTML: $(<err)"
    finish
fi

# ---- the book as HTML
expect 'the book is built, without a warning' 0 '' ''
holds 'each link leads somewhere, and nothing outside is asked for' look links html
holds 'the table of contents' look contents html "$book"
holds 'the search knows each page' look search html "$book"
holds 'the page of codes has what the programs explain' look codes html/reference/codes.html < <("$root/tools/ssign-keys" explain --json)
holds 'it can be built again in the place of the one before' "$root/tools/make-docs" html
mkdir other && touch other/file
build other "$root"
expect 'what was there is kept' 2 '' "make-docs: $scratch/other is there, and no book that was built: name another folder"

# ---- planted faults
begin() {
    rm -rf -- small
    mkdir -p -- small/docs/user/{tutorial,how-to}
    cp -r -- "$root/tools" small
    printf '# Book\n\n[a](tutorial/a.md) [b](how-to/b.md#its-end) [c](../c.md#none) [d](../../tools)\n' >small/docs/user/index.md
    printf '# A\n\nSome words stand on this first page of all.\n' >small/docs/user/tutorial/a.md
    printf '# B\n\nOther words stand there.\n\n## Its end\n\nNone. `[x](none.md)`\n\n    [x](none.md)\n' >small/docs/user/how-to/b.md
    echo '# C' >small/docs/c.md
}
# refused WHAT WORDS: the small book isn't built, and this is said.
refused() {
    build made small
    holds "$1: status 1" test "$status" = 1
    holds "$1: what is wrong" grep -qF -- "$2" err
    holds "$1: nothing is built" test ! -e made
    begin
}
begin
build made small
expect 'a small book' 0 '' ''
holds 'a small book: its links' look links made
holds 'a small book: what lies outside is copied' cmp made/files/docs/c.md.txt small/docs/c.md
holds 'a small book: a folder has no link' grep -qF '>tools/</span>' made/index.html
holds 'a small book: its contents' look contents made small/docs/user
holds 'a small book: its search' look search made small/docs/user
# planted WHAT FILE SCRIPT FAULT WORD..: with this change to a file of the HTML the helper finds the fault.
planted() {
    local what=$1 fault=$4
    cp -r made changed
    sed -i "$3" "changed/$2"
    shift 4
    holds "planted: $what" grep -qF -- "$fault" <(look "$@")
    rm -rf changed
}
planted 'a link to nothing' index.html 's/"how-to\/b.html/"how-to\/c.html/' 'leads to nothing' links changed
planted 'a link to no place' index.html 's/#its-end"/#its-ends"/' 'leads to no place' links changed
planted 'a script from elsewhere' index.html 's/<body>/<body><script src="https:\/\/x.invalid\/a.js"><\/script>/' 'asks for https://x.invalid/a.js' links changed
planted 'a font from elsewhere' _static/basic.css '1i @import url("//x.invalid/a.css");' 'asks for' links changed
planted 'another order' index.html 's/tutorial\/a.html/X/g; s/how-to\/b.html/tutorial\/a.html/g; s/X/how-to\/b.html/g' 'another order' contents changed small/docs/user
planted 'a page that the search does not know' searchindex.js 's/"tutorial\/a"/"tutorial\/b"/' "tutorial/a.md isn't in the index" search changed small/docs/user
rm -rf made
echo '[x](none.md)' >>small/docs/user/tutorial/a.md
refused 'a link to no page' 'docs/user/tutorial/a.md links to none.md, and there is no such file'
echo '[x](../../../none)' >>small/docs/user/tutorial/a.md
refused 'a link to no file' 'docs/user/tutorial/a.md links to ../../../none, and there is no such file'
echo '[x](../how-to/b.md#none)' >>small/docs/user/tutorial/a.md
refused 'a link to no heading' 'docs/user/tutorial/a.md'
rm small/docs/user/index.md
refused 'no first page' 'there is no docs/user/index.md'

# ---- the search, in Chromium where it is installed, from the file and without a network
browser=$(command -v chromium || command -v chromium-browser || command -v google-chrome)
if [[ -z $browser ]]; then
    echo "$name: no chromium here (apt-get install chromium), so the search isn't tried in a browser"
    finish
fi
apart=()
unshare -rn true 2>err && apart=(unshare -rn)
# finds WORD PAGE: the search for a word names this page.
finds() {
    timeout 300 "${apart[@]}" "$browser" --headless --no-sandbox --disable-gpu --no-first-run --disable-extensions \
        --disable-background-networking --disable-component-update --disable-sync --disable-default-apps \
        --virtual-time-budget=20000 --user-data-dir="$scratch/profile" --dump-dom "file://$scratch/html/search.html?q=$1" >dom.html 2>browser.log
    holds "in Chromium: the search for $1" grep -qF "href=\"$2.html" <(sed -n '/id="search-results"/,$p' dom.html)
    rm -rf profile
}
finds M10 reference/codes
finds tutorial index
finish
