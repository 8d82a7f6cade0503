#!/usr/bin/env bash
# ./setup: what it says, installs and ends with, over a package manager that is made up; how tools/ssign-keys and tools/archive
# find a Python. Where debootstrap, its packages and root are to be had, also a fresh Debian of two releases, in which it has to
# come to the verdict in under a minute, and to run the scripts that are named to it. A network that is slow or missing is no
# failure.
# shellcheck source=tests/lib.sh
. "$(dirname -- "$0")/lib.sh"
copy=$scratch/copy
bin=$scratch/bin
policy=$scratch/policy-rc.d
mkdir -p -- "$copy/tests" "$copy/tools" "$bin" "$scratch/none"
python=$(python3 -c 'import sys; print(sys.executable)')
cd -- "$copy" || exit 1

# A copy that looks for nothing in the folders of this machine, and doesn't wait long.
sed -e "s|/usr/local/bin /usr/bin\$|$scratch/none|; s|/usr/bin/python3|$scratch/none/python3|g; s|^PATH=.*||; s|^policy=.*|policy=$policy|" \
    -e "s,^/usr/include\|^/usr/lib/python3/dist-packages\|^/lib/systemd,$scratch/none,; s/apt 600 /apt 15 /" \
    -- "$root/setup" >setup
for it in ssign-keys archive; do
    sed "s|/usr/bin/python3 /usr/local/bin/python3|$scratch/none/python3|" -- "$root/tools/$it" >"tools/$it.true"
done
# shellcheck disable=SC2016
{
    printf '#!/bin/sh\necho "ssign-keys $*"\ncat "%s"\nexit "${ENDS-0}"\n' "$scratch/verdict" >tools/ssign-keys
    printf '#!/bin/sh\necho "all.sh $*"\necho "5 passed, 0 failed, 2 skipped"\n' >tests/all.sh
    printf '#!/bin/sh\necho "$*" >>"%s/asked"\n. "%s/does"\n' "$scratch" "$scratch" >"$bin/apt-get"
    printf '#!/bin/sh\necho "${FAKE_ID-0}"\n' >"$bin/id"
    printf '#!/bin/sh\n[ "$1" = -n ] && [ ! "${ASKS-}" ] || exit 1\nshift\nFAKE_ID=0 exec "$@"\n' >"$bin/sudo"
    # a Python that has the module, and one that hasn't
    printf '#!/bin/sh\nexec "%s" "$@"\n' "$python" >"$scratch/with"
    printf '#!/bin/sh\nexec "%s" -S "$@"\n' "$python" >"$scratch/without"
}
chmod 755 setup tools/* tests/all.sh "$bin"/* "$scratch/with" "$scratch/without"
for it in sh bash cat tail mktemp rm mv cp dirname grep chmod date timeout env true; do
    ln -s -- "$(type -P "$it")" "$bin/$it"
done
echo 'Verdict: made up' >"$scratch/verdict"
example='ssign-keys verify --key examples/signed/public-key.pem examples/signed/signed.frames'
verdict=$example$'\n''Verdict: made up'
# what apt-get does where all goes well: Python comes with the last step
# shellcheck disable=SC2016
good='case "$*" in *" install "*-s\ *|*--download-only*) ;; *" install "*) cp "'$scratch'/with" "'$bin'/python3"; cat "'$policy'" >"'$scratch'/policy-then" ;; esac'

# sets WHAT: what apt-get does. Nothing was asked yet, and no Python is there.
sets() {
    printf '%s\n' "$1" >"$scratch/does"
    rm -f -- "$scratch/asked" "$scratch/policy-then" "$policy" "$policy.kept" "$bin/python3"
}
# setup WORD..: runs the copy where nothing else is in PATH.
setup() {
    PATH=$bin timeout "$patience" "$copy/setup" "$@" >"$scratch/out" 2>"$scratch/err" </dev/null
    status=$?
    sed -i -E 's/ in [0-9]+ seconds$/ in N seconds/' "$scratch/err"
}
# asked LINE..: these commands were asked of apt-get, without the options that are always there.
asked() {
    diff <(printf '%s\n' "$@") <(sed -E 's/-q -y (-o [^ ]+ )+//' -- "$scratch/asked")
}
missing='setup: missing: Python 3.9 or newer, its module cryptography.'
pair='python3 python3-cryptography'
runs="setup: runs ./tools/$example"
line="apt-get install --no-install-recommends $pair"

# ---- run
sets "$good"
setup run
expect 'run: it installs two packages, and checks' 0 "$verdict" "$missing Installs $pair, and what these depend on
setup: installed $pair in N seconds
$runs"
holds 'run: what it asked for' asked update "install --no-install-recommends -s $pair" "install --no-install-recommends --download-only $pair" \
    "install --no-install-recommends $pair"
rm -f -- "$scratch/asked"
setup run
expect 'run: all is there' 0 "$verdict" "$runs"
holds 'run: then apt-get is not asked' test ! -e "$scratch/asked"
ENDS=1 setup run
expect 'run: an example with findings' 1 "$verdict" "$runs"$'\n''setup: the example is not clean here, and has to be'
sets "$good"
setup run --no-install
expect 'run --no-install' 3 "$line" "$missing This installs it:"
holds 'run --no-install: apt-get is not asked' test ! -e "$scratch/asked"
cp -- "$scratch/without" "$bin/python3"
cp -- "$scratch/without" "$scratch/none/python3"
setup run --no-install
expect 'run: Python is there, without the module' 3 'apt-get install --no-install-recommends python3-cryptography' \
    'setup: missing: its module cryptography. This installs it:'
cp -- "$scratch/with" "$scratch/none/python3"
setup run
expect 'run: another Python has the module' 0 "$verdict" "$runs"
rm -- "$scratch/none/python3"
sets "$good"
FAKE_ID=1000 setup run
expect 'run: by sudo' 0 "$verdict" "$missing Installs $pair, and what these depend on, by sudo
setup: installed $pair in N seconds
$runs"
sets "$good"
FAKE_ID=1000 ASKS=1 setup run
expect 'run: sudo asks for a password' 3 "$line" "$missing This isn't root, and sudo asks for a password, so nothing is installed. This installs it:"
mv -- "$bin/sudo" "$scratch/sudo"
FAKE_ID=1000 setup run
expect 'run: no sudo' 3 "$line" "$missing This isn't root, and there is no sudo, so nothing is installed. This installs it:"
mv -- "$scratch/sudo" "$bin/sudo"
sets 'echo "E: no network" >&2; exit 100'
setup run
expect 'run: the network gives nothing' 3 '' "$missing Installs $pair, and what these depend on
setup: apt-get update failed: E: no network
setup: python3 can't be installed: E: no network
setup: python3-cryptography can't be installed: E: no network"
# shellcheck disable=SC2016
sets 'case "$*" in *--download-only*) while :; do :; done ;; esac'
setup run
expect 'run: the network hangs' 3 '' "$missing Installs $pair, and what these depend on
setup: nothing is installed: "
sets true
setup run
expect 'run: what was installed does not help' 3 '' "$missing Installs $pair, and what these depend on
setup: installed $pair in N seconds
setup: no Python here is 3.9 or newer and has the module cryptography"
mv -- "$bin/apt-get" "$scratch/apt-get"
setup run
expect 'run: no apt-get' 3 '' "$missing There is no apt-get here, so install this by the means of your system"
mv -- "$scratch/apt-get" "$bin/apt-get"

# ---- services
holds 'services: none may be started meanwhile' test ! -e "$scratch/policy-then"
sets "$good"
setup run
holds 'services: while packages are installed, none may be started' test "$(sh "$scratch/policy-then"; echo $?)" = 101
holds 'services: nothing is left of that' test ! -e "$policy" -a ! -e "$policy.kept"
sets "$good"
echo 'exit 104' >"$policy"
setup run
holds 'services: what was there does not count meanwhile' test "$(sh "$scratch/policy-then"; echo $?)" = 101
holds 'services: it is there again' test "$(cat -- "$policy"; ls -- "$policy.kept" 2>&1 | wc -l)" = $'exit 104\n1'
cp -- "$scratch/policy-then" "$policy.left"
sets "$good"
mv -- "$policy.left" "$policy" && echo 'exit 104' >"$policy.kept"
setup run
holds 'services: what a run left that was killed' test "$(cat -- "$policy")" = 'exit 104'
sets "$good"
mkdir -- "$policy.kept" && touch -- "$policy.kept/it" "$policy"
setup run
expect 'services: they could be started' 3 '' "$missing Installs $pair, and what these depend on
setup: $policy can't be written, so services would be started; nothing is installed"
holds 'services: then nothing is installed' test ! -e "$scratch/asked"
rm -r -- "$policy.kept"

# ---- test and tools
all='python3 python3-cryptography'
while read -r _ it; do
    [[ ! $it ]] || all+=" $it"
done < <(sed -n "/^tools='/,/^'/p" -- "$root/setup" | sed 1d)
sets "$good"
setup test --no-install verify
expect 'test --no-install' 3 "apt-get install --no-install-recommends $all" 'SOME TEXT'
holds 'test --no-install: each is named' grep -qF 'missing: Python 3.9 or newer, its module cryptography, parallel, openssl, ' "$scratch/err"
setup tools --no-install
expect 'tools --no-install' 3 "apt-get install --no-install-recommends $all" 'SOME TEXT'
holds 'no-install: apt-get is not asked' test ! -e "$scratch/asked"
setup test -j 2 verify keys
expect 'test: it installs, and runs the tests' 0 $'all.sh -j 2 verify keys\n5 passed, 0 failed, 2 skipped' 'SOME TEXT'
holds 'test: what is installed' grep -qxF "setup: installed $all in N seconds" "$scratch/err"
holds 'test: what starts later' grep -qx 'setup: no service was started; sshd and rsyslogd start with the next boot, .*' "$scratch/err"
FAKE_ID=1000 ASKS=1 setup test
expect 'test: where it may not install, it goes on' 0 "apt-get install --no-install-recommends ${all#"$pair "}"$'\nall.sh \n5 passed, 0 failed, 2 skipped' 'SOME TEXT'
# shellcheck disable=SC2016
sets 'case "$*" in *-s*tidy*) echo "E: Unable to locate package tidy" >&2; exit 100 ;; esac; '"$good"
setup tools
expect 'tools: a package that is unknown' 3 '' 'SOME TEXT'
holds 'tools: it is named' grep -qxF "setup: tidy can't be installed: E: Unable to locate package tidy" "$scratch/err"
holds 'tools: the others are installed' grep -qxF "setup: installed ${all/ tidy/} in N seconds" "$scratch/err"
while read -r it _; do
    case $it in
    /*) touch -- "$scratch/none/${it##*/}" ;;
    ?*) ln -s -- "$bin/true" "$bin/$it" ;;
    esac
done < <(sed -n "/^tools='/,/^'/p" -- "$root/setup" | sed '1d;$d')
rm -f -- "$scratch/asked"
setup tools
expect 'tools: all is there' 0 '' ''
holds 'tools: then apt-get is not asked' test ! -e "$scratch/asked"
for words in '' none '--no-install run' 'run more' 'tools more' 'run --no-install more'; do
    read -r -a given <<<"$words"
    setup "${given[@]}"
    expect "the words '$words'" 2 '' 'SOME TEXT'
done

# ---- how the tools find a Python
need_program
mkdir -- "$scratch/tools" "$scratch/other"
for it in ssign_keys ssign_archive; do
    ln -s -- "$root/tools/$it" "$scratch/tools/$it"
done
for it in ssign-keys archive; do
    cp -- "$copy/tools/$it.true" "$scratch/tools/$it" && chmod 755 "$scratch/tools/$it"
done
# tool NAME WORD..: runs a tool where only these folders are in PATH.
tool() {
    SSIGN=$program PATH=$bin:$scratch/other timeout "$patience" "$scratch/tools/$1" "${@:2}" >"$scratch/out" 2>"$scratch/err" </dev/null
    status=$?
}
signed=(--key "$root/examples/signed/public-key.pem" "$root/examples/signed/signed.frames")
rm -f -- "$bin/python3"
tool ssign-keys verify "${signed[@]}"
expect 'ssign-keys: no Python' 2 '' \
    "ssign-keys: Python 3.9 or newer is missing; on Debian and Ubuntu \`apt-get install python3-cryptography\` installs it"
tool archive --version
expect 'archive: no Python' 2 '' "ssign-archive: Python 3.9 or newer is missing; on Debian and Ubuntu \`apt-get install python3\` installs it"
for it in ssign-keys archive; do
    # a later Python warns of what an earlier one passes over
    holds "$it: no Python warns of its first lines" python3 -W error -c 'import sys; compile(open(sys.argv[1]).read(), sys.argv[1], "exec")' "$root/tools/$it"
done
cp -- "$scratch/without" "$bin/python3"
tool archive --version
expect 'archive: it needs no module' 0 'SOME TEXT' ''
cp -- "$scratch/with" "$scratch/other/python3.9"
need_cryptography
tool ssign-keys verify "${signed[@]}"
expect 'ssign-keys: another Python has the module' 0 'SOME TEXT' ''
holds 'ssign-keys: the verdict' grep -q '^Verdict: All 10 announced messages' "$scratch/out"
PATH=$bin:$PATH python3 "$root/tools/ssign-keys" verify "${signed[@]}" >"$scratch/out" 2>"$scratch/err"
status=$?
expect 'ssign-keys: a Python that is named stays' 2 '' \
    "ssign-keys: the Python module cryptography is missing; on Debian and Ubuntu \`apt-get install python3-cryptography\` installs it"

# ---- a fresh Debian
releases=(bookworm trixie)
scripts=(clean ask carry)
# fresh RELEASE: makes one in a folder, and runs ./setup there. What doesn't come by the network in time is the reason in RELEASE.why.
fresh() {
    local release=$1 folder=$scratch/$1 began inside=(chroot "$scratch/$1" env -i PATH=/usr/sbin:/usr/bin:/sbin:/bin ${http_proxy:+http_proxy="$http_proxy"})
    if ! timeout -k 10 300 unshare -m debootstrap --variant=minbase "$release" "$folder" http://deb.debian.org/debian >"$release.made" 2>&1; then
        echo "debootstrap made none in 300 seconds: $(tail -n 1 -- "$release.made")" >"$release.why"
        return
    fi
    mkdir -- "$folder/suhvatek" && tar -x -C "$folder/suhvatek" <"$scratch/archive" || return
    "${inside[@]}" apt-mark showmanual | sort >"$release.before"
    began=$(date +%s)
    timeout -k 10 90 "${inside[@]}" /suhvatek/setup run >"$release.out" 2>"$release.err" </dev/null
    echo "$? $(($(date +%s) - began))" >"$release.end"
    "${inside[@]}" apt-mark showmanual | sort >"$release.after"
    timeout -k 10 30 "${inside[@]}" /suhvatek/setup run >"$release.again" 2>&1 </dev/null
    # scripts need /dev/fd
    ln -sfn -- /proc/self/fd "$folder/dev/fd"
    began=$(date +%s)
    # shellcheck disable=SC2016
    timeout -k 10 600 unshare -m sh -c 'mount -t proc proc "$1/proc" && shift && exec "$@"' in "$folder" "${inside[@]}" \
        /suhvatek/setup test "${scripts[@]}" >"$release.tests" 2>"$release.tests.err" </dev/null
    echo "$? $(($(date +%s) - began))" >"$release.tests.end"
}
# checks_of RELEASE: what has to hold of it. The network may take its time.
checks_of() {
    local release=$1 ended took network
    if [[ -s $release.why ]]; then
        skip "a fresh $release: $(<"$release.why")"
        return
    fi
    read -r ended took <"$release.end"
    network=$(sed -nE 's/^setup: installed .* in ([0-9]+) seconds$/\1/p' "$release.err")
    if [[ $ended == 124 || $took -ge 60 && ${network:-60} -gt 40 ]] || grep -q "can't be installed\|nothing is installed" "$release.err"; then
        skip "a fresh $release: apt-get took too long: $took seconds in all; $(tail -n 1 -- "$release.err")"
        return
    fi
    echo "$name: a fresh $release: $took seconds, ${network:-0} of them for apt-get"
    tell "a fresh $release: ./setup run" "$([[ $ended == 0 ]] || cat -- "$release.out" "$release.err")"
    holds "a fresh $release: the verdict" test "$(tail -n 1 -- "$release.out")" = \
        'Verdict: All 10 announced messages are present and unchanged, and each other stored message is a verified block.'
    holds "a fresh $release: in under a minute" test "$took" -lt 60
    holds "a fresh $release: what is said" test "$(sed -E 's/^(setup: [a-z]*).*/\1/' "$release.err")" = $'setup: missing\nsetup: installed\nsetup: runs'
    holds "a fresh $release: two packages were asked for" test "$(comm -13 "$release.before" "$release.after" | xargs)" = "$pair"
    holds "a fresh $release: services may be started again" test ! -e "$release/usr/sbin/policy-rc.d"
    holds "a fresh $release: a second run installs nothing" test "$(grep -c '^setup: ' "$release.again").$(tail -n 1 -- "$release.again")" = "1.$(tail -n 1 -- "$release.out")"
    checks_of_tests "$release"
}
# checks_of_tests RELEASE: what has to hold of ./setup test there.
checks_of_tests() {
    local release=$1 ended took said each
    read -r ended took <"$release.tests.end"
    if [[ $ended == 124 ]] || grep -q "can't be installed\|nothing is installed" "$release.tests.err"; then
        skip "a fresh $release: ./setup test: apt-get took too long or failed: $took seconds in all; $(tail -n 1 -- "$release.tests.err")"
        return
    fi
    said=$(tail -n 1 -- "$release.tests")
    each="^($(IFS='|' && echo "${scripts[*]}")): [1-9][0-9]* passed, 0 failed"
    echo "$name: a fresh $release: ./setup test ${scripts[*]}: $said, in $took seconds"
    tell "a fresh $release: ./setup test" "$([[ $ended == 0 ]] || cat -- "$release.tests" "$release.tests.err")"
    holds "a fresh $release: the last line counts" grep -qxE '[1-9][0-9]* passed, 0 failed, [0-9]+ skipped' <(echo "$said")
    holds "a fresh $release: each script that was named ran" test "$(grep -cE "$each" "$release.tests")" = ${#scripts[@]}
    holds "a fresh $release: what the tests need is installed" grep -qxE 'setup: installed .* in [0-9]+ seconds' "$release.tests.err"
}
cd -- "$scratch" || exit 1
if [[ $EUID != 0 ]] || ! command -v debootstrap >"$scratch/fault" || ! unshare -m true 2>"$scratch/fault"; then
    skip 'a fresh Debian, for which it takes root, debootstrap and unshare'
elif ! git -c "safe.directory=$root" -C "$root" archive HEAD >"$scratch/archive" 2>"$scratch/fault"; then
    skip "a fresh Debian, because git archives nothing here: $(head -n 1 "$scratch/fault")"
else
    for it in "${releases[@]}"; do
        fresh "$it" &
    done
    wait
    for it in "${releases[@]}"; do
        checks_of "$it"
    done
fi
finish
