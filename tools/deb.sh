#!/usr/bin/env bash
# Makes a Debian package of what `make install` installs, in the folder BUILD. `make deb` calls it. Where SOURCE_DATE_EPOCH
# is set, two runs over the same files give the same package; else the date is that of the last commit, or the present.
# The package has the book as HTML where what tools/make-docs needs is here.
set -u
export LC_ALL=C

self=$(readlink -f -- "${BASH_SOURCE[0]}") && root=$(dirname -- "$(dirname -- "$self")") || exit 2
build=${BUILD:-build}
package=suhvatek
revision=1
maintainer='Suhvatek maintainers <maintainers@users.noreply.suhvatek.example>'
umask 022

say() {
    printf 'deb: %s\n' "$*" >&2
}

refuse() {
    say "$*"
    exit 2
}

# newest_glibc PROGRAM: the newest version of the C library whose symbols the program needs. They stand in it as texts.
newest_glibc() {
    grep -aoE 'GLIBC_[0-9]+(\.[0-9]+)+' "$1" | sort -uV | tail -n 1 | sed 's/^GLIBC_//'
}

# is_amd64 PROGRAM: whether the two octets of the machine in its ELF header are those of x86-64.
is_amd64() {
    [[ $(od -An -tx1 -j18 -N2 -- "$1") == ' 3e 00' ]]
}

# build_book: the book as HTML, in $work/docs. Where a tool for it is missing, the package has no HTML.
build_book() {
    SSIGN=$program "$root/tools/make-docs" "$work/docs"
    case $? in
    0) ;;
    2) say 'the package has no HTML' ;;
    *) refuse "the book can't be built" ;;
    esac
}

# stage: installs everything into $tree as Debian wants it.
stage() {
    local page documents=$tree/usr/share/doc/$package
    build_book
    PREFIX=/usr DESTDIR=$tree PYTHON=/usr/bin/python3 BUILD=$work "$root/tools/install.sh" install || exit 2
    # dpkg keeps the list of the files
    rm -- "$tree/usr/share/suhvatek/installed" || exit 2
    mv -- "$tree/usr/share/zsh/site-functions" "$tree/usr/share/zsh/vendor-completions" || exit 2
    for page in "$tree"/usr/share/man/man[15]/*; do
        gzip -9n -- "$page" || exit 2
    done
    gzip -9n <"$root/CHANGELOG.md" >"$documents/changelog.gz" && rm -- "$documents/CHANGELOG.md" || exit 2
    write_changelog | gzip -9n >"$documents/changelog.Debian.gz" || exit 2
    mkdir -p -- "$tree/usr/share/lintian/overrides" &&
        write_overrides >"$tree/usr/share/lintian/overrides/$package" || exit 2
    if ! copy_licence "$documents/copyright"; then
        say 'the repository has no licence, so the package has no file copyright'
    fi
}

copy_licence() {
    local file
    for file in "$root"/{LICENSE,LICENCE,COPYING}{,.md,.txt}; do
        [[ -f $file ]] && cat -- "$file" >"$1" && return
    done
    return 1
}

# write_overrides: what lintian finds, and is meant so. Each has its reason above it.
write_overrides() {
    cat <<OVERRIDES
# The program is installed octet for octet as it was recorded or built, so that
# anybody can compare its SHA-256. strip would change it.
$package: unstripped-binary-or-object [usr/bin/ssign]
# The package is made from the sources by their own tools, and isn't uploaded
# to Debian. There is no bug that asks for it.
$package: initial-upload-closes-no-bugs [usr/share/doc/$package/changelog.Debian.gz:1]
OVERRIDES
    [[ ! -d $tree/usr/share/doc/$package/html ]] || cat <<OVERRIDES
# The book is read and searched from its folder, by the scripts of the Sphinx
# that built it. Those of another version may not fit, and nothing else is needed.
$package: embedded-javascript-library * [usr/share/doc/$package/html/_static/*]
OVERRIDES
}

write_changelog() {
    printf '%s (%s) unstable; urgency=medium\n\n  * Made from the sources; changelog.gz has what changed.\n\n -- %s  %s\n' \
        "$package" "$version" "$maintainer" "$(date -u -R -d "@$SOURCE_DATE_EPOCH")"
}

write_control() {
    local size
    # in KiB, each file rounded up, and one for each folder, as dpkg-gencontrol counts
    size=$(find "$tree/usr" -type f -printf '%s\n' -o -printf '1\n' | awk '{ sum += int(($1 + 1023) / 1024) } END { print sum }')
    cat <<CONTROL
Package: $package
Version: $version
Section: admin
Priority: optional
Architecture: amd64
Maintainer: $maintainer
Installed-Size: $size
Depends: libc6 (>= $glibc), python3 (>= 3.9), python3-cryptography
Suggests: bash-completion, gnupg, openssl, parallel, zstd
Description: reviews and signs logs of signed syslog messages
 ssign reports which messages of a stored syslog log are exactly those that
 their sender signed (RFC 5424, RFC 5848), which are missing or changed, and
 which no signature accounts for. It checks offline, even years later.
 .
 ssign-keys makes keys, signs stored logs, and checks signatures.
 ssign-archive cuts the log of a collector into parts.
CONTROL
}

[[ $# == 0 ]] || refuse 'it takes no words'
for tool in dpkg-deb gzip md5sum; do
    command -v "$tool" >/dev/null || refuse "the command $tool is missing"
done
[[ $build == /* ]] || build=$root/$build
if [[ -z ${SOURCE_DATE_EPOCH-} ]]; then
    SOURCE_DATE_EPOCH=$(git -C "$root" log -1 --format=%ct 2>/dev/null) && [[ $SOURCE_DATE_EPOCH ]] ||
        SOURCE_DATE_EPOCH=$(date +%s)
fi
# the threads of xz change its octets
export SOURCE_DATE_EPOCH DPKG_DEB_THREADS_MAX=1

work=$(mktemp -d) || exit 2
trap 'rm -rf -- "$work"' EXIT
tree=$work/$package
mkdir -p -- "$tree/DEBIAN" || exit 2
program=$(PREFIX=/usr DESTDIR='' "$root/tools/install.sh" program 2>/dev/null) || refuse 'there is no program to package: run make'
is_amd64 "$program" || refuse "$program isn't a program for amd64"
version=$("$program" --version </dev/null) && version=${version#ssign }-$revision || exit 2
glibc=$(newest_glibc "$program")
[[ $glibc ]] || refuse "$program doesn't name the C library that it needs"
stage
write_control >"$tree/DEBIAN/control" || exit 2
(cd -- "$tree" && find usr -type f -print0 | sort -z | xargs -0 md5sum) >"$tree/DEBIAN/md5sums" || exit 2
# with five digits chmod takes away the bit that a folder has from the one above it
find "$tree" -type d -exec chmod 00755 {} + && find "$tree" -exec touch -h -d "@$SOURCE_DATE_EPOCH" {} + || exit 2
name=${package}_${version}_amd64.deb
mkdir -p -- "$build" || refuse "the folder $build can't be made"
dpkg-deb --build --root-owner-group -Zxz "$tree" "$work/$name" >&2 || refuse 'dpkg-deb made no package'
mv -f -- "$work/$name" "$build/$name" || refuse "$build/$name can't be written"
say "made $build/$name"
