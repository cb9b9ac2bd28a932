#!/usr/bin/env bash
# Builds Debian packages for the architecture of this machine.
#
#   bash make_deb.sh PROGRAM [FOLDER]
#   bash make_deb.sh LIBRARY.a [FOLDER]
#
# Of the built program it builds s10, with the unit, the man page, the completions, the dissector and the pages. The man
# page and the completions are written from the help texts of this program. Of the built static library of c/README.md it
# builds libs10-0, the shared library, and libs10-dev, with the header, both libraries, the pkg-config file and the client.
#
# Prints the names of the packages, which are put into FOLDER (by default the current one). MAINTAINER is the packager, as
# 'Name <address>'; by default git's user.name and user.email or, if git does not know these, the author of the last commit.
# A page that names a page which the package lacks is a failure.
set -euo pipefail

if [ $# -lt 1 ] || [ $# -gt 2 ]; then
    sed -n '4,5p' "$0" >&2
    exit 2
fi
built=$(readlink -f "$1")
folder=$(readlink -f "${2:-.}")
contrib=$(dirname "$(readlink -f "${BASH_SOURCE[0]}")")
root=$(dirname "$contrib")

arch=$(dpkg --print-architecture)
libraries=lib/$(dpkg-architecture -qDEB_HOST_MULTIARCH)
if [ -n "${MAINTAINER:-}" ]; then
    maintainer=$MAINTAINER
elif who=$(git -C "$root" config user.name) && address=$(git -C "$root" config user.email); then
    maintainer="$who <$address>"
else
    maintainer=$(git -C "$root" log -1 --format='%an <%ae>')
fi
export SOURCE_DATE_EPOCH=${SOURCE_DATE_EPOCH:-$(git -C "$root" log -1 --format=%ct)}
date=$(date -Ru -d "@$SOURCE_DATE_EPOCH")

work=$(mktemp -d)
trap 'rm -rf "$work"' EXIT
umask 022

# put MODE FILE PATH: copies a file of this repository to its path in the package.
put() {
    install -D -m "$1" "$2" "$tree$3"
}

# start NAME: begins a package, with its changelog and copyright.
start() {
    name=$1
    tree=$work/$name
    doc=/usr/share/doc/$name
    mkdir -p "$tree/DEBIAN" "$tree$doc"
    gzip -9n > "$tree$doc/changelog.gz" <<END
s10 ($version) unstable; urgency=medium

  * Version $version.

 -- $maintainer  $date
END
    cat > "$tree$doc/copyright" <<END
Format: https://www.debian.org/doc/packaging-manuals/copyright-format/1.0/
Upstream-Name: Hapiwro

Files: *
Copyright: $(git -C "$root" log -1 --format=%cd --date=format:%Y) $(git -C "$root" log -1 --format=%an)
License: Apache-2.0
 On Debian systems the text of the Apache License, version 2.0, is in
 /usr/share/common-licenses/Apache-2.0.
END
}

# Prints the pages of the repository, each with its path from the top, and what they link to.
pages() {
    (cd "$root" && printf '%s\n' *.md docs/*.md contrib/README.md contrib/*/README.md contrib/page/s10.html contrib/page/s10.png contrib/ledger_page.png contrib/label.png)
}

# check_links: fails if a page of the package names a page, or links to a file, that is not in the list on standard input. The
# names are paths from the top of the repository, those in links are paths from the page.
check_links() {
    local page name lacking=0 files
    files=$(cat)
    while IFS=: read -r page name; do
        case $name in
        *://*) continue ;;
        ']('*) name=$(realpath -m --relative-to "$tree$doc" "$tree$doc/$(dirname "$page")/${name:2:-1}") ;;
        *) name=${name#[\`\ (]} ;;
        esac
        if ! grep -qxF "$name" <<< "$files"; then
            echo "$page of the package ${doc##*/} names $name, which it lacks" >&2
            lacking=1
        fi
    done < <(cd "$tree$doc" && grep -roE --include='*.md' \
        -e '\]\([^)#]+\)' -e '(docs|contrib)/[A-Za-z0-9_/]+\.(md|html)' -e '(^|[ (`])[A-Z_]+\.md' | sort -u)
    return "$lacking"
}

# needs_of FILE: prints which version of the C library a program or a shared library needs.
needs_of() {
    mkdir -p "$work/depends/debian"
    printf 'Source: s10\n\nPackage: s10\nArchitecture: any\n' > "$work/depends/debian/control"
    (cd "$work/depends" && dpkg-shlibdeps -O "$1" 2> /dev/null | sed -n 's/^shlibs:Depends=//p')
}

# finish: builds the package. The fields that differ, and the description, are read from standard input.
finish() {
    {
        cat <<END
Package: $name
Version: $version
Architecture: $arch
Maintainer: $maintainer
Installed-Size: $(du -k -s --apparent-size --exclude=DEBIAN "$tree" | cut -f1)
Priority: optional
END
        grep -v '^Depends: $'
    } > "$tree/DEBIAN/control"
    (cd "$tree" && find . -path ./DEBIAN -prune -o -type f -printf '%P\0' | sort -z | xargs -0 md5sum > DEBIAN/md5sums)
    package=$folder/${name}_${version}_$arch.deb
    dpkg-deb --root-owner-group -Zxz --build "$tree" "$package" > /dev/null
    echo "$package"
}

make_library() {
    version=$(sed -n 's/^#define S10_LIBRARY_VERSION "\(.*\)"/\1/p' "$contrib/c/s10.h")
    start libs10-dev
    make -s -C "$contrib/c" BUILD="$work/build" LIBRARY="$built" PREFIX=/usr LIBDIR="/usr/$libraries" \
        INCLUDEDIR=/usr/include DESTDIR="$tree" all install
    shared=$tree/usr/$libraries/libs10.so.$version
    strip --strip-unneeded --remove-section=.comment "$shared"
    strip --strip-debug --remove-section=.comment --enable-deterministic-archives "$tree/usr/$libraries/libs10.a"
    put 644 "$contrib/c/README.md" "$doc/README.md"
    check_links < <(pages) # Its page says that the others are in the package s10.
    for piece in demo.c s10_client.c s10_client.h s10_draw.c s10_plain.c; do
        put 644 "$contrib/c/$piece" "$doc/examples/$piece"
    done

    # The shared library is a package of its own, for programs that were linked with it.
    start libs10-0
    mkdir -p "$tree/usr/$libraries"
    mv "$shared" "${shared%/*}/libs10.so.0" "$tree/usr/$libraries"
    echo "libs10 0 libs10-0 (>= $version)" > "$tree/DEBIAN/shlibs"
    echo "activate-noawait ldconfig" > "$tree/DEBIAN/triggers"
    finish <<END
Depends: $(needs_of "$tree/usr/$libraries/libs10.so.$version")
Source: s10
Section: libs
Multi-Arch: same
Description: S10 identifiers of postal items and their datagrams, shared library
 Programs in C, and in languages that call C, read and make item identifiers
 of the UPU standard S10 with it, write the requests of the s10 service, and
 read its replies.
END

    name=libs10-dev tree=$work/libs10-dev
    finish <<END
Depends: libs10-0 (= $version)
Suggests: s10
Source: s10
Section: libdevel
Multi-Arch: same
Description: S10 identifiers of postal items and their datagrams, for C
 Programs in C, and in languages that call C, read and make item identifiers
 of the UPU standard S10 with it, write the requests of the s10 service, and
 read its replies.
 .
 The package has the header, the static library, the pkg-config file, and
 the sources of a client for POSIX systems.
END
}

make_program() {
    version=$("$built" --version | cut -d' ' -f2)
    start s10
    put 755 "$built" /usr/bin/s10
    strip --strip-unneeded --remove-section=.comment "$tree/usr/bin/s10"
    mkdir "$work/texts"
    python3 "$contrib/write_texts.py" "$built" "$work/texts"
    put 644 "$work/texts/s10.1" /usr/share/man/man1/s10.1
    gzip -9n "$tree/usr/share/man/man1/s10.1"
    put 644 "$work/texts/s10.bash" /usr/share/bash-completion/completions/s10
    put 644 "$work/texts/_s10" /usr/share/zsh/vendor-completions/_s10
    put 644 "$work/texts/s10.fish" /usr/share/fish/vendor_completions.d/s10.fish
    put 644 "$contrib/s10.service" /lib/systemd/system/s10.service
    put 644 "$contrib/s10.lua" "/usr/$libraries/wireshark/plugins/s10.lua"
    for page in $(pages); do
        put 644 "$root/$page" "$doc/$page"
    done
    check_links < <(cd "$tree$doc" && find . -type f -printf '%P\n')
    for piece in python/test_s10client.py turns.awk ledger_page.py label.py health; do
        put 644 "$contrib/$piece" "$doc/examples/$(basename "$piece")"
    done
    for piece in __init__.py libs10.py; do
        put 644 "$contrib/python/s10client/$piece" "$doc/examples/s10client/$piece"
    done
    for piece in "$contrib"/standby/*; do
        put 644 "$piece" "$doc/examples/standby/$(basename "$piece")"
    done
    write_scripts
    finish <<END
Depends: $(needs_of "$tree/usr/bin/s10")
Suggests: tshark
Section: net
Description: server and tools for S10 identifiers of postal items
 A post grants ranges of serials to its customers, and their label printers
 draw item identifiers of the UPU standard S10 from them, over UDP. A request
 that comes again gets the identifier that it was already given, and no
 identifier is given to two requests within the reuse interval.
 .
 The program makes, serves, reports and audits a ledger, which is an SQLite
 file, asks a server, and checks identifiers.
END
}

# write_scripts: writes what dpkg runs for the unit. It is neither enabled nor started: a ledger must be created first.
write_scripts() {
    cat > "$tree/DEBIAN/postinst" <<'END'
#!/bin/sh
set -e
if [ "$1" = configure ] || [ "$1" = abort-upgrade ] || [ "$1" = abort-deconfigure ] || [ "$1" = abort-remove ]; then
    if deb-systemd-helper debian-installed s10.service; then
        deb-systemd-helper unmask s10.service > /dev/null || true
        if deb-systemd-helper --quiet was-enabled s10.service; then
            deb-systemd-helper enable s10.service > /dev/null || true
        fi
    fi
    deb-systemd-helper update-state s10.service > /dev/null || true
    if [ -n "$2" ] && [ -d /run/systemd/system ]; then
        systemctl --system daemon-reload > /dev/null || true
        deb-systemd-invoke try-restart s10.service > /dev/null || true
    fi
fi
END
    cat > "$tree/DEBIAN/prerm" <<'END'
#!/bin/sh
set -e
if [ "$1" = remove ] && [ -d /run/systemd/system ]; then
    deb-systemd-invoke stop s10.service > /dev/null || true
fi
END
    cat > "$tree/DEBIAN/postrm" <<'END'
#!/bin/sh
set -e
# The ledger is never removed.
if [ "$1" = remove ]; then
    if [ -d /run/systemd/system ]; then
        systemctl --system daemon-reload > /dev/null || true
    fi
    if command -v deb-systemd-helper > /dev/null; then
        deb-systemd-helper mask s10.service > /dev/null || true
    fi
fi
if [ "$1" = purge ] && command -v deb-systemd-helper > /dev/null; then
    deb-systemd-helper purge s10.service > /dev/null || true
    deb-systemd-helper unmask s10.service > /dev/null || true
fi
END
    chmod 755 "$tree"/DEBIAN/{postinst,prerm,postrm}
}

case $built in
*.a) make_library ;;
*) make_program ;;
esac
