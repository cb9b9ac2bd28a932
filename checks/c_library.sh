#!/usr/bin/env bash
# Builds the C library and tries it as a C programmer would: the symbols that it needs and exports, the same rules in plain C
# (c_speed.c), the header as C99, C11 and C++17, demo.c alone, under the sanitizers and under valgrind, the example of
# contrib/c/README.md, the Debian packages, the client in Python with the library and without, the clients with notes (in C, Go, C#
# and Java), the commands of the library's pages, and a build for 64-bit ARM under qemu. The clients draw from PROGRAM, by default
# crates/s10/out/s10, and each is killed KILLS times, by default 100. LIBRARY names a static library that is built already. Says
# what it skipped because the machine lacks it. The last line is `c library ok`, or the status is not 0.
#
#     [LIBRARY=LIBRARY.a] checks/c_library.sh [PROGRAM [KILLS]]
set -euo pipefail
top=$(dirname "$(dirname "$(readlink -f "${BASH_SOURCE[0]}")")")
c=$top/contrib/c
work=$(mktemp -d)
trap 'rm -rf "$work"' EXIT
cd "$work"
strict="-Wall -Wextra -Wpedantic -Werror"

fail() {
    echo "failed: $1" >&2
    exit 1
}

# have TOOL..: whether the machine has each of them; says so if not.
have() {
    local tool
    for tool in "$@"; do
        if ! command -v "$tool" >/dev/null; then
            echo "skipped $what: $tool"
            return 1
        fi
    done
}

# in_git: whether git can read this repository; says so if not.
in_git() {
    git -C "$top" rev-parse -q --verify HEAD >/dev/null 2>&1 || { echo "skipped $what: git with this repository"; return 1; }
}

echo "build, install, check"
make -s -C "$c" BUILD="$work/build" PREFIX="$work/prefix" all check install >make.log 2>&1 || { cat make.log; fail make; }
grep passed make.log
library=$work/build/libs10.a
shared=$work/prefix/lib/libs10.so
version=$(sed -n 's/^## \([0-9.]*\).*/\1/p' "$top/CHANGELOG.md" | head -n 1)
cat >version.c <<'END'
#include "s10.h"
#include <stdio.h>
int main(void) {
    int number = S10_LIBRARY_VERSION_NUMBER;
    return printf("%s %d.%d.%d\n", S10_LIBRARY_VERSION, number / 10000, number / 100 % 100, number % 100) < 0;
}
END
cc -std=c11 $strict -I"$c" version.c -o version
[ "$(./version)" = "$version $version" ] || fail "s10.h has the version $(./version), CHANGELOG.md has $version"
[ -e "$shared.$version" ] || fail "libs10.so has another version than s10.h"
grep -qx "version = \"$version\"" "$top/contrib/python/pyproject.toml" || fail "pyproject.toml has another version"

# No function but memory functions of C is needed; what the header declares and nothing else is exported.
needed=$(nm -u "$library" | awk '$1 == "U" {print $2}' | sort -u | xargs)
[ -z "$(tr ' ' '\n' <<<"$needed" | grep -vxE 'memcpy|memmove|memset')" ] || fail "the library needs $needed"
exported=$(nm -D --defined-only "$shared" | awk '{print $3}' | sort | xargs)
declared=$(grep -oE '\bs10_[a-z_]+\(' "$c/s10.h" | tr -d '(' | sort -u | xargs)
[ "$exported" = "$declared" ] || fail "exported $exported, declared $declared"
echo "needs $needed; exports $(wc -w <<<"$exported") functions"

# The library and the same rules in plain C: equal results, and the time of both.
renamed=$(sed 's/\bs10_\([a-z_]*\)/-D&=plain_\1/g' <<<"$declared")
cc -std=c99 $strict -O2 $renamed -c "$c/s10_plain.c" -o plain.o
cc -std=c11 $strict -O2 -I"$c" "$top/checks/c_speed.c" plain.o "$library" -o c_speed
./c_speed

echo '#include "s10.h"' >header.c
cp header.c header.cc
for compiler in gcc clang; do
    what="header with $compiler"
    have $compiler || continue
    for standard in c99 c11; do $compiler -std=$standard $strict -I"$c" -fsyntax-only header.c; done
done
for compiler in g++ clang++; do
    what="header with $compiler"
    # A compiler for C++ may be there without its library.
    echo '#include <cstdint>' >none.cc
    if have $compiler && $compiler -std=c++17 -fsyntax-only none.cc 2>/dev/null; then
        $compiler -std=c++17 $strict -I"$c" -fsyntax-only header.cc
    fi
done

# The sanitizers of some compilers do not work on kernels that place memory at random in more bits. An empty program shows it.
what="demo with sanitizers"
sanitize="-g -O1 -fsanitize=address,undefined -fno-sanitize-recover=all"
if have clang; then
    echo 'int main(void) { return 0; }' >none.c
    still=$(setarch "$(uname -m)" -R true 2>/dev/null && echo "setarch $(uname -m) -R") || true
    if clang $sanitize none.c -o none 2>/dev/null && $still ./none 2>/dev/null; then
        clang -std=c11 $strict -I"$c" $sanitize "$c/demo.c" "$library" -o sanitized
        $still ./sanitized
    else
        echo "skipped $what: clang with sanitizers"
    fi
fi
what="demo under valgrind"
if have valgrind; then
    if valgrind -q --error-exitcode=9 /bin/true >/dev/null 2>&1; then
        valgrind -q --error-exitcode=9 build/demo
    else
        echo "skipped $what: valgrind does not run here"
    fi
fi

# The example of the page, by pkg-config, as C and as C++, over the installed library.
awk '/^```c$/ {inside = 1; next} /^```/ {inside = 0} inside' "$c/README.md" >label.c
awk '/^\$ \.\/label / {inside = 1} /^```/ {inside = 0} inside' "$c/README.md" >shown
cp label.c label.cc
what="example of contrib/c/README.md"
if have pkg-config c++; then
    export PKG_CONFIG_PATH=$work/prefix/lib/pkgconfig LD_LIBRARY_PATH=$work/prefix/lib
    flags=$(pkg-config --cflags --libs s10)
    for compile in "cc -std=c11 label.c" "c++ -std=c++17 label.cc"; do
        $compile $strict $flags -o label
        bash -c "$(sed -n 's/^\$ //p' shown)" >came
        diff <(tail -n +2 shown) came || fail "$compile"
    done
fi

# The Debian packages: built twice, the same byte for byte; installed into a folder of their own; used; removed.
what="Debian packages"
if have dpkg dpkg-deb dpkg-shlibdeps dpkg-architecture strip pkg-config git && in_git; then
    export MAINTAINER=${MAINTAINER:-Nobody <nobody@s10.example>}
    mkdir -p packages again root/var/lib/dpkg/{info,updates,triggers}
    touch root/var/lib/dpkg/{status,available}
    bash "$top/contrib/make_deb.sh" "$library" packages >/dev/null
    bash "$top/contrib/make_deb.sh" "$library" again >/dev/null
    diff -r packages again || fail "two builds of the packages differ"
    in_root="dpkg --root=$work/root --force-not-root --force-depends --force-bad-path"
    $in_root -i packages/libs10-0_*.deb packages/libs10-dev_*.deb >dpkg.log 2>&1 || { cat dpkg.log; fail "dpkg -i"; }
    libraries=$(dirname "$(find root/usr -name s10.pc)")
    for link in "" -static; do
        flags=$(PKG_CONFIG_SYSROOT_DIR=$work/root PKG_CONFIG_LIBDIR=$work/$libraries PKG_CONFIG_PATH='' \
            PKG_CONFIG_ALLOW_SYSTEM_CFLAGS=1 PKG_CONFIG_ALLOW_SYSTEM_LIBS=1 pkg-config --cflags --libs s10)
        cc -std=c11 $strict $link root/usr/share/doc/libs10-dev/examples/demo.c $flags -o packaged
        LD_LIBRARY_PATH=$work/$(dirname "$libraries") ./packaged
    done
    (cd root/usr/share/doc/libs10-dev/examples && cc -std=c11 $strict s10_draw.c s10_client.c $flags -o "$work/packaged_draw")
    $in_root -r libs10-dev libs10-0 >dpkg.log 2>&1 || { cat dpkg.log; fail "dpkg -r"; }
    left=$(find root -path root/var/lib/dpkg -prune -o ! -type d -print)
    [ -z "$left" ] || fail "removed packages left $left"
    ls packages | xargs
    what="lintian of the packages"
    if have lintian; then
        lintian --allow-root --fail-on error,warning packages/*.deb
    fi
fi

program=$(readlink -m "${1:-$top/crates/s10/out/s10}")
what="client in Python"
if have python3; then
    cp -r "$top/contrib/python" python
    mkdir -p docs && cp "$top/docs/DATAGRAMS.md" docs
    mkdir contrib && mv python contrib/python
    S10_LIBRARY=$shared python3 contrib/python/test_library.py 2>python.log || { cat python.log; fail test_library.py; }
    echo "test_library.py: $(grep '^Ran' python.log)"
    for uses in "" "$shared"; do
        what="client in Python with a server, library '$(basename "$uses")'"
        if [ -x "$program" ]; then
            S10=$program S10_LIBRARY=$uses python3 contrib/python/test_s10client.py 2>python.log || { cat python.log; fail "$what"; }
            echo "$what: $(grep '^Ran' python.log)"
        else
            echo "skipped $what: $program is not built"
        fi
    done
fi

# The clients with notes, killed at random moments over a network that loses datagrams.
what="clients with notes"
if have g++; then g++ -std=c++17 $strict -I"$c" -x c++ -fsyntax-only "$c/s10_client.h"; fi
bash "$top/checks/clients.sh" "$library" clients
if [ -x "$program" ] && have python3; then
    for draw in clients/s10_draw{,_go,_csharp,_java,_arm}; do
        [ -x "$draw" ] || continue
        S10=$program LD_LIBRARY_PATH=$work/clients/prefix/lib \
            python3 "$c/test_s10_client.py" "$draw" "${2:-100}" >draw.log 2>&1 || { cat draw.log; fail "$draw"; }
        echo "${draw#*/}: $(tail -n 1 draw.log)"
    done
else
    echo "skipped $what: $program is not built"
fi

what="pages of the library"
if have python3; then
    python3 "$top/checks/library_pages.py" "$program" "${LIBRARY:-$top/crates/s10_c/out/libs10_c.a}"
fi

# The same source is proved and compiled for another processor in a copy, since out/ has the library of this one.
what="64-bit ARM"
if have aarch64-linux-gnu-gcc qemu-aarch64; then
    mkdir -p copy/crates
    cp "$top/HANDLES" copy
    for crate in s10_core s10_wire s10_lines s10_plain s10_c; do
        grep -E "^$crate( staticlib)?:" "$top/crates.txt" >>copy/crates.txt
        mkdir "copy/crates/$crate"
        tar -C "$top/crates/$crate" --exclude=out --exclude=must-fail -c . | tar -C "copy/crates/$crate" -x
    done
    (cd copy/crates/s10_c && rt lib --target aarch64-unknown-linux-gnu) >arm.log 2>&1 || { tail -n 20 arm.log; fail "ARM build"; }
    grep -o 'logic=proved functions=[0-9]* target=[^ ]*' arm.log | tail -n 1
    aarch64-linux-gnu-gcc -std=c11 $strict -I"$c" -static -O2 "$c/demo.c" copy/crates/s10_c/out/libs10_c.a -o arm
    qemu-aarch64 ./arm
fi
echo "c library ok"
