#!/usr/bin/env bash
# Installs what the checks need and the machine lacks, from Debian's packages. Wants root. Says what it cannot have, which the
# checks then skip; this fails nothing.
#
#     sudo bash checks/tools.sh
set -u -o pipefail

# A command, and the package that has it.
tools='
make make
cc gcc
g++ g++
clang clang
pkg-config pkg-config
git git
python3 python3
mypy mypy
sqlite3 sqlite3
strip binutils
dpkg-architecture dpkg-dev
lintian lintian
valgrind valgrind
strace strace
unshare util-linux
ip iproute2
nft nftables
arping iputils-arping
glusterd glusterfs-server
chromium chromium
tshark tshark
zint zint
rsvg-convert librsvg2-bin
zbarimg zbar-tools
pdftoppm poppler-utils
zsh zsh
fish fish
mandoc mandoc
groff groff
systemd-analyze systemd
go golang-go
mcs mono-mcs
mono mono-runtime
java default-jdk-headless
java-22 openjdk-22-jdk-headless
aarch64-linux-gnu-gcc gcc-aarch64-linux-gnu
arm-linux-gnueabihf-gcc gcc-arm-linux-gnueabihf
mips-linux-gnu-gcc gcc-mips-linux-gnu
riscv64-linux-gnu-gcc gcc-riscv64-linux-gnu
qemu-aarch64 qemu-user
'
# Packages that no command shows: what clang's sanitizers, C for other processors and a Python that installs are made of.
packages='libclang-rt-dev libc6-dev-arm64-cross libc6-dev-armhf-cross libc6-dev-mips-cross libc6-dev-riscv64-cross python3-venv python3-setuptools python3-wheel'

[ "$(id -u)" = 0 ] || { echo 'tools: root installs packages'; exit 1; }
command -v apt-get >/dev/null || { echo 'tools: no apt-get'; exit 1; }
export DEBIAN_FRONTEND=noninteractive

# Whether a command is there. `java-22` is Java from that version on.
is_there() { # TOOL
    if [ "$1" = java-22 ]; then
        [ "$(java -version 2>&1 | sed -nE '1s/.*"([0-9]+).*/\1/p')" -ge 22 ] 2>/dev/null
    else
        command -v "$1" >/dev/null
    fi
}

# Prints the packages that are wanted and not there.
list_missing() {
    local tool package
    while read -r tool package; do
        [ -z "$tool" ] || is_there "$tool" || echo "$package"
    done <<<"$tools"
    for package in $packages; do
        [ "$(dpkg-query -W -f '${db:Status-Abbrev}' "$package" 2>/dev/null)" = 'ii ' ] || echo "$package"
    done
}

# Another one that installs is waited for.
apt_get() { # WORD..
    apt-get -qqy -o DPkg::Lock::Timeout=600 --no-install-recommends "$@" >/dev/null 2>&1
}

missing=$(list_missing)
[ -n "$missing" ] || { echo 'tools: all are there'; exit; }
# Word splitting separates the packages. If one cannot be had, the others are still installed.
# shellcheck disable=SC2086
apt_get update
apt_get install $missing ||
    for package in $missing; do
        apt_get install "$package"
    done
left=$(list_missing | xargs)
echo "tools: installed for $(wc -w <<<"$missing") packages that were missing${left:+; cannot be had: $left}"
