#!/usr/bin/env bash
# Builds the clients with notes for the checks that try them all: in C and, if the machine has the tools, in Go, C# and Java, and in
# C without the library for 32-bit ARM, under qemu. Says which it skipped. FOLDER gets the programs s10_draw*, and the C library in
# prefix/lib, in which they look for it.
#
#     checks/clients.sh LIBRARY.a FOLDER
set -euo pipefail
contrib=$(dirname "$(dirname "$(readlink -f "${BASH_SOURCE[0]}")")")/contrib
library=$(readlink -f "$1")
mkdir -p "$2"
folder=$(readlink -f "$2")

# have CLIENT TOOL..: whether the machine has the tools for a client; says so if not. The one in Java is for Java 17.
have() {
    local tool
    for tool in "${@:2}"; do
        command -v "$tool" >/dev/null || { echo "skipped client in $1: $tool"; return 1; }
    done
    [ "$1" != java ] || java -version 2>&1 | grep -q 'version "17\.' || { echo "skipped client in $1: java 17"; return 1; }
}

# build LANGUAGE TOOL..: builds a client if the machine has the tools.
build() {
    ! have "$@" || make -s -C "$contrib/bindings" BUILD="$folder" "$1"
}

make -s -C "$contrib/c" BUILD="$folder" LIBRARY="$library" PREFIX="$folder/prefix" all install s10_draw
export PKG_CONFIG_PATH=$folder/prefix/lib/pkgconfig GOCACHE=$folder/go GOFLAGS=-mod=mod
build go go pkg-config
build csharp mcs mono
build java javac java pkg-config
if have 'C for ARM' arm-linux-gnueabihf-gcc qemu-arm; then
    cd "$contrib/c"
    arm-linux-gnueabihf-gcc -std=c99 -Wall -Wextra -Wpedantic -Werror -O2 -DS10_PLAIN_C -static \
        s10_draw.c s10_client.c s10_plain.c -o "$folder/arm"
    printf '#!/bin/sh\nexec qemu-arm %s "$@"\n' "$folder/arm" >"$folder/s10_draw_arm"
    chmod +x "$folder/s10_draw_arm"
fi
