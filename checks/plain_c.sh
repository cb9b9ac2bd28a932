#!/usr/bin/env bash
# Checks contrib/c/s10_plain.c, the functions of s10.h in plain C, for machines without the library: each function over ten million
# datagrams against the library (plain_c.c), and then demo.c for 32-bit ARM, MIPS and RISC-V under qemu, as C99. MIPS is big-endian.
# There s10.h itself must be refused, unless the layouts are those for which the library is built. Says what the machine lacks.
#
#     checks/plain_c.sh LIBRARY.a [DATAGRAMS]
set -euo pipefail
top=$(dirname "$(dirname "$(readlink -f "${BASH_SOURCE[0]}")")")
c=$top/contrib/c
library=$(readlink -f "$1")
work=$(mktemp -d)
trap 'rm -rf "$work"' EXIT
cd "$work"
strict=(-Wall -Wextra -Wpedantic -Werror -O2)

fail() {
    echo "failed: $1" >&2
    exit 1
}

head -n 1 "$c/s10_plain.c" | grep -q 'NOT PROVED' || fail 'the first line of s10_plain.c does not say that it is not proved'

mapfile -t renamed < <(grep -oE '\bs10_[a-z_]+\(' "$c/s10.h" | tr -d '(' | sort -u | sed 's/^s10_\(.*\)/-D&=plain_\1/')
[ ${#renamed[@]} = 12 ] || fail "s10.h declares ${renamed[*]}"
cc -std=c99 "${strict[@]}" "${renamed[@]}" -c "$c/s10_plain.c" -o plain.o
cc -std=gnu11 "${strict[@]}" -I"$c" "$top/checks/plain_c.c" plain.o "$library" -o plain_c
./plain_c "${2:-10000000}"

echo '#include "s10.h"' >header.c
for machine in arm-linux-gnueabihf:qemu-arm mips-linux-gnu:qemu-mips riscv64-linux-gnu:qemu-riscv64; do
    compiler=${machine%:*}-gcc emulator=${machine#*:}
    for tool in "$compiler" "$emulator"; do
        command -v "$tool" >/dev/null || { echo "skipped ${machine%:*}: $tool"; continue 2; }
    done
    for standard in c99 c11; do
        "$compiler" -std=$standard "${strict[@]}" -I"$c" -DS10_PLAIN_C -fsyntax-only header.c
    done
    is_64=$("$compiler" -dM -E - </dev/null | grep -c 'define __SIZEOF_SIZE_T__ 8') || true
    if "$compiler" -std=c99 -I"$c" -fsyntax-only header.c 2>refused; then accepted=1; else accepted=0; fi
    [ "$accepted" = "$is_64" ] || fail "$compiler accepts s10.h without S10_PLAIN_C: $accepted"
    "$compiler" -std=c99 "${strict[@]}" -DS10_PLAIN_C -static "$c/demo.c" "$c/s10_plain.c" -o demo
    echo "${machine%:*}: $("$emulator" ./demo)"
done
echo 'plain C ok'
