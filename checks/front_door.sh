#!/usr/bin/env bash
# Runs the first command of README.md as a stranger does: in a clone of the last commit, in an empty folder, with nothing built.
# Compares its line and its status, and that a second use builds nothing.
#
#     bash checks/front_door.sh
#
# It proves every crate of the program, which takes thirteen minutes and more. What passed is remembered beside the kit, by a
# checksum of all that the build reads: the sources, crates.txt, the Makefile, `s10` and the kit. The same is not built again.
set -eu -o pipefail

top=$(readlink -f "$(dirname "$(readlink -f "${BASH_SOURCE[0]}")")/..")
kit=$(dirname "$(dirname "$(readlink -f "$(command -v rattle)")")")
kept=$(dirname "$kit")/s10-kept
dir=$(mktemp -d)
trap 'rm -rf "$dir"' EXIT
wanted='RA473124829US valid registered'

fail() {
    echo "failed: $1"
    cat "$dir/log"
    exit 1
}

# Prints a checksum of all that the build in the clone reads. The kit counts by the sizes and times of its files.
sum_of_all() {
    local crates
    mapfile -t crates < <(make -n | sed -n 's/.*--crate-name \([a-z0-9_]*\) .*/\1/p')
    {
        git ls-files -s -- crates.txt Makefile s10 "${crates[@]/#/crates/}" | grep -v '/must-fail/'
        cat "$kit/KIT-ID"
        cd "$kit" && find bin c logic_built rattle/logic rlibs toolchain -type f -printf '%p %s %T@\n' | sort
    } | sha256sum | cut -d ' ' -f 1
}

git clone -q "$top" "$dir/clone"
cd "$dir/clone"
: >"$dir/log"
command=$(sed -n 's/^\(\.\/s10 .*[^ ]\) *# builds .*/\1/p' README.md)
[ "$command" = './s10 check RA473124829US' ] || fail "the first command of README.md is '$command'"
mark=$kept/front_door-$(sum_of_all)
if [ -e "$mark" ]; then
    echo "ok: passed before, with the same sources and kit: $(cat "$mark")"
    exit
fi

start=$SECONDS status=0
line=$($command 2>"$dir/log") || status=$?
[ "$status: $line" = "0: $wanted" ] || fail "status $status, '$line'"
took="$((SECONDS - start)) s on $(nproc) processors, $(date +%F)"
line=$($command 2>"$dir/log") || fail "status $? at the second use"
[ "$line" = "$wanted" ] && [ ! -s "$dir/log" ] || fail "a second use builds, or prints '$line'"
{ mkdir -p "$kept" && echo "$took" >"$mark"; } 2>"$dir/log" || echo "not remembered: $(cat "$dir/log")"
echo "ok: $took"
