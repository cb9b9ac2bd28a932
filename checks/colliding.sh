#!/usr/bin/env bash
# Compares the processor time of two replays of 999,900 Draws: keys that a stranger chose so that they collide under the kit's fast
# hash, whose seed is fixed, and as many other keys of the same customers. The hashes of a server have a seed of its own.
#
#     bash checks/colliding.sh [PROGRAM]
set -eu

here=$(dirname "$(readlink -f "${BASH_SOURCE[0]}")")
s10=$(readlink -f "${1:-$here/../crates/s10/out/s10}")
dir=$(mktemp -d)
trap 'rm -rf "$dir"' EXIT

gcc -O2 -o "$dir/colliding" "$here/colliding.c"
"$dir/colliding" 999900 >"$dir/chosen"
"$dir/colliding" 999900 any >"$dir/any"

# Prints the seconds of processor time that a replay takes.
seconds() { # LINES
    local TIMEFORMAT=%U
    { time "$s10" replay --interval 30 --limit 10000000 <"$1" >"$dir/replies" 2>/dev/null; } 2>&1
    [ "$(grep -c . "$dir/replies")" = "$(grep -c . "$1")" ]
}

for run in 1 2 3; do
    echo "run $run: chosen keys $(seconds "$dir/chosen") s, other keys $(seconds "$dir/any") s"
done
