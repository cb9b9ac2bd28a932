#!/usr/bin/env bash
# Prints how many instructions a Draw takes, as valgrind's callgrind counts them, which is the same on every machine: in
# replays, over the book in memory, and in a server, over tables in a file, with its socket and its lines.
#
#     bash checks/instructions.sh [PROGRAM]
set -eu

# The C library fills and copies with `rep stosb` and `rep movsb` from a length on that depends on the machine, and callgrind
# counts each of their bytes. So it must never do so here.
export GLIBC_TUNABLES=glibc.cpu.x86_rep_stosb_threshold=1000000000:glibc.cpu.x86_rep_movsb_threshold=1000000000

s10=$(readlink -f "${1:-$(dirname "$(readlink -f "${BASH_SOURCE[0]}")")/../crates/s10/out/s10}")
dir=$(mktemp -d)
trap 'rm -rf "$dir"' EXIT

# Prints `count` Grants of RA GB with consecutive request numbers and consecutive serials.
grants() { # COUNT FIRST_NUMBER HOLDER FIRST_SERIAL SERIALS
    awk -v count="$1" -v number="$2" -v holder="$3" -v first="$4" -v serials="$5" 'BEGIN {
        for (i = 0; i < count; i++)
            printf "20000 5331010100000000%08x%08x52414742%08x%08x\n", number + i, holder, first + i * serials, first + (i + 1) * serials - 1
    }'
}

# Prints `count` Draws of RA GB by customer 7.
draws() { # COUNT FIRST_NUMBER
    awk -v count="$1" -v number="$2" 'BEGIN {
        for (i = 0; i < count; i++)
            printf "20000 5331010200000007%08x52414742\n", number + i
    }'
}

# Prints the instructions of a replay of the lines on standard input.
instructions() {
    valgrind --tool=callgrind --callgrind-out-file=/dev/null "$s10" replay --interval 30 --limit 1000000 2>&1 >/dev/null |
        sed -n 's/.*Collected : //p'
}

# Prints the instructions for each of the last lines of a replay: with them, less without them, divided by their number.
each() { # COUNT WITHOUT WITH
    local before after
    before=$(instructions <"$2")
    after=$(instructions <"$3")
    echo $(((after - before) / $1))
}

grants 1 1 7 0 100000 >"$dir/one"
{ cat "$dir/one"; draws 4000 1; } >"$dir/one_drawn"
echo "a Draw over one range: $(each 4000 "$dir/one" "$dir/one_drawn")"

{ grants 1000 1 8 1000000 10; grants 1 1001 7 0 100000; } >"$dir/many"
{ cat "$dir/many"; draws 4000 1; } >"$dir/many_drawn"
echo "a Draw over the last of 1,001 ranges, the others of another holder: $(each 4000 "$dir/many" "$dir/many_drawn")"

{ grants 400 1 7 0 1; grants 1 401 7 1000000 10; draws 400 1; } >"$dir/used"
{ cat "$dir/used"; draws 1 401; } >"$dir/used_drawn"
echo "one Draw that finds 400 used ranges of its customer first: $(each 1 "$dir/used" "$dir/used_drawn")"

{ grants 10000 1 7 0 1; grants 1 10001 7 1000000 10; draws 10000 1; } >"$dir/many_used"
{ cat "$dir/many_used"; draws 1 10001; } >"$dir/many_used_drawn"
echo "one Draw that finds 10,000 used ranges of its customer first: $(each 1 "$dir/many_used" "$dir/many_used_drawn")"

: >"$dir/nothing"
grants 1000 1 7 0 10 >"$dir/granted"
echo "a Grant, of a thousand: $(each 1000 "$dir/nothing" "$dir/granted")"

# Prints the instructions of a server with these options that gets a Grant and the given number of Draws, so many at a time.
served() { # DRAWS AT_ONCE OPTION..
    local ledger=$dir/ledger
    rm -f "$ledger"* "$dir/told"
    "$s10" create --ledger "$ledger" --interval 30 --limit 1000000 >"$dir/created"
    mkfifo "$dir/told"
    valgrind --tool=callgrind --callgrind-out-file=/dev/null "$s10" serve --ledger "$ledger" --bind 127.0.0.1:0 \
        --count $(($1 + 1)) "${@:3}" 2>"$dir/told" >/dev/null &
    { grants 1 1 7 0 100000; draws "$1" 1; } | python3 -c '
import re, socket, sys
told = open(sys.argv[1])
address = next(it for it in told if it.startswith("serving on ")).split()[-1].rsplit(":", 1)
link = socket.socket(socket.AF_INET, socket.SOCK_DGRAM)
link.connect((address[0], int(address[1])))
requests = [bytes.fromhex(line.split()[1]) for line in sys.stdin]
at_once = int(sys.argv[2])
for first in range(0, len(requests), at_once):
    for request in requests[first : first + at_once]:
        link.send(request)
    for request in requests[first : first + at_once]:
        link.recv(2048)
print(re.search(r"Collected : (\d+)", told.read()).group(1))
' "$dir/told" "$2"
}

# Prints the instructions of a Draw of a server with these options, of so many that come at a time.
each_served() { # AT_ONCE OPTION..
    echo $((($(served 1280 "$@") - $(served 128 "$@")) / 1152))
}

echo "a Draw of a server over one range: $(each_served 1 --day 20000)"
echo "the same with the days of the clock: $(each_served 1)"
echo "the same with --until and --most-days-ahead too: $(each_served 1 --until "$dir/stop" --most-days-ahead 30)"
echo "a Draw of a server, of 32 that come at once: $(each_served 32 --day 20000)"
