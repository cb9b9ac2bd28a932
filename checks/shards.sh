#!/usr/bin/env bash
# Serves one ledger, then several side by side, each with a span of serials of its own. Draws from all of them at once, and adds
# up their rates. Each audit must print `ledger ok`, and no identifier may be in two reports.
#
#     bash checks/shards.sh [PROGRAM [DRAWS [SERVERS]]]      by default 10,000 draws from each of 4 servers
#
# The ledgers are in a new folder of TMPDIR (or /tmp). Set TMPDIR to a folder of the disk to be measured.
set -eu -o pipefail

s10=$(readlink -f "${1:-$(dirname "$(readlink -f "${BASH_SOURCE[0]}")")/../s10}")
draws=${2:-10000}
servers=${3:-4}
dir=$(mktemp -d)
pids=() addresses=()
trap 'stop; rm -rf "$dir"' EXIT

fail() {
    echo "failed: $1"
    exit 1
}

stop() {
    local pid
    for pid in "${pids[@]}"; do
        kill "$pid" 2>/dev/null || true
        wait "$pid" 2>/dev/null || true
    done
    pids=()
}

# Starts a server over a ledger of its own with a million serials of its own, and records its process id and address.
serve() { # NUMBER
    local ledger=$dir/ledger.$1 told=$dir/told.$1 address=
    rm -f "$ledger" "$ledger-wal"
    : >"$told"
    "$s10" create --ledger "$ledger" --interval 365 --limit 1000000 >/dev/null || fail create
    "$s10" serve --ledger "$ledger" --bind 127.0.0.1:0 --count 4294967295 >/dev/null 2>"$told" &
    pids+=($!)
    for _ in $(seq 600); do
        address=$(sed -n 's/^serving on //p' "$told")
        [ -z "$address" ] || break
        sleep 0.1
    done
    [ -n "$address" ] || fail "a server does not start"
    "$s10" grant --to "$address" --number 1 --holder 7 --service RA --country GB \
        --first $(($1 * 1000000)) --last $(($1 * 1000000 + 999999)) >/dev/null || fail grant
    addresses+=("$address")
}

# Runs one client for each server: it sends a Draw, waits for its reply, and sends the next. Prints each rate and the sum.
draw_all() {
    python3 - "$draws" "${addresses[@]}" <<'END'
import multiprocessing, socket, struct, sys, time

def draw(address, draws, start, rates):
    host, port = address.rsplit(":", 1)
    link = socket.socket(socket.AF_INET, socket.SOCK_DGRAM)
    link.connect((host, int(port)))
    link.settimeout(1)
    start.wait()
    began = time.monotonic()
    for number in range(1, draws + 1):
        request = struct.pack(">2sBBII4s", b"S1", 1, 2, 7, number, b"RAGB")
        reply = b""
        while len(reply) != 34 or reply[4:16] != request[4:16]:
            try:
                link.send(request)
                reply = link.recv(512)
            except socket.timeout:
                pass
    rates.put(draws / (time.monotonic() - began))

draws, addresses = int(sys.argv[1]), sys.argv[2:]
start, rates = multiprocessing.Barrier(len(addresses)), multiprocessing.Queue()
clients = [multiprocessing.Process(target=draw, args=(address, draws, start, rates)) for address in addresses]
for client in clients:
    client.start()
each = [rates.get() for _ in clients]
print(f"{len(each)} side by side:", " + ".join(f"{rate:.0f}" for rate in each), f"= {sum(each):.0f} draws a second")
END
}

# Runs the given number of servers at once, then audits their ledgers and compares their reports.
run() { # SERVERS
    local number
    addresses=()
    : >"$dir/issued"
    for number in $(seq "$1"); do serve "$number"; done
    draw_all
    stop
    for number in $(seq "$1"); do
        "$s10" report --ledger "$dir/ledger.$number" --issues | sed 1d | cut -d' ' -f5 >>"$dir/issued"
        [ "$("$s10" audit --ledger "$dir/ledger.$number")" = "ledger ok $((draws + 1))" ] || fail audit
    done
    [ "$(wc -l <"$dir/issued")" = $(($1 * draws)) ] || fail "an issue is missing in a report"
    [ "$(sort "$dir/issued" | uniq -d | wc -l)" = 0 ] || fail "one identifier in two ledgers"
}

run 1
run "$servers"
echo "ok: $((servers * draws)) identifiers, no two alike, each ledger ok $((draws + 1))"
