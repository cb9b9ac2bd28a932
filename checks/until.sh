#!/bin/sh
# Ends a server by the file of its option --until, while clients draw. It must end within two seconds, with status 0. Every draw that
# got a reply must then be in the ledger's file alone, without its log. While the file is there, no server starts.
#
#   sh checks/until.sh [PROGRAM]
set -eu

s10=$(readlink -f "${1:-./s10}")
dir=$(mktemp -d)
. "$(dirname "$0")/serving.sh"
clients=
trap 'kill_server; for process in $clients; do kill -9 "$process" 2>/dev/null || true; done; rm -rf "$dir"' EXIT
cd "$dir"

# Draws one after another until a draw gets no reply, and appends the replies to a file of the client.
client() { # CUSTOMER
    number=1
    while "$s10" draw --to "$address" --customer "$1" --number "$number" --service RA --country GB --tries 1 >> "answers.$1"; do
        number=$((number + 1))
    done
}

[ "$("$s10" create --ledger ledger --interval 30 --limit 1000000)" = created ] || fail create
serve_in . ledger --until end --day 20000
for customer in 7 8; do
    "$s10" grant --to "$address" --number "$customer" --holder "$customer" --service RA --country GB \
        --first "${customer}000000" --last "${customer}999999" > /dev/null || fail grant
    client "$customer" &
    clients="$clients $!"
done
sleep 2
touch end
began=$(date +%s%N)
await_server
took=$((($(date +%s%N) - began) / 1000000))
[ "$status" -eq 0 ] || fail "the server ended with status $status"
[ "$took" -le 2000 ] || fail "the server ended after $took ms"
for client in $clients; do wait "$client" || true; done
clients=
cat answers.* | grep -o '[^ ]*GB$' | sort > answered
[ "$(wc -l < answered)" -ge 10 ] || fail "only $(wc -l < answered) draws got a reply"
[ -z "$(uniq -d answered)" ] || fail 'an identifier is on two draws'
cp ledger alone
"$s10" report --ledger alone --issues | awk 'NR > 1 { print $5 }' | sort > issued
[ -z "$(comm -23 answered issued)" ] || fail "draws that got a reply are not in the file: $(comm -23 answered issued | head -n 3)"
status=0
came=$("$s10" serve --ledger ledger --bind 127.0.0.1:0 --until end --count 1 2>/dev/null) || status=$?
[ "$came $status" = 'refused until 1' ] || fail "a second start printed $came with status $status"
rm end
came=$("$s10" serve --ledger ledger --bind 127.0.0.1:0 --until end --count 1 --day 20000 2>/dev/null) || fail 'no server starts again'
[ "$came" = quiet ] || fail "a server that starts again prints $came"
echo "ok: $(wc -l < answered) draws got a reply, the server ended after $took ms"
