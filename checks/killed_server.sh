#!/bin/sh
# Kills a server with SIGKILL once fifty draws of one client, or five draws of each of several clients at once, got a reply, while
# the clients continue, and starts it again. Every draw that got a reply must be in the report, a repeat must get its identifier,
# no identifier may be on two draws, and the audit must print `ledger ok`.
#
#   sh checks/killed_server.sh [PROGRAM [CLIENTS]]
set -eu

s10=${1:-./s10}
clients=${2:-1}
wanted=$((clients == 1 ? 50 : 5 * clients))
dir=$(mktemp -d)
ledger=$dir/ledger
. "$(dirname "$0")/serving.sh"
trap 'kill_server; rm -rf "$dir"' EXIT

serve() {
    serve_in "$dir" "$ledger" --count 4294967295 --day 20000
}

draw() {
    "$s10" draw --to "$address" --customer 7 --number "$1" --service RA --country GB --tries "$2"
}

[ "$("$s10" create --ledger "$ledger" --interval 30 --limit 1000000)" = created ] || fail create
serve
"$s10" grant --to "$address" --number 1 --holder 7 --service RA --country GB --first 0 --last 9999999 > /dev/null || fail grant

# Draws with every CLIENTS-th number, starting with its own, until a draw gets no reply. That number is `left`.
client() { # FIRST_NUMBER
    number=$1
    while draw "$number" 5 >> "$dir/answers.$1"; do
        number=$((number + clients))
    done
    echo "$number" > "$dir/left.$1"
}

answered() {
    cat "$dir"/answers.* | grep -c ' done ' || true
}

# The server is killed while the clients continue.
running=
for first in $(seq "$clients"); do
    : > "$dir/answers.$first"
    client "$first" &
    running="$running $!"
done
for _ in $(seq 6000); do
    if [ "$(answered)" -ge "$wanted" ]; then break; fi
    sleep 0.01
done
kill_server
for client in $running; do wait "$client" || true; done
cat "$dir"/answers.* | grep ' done ' | sort > "$dir/answered"
answered=$(wc -l < "$dir/answered")
[ "$answered" -ge "$wanted" ] || fail "only $answered draws got a reply"
total=$(cat "$dir"/left.* | sort -n | tail -n 1)

serve
: > "$dir/again"
for number in $(seq "$total"); do draw "$number" 30 >> "$dir/again" || fail "draw $number"; done
kill_server
[ -z "$(sort "$dir/again" | comm -13 - "$dir/answered")" ] || fail "a repeat got another reply"

"$s10" report --ledger "$ledger" --issues > "$dir/report"
sed -n 's/.*customer \([0-9]*\) number \([0-9]*\) .* \([A-Z0-9]*\)$/\1 \2 \3/p' "$dir/again" | sort > "$dir/drawn"
sed 1d "$dir/report" | cut -d' ' -f3,4,5 | sort > "$dir/reported"
cmp "$dir/drawn" "$dir/reported" || fail "the report is not what was drawn"
[ "$(cut -d' ' -f3 "$dir/drawn" | sort -u | wc -l)" = "$total" ] || fail "one identifier on two draws"
[ "$("$s10" audit --ledger "$ledger")" = "ledger ok $((total + 1))" ] || fail audit
echo "ok: killed after $answered answered draws of $total; all of them stand, repeats get their identifiers, ledger ok $((total + 1))"
