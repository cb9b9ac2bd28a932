#!/bin/sh
# Serves a ledger whose last call is 31 days before today. With --most-days-ahead 30 nothing is executed: the line is `clock`, with
# status 3, and standard error has both days. With 31, with a given day, and without the option, the server replies.
#
#   sh checks/days_ahead.sh [PROGRAM]
set -eu

s10=$(readlink -f "${1:-./s10}")
dir=$(mktemp -d)
. "$(dirname "$0")/serving.sh"
trap 'kill_server; rm -rf "$dir"' EXIT
cd "$dir"

# Starts a server for as many turns, and waits for its address.
start() { # COUNT OPTION..
    count=$1
    shift
    serve_in . ledger --count "$count" "$@"
}

# Waits for the end of the server, and compares its status.
ended() { # STATUS
    await_server
    [ "$status" -eq "$1" ] || fail "the server ended with status $status: $(cat turns told)"
}

# Draws with this number, from a server of one turn.
drawn() { # NUMBER OPTION..
    number=$1
    shift
    start 1 "$@"
    "$s10" draw --to "$address" --customer 7 --number "$number" --service RA --country GB > reply || fail "no reply to draw $number"
    ended 0
}

today=$(($(date +%s) / 86400))
before=$((today - 31))
[ "$("$s10" create --ledger ledger --interval 3650 --limit 1000)" = created ] || fail create

# An empty ledger has no day, so its first is not refused.
start 1 --most-days-ahead 0
ended 0
[ "$(cat turns)" = quiet ] || fail "a server over an empty ledger prints $(cat turns)"

start 1 --day "$before"
"$s10" grant --to "$address" --number 1 --holder 7 --service RA --country GB --first 0 --last 99 > reply || fail grant
ended 0

for most in 0 30; do
    start 3 --most-days-ahead "$most"
    ended 3
    now=$(($(date +%s) / 86400))
    [ "$now" -eq "$today" ] || { echo 'skipped: the day has changed'; exit 0; }
    [ "$(cat turns)" = clock ] || fail "past $most days the server prints $(cat turns)"
    grep -qx "the clock gives day $today, too far past the last day of the ledger, $before" told ||
        fail "past $most days standard error has $(cat told)"
    [ "$("$s10" audit --ledger ledger)" = 'ledger ok 1' ] || fail "past $most days a call was executed"
done

# The option does not check a given day.
drawn 1 --most-days-ahead 30 --day "$before"
drawn 2 --most-days-ahead 31
grep -q " day $today " reply || fail "the reply is $(cat reply)"
drawn 3 --most-days-ahead 0
drawn 4
[ "$("$s10" audit --ledger ledger)" = 'ledger ok 5' ] || fail "the audit prints $("$s10" audit --ledger ledger)"
echo "ok: no request was executed 31 days past the day of the last call"
