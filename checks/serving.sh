# Starts and ends the server of a check. A check reads this file by `. "$(dirname "$0")/serving.sh"`, and sets `s10` to the program.
# shellcheck shell=sh

server=
# The user that runs the server, as `setpriv ..`; of itself the one that runs the check.
as=
# How often a tenth of a second is waited for what must come.
patience=600

fail() {
    echo "failed: $1"
    exit 1
}

# Waits until a command succeeds.
wait_until() { # COMMAND..
    for _ in $(seq "$patience"); do
        if "$@"; then return; fi
        sleep 0.1
    done
    return 1
}

is_serving() { # FOLDER
    address=$(sed -n 's/^serving on //p' "$1/told")
    [ -n "$address" ]
}

# Starts a server at a free port. The file `turns` of the folder gets its lines, the file `told` its standard error. Sets `server` to
# its process id.
start_server() { # FOLDER LEDGER OPTION..
    folder=$1
    ledger_served=$2
    shift 2
    : >"$folder/told"
    # Word splitting separates the words of the user.
    # shellcheck disable=SC2086
    $as "$s10" serve --ledger "$ledger_served" --bind 127.0.0.1:0 "$@" >"$folder/turns" 2>"$folder/told" </dev/null &
    server=$!
}

# The same, and waits until it serves. Sets `address` to its address.
serve_in() { # FOLDER LEDGER OPTION..
    start_server "$@"
    wait_until is_serving "$folder" || fail "the server over $ledger_served does not start: $(cat "$folder/told")"
}

# Kills the server, if there is one.
kill_server() {
    if [ -n "$server" ]; then
        kill -9 "$server" 2>/dev/null || true
        wait "$server" 2>/dev/null || true
        server=
    fi
}

# Waits for the end of the server. Sets `status` to its exit status.
await_server() {
    status=0
    wait "$server" || status=$?
    server=
}
