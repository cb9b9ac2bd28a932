#!/bin/sh
# Fills the disk of a server while clients draw, frees it, and lets the same server continue: once while its log grows, and once
# after the log was moved into the file. On the full disk a draw whose call cannot be written must get no reply, and a repeat of an
# earlier draw its identifier, and a copy onto it must leave nothing. Once there is space, each draw must get a reply. Then a server with pending calls reaches its
# `--count` on a full disk: it must print `ledger store` and end with status 3. Every draw that got a reply must be in the report,
# no identifier may be on two draws, and the audit must print `ledger ok`.
#
# The ledger is on a small file system, mounted in a namespace of its own: as root, or as a user who may create one. If neither is
# possible, the script prints `skipped: ..` and ends with status 0.
#
#   sh checks/full_disk.sh [PROGRAM]
set -eu

if [ "${2:-}" != inside ]; then
    program=$(readlink -f "${1:-$(dirname "$(readlink -f "$0")")/../crates/s10/out/s10}")
    tried=$(mktemp -d)
    for namespace in '--mount' '--user --map-root-user --mount'; do
        # Word splitting separates the options.
        # shellcheck disable=SC2086
        if unshare $namespace --propagation private mount -t tmpfs -o size=1m tmpfs "$tried" 2>/dev/null; then
            rmdir "$tried"
            exec unshare $namespace --propagation private sh "$0" "$program" inside
        fi
    done
    rmdir "$tried"
    echo 'skipped: this user may neither mount a file system nor create a namespace to mount it in'
    exit 0
fi

s10=$1
# More clients than calls can be pending (64), so that the draws of the others are `faulted store`.
clients=72
# What standard error says of a full disk, and once there is space.
full='cannot use the ledger: database or disk is full'
freed="$full
the ledger can be used again"
room=$(mktemp -d)
disk=$room/disk
ledger=$disk/ledger
. "$(dirname "$0")/serving.sh"
trap 'kill_server; umount -q "$disk" 2>/dev/null || true; rm -rf --one-file-system "$room"' EXIT
mkdir "$disk"
cd "$room"

serve() { # COUNT
    serve_in . "$ledger" --count "$1" --day 20000
}

# Creates a ledger with one range on a new file system of 8 MiB, of which the filler has the given number of bytes, and serves it.
begin() { # BYTES COUNT
    mount -t tmpfs -o size=8m tmpfs "$disk"
    head -c "$1" /dev/zero >"$disk/filler"
    rm -f answers.* left.* last.* after.* enough
    [ "$("$s10" create --ledger "$ledger" --interval 30 --limit 1000000)" = created ] || fail create
    serve "$2"
    "$s10" grant --to "$address" --number 1 --holder 7 --service RA --country GB --first 0 --last 99999999 >/dev/null || fail grant
}

end() {
    kill_server
    umount "$disk"
}

draw() { # NUMBER TRIES
    "$s10" draw --to "$address" --customer 7 --number "$1" --service RA --country GB --tries "$2"
}

# Takes all free space.
fill() {
    dd if=/dev/zero of="$disk/filler" bs=4096 oflag=append conv=notrunc 2>/dev/null || true
}

free() {
    rm "$disk/filler"
}

# Prints the answers of all clients that are a draw which was done.
done_draws() { # FILE..
    cat "$@" | grep ' done ' || true
}

number_in() { # LINE
    printf '%s\n' "$1" | sed 's/.* number \([0-9]*\) .*/\1/'
}

# Draws with every CLIENTS-th number, starting with its own, until a draw gets no reply. That number is `left`. Until the file
# `enough` is there it asks again.
client() { # FIRST_NUMBER
    number=$1
    while [ "$number" -le $((1000 * clients)) ]; do
        if draw "$number" 3 >"last.$1"; then
            cat "last.$1" >>"answers.$1"
            number=$((number + clients))
        elif [ -e enough ] || ! grep -qx gave-up "last.$1"; then
            break
        fi
    done
    cat "last.$1" >>"answers.$1"
    echo "$number" >"left.$1"
}

# Draws again with the number that is left, and then with the next one.
continue_client() { # FIRST_NUMBER
    left=$(cat "left.$1")
    draw "$left" 20 >"after.$1" && draw $((left + clients)) 20 >>"after.$1"
}

# Prints how many turns of the server withheld a reply.
withheld() {
    grep -c '^uncommitted store$\|^faulted store$' turns || true
}

# The replies that the server has sent must be those that the clients got, its other turns must be those of a full disk, and
# standard error must have these lines after the address and the calls.
check_turns() { # ANSWERED_FILE LINES
    # Word splitting separates the numbers.
    # shellcheck disable=SC2046
    printf '%08x\n' $(sed 's/.* number \([0-9]*\) .*/\1/' "$1") | sort >got
    sed -n 's/^replied 5331018200000007\(........\).*/\1/p' turns | sort -u >sent
    cmp -s got sent || fail "a reply was sent that no client got, or the reverse: draws $(comm -3 got sent | tr -d '\t' | paste -sd' ')"
    if others=$(grep -v '^replied \|^quiet$\|^uncommitted store$\|^faulted store$' turns); then fail "other turns: $others"; fi
    [ "$(sed 1,3d told)" = "$2" ] || fail "lines on standard error: $(cat told)"
}

# Each of these draws must be in the report, and nothing else. No identifier and no number may be in two of them.
check_ledger() { # FILE DRAWS
    sed 's/.* number \([0-9]*\) .* \([A-Z0-9]*\)$/7 \1 \2/' "$2" | sort >drawn
    [ "$(cut -d' ' -f2 drawn | sort -u | wc -l)" = "$(wc -l <drawn)" ] || fail 'two identifiers for one draw'
    [ "$(cut -d' ' -f3 drawn | sort -u | wc -l)" = "$(wc -l <drawn)" ] || fail 'one identifier on two draws'
    found=$("$s10" audit --ledger "$1") || true
    [ "$found" = "ledger ok $(($(wc -l <drawn) + 1))" ] || fail "the audit prints $found for a grant and $(wc -l <drawn) draws"
    "$s10" report --ledger "$1" --issues >issues || fail report
    sed 1d issues | cut -d' ' -f3,4,5 | sort >reported
    cmp -s drawn reported || fail "the report is not what was drawn: $(diff drawn reported | head -n 3 | paste -sd' ')"
}

# The disk is filled while all clients draw, once the command succeeds.
fill_and_free() { # BYTES COMMAND WORDS
    begin "$1" 4294967295
    running=
    for first in $(seq "$clients"); do
        : >"answers.$first"
        client "$first" &
        running="$running $!"
    done
    for _ in $(seq 6000); do
        if $2; then break; fi
        sleep 0.01
    done
    $2 || fail "not reached in a minute: $2"
    fill
    for _ in $(seq 1200); do
        if grep -q '^faulted store$' turns; then break; fi
        sleep 0.1
    done
    : >enough
    for client in $running; do wait "$client" || fail 'a client'; done

    # The disk is full, and no client draws.
    if [ "$1" != 0 ] && is_moved; then fail 'the log was moved into the file'; fi
    done_draws answers.* | sort >answered
    [ "$(cat answers.* | grep -cvx gave-up)" = "$(wc -l <answered)" ] || fail 'a draw was refused'
    [ "$(cat answers.* | grep -cx gave-up)" = "$clients" ] || fail 'a draw got a reply though the disk is full'
    check_turns answered "$full"
    grep -q '^uncommitted store$' turns || fail 'no draw is uncommitted'
    grep -q '^faulted store$' turns || fail "no draw is faulted though $clients draws got no reply"
    for first in $(seq "$clients"); do
        for line in 1 '$'; do
            before=$(done_draws "answers.$first" | sed -n "${line}p")
            if [ -n "$before" ]; then
                [ "$(draw "$(number_in "$before")" 20)" = "$before" ] || fail "a repeat on a full disk: $before"
            fi
        done
    done
    cp "$ledger" copy
    cp "$ledger-wal" copy-wal
    check_ledger copy answered
    status=0
    copied=$("$s10" copy --ledger "$ledger" --to "$disk/backup" 2>/dev/null) || status=$?
    [ "$status $copied" = '3 ledger store' ] || fail "a copy onto a full disk: $status $copied"
    if ls "$disk" | grep backup; then fail 'a copy onto a full disk left files'; fi
    withheld=$(withheld)

    # The same server, with space. The first draw is a new one; the calls that are pending are committed with it.
    free
    draw $((2000 * clients)) 20 >after.new || fail 'a new draw once there is space'
    running=
    for first in $(seq "$clients"); do
        continue_client "$first" &
        running="$running $!"
    done
    for client in $running; do wait "$client" || fail 'a draw got no reply though there is space'; done
    done_draws after.* | sort >continued
    [ "$(wc -l <continued)" = $((2 * clients + 1)) ] || fail 'a draw was refused once there was space'
    [ "$(withheld)" = "$withheld" ] || fail 'a reply was withheld though there is space'
    sort answered continued >all
    check_turns all "$freed"
    for first in $(seq "$clients"); do
        before=$(head -n 1 "after.$first")
        [ "$(draw "$(number_in "$before")" 20)" = "$before" ] || fail "a repeat once there is space: $before"
    done
    kill_server
    check_ledger "$ledger" all
    echo "filled $3: $(wc -l <answered) draws, $withheld replies withheld on a full disk, then $(wc -l <continued) draws: all right"
    end
}

is_growing() {
    [ "$(done_draws answers.* | wc -l)" -ge "$clients" ]
}

is_moved() {
    [ "$(stat -c %s "$ledger")" -gt 32768 ]
}

# Where the filler has 5 MB, there is no space for the greatest log, of about 4.4 MB. So the log is not moved.
fill_and_free 5000000 is_growing 'while the log grows'
fill_and_free 0 is_moved 'after the log was moved'

# Repeats the first draw until the server has served its turns. Sets `status` to its exit status.
use_up() { # COUNT
    before=$(sed -n 1p answers.1)
    for _ in $(seq "$1"); do
        again=$(draw 1 3) || break
        [ "$again" = "$before" ] || fail "a repeat: $again, not $before"
    done
    for _ in $(seq 600); do
        if [ "$(wc -l <turns)" -ge "$1" ]; then break; fi
        sleep 0.1
    done
    [ "$(wc -l <turns)" -ge "$1" ] || fail 'the server does not end'
    await_server
}

# A server reaches its count on a full disk, with nine pending calls. The next one executes them.
count=120
begin 0 "$count"
number=1
while draw "$number" 3 >>answers.1; do
    [ "$number" != 5 ] || fill
    [ "$number" -lt 1000 ] || fail 'draws get replies though the disk is full'
    number=$((number + 1))
done
left=$(seq "$number" $((number + 8)))
running=
for number in $left; do
    draw "$number" 1 >"answers.of $number" &
    running="$running $!"
done
for client in $running; do
    if wait "$client"; then fail 'a draw got a reply though the disk is full'; fi
done
done_draws answers.* | sort >answered
use_up "$count"
[ "$status; $(wc -l <turns); $(tail -n 1 turns)" = "3; $((count + 1)); ledger store" ] ||
    fail "the server ended with status $status, after $(wc -l <turns) lines with $(tail -n 1 turns)"
sed -i '$d' turns
check_turns answered "$full"
free
check_ledger "$ledger" answered
count=40
serve "$count"
for number in $left; do
    draw "$number" 5 >>answers.after || fail "draw $number once there is space"
done
done_draws answers.* | sort >all
use_up "$count"
[ "$status; $(wc -l <turns)" = "0; $count" ] || fail "the server ended with status $status after $(wc -l <turns) lines"
check_ledger "$ledger" all
end
echo "count reached on a full disk: $(wc -l <answered) draws, then \`ledger store\` and status 3; later $(wc -l <all) draws: all right"
