#!/bin/sh
# Runs each command over what may go wrong: no file, a file that is no ledger, one of another user, a read-only mount, a full
# disk, a ledger or a port in use, an output that is closed or full. Each command must end with the given status, line and words on
# standard error, which are those of docs/TROUBLESHOOTING.md, and must change its folder as given: `+ledger-wal 41` is a new file of
# 41 bytes, `~ledger 4096` a file that changed, `-text` a file that was removed.
#
# As root it also mounts small filesystems, in a namespace of its own, and runs commands as `nobody`. Otherwise the trials of other
# users, of read-only mounts and of full disks are skipped.
#
#     sh checks/trials.sh [PROGRAM]
set -eu

nobody='setpriv --reuid=65534 --regid=65534 --clear-groups'

# Prints why the trials that need root cannot be run.
lacking() { # FOLDER
    if [ "$(id -u)" != 0 ]; then
        echo root
    elif ! unshare --mount --propagation private mount -t tmpfs -o size=1m tmpfs "$1" 2>/dev/null; then
        echo 'a namespace in which root may mount a file system'
    elif ! $nobody "$1/tried" 2>/dev/null; then
        echo "a folder in which nobody may run a program: $1"
    fi
}

case ${2:-} in
    inside | alone) ;;
    *)
        program=$(readlink -f "${1:-$(dirname "$(readlink -f "$0")")/../crates/s10/out/s10}")
        if ! sqlite3 :memory: 'CREATE TABLE t (n INTEGER) STRICT' 2>/dev/null; then
            echo 'skipped: sqlite3 from 3.37 on'
            exit 0
        fi
        tried=$(mktemp -d)
        chmod 755 "$tried"
        cp /bin/true "$tried/tried"
        why=$(lacking "$tried")
        rm -rf "$tried"
        [ -n "$why" ] || exec unshare --mount --propagation private sh "$0" "$program" inside
        echo "skipped users, read-only, full, small: $why"
        exec sh "$0" "$program" alone
        ;;
esac

is_root=
[ "$2" = alone ] || is_root=yes
room=$(mktemp -d)
. "$(dirname "$0")/serving.sh"
trap 'kill_server; cd /; end_mounts; rm -rf --one-file-system "$room"' EXIT
cp "$1" "$room/s10"
chmod 755 "$room" "$room/s10"
s10=$room/s10
cd "$room"
count=0

end_mounts() {
    [ -z "$is_root" ] || umount -q "$room/read-only" "$room/full" "$room/small" 2>/dev/null || true
}

# Prints a line for each file below the folder: its name, its size, and what else may change.
state() {
    find . -type f -printf '%P %s %m %U:%G ' -exec sh -c 'sha256sum <"$1"' sh {} \; | sort
    find . ! -type f -printf '%P %y %m %U:%G\n' | sort
}

# Prints how the files changed between two states.
changes() {
    awk 'NR == FNR { was[$1] = $0; next }
        !($1 in was) { print "+" $1 " " $2; next }
        was[$1] != $0 { print "~" $1 " " $2 }
        { delete was[$1] }
        END { for (name in was) print "-" name }' ../before ../after | sort | paste -sd, -
}

# Runs a command, and compares its status, its lines, its words on standard error and the changes with those given. Several lines
# are joined by `|`. `as` starts it as another user, and `sink` is where its output goes; with `folder` its input is a folder.
as=
sink=kept
tries() { # STATUS LINE WORDS CHANGES COMMAND..
    status=$1 line=$2 words=$3 changed=$4
    shift 4
    state >../before
    got=0
    case $sink in
        kept) $as "$s10" "$@" >../out 2>../err || got=$? ;;
        closed) : >../out && $as "$s10" "$@" 2>../err >&- || got=$? ;;
        full) : >../out && $as "$s10" "$@" >/dev/full 2>../err || got=$? ;;
        folder) $as "$s10" "$@" <. >../out 2>../err || got=$? ;;
    esac </dev/null
    state >../after
    found=$(printf '%s; %s; %s; %s' "$got" "$(paste -sd'|' ../out)" "$(paste -sd'|' ../err)" "$(changes)")
    # A star represents a port or a size that differs each time.
    # shellcheck disable=SC2254
    case $found in
        $(printf '%s; %s; %s; %s' "$status" "$line" "$words" "$changed" | sed 's/[][?\\]/\\&/g')) ;;
        *)
            echo "expected: $status; $line; $words; $changed"
            echo "came:     $found"
            fail "s10 $*"
            ;;
    esac
    count=$((count + 1))
}

# Does this for the three commands that open a ledger. The words of `serve` on standard error begin with `opening FILE`.
refused() { # FILE LINE WORDS CHANGES
    tries 3 "$2" "$3" "$4" audit --ledger "$1"
    tries 3 "$2" "$3" "$4" report --ledger "$1" --day 20000
    tries 3 "$2" "opening $1${3:+|$3}" "$4" serve --ledger "$1" --bind 127.0.0.1:0 --count 1
}

# Does this for `create`.
create() { # STATUS LINE WORDS CHANGES FILE
    tries "$1" "$2" "$3" "$4" create --ledger "$5" --interval 30 --limit 1000
}

serve() { # FILE
    serve_in .. "$1" --count 4294967295 --day 20000
}

# Asks the server.
tries=5
ask() { # COMMAND OPTIONS..
    command=$1
    shift
    "$s10" "$command" --to "$address" --tries "$tries" "$@"
}

draw() { # NUMBER
    ask draw --customer 7 --number "$1" --service RA --country GB
}

# Fills the disk.
fill() {
    dd if=/dev/zero of=filler bs=4096 2>/dev/null || true
}

# Starts a group of commands in a folder of its own, which any user may read.
group() { # NAME
    cd "$room"
    mkdir "$1"
    cd "$1"
    echo "$1"
}

note='CREATE TABLE note (serial INTEGER NOT NULL, text TEXT NOT NULL) STRICT'

group files
: >empty
: >emptied
printf 'its log' >emptied-wal
printf 'a text, and longer than sixteen bytes\n' >text
printf 'short' >short
head -c 8192 /dev/zero >zeros
mkdir folder
mkfifo pipe
ln -s nothing dangling
refused missing 'ledger not-a-ledger' 'cannot open missing: No such file or directory (os error 2)' ''
refused empty 'ledger not-a-ledger' 'cannot open empty: it is empty' ''
refused dangling 'ledger not-a-ledger' 'cannot open dangling: No such file or directory (os error 2)' ''
refused emptied 'ledger not-a-ledger' 'cannot open emptied: it is empty, and its log emptied-wal is not' ''
create 3 'ledger not-empty' 'cannot open emptied: it is empty, and its log emptied-wal is not' '' emptied
for file in :memory: file:x; do
    create 3 'ledger store' "cannot open $file: unable to open database file" '' "$file"
done
long=$(printf '%0248d' 0)
create 3 'ledger store' "cannot open $long: File name too long (os error 36)" '' "$long"
refused nowhere/missing 'ledger store' 'cannot open nowhere/missing: No such file or directory (os error 2)' ''
create 3 'ledger store' 'cannot open nowhere/missing: No such file or directory (os error 2)' '' nowhere/missing
create 3 'ledger store' 'cannot open dangling: No such file or directory (os error 2)' '' dangling
for file in text short zeros; do
    refused "$file" 'ledger store' "cannot open $file: it is not a database" ''
    create 3 'ledger store' "cannot open $file: it is not a database" '' "$file"
done
refused folder 'ledger store' 'cannot open folder: Is a directory (os error 21)' ''
create 3 'ledger store' 'cannot open folder: Is a directory (os error 21)' '' folder
for file in pipe /dev/null; do
    refused "$file" 'ledger store' "cannot open $file: unable to open database file" ''
    create 3 'ledger store' "cannot open $file: unable to open database file" '' "$file"
done
create 0 created '' '+ledger 32768,+ledger-wal 41' ledger
create 3 'ledger not-empty' '' '' ledger
create 0 created '' '+empty-wal 41,~empty 32768' empty
ln -s ledger link
tries 0 'ledger ok 0' '' '~ledger-wal 41' audit --ledger link

group databases
sqlite3 notes "$note"
tries 3 'ledger store' 'cannot create a ledger in notes: it has tables of its own' '' \
    create --ledger notes --interval 30 --limit 1000
refused notes 'ledger not-a-ledger' '' ''
[ "$(sqlite3 notes "INSERT INTO note VALUES (1, 'a'); SELECT * FROM note; PRAGMA integrity_check" | paste -sd' ')" = '1|a ok' ] ||
    fail 'a refused database is another'
create 0 created '' '+ledger 32768,+ledger-wal 41' ledger
head -c 8192 ledger >'cut'
refused cut 'ledger store' 'cannot open cut: database disk image is malformed' ''
create 3 'ledger store' 'cannot open cut: database disk image is malformed' '' cut
cp ledger journal
printf hot >journal-journal
cp ledger twice
ln twice again
for file in journal twice again; do
    refused "$file" 'ledger store' "cannot open $file: unable to open database file" ''
    create 3 'ledger store' "cannot open $file: unable to open database file" '' "$file"
done
cp ledger spent
for size in 0 600; do
    head -c "$size" /dev/zero >spent-journal
    tries 0 'ledger ok 0' '' "$([ "$size" = 0 ] && echo '+' || echo '~')spent-wal 41" audit --ledger spent
    tries 0 'range customer service country first last used voided free' '' '~spent-wal 41' report --ledger spent --day 20000
    create 3 'ledger not-empty' '' '' spent
done
sqlite3 ledger "$note; INSERT INTO note VALUES (1, CAST(zeroblob(12000000) AS TEXT))"
tries 0 'ledger ok 0' 'opening ledger: 12 MB' '+ledger-wal 41' audit --ledger ledger

# A ledger that is refused keeps what it held: also one that is damaged, and a log beside a file that is no database.
group refusals
create 0 created '' '+ledger 32768,+ledger-wal 41' ledger
serve ledger
ask grant --number 1 --holder 7 --service RA --country GB --first 0 --last 2 >../answers
draw 1 >>../answers
draw 2 >>../answers
[ "$(grep -c ' done ' ../answers)" = 3 ] || fail 'the calls before the refusals'
kill_server
tries 0 'ledger ok 3' '' '' audit --ledger ledger
tries 0 'range customer service country first last used voided free|1 7 RA GB 00000000 00000002 2 0 1' '' \
    '~ledger 32768,~ledger-wal 41' report --ledger ledger --day 20000
create 3 'ledger not-empty' '' '' ledger
tries 0 'ledger ok 3' '' '~ledger-wal 41' audit --ledger ledger
cp ledger before
while IFS='|' read -r line change; do
    cp before broken
    sqlite3 broken "$change"
    refused broken "$line" '' ''
    create 3 'ledger not-empty' '' '' broken
    [ "$(sqlite3 -readonly broken 'PRAGMA integrity_check')" = ok ] || fail "the file that is $line"
    rm -f broken broken-*
done <<'END'
ledger schema 2|UPDATE head SET schema = 2
ledger damaged 3|UPDATE calls SET day = 19999 WHERE arrival = 3
ledger damaged 0|UPDATE ranges SET mark = 0
ledger not-a-ledger|DELETE FROM head
END
printf 'a text, and longer than sixteen bytes\n' >text
printf 'its log' >text-wal
refused text 'ledger store' 'cannot open text: it is not a database' ''
create 3 'ledger store' 'cannot open text: it is not a database' '' text

if [ -n "$is_root" ]; then
group users
create 0 created '' '+ledger 32768,+ledger-wal 41' ledger
mkdir -m 700 inside
cp ledger inside/
install -m 600 ledger private
install -m 444 -o 65534 ledger read-only
install -m 644 -o 65534 ledger own
as=$nobody
for file in ledger private read-only; do
    refused "$file" 'ledger store' "cannot open $file: Permission denied (os error 13)" ''
    create 3 'ledger store' "cannot open $file: Permission denied (os error 13)" '' "$file"
done
refused own 'ledger store' 'cannot open own: unable to open database file' ''
create 3 'ledger store' 'cannot open own: unable to open database file' '' own
create 3 'ledger store' 'cannot open new: Permission denied (os error 13)' '' new
refused inside/ledger 'ledger store' 'cannot open inside/ledger: Permission denied (os error 13)' ''
as=

group read-only
mount -t tmpfs -o size=1m tmpfs "$room/read-only"
cd "$room/read-only"
create 0 created '' '+ledger 32768,+ledger-wal 41' ledger
cp ledger alone
sqlite3 notes "$note"
mount -o remount,ro "$room/read-only"
refused missing 'ledger not-a-ledger' 'cannot open missing: No such file or directory (os error 2)' ''
create 3 'ledger store' 'cannot open missing: Read-only file system (os error 30)' '' missing
for file in ledger alone notes; do
    refused "$file" 'ledger store' "cannot open $file: Read-only file system (os error 30)" ''
    create 3 'ledger store' "cannot open $file: Read-only file system (os error 30)" '' "$file"
done

group full
mount -t tmpfs -o size=1m tmpfs "$room/full"
cd "$room/full"
create 0 created '' '+ledger 32768,+ledger-wal 41' ledger
cp ledger alone
: >empty
fill
create 3 'ledger store' 'cannot open new: database or disk is full' '' new
create 3 'ledger store' 'cannot open empty: database or disk is full' '' empty
refused alone 'ledger store' 'cannot open alone: database or disk is full' ''
tries 0 'ledger ok 0' '' '~ledger-wal 41' audit --ledger ledger
rm filler
create 0 created '' '+new 32768,+new-wal 41' new
tries 0 'ledger ok 0' '' '+alone-wal 41' audit --ledger alone

# A server whose disk fills withholds the reply to a call that it cannot write, and replies to repeats of committed calls. Once
# there is room it continues. No call that got a reply is lost, and no pending one.
group small
mount -t tmpfs -o size=4m tmpfs "$room/small"
cd "$room/small"
create 0 created '' '+ledger 32768,+ledger-wal 41' ledger
serve ledger
ask grant --number 1 --holder 7 --service RA --country GB --first 0 --last 99999 >../answers
draw 1 >>../answers
fill
tries=1
number=2
while draw "$number" >>../answers; do
    number=$((number + 1))
done
[ "$(grep -c '^uncommitted store$' ../turns)" = 1 ] || fail 'a full disk is no fault of one turn'
[ "$(draw 1)" = "$(sed -n 2p ../answers)" ] || fail 'a repeat on a full disk'
if draw "$number" >../again; then fail 'a reply while its call cannot be written'; fi
tries=5
rm filler
[ "$(draw 1)" = "$(sed -n 2p ../answers)" ] || fail 'a repeat once there is room'
draw "$number" >../again || fail 'a draw once there is room'
reasons='cannot use the ledger: database or disk is full
the ledger can be used again'
for _ in $(seq 50); do
    if [ "$(sed 1,3d ../told)" = "$reasons" ]; then break; fi
    sleep 0.1
done
[ "$(sed 1,3d ../told)" = "$reasons" ] || fail 'lines on standard error of a full disk'
kill_server
tries 0 "ledger ok $((number + 1))" '' '' audit --ledger ledger
fi

group taken
create 0 created '' '+ledger 32768,+ledger-wal 41' ledger
cp ledger other
serve ledger
refused ledger 'ledger store' 'cannot open ledger: database is locked' ''
create 3 'ledger store' 'cannot open ledger: database is locked' '' ledger
tries 3 'link bind' "opening other|cannot bind $address: Address already in use (os error 98)" '+other-wal 41' \
    serve --ledger other --bind "$address" --count 1
tries 3 'link bind' 'opening other|cannot bind 192.0.2.1:4000: Cannot assign requested address (os error 99)' '~other-wal 41' \
    serve --ledger other --bind 192.0.2.1:4000 --count 1
tries 1 'refused peer' '' '' serve --ledger missing --bind localhost:4000 --count 1
kill_server
mkfifo ../statements
sqlite3 other <../statements &
server=$!
exec 3>../statements
echo 'BEGIN EXCLUSIVE;' >&3
sleep 3
refused other 'ledger store' 'cannot open other: database is locked' ''
create 3 'ledger store' 'cannot open other: database is locked' '' other
exec 3>&-
kill_server

# The commands that ask a server, while no server is at the address.
group unanswered
unanswered() { # STATUS LINE WORDS
    tries "$1" "$2" "$3" '' grant --to "$address" --number 1 --holder 7 --service RA --country GB --first 0 --last 2 --tries 1
    tries "$1" "$2" "$3" '' draw --to "$address" --customer 7 --number 1 --service RA --country GB --tries 1
    tries "$1" "$2" "$3" '' void --to "$address" --customer 7 --number 2 --id RA000000005GB --tries 1
    tries "$1" "$2" "$3" '' query --to "$address" --customer 7 --number 3 --id RA000000005GB --tries 1
    tries "$1" "$2" "$3" '' withdraw --to "$address" --number 2 --range 1 --tries 1
}
unanswered 3 gave-up ''
silent=$address
address=127.0.0.1:0
unanswered 3 'link send' "cannot ask $address: Invalid argument (os error 22)"
address=$silent

# Notes that are new, taken, missing, without an open request, with one while no server is at the address, without a check value, with
# a hard link, and damaged.
group notes
notes() { # STATUS LINE CHANGES FILE
    tries "$1" "$2" '' "$3" notes --file "$4" --customer 7 --first 1 --last 9
}
again() { # STATUS LINE CHANGES FILE
    tries "$1" "$2" '' "$3" again --to "$address" --notes "$4" --tries 1
}
notes 0 created '+printer 76,+printer.lock 0' printer
notes 3 'notes taken' '' printer
notes 3 'notes store' '' missing/printer
again 3 'notes missing' '' missing
again 1 'refused answered' '' printer
again 1 'refused answered' '' printer
ask_by_notes() { # STATUS LINE CHANGES FILE
    tries "$1" "$2" '' "$3" draw --to "$address" --notes "$4" --service RA --country GB --tries 1
}
ask_by_notes 3 'notes missing' '' missing
ask_by_notes 3 gave-up '~printer 106' printer
ask_by_notes 1 'refused unanswered' '' printer
echo '{"customer": 7, "next": 2, "last": 9, "request": "53310102000000070000000152414742"}' >printer
again 3 gave-up '' printer
ln printer other
again 3 'notes linked' '' printer
ask_by_notes 3 'notes linked' '+other.lock 0' other
notes 3 'notes taken' '' other
rm other*
ln -s printer other
again 3 gave-up '' other
notes 3 'notes taken' '' other
rm other
echo '{}' >printer
again 3 'notes damaged' '' printer
echo '{"customer": 7, "next": 2, "last": 9, "request": "53310102000000070000000152414742", "check": "0b8002f7"}' >printer
again 3 'notes damaged' '' printer
ask_by_notes 3 'notes damaged' '' printer

# The input of `replay` is a folder.
group inputs
sink=folder
tries 3 input 'cannot read the input: Is a directory (os error 21)' '' replay
sink=kept

# Six datagrams that are no requests: standard error names the sender of the first at once, and that of the last as the server ends,
# after a second for each turn in which nothing comes.
group junk
create 0 created '' '+ledger 32768,+ledger-wal 41' ledger
await() { # WORDS
    wait_until grep -q "$1" ../told || fail "standard error has no line: $1"
}
serve_in .. ledger --count 30 --day 20000
port=${address##*:}
bash -c "printf junk >/dev/udp/127.0.0.1/$port"
await '^dropped from 127.0.0.1:[0-9]*$'
for _ in 1 2 3 4 5; do bash -c "printf junk >/dev/udp/127.0.0.1/$port"; done
wait "$server" || fail 'a server that gets junk'
server=
[ "$(grep -c '^dropped short$' ../turns)" = 6 ] || fail 'a line for each datagram'
grep -q '^dropped 5 datagrams, the last from 127.0.0.1:[0-9]*$' ../told || fail 'the number of datagrams'
[ "$(wc -l <../told)" = 5 ] || fail 'one line a minute'
count=$((count + 1))

group outputs
create 0 created '' '+ledger 32768,+ledger-wal 41' ledger
for sink in closed full; do
    case $sink in
        closed) why='Bad file descriptor (os error 9)' ;;
        full) why='No space left on device (os error 28)' ;;
    esac
    why="error: the output cannot be written: $why"
    tries 3 '' "$why" '' check RA473124829US
    tries 3 '' "$why" '' make RA 00000008 GB
    tries 3 '' "$why" '' show 5331018200000007000000065241474205
    tries 3 '' "$why" '' --version
    tries 3 '' "$why" '' help create
    tries 0 '' '' '' replay
    tries 3 '' "$why" '~ledger-wal 41' audit --ledger ledger
    tries 3 '' "$why" '~ledger-wal 41' report --ledger ledger --day 20000
    tries 3 '' "$why" "+$sink 32768,+$sink-wal 41" create --ledger "$sink" --interval 30 --limit 1000
    absent='cannot open missing: No such file or directory (os error 2)'
    tries 3 '' "opening missing|$absent|$why" '' serve --ledger missing --bind 127.0.0.1:0 --count 1
    tries 3 '' "opening ledger|serving on *|calls *|$why" '~ledger-wal 41' serve --ledger ledger --bind 127.0.0.1:0 --count 1
    tries 3 '' "$why" '' loop --day 20000
    unanswered 3 '' "$why"
done
sink=kept

# Draws with notes whose reply cannot be printed. It is printed by `again`, and by nothing else.
group open
"$s10" create --ledger ../served --interval 30 --limit 1000 >../out
serve ../served
ask grant --number 1 --holder 7 --service RA --country GB --first 0 --last 2 >../out
for file in closed full; do notes 0 created "+$file 76,+$file.lock 0" "$file"; done
draw_by_notes() { # SINK WORDS
    sink=$1
    tries 3 '' "error: the output cannot be written: $2" "~$1 106" \
        draw --to "$address" --notes "$1" --service RA --country GB
    sink=kept
    tries 0 'reply draw customer 7 number 1 RA GB done day 20000 RA000000005GB' '' "~$1 76" \
        again --to "$address" --notes "$1"
}
draw_by_notes closed 'Bad file descriptor (os error 9)'
draw_by_notes full 'No space left on device (os error 28)'
kill_server

echo "$count commands: each ended as is written, and left its folder as is written"
