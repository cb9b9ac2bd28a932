#!/usr/bin/env bash
# The test command, which `.ci/run` calls: proves and tests everything by `rt ci`, and then runs the checks below over the program
# that it built.
#
#     bash checks/gate.sh                               everything
#     bash checks/gate.sh --checks [PROGRAM [NAME..]]   the checks alone, or those of these names, over a program that is built
#
# GATE_STANDBY=1 has the check `standby` run too. On a busy machine GlusterFS may not start in time, which then fails it.
#
# Each check has a line with its seconds. Its output is shown if it fails; what it skipped is always shown. A check is skipped if
# the machine lacks a tool that it needs, if it wants root and there is none, if there is no program, or if it might not end in
# the minutes that the gate has, GATE_MINUTES or 170. This fails nothing, except under CI (CI=true) for the checks of GATE_MUST:
# there root also installs the tools first (checks/tools.sh). The last lines say what was skipped for lack of what, and then
# `N passed, M failed`, of `rt ci` and of the checks together. The status is that of the worst.
set -u -o pipefail

# The checks that must run under CI. The others need a browser, tshark, or the right to mount a disk.
GATE_MUST='front_door counts build_log texts edges completions pages damaged killed_server killed_server_64 until killed_notes
    killed_copy days_ahead trials refused_program together snapshots shards sizes package library c_library plain_c clients notes_files
    notes_examples closed_streams file_size_limit synced refused_sockets'

top=$(dirname "$(dirname "$(readlink -f "${BASH_SOURCE[0]}")")")
room=$(mktemp -d) || exit
trap 'end' EXIT
trap 'exit 130' INT
trap 'exit 143' TERM
mkdir "$room/bin"
s10=$room/bin/s10
library=$room/libs10_c.a
chosen=()
minutes=${GATE_MINUTES:-170}
passed=0 failed=0 skipped=0 running=
# The check that runs beside others, if there is one: its process, when it began, its name and its limit.
beside=()
# A line for each check that was skipped, and for each part of one.
skips=()

# Ends the checks that run, and removes what is ours.
end() {
    local process
    for process in $running ${beside[0]:-}; do
        kill "$process" 2>/dev/null
        wait "$process" 2>/dev/null
    done
    rm -rf --one-file-system "$room"
}

is_new_python() {
    python3 -c 'import sys; sys.exit(sys.version_info < (3, 10))' 2>/dev/null
}

# Prints the first of these tools that the machine lacks. `python3` must not be older than the scripts. `program` and `library`
# are what was built, `asked` is the wish for a check that is not always run.
lacking() { # TOOL..
    local tool
    for tool in "$@"; do
        case $tool in
            root) [ "$(id -u)" = 0 ] || { echo root; return; } ;;
            program) [ -x "$s10" ] || { echo program; return; } ;;
            library) [ -e "$library" ] || { echo 'C library'; return; } ;;
            asked) [ -n "${GATE_STANDBY:-}" ] || { echo 'wish for it: GATE_STANDBY=1'; return; } ;;
            git) git -C "$top" rev-parse -q --verify HEAD >/dev/null 2>&1 || { echo 'git with this repository'; return; } ;;
            python3) is_new_python || { echo 'python3 from 3.10 on'; return; } ;;
            *) command -v "$tool" >/dev/null || { echo "$tool"; return; } ;;
        esac
    done
}

tell() { # RESULT SECONDS NAME
    printf '%-7s %4s s  %s\n' "$1" "$2" "$3"
}

# Whether a check is one of those that are asked for.
is_chosen() { # NAME
    [ ${#chosen[@]} -eq 0 ] || [[ " ${chosen[*]} " == *" $1 "* ]]
}

# Whether a check fails the gate if it is skipped.
must_run() { # NAME
    [ "${CI:-}" = true ] && [[ " ${GATE_MUST//$'\n'/ } " == *" $1 "* ]]
}

skip() { # NAME SECONDS WHY
    if must_run "$1"; then
        failed=$((failed + 1))
        tell FAILED "$2" "$1: must run under CI: $3"
    else
        skipped=$((skipped + 1))
        skips+=("$1: $3")
        tell skipped "$2" "$1: $3"
    fi
}

# Whether a check is asked for and can be run. One that is asked for and cannot is skipped. TOOLS are what it needs.
can_run() { # NAME LIMIT TOOLS
    local missing
    is_chosen "$1" || return
    # Word splitting separates the tools.
    # shellcheck disable=SC2086
    missing=$(lacking $3)
    if [ -z "$missing" ] && [ $((SECONDS + $2)) -gt $((minutes * 60)) ] && ! must_run "$1"; then missing='time left'; fi
    [ -z "$missing" ] || { skip "$1" 0 "no $missing"; return 1; }
}

# Runs a check for at most LIMIT seconds, and prints its result.
check() { # NAME LIMIT TOOLS COMMAND..
    local start=$SECONDS status=0
    can_run "$1" "$2" "$3" || return
    timeout --kill-after=30 "$2" "${@:4}" </dev/null >"$room/output" 2>&1 &
    running=$!
    wait "$running" || status=$?
    running=
    judge "$1" $((SECONDS - start)) "$status" "$2"
    [ ${#beside[@]} -eq 0 ] || kill -0 "${beside[0]}" 2>/dev/null || end_beside
}

# Begins a check that goes on beside those that follow, with what these leave of the processors.
begin_beside() { # NAME LIMIT TOOLS COMMAND..
    can_run "$1" "$2" "$3" || return
    nice timeout --kill-after=30 "$2" "${@:4}" </dev/null >"$room/beside" 2>&1 &
    beside=("$!" "$SECONDS" "$1" "$2")
}

# Waits for the check that was begun beside others, and prints its result.
end_beside() {
    local status=0
    [ ${#beside[@]} -ne 0 ] || return
    wait "${beside[0]}" || status=$?
    mv "$room/beside" "$room/output"
    judge "${beside[2]}" $((SECONDS - beside[1])) "$status" "${beside[3]}"
    beside=()
}

# Prints the result of a check by its status and its output.
judge() { # NAME SECONDS STATUS LIMIT
    local part
    if [ "$3" -ne 0 ]; then
        failed=$((failed + 1))
        tell FAILED "$2" "$1: $([ "$3" -eq 124 ] && echo "not ended after $4 s" || echo "status $3")"
        tail -n 40 "$room/output" | sed 's/^/    /'
    elif grep -q '^skipped' "$room/output" && ! grep -qv '^skipped' "$room/output"; then
        skip "$1" "$2" "$(sed -n '1s/^skipped[: ]*//p' "$room/output")"
    else
        passed=$((passed + 1))
        tell passed "$2" "$1"
        while read -r part; do
            echo "    $part"
            part=${part#skipped} part=${part#:}
            skips+=("$1, in part: ${part# }")
        done < <(grep '^skipped' "$room/output")
    fi
}

# The checks, the quick ones first. contrib/README.md, which `pages` runs, tests the client in Python; `c_library` tests it with
# the library, and runs the commands of the pages about the library.
run_checks() {
    local checks=$top/checks contrib=$top/contrib memory=${TMPDIR:-/tmp} draws found
    if [ -w /dev/shm ]; then memory=/dev/shm; fi
    # No setting of the user changes what a check does.
    unset S10 S10_LIBRARY LIBRARY BROWSER MAINTAINER SOURCE_DATE_EPOCH PYTHONPATH GIT_DIR GIT_WORK_TREE GIT_INDEX_FILE
    export LC_ALL=C.UTF-8 PYTHONDONTWRITEBYTECODE=1
    cd "$room" || return
    # It keeps the processors busy for a quarter of an hour and more. The others need less than one of them.
    begin_beside front_door 7200 'git rattle make flock' bash "$checks/front_door.sh"
    check counts 300 python3 python3 "$checks/counts.py"
    check build_log 600 'python3 make flock' python3 "$checks/build_log.py"
    check python_types 300 'python3 mypy' bash "$checks/python_types.sh"
    check texts 300 'program python3' python3 "$contrib/write_texts.py" --check "$s10"
    check edges 600 'program python3' python3 "$checks/edges.py" "$s10"
    check closed_streams 300 'program python3' python3 "$checks/closed_streams.py" "$s10"
    check file_size_limit 600 'program python3' python3 "$checks/file_size_limit.py" "$s10"
    check completions 600 'program python3' env S10="$s10" python3 "$contrib/test_completions.py"
    check ledger_page 600 'program python3' env S10="$s10" python3 "$contrib/test_ledger_page.py"
    check label 300 'program python3 zint rsvg-convert zbarimg' env S10="$s10" python3 "$contrib/test_label.py"
    check dissector 900 'program python3 tshark' env S10="$s10" python3 "$contrib/test_dissector.py"
    check pages 1800 'program python3' python3 "$checks/documents.py" "$s10"
    check damaged 1800 'program python3' python3 "$checks/damaged.py" "$s10" 2000
    check killed_server 900 program sh "$checks/killed_server.sh" "$s10"
    check killed_server_64 900 program sh "$checks/killed_server.sh" "$s10" 64
    check until 300 program sh "$checks/until.sh" "$s10"
    check killed_notes 900 'program python3' python3 "$checks/killed_notes.py" "$s10" 50
    check killed_copy 600 'program cc python3' python3 "$checks/killed_copy.py" "$s10"
    check days_ahead 300 program sh "$checks/days_ahead.sh" "$s10"
    check full_disk 1200 'program unshare mount' sh "$checks/full_disk.sh" "$s10"
    check trials 1800 'program sqlite3' sh "$checks/trials.sh" "$s10"
    check refused_program 1800 'program python3 cc' python3 "$checks/refused_program.py" "$s10" 211
    check synced 600 'program python3 strace' python3 "$checks/synced.py" "$s10"
    check refused_sockets 300 'program python3 strace' python3 "$checks/refused_sockets.py" "$s10"
    check together 900 'program python3' env TMPDIR="$memory" python3 "$checks/together.py" "$s10"
    check snapshots 300 'program python3' env TMPDIR="$memory" python3 "$checks/snapshots.py" "$s10"
    check shards 900 'program python3' env TMPDIR="$memory" bash "$checks/shards.sh" "$s10" 2000
    check standby 900 'asked program python3 root unshare nsenter ip bridge nft arping glusterd gluster mount.glusterfs' \
        python3 "$checks/standby.py" "$s10"
    check sizes 1200 'program python3' env TMPDIR="$memory" python3 "$checks/sizes.py" "$s10"
    check package 900 'program python3 git' bash "$checks/package.sh" "$s10"
    check library 1200 'program rt' bash -c 'cd "$0" && rt lib && cp out/libs10_c.a "$1"' "$top/crates/s10_c" "$library"
    check c_library 1200 'program library python3 make cc nm' env LIBRARY="$library" bash "$checks/c_library.sh" "$s10" 50
    check plain_c 600 'library cc' bash "$checks/plain_c.sh" "$library"
    check clients 600 'library make cc' bash "$checks/clients.sh" "$library" "$room/c"
    # The clients that were built are tried.
    mapfile -t draws < <(compgen -G "$room/c/s10_draw*" | grep -v '\.exe$')
    found=(env "LD_LIBRARY_PATH=$room/c/prefix/lib" python3)
    check notes_files 1800 'program python3' "${found[@]}" "$checks/notes_files.py" "$s10" "${draws[@]}"
    check notes_examples 900 'program python3' "${found[@]}" "$checks/notes_examples.py" "$s10" "${draws[@]}"
    check counter_page 1200 'library python3 rt' bash "$checks/counter_page.sh"
    end_beside
}

# Prints how many provers may run at the same time: one for each processor, and one for each 5 GB of free memory. The largest
# takes 7 GB, most take 1 to 3. By itself `rt ci` reserves two to three times as much, and leaves processors idle.
lanes() {
    awk -v processors="$(nproc)" '/^MemAvailable:/ { lanes = int($2 / 5e6); if (lanes > processors) lanes = processors
        print (lanes < 1 ? 1 : lanes) }' /proc/meminfo
}

# Runs `rt ci`. Sets its status, and adds what it counted.
prove() {
    local last start=$SECONDS
    (cd "$top" && PYTHONUNBUFFERED=1 RT_JOBS=${RT_JOBS:-$(lanes)} rt ci) | tee "$room/proved"
    status=${PIPESTATUS[0]}
    last=$(sed -nE 's/^([0-9]+) passed, ([0-9]+) failed$/\1 \2/p' "$room/proved" | tail -n 1)
    [ -n "$last" ] || last='0 1'
    proved=${last% *} unproved=${last#* }
    [ "$status" -ne 0 ] || [ "$unproved" -eq 0 ] || status=1
    [ "$status" -eq 0 ] || [ "$unproved" -ne 0 ] || unproved=1
    echo "gate: rt ci took $((SECONDS - start)) s"
}

# Takes the program that Rattle's own compiler built, which is also what `./s10` builds, and otherwise the one of LLVM. The gate
# runs the tests of the crates as LLVM builds them.
take_program() {
    local built
    for built in "$@"; do
        if [ -x "$built" ]; then
            cp "$built" "$s10" && chmod 755 "$s10"
            return
        fi
    done
}

main() {
    local status=0 proved=0 unproved=0 start
    local out=$top/crates/s10/out
    if [ "${CI:-}" = true ] && [ "$(id -u)" = 0 ]; then bash "$top/checks/tools.sh"; fi
    if [ "${1:-}" = --checks ]; then
        [ $# -lt 2 ] || [ -x "$2" ] || { echo "gate: $2 is no program" >&2; return 2; }
        take_program "${2:-$out/s10.by-rattle}" "${2:-$out/s10}"
        chosen=("${@:3}")
    else
        prove
        [ "$status" -ne 0 ] || take_program "$out/s10.by-rattle" "$out/s10"
    fi
    start=$SECONDS
    run_checks
    echo "gate: the checks took $((SECONDS - start)) s: $passed passed, $failed failed"
    echo "gate: $skipped checks were skipped, and $((${#skips[@]} - skipped)) parts of others"
    [ ${#skips[@]} -eq 0 ] || printf 'gate: skipped %s\n' "${skips[@]}"
    echo "$((proved + passed)) passed, $((unproved + failed)) failed"
    [ "$failed" -eq 0 ] || [ "$status" -ne 0 ] || status=1
    return "$status"
}

main "$@"
