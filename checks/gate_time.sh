#!/usr/bin/env bash
# Runs the gate and prints what it cost: for each crate the processor minutes of its proof, tests and
# wrong bodies and its largest process, and the sums.
#
#     bash checks/gate_time.sh                    the gate of this checkout
#     taskset -c 0,1 bash checks/gate_time.sh     the same on two processors
#
# The output of the gate goes to the file gate.log in TMPDIR (or /tmp). The provers are sampled twice a
# second. What a prover did after its last sample is only in the processor minutes of the whole.
set -u

root=$(dirname "$(readlink -f "${BASH_SOURCE[0]}")")/..
log=${TMPDIR:-/tmp}/gate.log
ticks_a_second=$(getconf CLK_TCK)
declare -A keys kinds crates ticks rooms

# Prints what a prover works on, from its command line: proof, tests or edits. Prints nothing for other commands.
kind_of() { # WORD..
    case " $* " in
        *' --test '*) echo tests ;;
        ' check '*' -o '* | ' build '*) echo proof ;;
        ' check '*) echo edits ;;
    esac
}

# Prints the crate that a prover works on, from its command line.
crate_of() { # WORD..
    while [ $# -gt 1 ] && [ "$1" != --crate-name ]; do
        shift
    done
    echo "${2:-unknown}"
}

# Records the kind and the crate of a process: of a prover from its command line, of its kernel from the prover that
# started it.
name() { # KEY COMMAND PARENT
    local key=$1 command=$2 parent=${keys[$3]:-none} words
    if [ "$command" = antt-kernel ]; then
        kinds[$key]=${kinds[$parent]:-} crates[$key]=${crates[$parent]:-}
        return
    fi
    { mapfile -d '' -t words <"/proc/${key%/*}/cmdline"; } 2>/dev/null || return
    command=${words[0]:-}
    [ "${command##*/}" = rattle ] || return
    kinds[$key]=$(kind_of "${words[@]:1}")
    crates[$key]=$(crate_of "${words[@]:1}")
}

# Samples each prover of the gate's session: records its processor time and its greatest resident memory.
look() {
    local stat line command fields process key room
    for stat in /proc/[0-9]*/stat; do
        { read -r line <"$stat"; } 2>/dev/null || continue
        command=${line#*(} command=${command%)*}
        case $command in rattle | antt-kernel) ;; *) continue ;; esac
        read -r -a fields <<<"${line##*) }"
        [ "${fields[3]}" = "$gate" ] || continue
        process=${line%% *}
        key=$process/${fields[19]}
        keys[$process]=$key
        [ -n "${kinds[$key]:-}" ] || name "$key" "$command" "${fields[1]}"
        [ -n "${kinds[$key]:-}" ] || continue
        ticks[$key]=$((fields[11] + fields[12]))
        room=$((fields[21] * 4))
        [ "$room" -gt "${rooms[$key]:-0}" ] && rooms[$key]=$room
    done
}

# Prints a line for each crate with its number of wrong bodies, and a line for each prover: crate, kind, number or
# processor seconds, KiB.
provers() {
    local key folder crate
    for folder in crates/*/must-fail; do
        crate=${folder#crates/} crate=${crate%/must-fail}
        echo "$crate tried $(find "$folder" -name '*.edit' | wc -l) 0"
    done
    for key in "${!ticks[@]}"; do
        echo "${crates[$key]} ${kinds[$key]} $((ticks[$key] / ticks_a_second)) ${rooms[$key]:-0}"
    done
}

# Prints a row for each crate, and one for all crates.
table() {
    local form='%-18s %8s %8s %8s %6s %6s\n'
    printf "$form" crate proof tests edits tried GiB
    provers | awk -v form="$form" '
        function minutes(x) { return x ? sprintf("%.1f", x / 60) : "-" }
        { seconds[$1, $2] += $3; whole[$2] += $3; names[$1] }
        $4 > room[$1] { room[$1] = $4 }
        END {
            for (name in names)
                printf form, name, minutes(seconds[name, "proof"]), minutes(seconds[name, "tests"]), \
                    minutes(seconds[name, "edits"]), seconds[name, "tried"] + 0, sprintf("%.1f", room[name] / 1048576)
            printf form, "~all", minutes(whole["proof"]), minutes(whole["tests"]), \
                minutes(whole["edits"]), whole["tried"], ""
        }' | sort | tr -d '~'
}

[ $# -eq 0 ] || { echo 'gate_time: it takes no words' >&2; exit 2; }
cd "$root" || exit
start=$SECONDS
setsid bash .ci/run </dev/null >"$log" 2>&1 &
gate=$!
while kill -0 "$gate" 2>/dev/null; do
    look
    sleep 0.5
done
wait "$gate"
status=$?
table
times >"$log.times"
awk 'NR == 2 {
    for (i = 1; i <= 2; i++) { split($i, part, /[ms]/); minutes += part[1] + part[2] / 60 }
    printf "processor minutes of the whole: %.1f\n", minutes }' "$log.times"
echo "by the clock: $(((SECONDS - start) / 60)) min $(((SECONDS - start) % 60)) s on $(nproc) processors"
tail -n 1 "$log"
exit "$status"
