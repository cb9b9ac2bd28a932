#!/usr/bin/env bash
# Checks what installs the program: the Debian package and the systemd unit.
#
#     bash checks/package.sh [PROGRAM]
#
# The package is built where git knows no name: it must have a maintainer, be the same byte for byte when it is built again, and
# have each page that its pages name. Then the commands of the unit, which start and stop the server, are run without systemd, with
# the program in each folder that a page installs it into. As root, its look at the owners of files is run as another user. A tool
# that the machine lacks is named, and what needs it is skipped.
set -eu -o pipefail

top=$(readlink -f "$(dirname "$(readlink -f "${BASH_SOURCE[0]}")")/..")
s10=$(readlink -f "${1:-$top/crates/s10/out/s10}")
dir=$(mktemp -d)
trap 'rm -rf "$dir"' EXIT

fail() {
    echo "failed: $1"
    exit 1
}

# Whether the machine has the tools. Names the first that it lacks.
have() { # TOOL..
    local tool
    for tool in "$@"; do
        command -v "$tool" >/dev/null || { echo "skipped: no $tool"; return 1; }
    done
}

# Builds the package in a clone that has the files of this folder, where git knows no name.
build() { # FOLDER
    mkdir "$dir/$1"
    env -u MAINTAINER -u EMAIL HOME="$dir" GIT_CONFIG_NOSYSTEM=1 GIT_CONFIG_GLOBAL=/dev/null \
        bash "$dir/clone/contrib/make_deb.sh" "$dir/program" "$dir/$1" >"$dir/names" 2>"$dir/words"
}

if have dpkg-deb dpkg-shlibdeps dpkg-architecture git strip; then
    git clone -q --shared --no-checkout "$top" "$dir/clone"
    cp -r "$top"/*.md "$top/docs" "$top/contrib" "$dir/clone"
    # The texts are written from a program of any name.
    cp "$s10" "$dir/program"
    build one || fail "no package: $(cat "$dir/words")"
    package=$(cat "$dir/names")
    maintainer=$(dpkg-deb -f "$package" Maintainer)
    [ "$maintainer" = "$(git -C "$top" log -1 --format='%an <%ae>')" ] || fail "the maintainer is $maintainer"
    build two || fail "no package: $(cat "$dir/words")"
    cmp "$package" "$dir/two/$(basename "$package")" || fail 'two packages differ'
    dpkg-deb -x "$package" "$dir/unpacked"
    cmp -s "$top/contrib/s10.1" <(zcat "$dir/unpacked/usr/share/man/man1/s10.1.gz") || fail 'the man page is not that of contrib'
    ! have lintian || lintian --allow-root --fail-on error,warning "$package" || fail lintian

    echo 'See docs/NOTHING.md.' >>"$dir/clone/docs/TOUR.md"
    ! build three || fail 'a page that is not there'
    grep -q 'docs/TOUR.md .* docs/NOTHING.md' "$dir/words" || fail "the words are $(cat "$dir/words")"
    echo "ok: $(basename "$package"), $(find "$dir/unpacked/usr/share/doc/s10" -name '*.md' | wc -l) pages"
fi

# Prints a command of the unit, in which its folder for a run is below a folder of ours.
unit=$top/contrib/s10.service
command_of() { # NAME
    sed -n "s/^$1=//p" "$unit" | sed 's/\$\$/$/g; s/%%/%/g' | sed "s|/run/s10/|$dir/run/|g"
}

# Starts the server by the command of the unit, with its settings, in which the folders of programs are below a folder of ours.
# Prints its lines and its status.
unit() { # SETTING..
    local settings
    settings=$(sed -n 's/^Environment=//p' "$unit" |
        sed "s|/usr/local/bin|$dir/usr/local/bin|; s|:/usr/bin|:$dir/usr/bin:/usr/bin|")
    # Word splitting separates the settings.
    # shellcheck disable=SC2086
    (cd "$dir/state" && exec env -i $settings "$@" bash -c "$(command_of ExecStart)" 2>"$dir/words") || echo "status $?"
}

# Runs the unit's look at the owners of its files, as the user whom `as` names. Prints its line, and its status if that is not 0.
as=()
look() {
    (cd "$dir/state" && exec env -i PATH="$PATH" USER=s10 "${as[@]}" bash -c "$(command_of ExecStartPre)" 2>&1) || echo "status $?"
}

# Starts the server, and stops it by the command of the unit once it serves. Prints its lines, and its status if that is not 0.
start_and_stop() {
    rm -rf "$dir/run" && mkdir "$dir/run"
    unit S10_BIND=127.0.0.1:0 >"$dir/lines" &
    for _ in $(seq 100); do
        ! grep -q '^serving on ' "$dir/words" 2>/dev/null || break
        sleep 0.1
    done
    # The process that runs the server is a child of the one that waits for its status.
    timeout 20 env -i PATH="$PATH" MAINPID="$(pgrep -o -P $!)" bash -c "$(command_of ExecStop)" || echo "stop: status $?"
    wait $!
    cat "$dir/lines"
}

# The unit names the services that can delay time-sync.target. Those on this machine are ordered before it.
grep -q '^After=.*time-sync.target' "$unit" || fail 'the unit does not wait for the clock'
for service in systemd-time-wait-sync.service chrony-wait.service; do
    grep -q "$service" "$unit" || fail "the unit does not name $service"
    [ ! -e "/lib/systemd/system/$service" ] || grep -q '^Before=.*time-sync.target' "/lib/systemd/system/$service" ||
        fail "$service does not delay time-sync.target"
done

mkdir "$dir/state"
"$s10" create --ledger "$dir/state/ledger" --interval 30 --limit 1000 >/dev/null
for folder in usr/local/bin usr/bin; do
    rm -rf "${dir:?}/usr"
    install -D "$s10" "$dir/$folder/s10"
    : >"$dir/words"
    came=$(start_and_stop)
    grep -q '^serving on ' "$dir/words" || fail "the unit with the program in $folder: $(cat "$dir/words")"
    [ -z "$came" ] || fail "the unit prints $came"
done
came=$(unit S10_BIND=nowhere)
[ "$came" = "$(printf 'refused peer\nstatus 1')" ] || fail "the unit prints $came at no address"
came=$(unit S10_DAYS_AHEAD=none)
[ "$came" = 'status 2' ] || fail "the unit prints $came without days"
came=$(unit S10_BIND=127.0.0.1:0)
[ "$came" = "$(printf 'refused until\nstatus 1')" ] || fail "the unit prints $came after a stop whose file is still there"
[ -z "$(look)" ] || fail "the unit prints $(look) with a ledger of its own user"

# Root's files, in a folder that the user of the server may enter.
if [ "$(id -u)" != 0 ]; then
    echo 'skipped: no root'
elif have setpriv; then
    as=(setpriv --reuid=65534 --regid=65534 --clear-groups)
    chmod 711 "$dir"
    rm -f "$dir/state/ledger"*
    [ -z "$(look)" ] || fail "the unit prints $(look) without a ledger"
    for file in ledger-wal ledger; do
        (umask 077 && : >"$dir/state/$file")
        came=$(look)
        [ "$came" = "$(printf '%s: the owner is root, the server runs as s10\nstatus 3' $file)" ] || fail "the unit prints $came for root's $file"
    done
    chown 65534 "$dir/state/ledger"*
    [ -z "$(look)" ] || fail "the unit prints $(look) with a ledger of its own user"
fi
# A unit without a limit of starts tries for ever.
grep -q '^StartLimitIntervalSec=[1-9]' "$unit" || fail 'the unit has no time for a limit of starts'
grep -q '^StartLimitBurst=[1-9]' "$unit" || fail 'the unit has no limit of starts'
echo 'ok: the commands of the unit'
