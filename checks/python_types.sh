#!/usr/bin/env bash
# Checks the types of the client in Python by mypy. Its source must pass as strict. Then it is installed without a network into
# an environment of its own, where mypy must accept a program that uses each method rightly, and find each line of another that
# is wrong.
#
#     checks/python_types.sh
set -euo pipefail
top=$(dirname "$(dirname "$(readlink -f "${BASH_SOURCE[0]}")")")
work=$(mktemp -d)
trap 'rm -rf "$work"' EXIT
cd "$work"

fail() {
    echo "failed: $1" >&2
    exit 1
}

# The numbers of the lines of a program that mypy finds wrong.
found_in() { # PROGRAM
    mypy --strict --cache-dir cache --python-executable env/bin/python "$1" >said && return
    sed -nE "s/^$1:([0-9]+): error: .*/\1/p" said | sort -nu
}

command -v mypy >/dev/null || { echo "skipped types: mypy"; exit; }
(cd "$top/contrib/python" && mypy --strict --python-version 3.8 --cache-dir "$work/cache" s10client) ||
    fail 'the types of the source'

# Pip builds the package by what the machine has. The first Python of the PATH may lack it, and Debian's have it.
for python in python3 /usr/bin/python3 none; do
    [ "$python" != none ] || { echo "skipped types of the installed client: python3-setuptools"; exit; }
    ! "$python" -c 'import venv, ensurepip, setuptools, wheel' 2>/dev/null || break
done
"$python" -m venv --system-site-packages env
cp -r "$top/contrib/python" source
env/bin/pip install --quiet --no-index --no-build-isolation ./source

cat >right.py <<'END'
from pathlib import Path
from typing import List, Optional
from s10client import Client, Drawn, GaveUp, Refused, Told, check_digit, library, make_notes

noted: List[bytes] = []
make_notes("notes", customer=7)
make_notes(Path("notes"), 7, first=1, last=9)
with Client(("127.0.0.1", 4000), 7, 1, noted.append, last=9, tries=1, wait=0.5) as client:
    number: Optional[int] = client.number_of_request
with Client.open(Path("notes"), ("127.0.0.1", 4000)) as client:
    if client.is_open:
        print(client.again().identifier)
    try:
        granted: int = client.grant(7, "RA", "GB", 0, 2)
        client.withdraw(granted)
        drawn: Drawn = client.draw("RA", "GB")
        sheet: List[Drawn] = client.draw_many("RA", "GB", 2)
        told: Told = client.query(sheet[0].identifier)
        client.void(drawn.identifier)
        print(told.status.upper(), told.day + check_digit(47312482), library is None)
        client.record()
    except (GaveUp, Refused) as why:
        print(why)
END
cat >wrong.py <<'END'
from s10client import Client, check_digit, make_notes

make_notes("notes", customer="7")  # wrong
make_notes(7, 7)  # wrong
check_digit("47312482")  # wrong
Client(("127.0.0.1", 4000), 7, 1)  # wrong
Client("127.0.0.1:4000", 7, 1, print)  # wrong
with Client.open("notes", ("127.0.0.1", 4000)) as client:
    client.draw("RA")  # wrong
    client.draw(b"RA", "GB")  # wrong
    client.draw("RA", "GB").text  # wrong
    client.draw_many("RA", "GB", 2).identifier  # wrong
    print(client.query("RA000000005GB").day + "")  # wrong
    print(client.grant(7, "RA", "GB", 0, 2).range)  # wrong
    client.void(None)  # wrong
    client.give_up()  # wrong
END
found=$(found_in right.py)
[ -z "$found" ] && grep -q '^Success' said || { cat said; fail 'right uses of the client'; }
found=$(found_in wrong.py)
[ "$found" = "$(grep -n '# wrong$' wrong.py | cut -d: -f1)" ] || { cat said; fail 'the wrong lines are not those that are found'; }
echo "types ok: the source, a program of right uses, $(wc -l <<<"$found") wrong lines"
