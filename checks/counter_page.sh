#!/usr/bin/env bash
# Builds the page for the counter again from the sources of the C library and compares it with contrib/page/s10.html, then
# tries that file in headless Chromium (checks/counter_page.py). MODULE is a WebAssembly module that is built already; without
# it `rt` proves and builds one, which takes minutes. Says `skipped: TOOL` if the machine lacks a tool. The last line is
# `counter page ok`, or the status is not 0. The tests in Chromium take three to four minutes.
#
#     checks/counter_page.sh [MODULE]
set -euo pipefail
top=$(dirname "$(dirname "$(readlink -f "${BASH_SOURCE[0]}")")")

# have TOOL: whether the machine has it; says so if not.
have() {
    command -v "$1" >/dev/null || { echo "skipped: $1"; return 1; }
}

have python3 || exit 0
if [ $# -gt 0 ]; then
    python3 "$top/contrib/page/make_page.py" --check --module "$1"
    echo "s10.html has this module"
elif have rt; then
    python3 "$top/contrib/page/make_page.py" --check
    echo "s10.html is what is built"
fi
browser=${BROWSER:-chromium}
if have "$browser"; then
    version=$("$browser" --version 2>/dev/null | grep -oE '[0-9]+' | head -n 1)
    if [ "${version:-0}" -lt 133 ]; then
        echo "skipped: $browser from version 133 on"
    elif ! timeout 120 "$browser" --headless=new --no-sandbox --disable-gpu --dump-dom about:blank 2>/dev/null | grep -q '<body'; then
        echo "skipped: $browser does not start here"
    else
        python3 "$top/checks/counter_page.py"
    fi
fi
echo "counter page ok"
