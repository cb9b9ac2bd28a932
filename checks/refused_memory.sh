#!/bin/sh
# Refuses the first request for memory of a test, then the second, and so on. It ends when a second test, which makes the
# same requests and needs all of them, meets no refusal. After each refusal the server's run, or the world's, must be that of
# the other deliveries or events, and a repeat of the refused call of a book must succeed. Takes up to an hour.
#
#     sh checks/refused_memory.sh
set -eu
cd "$(dirname "$0")/../crates"
written=$(mktemp)
trap 'rm -f "$written"' EXIT

# Refuses each request for memory of a test in turn, and prints how many there were.
refuse_each() { # CRATE TEST_UNDER_REFUSAL TEST_THAT_NEEDS_ALL_MEMORY
    n=0
    while :; do
        n=$((n + 1))
        (cd "$1" && rt try --test --fail-alloc "$n") > "$written" 2>&1 || true
        if ! grep -q "test $2 \.\.\. ok" "$written"; then
            cat "$written"
            echo "$1: request $n for memory: FAILED"
            exit 1
        fi
        if grep -q "test $3 \.\.\. ok" "$written"; then
            echo "$1: ok: $((n - 1)) requests for memory, each refused in turn"
            return
        fi
    done
}

refuse_each s10_jobs_tests \
    ends::memory::a_refused_request_for_memory_leaves_a_run_of_the_other_deliveries \
    ends::memory::a_run_with_ample_memory_faults_nothing
refuse_each s10_jobs_tests \
    ends::refused_worlds::a_refused_request_for_memory_leaves_a_run_of_the_other_events \
    ends::worlds::each_call_is_executed_once_and_its_reply_accepted_by_its_own_client
refuse_each s10_book_tests \
    book::nine::a_retry_succeeds_after_a_failed_allocation \
    book::nine::nine_calls_with_ample_memory_are_kept_at_once
