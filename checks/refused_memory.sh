#!/usr/bin/env bash
# Refuses memory to a pool and to a directory, at each of their allocations in turn: a put or a push that is refused leaves all as
# it was, and the next one is made. It stops behind the first run that meets no refusal any more. It needs `rt`, and some minutes.
set -u
cd "$(dirname "$0")/../crates" || exit 1

refuse_each() {
    local crate=$1 name=$2 count=1 told
    while told=$(cd "$crate" && rt try --test --fail-alloc "$count" 2>&1); grep -q "^test $name \.\.\. ok" <<< "$told"; do
        if ! grep -q "memory was refused" <<< "$told"; then
            echo "$crate: $((count - 1)) allocations were refused in turn, and all was as before"
            return 0
        fi
        count=$((count + 1))
    done
    echo "$crate: allocation $count:"
    echo "$told"
    return 1
}

refuse_each buffer_pool_tests tests::a_refused_put_leaves_the_pool_as_it_was &&
    refuse_each parts_tests flash_directory_tests::a_refused_push_leaves_the_directory_as_it_was
