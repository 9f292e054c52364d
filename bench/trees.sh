#!/usr/bin/env bash
# Measures how long it takes to build trees of about 60,000 leaves with the table of what is behind each side, and how much
# memory: 64 by 64 roots refined to level 2 everywhere, a tree in space that is graded around a corner, and the next tree where
# one leaf is refined. A tree's time is a tenth of what ten more of them add. With the source of a C program as its argument, which
# builds and balances leaves in two dimensions with p4est, it builds that one with mpicc and prints its figures as well.
set -eu
export LC_ALL=C

top=$(cd "$(dirname "$(readlink -f "${BASH_SOURCE[0]}")")/.." && pwd)
program=$top/crates/tree_bench/out/tree_bench
folder=$(mktemp -d)
trap 'rm -rf "$folder"' EXIT

if [ ! -x "$program" ]; then
    (cd "$top/crates/tree_bench" && rt run >/dev/null)
fi

run() {
    /usr/bin/time -o "$folder/figures" -f '%M' "$program" "$@" >"$folder/out"
}

seconds() {
    local start=$EPOCHREALTIME
    run "$@"
    awk -v start="$start" -v end="$EPOCHREALTIME" 'BEGIN { print end - start }'
}

measure() {
    local what=$1 case=$2 words once more
    words=$(yes "$case" | head -n 11)
    once=$(seconds "$case")
    # shellcheck disable=SC2086
    more=$(seconds $words)
    run "$case"
    awk -v what="$what" -v once="$once" -v more="$more" -v kilobytes="$(cat "$folder/figures")" '{
        printf "%s: %s, %.4f s, the whole program %.4f s, %.0f bytes a leaf at the peak\n", what, $0, (more - once) / 10, once, kilobytes * 1024 / $1
    }' "$folder/out"
}

echo "processor: $(awk -F': ' '/^model name/ { print $2; exit }' /proc/cpuinfo)"
measure "level 2 everywhere" uniform
measure "around a corner in space" corner
measure "one leaf refined" next

if [ $# -gt 0 ]; then
    if mpicc -O2 -o "$folder/yardstick" "$1" -lp4est -lsc 2>"$folder/errors"; then
        echo "p4est, level 2 everywhere: $("$folder/yardstick" 64 2 uniform)"
        echo "p4est, around a corner in a plane: $("$folder/yardstick" 64 8 corner)"
    else
        echo "p4est: the program cannot be built here"
    fi
fi
