#!/usr/bin/env bash
# Measures a stage of sixteen blocks in cache: without face lists (fused), by face lists of the first order (lists) and of the
# second (slopes), with ghosts that are filled before, and one by face lists of the first order with letters that fill the ghosts
# (letters). Prints the machine's processor and, for blocks of 16 by 16, 64 by 64 and 16 by 16 by 16 cells, totals below 2^20, 2^32
# and 2^62 and one or both directions, nanoseconds a cell: the best of many rounds. That totals stay below 2^62 is tested between
# the stages and not timed. With the source of a C program as its argument, which makes such stages with their ghosts and prints
# nanoseconds a cell, it builds that one with cc -O2, takes the best of its runs between ours as the base figure of each size and
# direction, and prints the ratios as well.
set -eu
export LC_ALL=C

top=$(cd "$(dirname "$(readlink -f "${BASH_SOURCE[0]}")")/.." && pwd)
program=$top/crates/kernel_bench/out/kernel_bench
folder=$(mktemp -d)
trap 'rm -rf "$folder"' EXIT

if [ ! -x "$program" ]; then
    (cd "$top/crates/kernel_bench" && rt run >/dev/null)
fi
if [ $# -gt 0 ]; then
    cc -O2 -o "$folder/yardstick" "$1"
fi

least() {
    awk 'NR == 1 || $1 < best { best = $1 } END { print best }'
}

# The best of three runs of the program for a case.
figure() {
    for _ in 1 2 3; do
        "$program" "$@"
    done | least
}

# The best of three runs of the other program, for a size and a direction.
base() {
    local both=0
    if [ "$2" = both ]; then both=1; fi
    # shellcheck disable=SC2086
    for _ in 1 2 3; do
        "$folder/yardstick" $1 "$both"
    done | sed 's/.*: \([0-9.]*\) ns.*/\1/' | least
}

echo "processor: $(awk -F': ' '/^model name/ { print $2; exit }' /proc/cpuinfo)"
for size in 16x16 64x64 16x16x16; do
    cells=$(echo "$size" | awk -F x '{ print $1, $2, (NF > 2 ? $3 : 1) }')
    for ways in one both; do
        other=
        if [ $# -gt 0 ]; then
            other=$(base "$cells" "$ways")
            echo "$size $ways: yardstick $other ns a cell"
        fi
        for bits in 20 32 62; do
            for kernel in fused lists slopes letters; do
                time=$(figure "$kernel" "$size" "$bits" "$ways")
                echo "$size $ways, totals below 2^$bits, $kernel: $time ns a cell$(
                    if [ -n "$other" ]; then
                        awk -v a="$time" -v b="$other" 'BEGIN { printf ", ratio %.2f", a / b }'
                    fi)"
            done
        done
    done
done
