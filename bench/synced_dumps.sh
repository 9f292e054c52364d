#!/usr/bin/env bash
# Measures a run of one block of 64 cells with a dump after each of 2,000 cycles, in the current folder: once as it is, and once
# with the dumps in /dev/shm, where keeping a file costs nothing.
set -eu
export LC_ALL=C

cycles=${1:-2000}
top=$(cd "$(dirname "$(readlink -f "${BASH_SOURCE[0]}")")/.." && pwd)
program=$top/crates/parthenon_whole/out/parthenon_whole
"$top/parthenon_whole" >/dev/null || [ $? -eq 1 ]

measure() {
    local what=$1 folder=$2 start=$EPOCHREALTIME
    "$program" -i "$top/crates/example_runs/data/several_fields.in" -d "$folder/mesh" "parthenon/time/nlim=$cycles" whole/dump_every=1 >/dev/null
    awk -v what="$what" -v start="$start" -v end="$EPOCHREALTIME" -v files="$((cycles + 1))" 'BEGIN {
        printf "%s: %.3f s, %.0f microseconds a dump\n", what, end - start, (end - start) / files * 1000000
    }'
    rm -rf "$folder"
}

echo "processor: $(awk -F': ' '/^model name/ { print $2; exit }' /proc/cpuinfo)"
measure "dumps on the disk" "$(mktemp -d -p .)"
measure "dumps in memory" "$(mktemp -d -p /dev/shm)"
