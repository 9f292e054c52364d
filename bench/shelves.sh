#!/usr/bin/env bash
# Measures a million allocations and releases on a shelf of 16,384 blocks with 256 fields.
# Prints the machine's processor, what the program printed, the time and the peak memory.
set -eu
export LC_ALL=C

top=$(cd "$(dirname "$(readlink -f "${BASH_SOURCE[0]}")")/.." && pwd)
program=$top/crates/shelf_bench/out/shelf_bench

if [ ! -x "$program" ]; then
    (cd "$top/crates/shelf_bench" && rt run >/dev/null)
fi
grep -m 1 'model name' /proc/cpuinfo | cut -d : -f 2 | sed 's/^ //'
/usr/bin/time -f '%e s, %M kB' "$program"
