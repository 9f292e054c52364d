#!/usr/bin/env bash
# Measures what a turn of the yard costs, taken and given back: one thread alone, and one, two and four workers in threads
# of their own. Prints the machine's processor, what the program printed, and nanoseconds a turn.
set -eu
export LC_ALL=C

top=$(cd "$(dirname "$(readlink -f "${BASH_SOURCE[0]}")")/.." && pwd)
program=$top/crates/yard_bench/out/yard_bench

if [ ! -x "$program" ]; then
    (cd "$top/crates/yard_bench" && rt run <stdin >/dev/null)
fi
grep -m 1 'model name' /proc/cpuinfo | cut -d : -f 2 | sed 's/^ //'
for workers in 0 1 2 4; do
    start=$(date +%s%N)
    line=$(echo "$workers" | "$program")
    end=$(date +%s%N)
    turns=$(echo "$line" | cut -d ' ' -f 3)
    echo "$line: $(((end - start) / turns)) ns a turn"
done
