#!/usr/bin/env bash
# Measures a run of 256 by 256 cells in blocks of 16 by 16 with one field over 500 cycles of one stage, with a dump at the
# opening and at the end. Prints the machine's processor, the time, the time of a cell update, that of the kernels alone (fluxes,
# update and letters that fill the ghosts, on blocks of that size in cache), the ratio of the two, and the peak memory.
set -eu
export LC_ALL=C

side=256
block=16
cycles=${1:-500}

top=$(cd "$(dirname "$(readlink -f "${BASH_SOURCE[0]}")")/.." && pwd)
program=$top/crates/parthenon_whole/out/parthenon_whole
kernels=$top/crates/kernel_bench/out/kernel_bench
folder=$(mktemp -d)
trap 'rm -rf "$folder"' EXIT

write_deck() {
    printf '<parthenon/mesh>\nnx1 = %d\nnx2 = %d\n' "$side" "$side"
    printf '<parthenon/meshblock>\nnx1 = %d\nnx2 = %d\n' "$block" "$block"
    printf '<parthenon/time>\nnlim = %d\n' "$cycles"
    printf '<whole>\ndenominator = 1000\ndump_every = %d\n' "$cycles"
    printf '<field/a>\nv1 = 100\nv2 = 50\nk = 20\n'
    printf '<box/all>\nfield = a\namount = 1000000\n'
    printf '<box/part>\nfield = a\nhi1 = %d\nhi2 = %d\namount = 1000000\n' $((side / 2)) $((side / 2))
}

# The script proves and builds the program where that is due; without words it then ends with a usage line.
"$top/parthenon_whole" >/dev/null || [ $? -eq 1 ]
[ -x "$kernels" ] || (cd "$top/crates/kernel_bench" && rt run >/dev/null)
write_deck >"$folder/deck.in"

cd "$folder"
start=$EPOCHREALTIME
"$program" -i deck.in >line &
run=$!
peak=0
while now=$(awk '/^VmHWM:/ { print $2 }' "/proc/$run/status" 2>/dev/null) && [ -n "$now" ]; do
    peak=$now
    sleep 0.02
done
status=0
wait "$run" || status=$?
end=$EPOCHREALTIME

if [ "$status" -ne 0 ]; then
    echo "square: the run ended with status $status" >&2
    cat line >&2
    exit 1
fi
kernel=$("$kernels" letters ${block}x$block 32 both)
echo "processor: $(awk -F': ' '/^model name/ { print $2; exit }' /proc/cpuinfo)"
echo "run: $(cat line)"
awk -v start="$start" -v end="$end" -v updates="$((side * side * cycles))" -v kernel="$kernel" -v peak="$peak" 'BEGIN {
    time = (end - start) * 1e9 / updates
    printf "time: %.3f s\n", end - start
    printf "time of a cell update: %.2f ns\n", time
    printf "time of the kernels alone: %.2f ns a cell\n", kernel
    printf "ratio: %.2f\n", time / kernel
    printf "peak memory: %d kB\n", peak
}'
