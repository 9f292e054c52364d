#!/usr/bin/env bash
# Measures a run of one block of 64 cells with 256 fields over 2,000 cycles of one stage, with a dump at the
# opening and at the end. Prints the machine's processor, the time, the cell updates a second, and the peak memory.
set -eu
export LC_ALL=C

cells=64
fields=256
cycles=${1:-2000}

top=$(cd "$(dirname "$(readlink -f "${BASH_SOURCE[0]}")")/.." && pwd)
program=$top/crates/parthenon_whole/out/parthenon_whole
folder=$(mktemp -d)
trap 'rm -rf "$folder"' EXIT

write_deck() {
    printf '<parthenon/mesh>\nnx1 = %d\nix1_bc = inflow\nox1_bc = outflow\n' "$cells"
    printf '<parthenon/time>\nnlim = %d\n' "$cycles"
    printf '<whole>\ndenominator = 1000\ndump_every = %d\n' "$cycles"
    local field
    for ((field = 0; field < fields; field++)); do
        printf '<field/f%d>\nv1 = %d\nk = 100\nix1_in = 1000000\n' "$field" $((field % 400 + 1))
        printf '<box/b%d>\nfield = f%d\nlo1 = 0\nhi1 = %d\namount = 1000000\n' "$field" "$field" $((cells / 2))
    done
}

# The script proves and builds the program where that is due; without words it then ends with a usage line.
"$top/parthenon_whole" >/dev/null || [ $? -eq 1 ]
write_deck >"$folder/deck.in"

cd "$folder"
start=$EPOCHREALTIME
"$program" -i deck.in >line &
run=$!
peak=0
while now=$(awk '/^VmHWM:/ { print $2 }' "/proc/$run/status" 2>/dev/null) && [ -n "$now" ]; do
    peak=$now
    sleep 0.02
done
status=0
wait "$run" || status=$?
end=$EPOCHREALTIME

if [ "$status" -ne 0 ]; then
    echo "one_block_fields: the run ended with status $status" >&2
    cat line >&2
    exit 1
fi
echo "processor: $(awk -F': ' '/^model name/ { print $2; exit }' /proc/cpuinfo)"
echo "run: $(cat line)"
awk -v start="$start" -v end="$end" -v updates="$((cells * fields * cycles))" -v peak="$peak" 'BEGIN {
    printf "time: %.3f s\n", end - start
    printf "cell updates a second: %.0f\n", updates / (end - start)
    printf "peak memory: %d kB\n", peak
}'
