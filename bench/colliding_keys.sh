#!/usr/bin/env bash
# Measures how long a deck of 30,000 keys takes to be read and listed, and 30,000 overrides to be set: keys that collide under
# the hash that maps have by default, and other keys of the same length.
set -eu
export LC_ALL=C

count=30000
top=$(cd "$(dirname "$(readlink -f "${BASH_SOURCE[0]}")")/.." && pwd)
program=$top/crates/parthenon_whole/out/parthenon_whole
folder=$(mktemp -d)
trap 'rm -rf "$folder"' EXIT

# The script proves and builds the program where that is due; without words it then ends with a usage line.
"$top/parthenon_whole" >/dev/null || [ $? -eq 1 ]

write_deck() {
    printf '<parthenon/mesh>\nnx1 = 4\n<parthenon/time>\nnlim = 0\n<m>\n'
    awk -v start="$1" -v count="$count" 'BEGIN { for (n = 0; n < count; n++) printf "%s%08d=\n", start, n }'
}

measure() {
    local what=$1 start=$EPOCHREALTIME
    shift
    "$program" -n "$@" >"$folder/listed" || { head -c 200 "$folder/listed" >&2; exit 1; }
    awk -v what="$what" -v start="$start" -v end="$EPOCHREALTIME" 'BEGIN { printf "%s: %.3f s\n", what, end - start }'
}

colliding='k000000000004204)l`fdXZ\\'
other='k00000000000000000000000'
write_deck "$colliding" >"$folder/colliding.in"
write_deck "$other" >"$folder/other.in"
write_deck x | head -n 4 >"$folder/short.in"
awk -v count="$count" 'BEGIN { for (n = 0; n < count; n++) printf "m/k000000000004204)l`fdXZ\\%08d=1\n", n }' >"$folder/words"
mapfile -t words <"$folder/words"

echo "processor: $(awk -F': ' '/^model name/ { print $2; exit }' /proc/cpuinfo)"
measure "a deck of colliding keys" -i "$folder/colliding.in"
measure "a deck of other keys" -i "$folder/other.in"
measure "overrides of colliding keys" -i "$folder/short.in" "${words[@]}"
