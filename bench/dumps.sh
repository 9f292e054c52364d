#!/usr/bin/env bash
# Measures the text of a dump of some 150 MB, piece by piece (dump) and whole in memory (whole): 2,048 by 2,048 cells in blocks of
# 64 by 64 with four fields, whose totals have one to ten digits. The yardstick is a C program that reads the text, keeps its
# totals block by block, and makes the same text of them in memory; that it is the same is compared. Prints the machine's
# processor, the milliseconds of the fastest of five rounds, megabytes a second, and the ratio to the yardstick.
set -eu
export LC_ALL=C

top=$(cd "$(dirname "$(readlink -f "${BASH_SOURCE[0]}")")/.." && pwd)
program=$top/crates/mesh_bench/out/mesh_bench
folder=$(mktemp -d -p /dev/shm)
trap 'rm -rf "$folder"' EXIT

if [ ! -x "$program" ]; then
    (cd "$top/crates/mesh_bench" && rt run >/dev/null)
fi

# Each box puts an amount of its own into four columns of cells.
awk 'BEGIN {
    print "<parthenon/mesh>\nnx1 = 2048\nnx2 = 2048\n<parthenon/meshblock>\nnx1 = 64\nnx2 = 64\n<parthenon/time>\nnlim = 1\n<whole>\ndenominator = 4"
    split("a b c d", names, " ")
    for (f = 1; f <= 4; f++) print "<field/" names[f] ">"
    seed = 1
    for (f = 1; f <= 4; f++) for (i = 0; i < 512; i++) {
        seed = (seed * 16807) % 2147483647
        printf "<box/%s%d>\nfield = %s\nlo1 = %d\nhi1 = %d\namount = %d\n", names[f], i, names[f], 4 * i, 4 * i + 3, seed % (10 ^ (7 + seed % 4)) + 1
    }
}' >"$folder/deck.in"

cat >"$folder/yardstick.c" <<'SOURCE'
#include <stdint.h>
#include <stdio.h>
#include <stdlib.h>
#include <string.h>
#include <time.h>

enum { ROUNDS = 5, ROW = 64 };

/* The text is kept as lines: either a line of totals, whose numbers are kept, or another line, which is kept as it is. */
struct line { const char *text; size_t length; uint64_t *totals; };

static char *digits(char *to, uint64_t n) {
    char back[20];
    int i = 0;
    do { back[i++] = '0' + n % 10; n /= 10; } while (n);
    while (i) *to++ = back[--i];
    return to;
}

int main(int argc, char **argv) {
    FILE *file = fopen(argv[1], "r");
    if (argc < 2 || !file) return 1;
    fseek(file, 0, SEEK_END);
    size_t size = ftell(file), count = 0, rows = 0;
    rewind(file);
    char *text = malloc(size + 1), *made = malloc(size);
    if (!text || !made || fread(text, 1, size, file) != size) return 1;
    text[size] = 0;
    for (size_t i = 0; i < size; i++) count += text[i] == '\n';
    struct line *lines = malloc(count * sizeof *lines);
    uint64_t *totals = malloc(count * ROW * sizeof *totals);
    if (!lines || !totals) return 1;
    char *at = text;
    for (size_t k = 0; k < count; k++) {
        char *end = strchr(at, '\n');
        lines[k] = (struct line){ at, end - at + 1, 0 };
        if (*at >= '0' && *at <= '9') {
            lines[k].totals = totals + ROW * rows++;
            for (int x = 0; x < ROW; x++) lines[k].totals[x] = strtoull(at, &at, 10);
        }
        at = end + 1;
    }
    double best = 1e9;
    for (int round = 0; round < ROUNDS; round++) {
        struct timespec a, b;
        char *to = made;
        clock_gettime(CLOCK_MONOTONIC, &a);
        for (size_t k = 0; k < count; k++) {
            if (!lines[k].totals) { memcpy(to, lines[k].text, lines[k].length); to += lines[k].length; continue; }
            for (int x = 0; x < ROW; x++) { to = digits(to, lines[k].totals[x]); *to++ = x + 1 < ROW ? ' ' : '\n'; }
        }
        clock_gettime(CLOCK_MONOTONIC, &b);
        double took = (b.tv_sec - a.tv_sec) * 1e3 + (b.tv_nsec - a.tv_nsec) / 1e6;
        if (took < best) best = took;
        if ((size_t)(to - made) != size || memcmp(made, text, size)) { puts("another text"); return 1; }
    }
    printf("%.3f\n", best);
    return 0;
}
SOURCE
cc -O2 -o "$folder/yardstick" "$folder/yardstick.c"

echo "processor: $(awk -F': ' '/^model name/ { print $2; exit }' /proc/cpuinfo)"
"$program" dump "$folder/deck.in" "$folder/text"
base=$("$folder/yardstick" "$folder/text")
bytes=$(stat -c %s "$folder/text")
rate() { awk -v bytes="$bytes" -v time="$1" 'BEGIN { printf "%.0f MB a second", bytes / time / 1000 }'; }
echo "yardstick: $base ms, $(rate "$base")"
for how in dump whole; do
    read -r leaves made time < <("$program" "$how" "$folder/deck.in")
    echo "$how: $leaves blocks, $made bytes, $time ms, $(rate "$time"), ratio $(awk -v a="$time" -v b="$base" 'BEGIN { printf "%.2f", a / b }')"
done
