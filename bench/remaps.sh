#!/usr/bin/env bash
# Measures a remap of 16,384 blocks of 8 by 8 cells with four fields on all of them, of which a hundred are refined: in one thread,
# and in several. The yardstick is a C program that copies as many lists of cells into new ones, with as many lists of zeros for the
# faces. Prints the machine's processor, the milliseconds of the fastest of five rounds, and the ratio to the yardstick.
set -eu
export LC_ALL=C

top=$(cd "$(dirname "$(readlink -f "${BASH_SOURCE[0]}")")/.." && pwd)
program=$top/crates/mesh_bench/out/mesh_bench
folder=$(mktemp -d)
trap 'rm -rf "$folder"' EXIT

if [ ! -x "$program" ]; then
    (cd "$top/crates/mesh_bench" && rt run >/dev/null)
fi

{
    echo '<parthenon/mesh>
nx1 = 1024
nx2 = 1024
refinement = adaptive
numlevel = 2
<parthenon/meshblock>
nx1 = 8
nx2 = 8
<parthenon/time>
nlim = 1
<whole>
denominator = 4'
    for field in a b c d; do
        echo "<field/$field>"
        echo "<box/$field>"
        echo "field = $field"
        echo 'amount = 1234567'
    done
} >"$folder/deck.in"

cat >"$folder/yardstick.c" <<'SOURCE'
#include <stdint.h>
#include <stdio.h>
#include <stdlib.h>
#include <string.h>
#include <time.h>

/* The lists of a field on a block: 12 by 12 cells with ghosts, and 9 by 8 faces along each of two axes, twice. */
enum { CELLS = 144, FACES = 144, BUFFERS = 16684 * 4, ROUNDS = 5 };

struct buffer { uint64_t *cells, *right, *left; };

static uint64_t *copied(const uint64_t *from) {
    uint64_t *list = malloc(CELLS * sizeof *list);
    if (list) memcpy(list, from, CELLS * sizeof *list);
    return list;
}

static int copy(struct buffer *new, const struct buffer *old) {
    new->cells = copied(old->cells);
    new->right = calloc(FACES, sizeof *new->right);
    new->left = calloc(FACES, sizeof *new->left);
    return new->cells && new->right && new->left;
}

int main(void) {
    static struct buffer old[BUFFERS], new[BUFFERS];
    uint64_t first[CELLS];
    double best = 1e9;
    for (int i = 0; i < CELLS; i++) first[i] = 1234567;
    struct buffer start = { first, 0, 0 };
    for (int i = 0; i < BUFFERS; i++) if (!copy(&old[i], &start)) return 1;
    for (int round = 0; round < ROUNDS; round++) {
        struct timespec a, b;
        clock_gettime(CLOCK_MONOTONIC, &a);
        for (int i = 0; i < BUFFERS; i++) if (!copy(&new[i], &old[i])) return 1;
        clock_gettime(CLOCK_MONOTONIC, &b);
        double took = (b.tv_sec - a.tv_sec) * 1e3 + (b.tv_nsec - a.tv_nsec) / 1e6;
        if (took < best) best = took;
        for (int i = 0; i < BUFFERS; i++) { free(new[i].cells); free(new[i].right); free(new[i].left); }
    }
    printf("%.3f\n", best);
    return 0;
}
SOURCE
cc -O2 -o "$folder/yardstick" "$folder/yardstick.c"

echo "processor: $(awk -F': ' '/^model name/ { print $2; exit }' /proc/cpuinfo)"
base=$("$folder/yardstick")
echo "yardstick: $base ms"
for how in alone threads; do
    read -r before after time < <("$program" "$how" "$folder/deck.in")
    echo "$how: $before leaves to $after in $time ms, ratio $(awk -v a="$time" -v b="$base" 'BEGIN { printf "%.2f", a / b }')"
done
