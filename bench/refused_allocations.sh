#!/usr/bin/env bash
# Refuses each allocation of a small adaptive run with a reaction in turn, the first in the first call, the second in the second
# and so on, and looks at how each call ends: its status, and whether its files are a prefix of those of the whole run. Prints the
# number of allocations, how many calls ended with which status, and how many left other files; it fails where one did, or where
# a status is not that of want of memory. It wants a C compiler, for a library that stands between the program and the system's
# allocator.
set -eu
export LC_ALL=C

top=$(cd "$(dirname "$(readlink -f "${BASH_SOURCE[0]}")")/.." && pwd)
program=$top/crates/parthenon_whole/out/parthenon_whole
folder=$(mktemp -d)
trap 'rm -rf "$folder"' EXIT

# The script proves and builds the program where that is due; without words it then ends with a usage line.
"$top/parthenon_whole" >/dev/null || [ $? -eq 1 ]

cat >"$folder/deck.in" <<'DECK'
<parthenon/mesh>
nx1 = 8
refinement = adaptive
numlevel = 3
ix1_bc = reflecting
ox1_bc = outflow
<parthenon/meshblock>
nx1 = 4
<parthenon/time>
nlim = 4
<whole>
denominator = 4
nstages = 2
dump_every = 1
<field/a>
flags = Cell,Independent,FillGhost,WithFluxes,Sparse
ids = 0
v1 = 1
<field/b>
flags = Cell,Independent,Sparse
ids = 0
<box/0>
field = a_0
lo1 = 0
hi1 = 0
amount = 100
<criterion/c>
field = a_0
method = peak
refine_tol = 20
derefine_tol = 5
<reaction/r>
from = a_0
to = b_0
num = 1
den = 10
DECK

cat >"$folder/refuse.c" <<'SOURCE'
#define _GNU_SOURCE
#include <dlfcn.h>
#include <errno.h>
#include <stdlib.h>
#include <stdio.h>

/* Refuses the allocation whose number stands in REFUSED, and tells at the end how many there were, in the file ALLOCATIONS. */
static unsigned long count, refused;

__attribute__((constructor)) static void start(void) {
    const char *number = getenv("REFUSED");
    refused = number ? strtoul(number, 0, 10) : 0;
    count = 0;
}

__attribute__((destructor)) static void end(void) {
    const char *name = getenv("ALLOCATIONS");
    unsigned long all = count;
    FILE *file = name ? fopen(name, "w") : 0;
    if (file) {
        fprintf(file, "%lu\n", all);
        fclose(file);
    }
}

static int is_refused(void) {
    if (++count != refused) return 0;
    errno = ENOMEM;
    return 1;
}

void *malloc(size_t size) {
    static void *(*real)(size_t);
    if (!real) real = (void *(*)(size_t))dlsym(RTLD_NEXT, "malloc");
    return is_refused() ? 0 : real(size);
}

void *realloc(void *old, size_t size) {
    static void *(*real)(void *, size_t);
    if (!real) real = (void *(*)(void *, size_t))dlsym(RTLD_NEXT, "realloc");
    return is_refused() ? 0 : real(old, size);
}
SOURCE
cc -O2 -shared -fPIC -o "$folder/refuse.so" "$folder/refuse.c" -ldl

# The names of the files of a run in the order in which they are written.
files_in() {
    (cd "$1" && ls | grep '\.dump$' && ls | grep '\.hist$') || true
}

# Whether the files of a folder are a prefix of those of the whole run: the first ones, and of the last of them perhaps a part.
is_prefix() {
    local names at=0 name
    names=$(files_in "$1")
    [ "$names" = "$(files_in "$folder/whole" | head -n "$(grep -c . <<<"$names" || true)")" ] || return 1
    for name in $names; do
        at=$((at + 1))
        cmp -s -n "$(stat -c %s "$1/$name")" "$1/$name" "$folder/whole/$name" || return 1
        [ "$at" -eq "$(wc -w <<<"$names")" ] || cmp -s "$1/$name" "$folder/whole/$name" || return 1
    done
}

mkdir "$folder/whole"
(cd "$folder/whole" && ALLOCATIONS=$folder/count LD_PRELOAD=$folder/refuse.so "$program" -i "$folder/deck.in" >"$folder/line")
count=$(cat "$folder/count")
echo "processor: $(awk -F': ' '/^model name/ { print $2; exit }' /proc/cpuinfo)"
echo "whole run: $(cat "$folder/line"), $(files_in "$folder/whole" | wc -l) files, $count allocations"

others=0
for ((number = 1; number <= count; number++)); do
    rm -rf "$folder/cut"
    mkdir "$folder/cut"
    status=0
    (cd "$folder/cut" && REFUSED=$number LD_PRELOAD=$folder/refuse.so "$program" -i "$folder/deck.in" >"$folder/line") || status=$?
    echo "$status $(cat "$folder/line")" >>"$folder/ends"
    if ! is_prefix "$folder/cut"; then
        others=$((others + 1))
        echo "allocation $number: status $status, and files that are no prefix: $(files_in "$folder/cut" | tr '\n' ' ')"
    fi
done
sort "$folder/ends" | uniq -c | while read -r many status line; do
    echo "status $status ($line): $many calls"
done
echo "other files than a prefix: $others calls"
[ "$others" -eq 0 ] && ! grep -qv '^5 ' "$folder/ends"
