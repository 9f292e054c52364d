#!/usr/bin/env bash
# Refuses each allocation of the test of a reaction in a block in turn, the first in the first call, the second in the second and
# so on, and looks at whether the test passes: a reaction for which memory is refused in its midst leaves neither buffers nor flows.
# Prints the number of allocations and how many calls passed; it fails where one did not. It wants a C compiler, for a library that
# stands between the test and the system's allocator.
set -eu
export LC_ALL=C

top=$(cd "$(dirname "$(readlink -f "${BASH_SOURCE[0]}")")/.." && pwd)
program=$top/crates/kernel_cases/out/kernel_cases_tests
test=reaction_tests::want_of_memory_gives_up_the_buffers
folder=$(mktemp -d)
trap 'rm -rf "$folder"' EXIT

if [ ! -x "$program" ]; then
    (cd "$top/crates/kernel_cases" && rt test >/dev/null)
fi

cat >"$folder/refuse.c" <<'SOURCE'
#define _GNU_SOURCE
#include <dlfcn.h>
#include <errno.h>
#include <stdlib.h>
#include <stdio.h>

/* Refuses the allocation whose number stands in REFUSED, and tells at the end how many there were, in the file ALLOCATIONS. */
static unsigned long count, refused;

__attribute__((constructor)) static void start(void) {
    const char *number = getenv("REFUSED");
    refused = number ? strtoul(number, 0, 10) : 0;
    count = 0;
}

__attribute__((destructor)) static void end(void) {
    const char *name = getenv("ALLOCATIONS");
    unsigned long all = count;
    FILE *file = name ? fopen(name, "w") : 0;
    if (file) {
        fprintf(file, "%lu\n", all);
        fclose(file);
    }
}

static int is_refused(void) {
    if (++count != refused) return 0;
    errno = ENOMEM;
    return 1;
}

void *malloc(size_t size) {
    static void *(*real)(size_t);
    if (!real) real = (void *(*)(size_t))dlsym(RTLD_NEXT, "malloc");
    return is_refused() ? 0 : real(size);
}

void *realloc(void *old, size_t size) {
    static void *(*real)(void *, size_t);
    if (!real) real = (void *(*)(void *, size_t))dlsym(RTLD_NEXT, "realloc");
    return is_refused() ? 0 : real(old, size);
}
SOURCE
cc -O2 -shared -fPIC -o "$folder/refuse.so" "$folder/refuse.c" -ldl

ALLOCATIONS=$folder/count LD_PRELOAD=$folder/refuse.so "$program" "$test" >"$folder/out"
count=$(cat "$folder/count")
for ((number = 1; number <= count; number++)); do
    if ! REFUSED=$number LD_PRELOAD=$folder/refuse.so "$program" "$test" >"$folder/out" 2>&1; then
        echo "allocation $number: the test failed"
        exit 1
    fi
done
echo "$count allocations, each refused in a call of its own: the test passed in all"
