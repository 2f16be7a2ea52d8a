#!/bin/bash
# Refuses each allocation of a replay in turn, one a run: each run either answers that no memory was found, with nothing
# written, or writes the whole trace. It prints how many allocations each job makes. The gate can't do this; a small library
# that is loaded before the C library's own does.
set -eu
cd "$(dirname "${BASH_SOURCE[0]}")/.."
scratch=$(mktemp -d)
trap 'rm -rf "$scratch"' EXIT

cat >"$scratch/refuse.c" <<'C'
#define _GNU_SOURCE
#include <dlfcn.h>
#include <fcntl.h>
#include <stdlib.h>
#include <unistd.h>
/* Refuses the allocation of the number in REFUSE, counted from 1 once main has begun, and tells how many there were. */
static long number, refused;
static int begun;
static void *(*next_malloc)(size_t);
static int refuses(void) { return begun && ++number == refused; }
void *malloc(size_t size) {
    if (!next_malloc) next_malloc = (void *(*)(size_t))dlsym(RTLD_NEXT, "malloc");
    return refuses() ? NULL : next_malloc(size);
}
void *calloc(size_t count, size_t size) {
    static void *(*next)(size_t, size_t);
    if (!next) next = (void *(*)(size_t, size_t))dlsym(RTLD_NEXT, "calloc");
    return refuses() ? NULL : next(count, size);
}
void *realloc(void *old, size_t size) {
    static void *(*next)(void *, size_t);
    if (!next) next = (void *(*)(void *, size_t))dlsym(RTLD_NEXT, "realloc");
    return refuses() ? NULL : next(old, size);
}
void *aligned_alloc(size_t align, size_t size) {
    static void *(*next)(size_t, size_t);
    if (!next) next = (void *(*)(size_t, size_t))dlsym(RTLD_NEXT, "aligned_alloc");
    return refuses() ? NULL : next(align, size);
}
int posix_memalign(void **out, size_t align, size_t size) {
    static int (*next)(void **, size_t, size_t);
    if (!next) next = (int (*)(void **, size_t, size_t))dlsym(RTLD_NEXT, "posix_memalign");
    return refuses() ? 12 : next(out, align, size);
}
__attribute__((constructor)) static void begin(void) {
    const char *text = getenv("REFUSE");
    refused = text ? atol(text) : 0;
    begun = 1;
}
__attribute__((destructor)) static void tell(void) {
    const char *path = getenv("ALLOCATIONS");
    char text[24];
    int at = 24;
    if (!path) return;
    begun = 0;
    long left = number;
    do text[--at] = (char)('0' + left % 10); while (left /= 10);
    int file = creat(path, 0600);
    if (file >= 0) (void)!write(file, text + at, (size_t)(24 - at));
}
C
cc -O1 -shared -fPIC -o "$scratch/refuse.so" "$scratch/refuse.c" -ldl
./mt run <jobs/first.job >/dev/null

# The exit number of a run in which the allocation with this number is refused.
refused() {
    REFUSE=$1 LD_PRELOAD="$scratch/refuse.so" ALLOCATIONS="$scratch/count" ./crates/mt_cli/out/mt_cli run <"$2" >"$scratch/out" 2>/dev/null && echo 0 || echo $?
}

for job in jobs/first.job jobs/requests.job jobs/urgent.job; do
    [ "$(refused 0 "$job")" = 0 ] || { echo "$job: does not end in 0"; exit 1; }
    count=$(cat "$scratch/count")
    cmp -s "$scratch/out" "${job%.job}.trace" || { echo "$job: not its trace"; exit 1; }
    without=0
    for number in $(seq 1 "$count"); do
        case $(refused "$number" "$job") in
            0) cmp -s "$scratch/out" "${job%.job}.trace" || { echo "$job: allocation $number: not its trace"; exit 1; } ;;
            7) [ ! -s "$scratch/out" ] || { echo "$job: allocation $number: written, and no memory"; exit 1; }
               without=$((without + 1)) ;;
            *) echo "$job: allocation $number: another exit number"; exit 1 ;;
        esac
    done
    echo "$job: $count allocations; without each in turn, $without runs end without memory and nothing written, and the others with the whole trace"
done
