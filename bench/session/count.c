// Counts what a program takes of the heap, and says so at its end: `allocations N bytes B`. It is loaded before the program's
// own libraries (LD_PRELOAD). The calls are those of one thread.
#include <stddef.h>
#include <stdio.h>
#include <stdlib.h>

extern void *__libc_malloc(size_t);
extern void *__libc_calloc(size_t, size_t);
extern void *__libc_realloc(void *, size_t);
extern void *__libc_memalign(size_t, size_t);

static unsigned long long calls, bytes;

static void count(size_t size) {
    calls++;
    bytes += size;
}

void *malloc(size_t size) {
    count(size);
    return __libc_malloc(size);
}

void *calloc(size_t items, size_t size) {
    count(items * size);
    return __libc_calloc(items, size);
}

void *realloc(void *old, size_t size) {
    count(size);
    return __libc_realloc(old, size);
}

void *aligned_alloc(size_t align, size_t size) {
    count(size);
    return __libc_memalign(align, size);
}

int posix_memalign(void **to, size_t align, size_t size) {
    count(size);
    *to = __libc_memalign(align, size);
    return *to ? 0 : 12;
}

__attribute__((destructor)) static void tell(void) {
    fprintf(stderr, "allocations %llu bytes %llu\n", calls, bytes);
}
