// Counts what a program asks of the C library's allocator, and tells it on standard error when the program ends, and the
// peak of its memory in KiB, as `allocations 12 bytes 3456 peak 1024`. bench/measure.py preloads it; it is no part of the program.
#include <stddef.h>
#include <stdio.h>
#include <unistd.h>

extern void *__libc_malloc(size_t size);
extern void *__libc_calloc(size_t count, size_t size);
extern void *__libc_realloc(void *old, size_t size);
extern void *__libc_memalign(size_t alignment, size_t size);

static unsigned long calls;
static unsigned long bytes;

static void note(size_t size) {
    __atomic_add_fetch(&calls, 1, __ATOMIC_RELAXED);
    __atomic_add_fetch(&bytes, size, __ATOMIC_RELAXED);
}

void *malloc(size_t size) {
    note(size);
    return __libc_malloc(size);
}

void *calloc(size_t count, size_t size) {
    note(count * size);
    return __libc_calloc(count, size);
}

void *realloc(void *old, size_t size) {
    note(size);
    return __libc_realloc(old, size);
}

void *aligned_alloc(size_t alignment, size_t size) {
    note(size);
    return __libc_memalign(alignment, size);
}

int posix_memalign(void **out, size_t alignment, size_t size) {
    note(size);
    *out = __libc_memalign(alignment, size);
    return *out ? 0 : 12;
}

// The most bytes that were ever resident, in KiB; 0 where the system does not tell.
static unsigned long peak(void) {
    unsigned long found = 0;
    char line[256];
    FILE *status = fopen("/proc/self/status", "r");
    while (status && fgets(line, sizeof line, status)) {
        sscanf(line, "VmHWM: %lu", &found);
    }
    return found;
}

__attribute__((destructor)) static void tell(void) {
    char line[128];
    unsigned long asked = calls, size = bytes;
    int length = snprintf(line, sizeof line, "allocations %lu bytes %lu peak %lu\n", asked, size, peak());
    if (length > 0 && write(2, line, (size_t)length) < 0) {
        _exit(1);
    }
}
