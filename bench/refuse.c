// Refuses requests for memory of a program that runs, or fails writes and syncs of its files, as the environment says:
//
//   REFUSE_ONE=N     the N-th request gets no memory     FAIL_ONE=N     the N-th pwrite, fdatasync or fsync fails, and does nothing
//   REFUSE_FROM=N    nor does any after it               FAIL_FROM=N    so does any after it
//
// When the program ends, it tells on standard error how many requests and calls there were, and how many of these got nothing, as
// `requests 139 refused 1 calls 0 failed 0`. What the system's loader asks for before is not counted. bench/refuse.py preloads it; it is
// no part of the program.
#include <errno.h>
#include <stddef.h>
#include <stdio.h>
#include <stdlib.h>
#include <sys/syscall.h>
#include <sys/types.h>
#include <unistd.h>

extern void *__libc_malloc(size_t size);
extern void *__libc_calloc(size_t count, size_t size);
extern void *__libc_realloc(void *old, size_t size);
extern void *__libc_memalign(size_t alignment, size_t size);

// What is counted, from 1; 0 is none.
struct count {
    unsigned long one;
    unsigned long from;
    unsigned long seen;
    unsigned long refused;
};

static struct count requests;
static struct count calls;
static int counting;

static int refuses(struct count *it) {
    if (!counting) {
        return 0;
    }
    unsigned long number = __atomic_add_fetch(&it->seen, 1, __ATOMIC_RELAXED);
    if (number != it->one && (it->from == 0 || number < it->from)) {
        return 0;
    }
    __atomic_add_fetch(&it->refused, 1, __ATOMIC_RELAXED);
    return 1;
}

static int refuses_memory(void) {
    if (!refuses(&requests)) {
        return 0;
    }
    errno = ENOMEM;
    return 1;
}

void *malloc(size_t size) {
    return refuses_memory() ? NULL : __libc_malloc(size);
}

void *calloc(size_t count, size_t size) {
    return refuses_memory() ? NULL : __libc_calloc(count, size);
}

// Of no bytes it frees, which is never refused.
void *realloc(void *old, size_t size) {
    return size != 0 && refuses_memory() ? NULL : __libc_realloc(old, size);
}

void *aligned_alloc(size_t alignment, size_t size) {
    return refuses_memory() ? NULL : __libc_memalign(alignment, size);
}

int posix_memalign(void **out, size_t alignment, size_t size) {
    void *block = refuses_memory() ? NULL : __libc_memalign(alignment, size);
    if (block) {
        *out = block;
    }
    return block ? 0 : ENOMEM;
}

static int fails(void) {
    if (!refuses(&calls)) {
        return 0;
    }
    errno = EIO;
    return 1;
}

ssize_t pwrite(int file, const void *bytes, size_t size, off_t at) {
    return fails() ? -1 : syscall(SYS_pwrite64, file, bytes, size, at);
}

ssize_t pwrite64(int file, const void *bytes, size_t size, off_t at) __attribute__((alias("pwrite")));

int fdatasync(int file) {
    return fails() ? -1 : (int)syscall(SYS_fdatasync, file);
}

int fsync(int file) {
    return fails() ? -1 : (int)syscall(SYS_fsync, file);
}

static unsigned long number(const char *name) {
    const char *text = getenv(name);
    return text ? strtoul(text, NULL, 10) : 0;
}

__attribute__((constructor)) static void begin(void) {
    requests.one = number("REFUSE_ONE");
    requests.from = number("REFUSE_FROM");
    calls.one = number("FAIL_ONE");
    calls.from = number("FAIL_FROM");
    counting = 1;
}

__attribute__((destructor)) static void tell(void) {
    char line[160];
    counting = 0;
    int length = snprintf(line, sizeof line, "requests %lu refused %lu calls %lu failed %lu\n", requests.seen, requests.refused,
                          calls.seen, calls.refused);
    if (length > 0 && write(2, line, (size_t)length) < 0) {
        _exit(1);
    }
}
