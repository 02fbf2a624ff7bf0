/* Loaded before the C library (LD_PRELOAD). Of the allocations of a process it refuses the one whose number REFUSED gives, and of its
 * reads, writes and syncs of files the one whose number FAILED gives fails; both count from 1. Where COUNTED names a file, the numbers
 * of all allocations and of all such calls are written there at the end. */
#define _GNU_SOURCE
#include <dlfcn.h>
#include <errno.h>
#include <stddef.h>
#include <stdio.h>
#include <stdlib.h>
#include <sys/types.h>

static unsigned long refused, failed, allocations, calls;
static int ready;

__attribute__((constructor)) static void arm(void) {
    const char *word = getenv("REFUSED");
    refused = word ? strtoul(word, NULL, 10) : 0;
    word = getenv("FAILED");
    failed = word ? strtoul(word, NULL, 10) : 0;
    ready = 1;
}

__attribute__((destructor)) static void tell(void) {
    ready = 0;
    const char *name = getenv("COUNTED");
    FILE *file = name ? fopen(name, "w") : NULL;
    if (file) {
        fprintf(file, "%lu %lu\n", allocations, calls);
        fclose(file);
    }
}

/* Whether this allocation is the one that is refused. */
static int is_refused(void) {
    return ready && ++allocations == refused;
}

/* Whether this call on a file is the one that fails. The three streams aren't files. */
static int is_failed(int file) {
    return ready && file > 2 && ++calls == failed;
}

#define NEXT(name)                         \
    static __typeof__(&name) next;         \
    if (!next)                             \
        next = dlsym(RTLD_NEXT, #name)

void *malloc(size_t size) {
    NEXT(malloc);
    if (is_refused()) {
        errno = ENOMEM;
        return NULL;
    }
    return next(size);
}

void *realloc(void *place, size_t size) {
    NEXT(realloc);
    if (is_refused()) {
        errno = ENOMEM;
        return NULL;
    }
    return next(place, size);
}

int posix_memalign(void **place, size_t alignment, size_t size) {
    NEXT(posix_memalign);
    return is_refused() ? ENOMEM : next(place, alignment, size);
}

void *aligned_alloc(size_t alignment, size_t size) {
    NEXT(aligned_alloc);
    if (is_refused()) {
        errno = ENOMEM;
        return NULL;
    }
    return next(alignment, size);
}

#define FAILS(file)        \
    if (is_failed(file)) { \
        errno = EIO;       \
        return -1;         \
    }

ssize_t read(int file, void *to, size_t size) {
    NEXT(read);
    FAILS(file)
    return next(file, to, size);
}

ssize_t write(int file, const void *from, size_t size) {
    NEXT(write);
    FAILS(file)
    return next(file, from, size);
}

ssize_t pread(int file, void *to, size_t size, off_t at) {
    NEXT(pread);
    FAILS(file)
    return next(file, to, size, at);
}

ssize_t pwrite(int file, const void *from, size_t size, off_t at) {
    NEXT(pwrite);
    FAILS(file)
    return next(file, from, size, at);
}

int fdatasync(int file) {
    NEXT(fdatasync);
    FAILS(file)
    return next(file);
}

int fsync(int file) {
    NEXT(fsync);
    FAILS(file)
    return next(file);
}
