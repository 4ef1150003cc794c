/* Refuses one request for memory, the REFUSE-th, and tells at the end whether it was reached (at 9), and how many blocks
 * were taken and not given back (at 8). */
#define _GNU_SOURCE
#include <dlfcn.h>
#include <stddef.h>
#include <stdio.h>
#include <stdlib.h>
#include <unistd.h>

static long left = -1;
static long kept = 0;

__attribute__((constructor)) static void start(void) {
    const char *text = getenv("REFUSE");
    left = text ? atol(text) : 0;
}

__attribute__((destructor)) static void end(void) {
    char line[32];
    int octets = snprintf(line, sizeof line, "%ld\n", kept);
    if ((left > 0 && write(9, "unreached\n", 10) < 0) || write(8, line, (size_t)octets) < 0) {
        _exit(99);
    }
}

static int refused(void) {
    return left > 0 && --left == 0;
}

static void *taken(void *block) {
    kept += block != NULL;
    return block;
}

void free(void *block) {
    static void (*next)(void *);
    if (!next) {
        next = (void (*)(void *))dlsym(RTLD_NEXT, "free");
    }
    kept -= block != NULL;
    next(block);
}

void *malloc(size_t size) {
    static void *(*next)(size_t);
    if (!next) {
        next = (void *(*)(size_t))dlsym(RTLD_NEXT, "malloc");
    }
    return refused() ? NULL : taken(next(size));
}

void *realloc(void *old, size_t size) {
    static void *(*next)(void *, size_t);
    if (!next) {
        next = (void *(*)(void *, size_t))dlsym(RTLD_NEXT, "realloc");
    }
    if (refused()) {
        return NULL;
    }
    void *block = next(old, size);
    /* (a block that grows or moves stays one) */
    return old ? block : taken(block);
}

void *aligned_alloc(size_t alignment, size_t size) {
    static void *(*next)(size_t, size_t);
    if (!next) {
        next = (void *(*)(size_t, size_t))dlsym(RTLD_NEXT, "aligned_alloc");
    }
    return refused() ? NULL : taken(next(alignment, size));
}

int posix_memalign(void **at, size_t alignment, size_t size) {
    static int (*next)(void **, size_t, size_t);
    if (!next) {
        next = (int (*)(void **, size_t, size_t))dlsym(RTLD_NEXT, "posix_memalign");
    }
    int failed = refused() ? 12 : next(at, alignment, size);
    kept += !failed;
    return failed;
}
