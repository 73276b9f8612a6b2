// A library that is loaded before the program's own (LD_PRELOAD): allocations that fail. The environment's HGTRACK_MEMORY says which, in three numbers:
//
//     N ON FD     the Nth, counted from 1, and with ON 1 each behind it, too; a byte is written to FD where one fails
#define _GNU_SOURCE
#include <dlfcn.h>
#include <errno.h>
#include <stdio.h>
#include <stdlib.h>
#include <unistd.h>

static long number, seen;
static int on, fd = -1, is_told;

__attribute__((constructor)) static void start(void) {
    const char *told = getenv("HGTRACK_MEMORY");
    if (!told || sscanf(told, "%ld %d %d", &number, &on, &fd) != 3) number = 0;
    seen = 0;
}

static int lacks(void) {
    seen++;
    if (!number || (seen != number && !(on && seen > number))) return 0;
    if (!is_told && write(fd, "x", 1) == 1) is_told = 1;
    errno = ENOMEM;
    return 1;
}

void *malloc(size_t size) {
    static void *(*next)(size_t);
    if (!next) next = (void *(*)(size_t))dlsym(RTLD_NEXT, "malloc");
    return lacks() ? 0 : next(size);
}

void *realloc(void *from, size_t size) {
    static void *(*next)(void *, size_t);
    if (!next) next = (void *(*)(void *, size_t))dlsym(RTLD_NEXT, "realloc");
    return lacks() ? 0 : next(from, size);
}

void *aligned_alloc(size_t align, size_t size) {
    static void *(*next)(size_t, size_t);
    if (!next) next = (void *(*)(size_t, size_t))dlsym(RTLD_NEXT, "aligned_alloc");
    return lacks() ? 0 : next(align, size);
}

int posix_memalign(void **to, size_t align, size_t size) {
    static int (*next)(void **, size_t, size_t);
    if (!next) next = (int (*)(void **, size_t, size_t))dlsym(RTLD_NEXT, "posix_memalign");
    return lacks() ? ENOMEM : next(to, align, size);
}
