#define _GNU_SOURCE
#include <dlfcn.h>
#include <errno.h>
#include <stdlib.h>
#include <unistd.h>

/* For the scripts beside this file: of a program's allocations the one that REFUSED numbers, from 1, is refused, and descriptor 3
   is told. */
static long wanted, count;

static int refused(void) {
    if (!wanted) return 0;
    if (++count != wanted) return 0;
    errno = ENOMEM;
    if (write(3, "r", 1) != 1) abort();
    return 1;
}
void *malloc(size_t size) {
    static void *(*next)(size_t);
    if (!next) next = (void *(*)(size_t))dlsym(RTLD_NEXT, "malloc");
    return refused() ? NULL : next(size);
}
void *realloc(void *old, size_t size) {
    static void *(*next)(void *, size_t);
    if (!next) next = (void *(*)(void *, size_t))dlsym(RTLD_NEXT, "realloc");
    return refused() ? NULL : next(old, size);
}
void *aligned_alloc(size_t align, size_t size) {
    static void *(*next)(size_t, size_t);
    if (!next) next = (void *(*)(size_t, size_t))dlsym(RTLD_NEXT, "aligned_alloc");
    return refused() ? NULL : next(align, size);
}
int posix_memalign(void **to, size_t align, size_t size) {
    static int (*next)(void **, size_t, size_t);
    if (!next) next = (int (*)(void **, size_t, size_t))dlsym(RTLD_NEXT, "posix_memalign");
    return refused() ? ENOMEM : next(to, align, size);
}
__attribute__((constructor)) static void begin(void) {
    const char *n = getenv("REFUSED");
    wanted = n ? atol(n) : 0;
}
