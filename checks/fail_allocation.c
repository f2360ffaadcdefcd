// Loaded before the C library, makes the allocation with the number FAIL_AT (from 1) find no memory.
#define _GNU_SOURCE
#include <dlfcn.h>
#include <stdlib.h>
#include <errno.h>
static long count, fail_at = -2;
static int fails(void) {
    if (fail_at == -2) { const char *s = getenv("FAIL_AT"); fail_at = s ? atol(s) : -1; }
    return ++count == fail_at;
}
void *malloc(size_t n) { static void *(*next)(size_t); if (!next) next = dlsym(RTLD_NEXT, "malloc"); return fails() ? (errno = ENOMEM, NULL) : next(n); }
void *realloc(void *p, size_t n) { static void *(*next)(void *, size_t); if (!next) next = dlsym(RTLD_NEXT, "realloc"); return fails() ? (errno = ENOMEM, NULL) : next(p, n); }
void *aligned_alloc(size_t a, size_t n) { static void *(*next)(size_t, size_t); if (!next) next = dlsym(RTLD_NEXT, "aligned_alloc"); return fails() ? (errno = ENOMEM, NULL) : next(a, n); }
int posix_memalign(void **p, size_t a, size_t n) { static int (*next)(void **, size_t, size_t); if (!next) next = dlsym(RTLD_NEXT, "posix_memalign"); return fails() ? ENOMEM : next(p, a, n); }
