/* Loaded before the program's own libraries, this times each put: from the end of one third sync to the end of the next, since
   each put has three, and how much of that its writes and syncs took. At the end it writes to standard error the quantiles of
   10 and of 50 in a hundred: nanoseconds of a put, of its device calls, and of the rest. */
#define _GNU_SOURCE
#include <dlfcn.h>
#include <stdio.h>
#include <stdlib.h>
#include <time.h>
#include <unistd.h>

#define MOST 100000
static long whole[MOST], calls[MOST], rest[MOST], count, syncs, before, inside;

static long now(void) {
    struct timespec t;
    clock_gettime(CLOCK_MONOTONIC, &t);
    return t.tv_sec * 1000000000L + t.tv_nsec;
}

ssize_t pwrite64(int file, const void *bytes, size_t size, off64_t at) {
    static ssize_t (*next)(int, const void *, size_t, off64_t);
    if (!next) next = dlsym(RTLD_NEXT, "pwrite64");
    long start = now();
    ssize_t answer = next(file, bytes, size, at);
    inside += now() - start;
    return answer;
}

ssize_t pwrite(int file, const void *bytes, size_t size, off_t at) {
    return pwrite64(file, bytes, size, at);
}

int fdatasync(int file) {
    static int (*next)(int);
    if (!next) next = dlsym(RTLD_NEXT, "fdatasync");
    long start = now();
    int answer = next(file);
    long end = now();
    inside += end - start;
    if (++syncs % 3) return answer;
    if (before && count < MOST) {
        whole[count] = end - before;
        calls[count] = inside;
        rest[count++] = end - before - inside;
    }
    before = end;
    inside = 0;
    return answer;
}

static int by_size(const void *a, const void *b) {
    long x = *(const long *)a, y = *(const long *)b;
    return (x > y) - (x < y);
}

__attribute__((destructor)) static void tell(void) {
    long *all[] = {whole, calls, rest};
    for (int i = 0; i < 3 && count; i++) {
        qsort(all[i], count, sizeof(long), by_size);
        fprintf(stderr, "%ld %ld ", all[i][count / 10], all[i][count / 2]);
    }
    fprintf(stderr, "\n");
}
