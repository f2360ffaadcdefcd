// Times the C reference of BLAKE3 on bytes in memory: each line is the nanoseconds of one hash, and its first bytes.
#include "blake3.h"
#include <stdio.h>
#include <stdlib.h>
#include <time.h>

int main(int argc, char **argv) {
    size_t length = argc > 1 ? strtoull(argv[1], NULL, 10) : 100000;
    int times = argc > 2 ? atoi(argv[2]) : 1;
    unsigned char *bytes = malloc(length + 1);
    unsigned char hash[BLAKE3_OUT_LEN];
    if (bytes == NULL) {
        return 1;
    }
    for (size_t i = 0; i < length; i++) {
        bytes[i] = i % 251;
    }
    for (int time = 0; time < times; time++) {
        struct timespec start, end;
        blake3_hasher hasher;
        clock_gettime(CLOCK_MONOTONIC, &start);
        blake3_hasher_init(&hasher);
        blake3_hasher_update(&hasher, bytes, length);
        blake3_hasher_finalize(&hasher, hash, BLAKE3_OUT_LEN);
        clock_gettime(CLOCK_MONOTONIC, &end);
        printf("%lld ", (end.tv_sec - start.tv_sec) * 1000000000LL + (end.tv_nsec - start.tv_nsec));
        for (int i = 0; i < 8; i++) {
            printf("%02x", hash[i]);
        }
        printf("\n");
    }
    free(bytes);
    return 0;
}
