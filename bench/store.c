/* What bench/store compares with and feeds to the program: a store's device calls in plain C, requests that put and get
   numbered blobs, and the files of a store of these blobs.

     peer FOLDER COUNT SIZE    COUNT blobs of SIZE bytes: each written and synced in one file, and then an item in another
                               by a write, a sync, a write and a sync
     intake FOLDER COUNT SIZE  the same, of blobs that are read as requests from standard input and hashed
     fetch FOLDER COUNT OF SIZE  reads and hashes COUNT of the first OF blobs of a store
     puts FIRST COUNT SIZE     requests that put the blobs FIRST, FIRST + 1, ..
     gets COUNT OF SIZE        COUNT requests, each for one of the first OF blobs
     journal COUNT SIZE        the journal of a store with the namespace `game` and the first COUNT blobs
     blobs COUNT SIZE          its blob file */
#include "blake3.h"
#include <fcntl.h>
#include <stdint.h>
#include <stdio.h>
#include <stdlib.h>
#include <string.h>
#include <unistd.h>

static void put_le(uint8_t *out, uint64_t n, int bytes) {
    for (int i = 0; i < bytes; i++) out[i] = (uint8_t)(n >> (8 * i));
}

/* The blob of a number: the number in eight bytes, and then 8, 9, .. */
static void blob_of(uint64_t number, uint8_t *blob, size_t size) {
    for (size_t i = 0; i < size; i++) blob[i] = i < 8 ? (uint8_t)(number >> (8 * i)) : (uint8_t)i;
}

static void hash_of(const uint8_t *blob, size_t size, uint8_t *hash) {
    blake3_hasher hasher;
    blake3_hasher_init(&hasher);
    blake3_hasher_update(&hasher, blob, size);
    blake3_hasher_finalize(&hasher, hash, 20);
}

static void print_request(const char *method, const uint8_t *hash) {
    printf("%s /api/v1/blobs/game/", method);
    for (int i = 0; i < 20; i++) printf("%02x", hash[i]);
    printf(" HTTP/1.1\r\n");
}

/* The bytes of the units of 4,096 bytes that a blob of this size takes. */
static uint64_t extent_of(size_t size) {
    return (size + 4095) / 4096 * 4096;
}

/* The blob that the get of a number asks for. */
static uint64_t asked(uint64_t number, uint64_t of) {
    return number * 7919 % of;
}

/* The length, the body and a closing gate of an item that adds the blob of a number. */
static uint8_t item[55];

static void set_item(uint64_t number, const uint8_t *hash, size_t size) {
    put_le(item, 50, 4);
    item[4] = 2;
    memcpy(item + 5, "\4game", 5);
    memcpy(item + 10, hash, 20);
    put_le(item + 30, size, 8);
    put_le(item + 38, number * (extent_of(size) / 4096), 8);
}

static int open_in(const char *folder, const char *name) {
    char path[4096];
    snprintf(path, sizeof path, "%s/%s", folder, name);
    return open(path, O_RDWR | O_CREAT, 0644);
}

static int written(int file, const void *bytes, size_t size, off_t at) {
    return pwrite(file, bytes, size, at) == (ssize_t)size && !fdatasync(file);
}

/* The body of the next request of standard input. */
static int next_body(uint8_t *blob, size_t size) {
    char line[256];
    while (fgets(line, sizeof line, stdin))
        if (!strcmp(line, "\r\n")) return fread(blob, 1, size, stdin) == size;
    return 0;
}

static int peer(const char *folder, uint64_t count, size_t size, int reads) {
    int journal = open_in(folder, "journal-a"), blobs = open_in(folder, "blobs");
    uint8_t *blob = malloc(size), hash[20] = {0}, open_gate = 1;
    off_t gate = 21;
    if (journal < 0 || blobs < 0 || !blob || size < 8) return 1;
    blob_of(0, blob, size);
    for (uint64_t i = 0; i < count; i++) {
        if (reads) {
            if (!next_body(blob, size)) return 1;
            hash_of(blob, size, hash);
        } else {
            put_le(blob, i, 8);
            put_le(hash, i, 8);
        }
        set_item(i, hash, size);
        if (!written(blobs, blob, size, i * extent_of(size))) return 1;
        if (!written(journal, item, sizeof item, gate + 1) || !written(journal, &open_gate, 1, gate)) return 1;
        gate += sizeof item;
    }
    return 0;
}

static int fetch(const char *folder, uint64_t count, uint64_t of, size_t size) {
    int blobs = open_in(folder, "blobs");
    uint8_t *blob = malloc(size), hash[20], all = 0;
    if (blobs < 0 || !blob) return 1;
    for (uint64_t i = 0; i < count; i++) {
        if (pread(blobs, blob, size, asked(i, of) * extent_of(size)) != (ssize_t)size) return 1;
        hash_of(blob, size, hash);
        all ^= hash[0];
    }
    printf("%d\n", all);
    return 0;
}

static int puts_of(uint64_t first, uint64_t count, size_t size) {
    uint8_t *blob = malloc(size), hash[20];
    if (!blob) return 1;
    for (uint64_t i = first; i < first + count; i++) {
        blob_of(i, blob, size);
        hash_of(blob, size, hash);
        print_request("PUT", hash);
        printf("Content-Length: %zu\r\n\r\n", size);
        fwrite(blob, 1, size, stdout);
    }
    return 0;
}

static int gets_of(uint64_t count, uint64_t of, size_t size) {
    uint8_t *blob = malloc(size), (*hashes)[20] = malloc(20 * of);
    if (!blob || !hashes) return 1;
    for (uint64_t i = 0; i < of; i++) {
        blob_of(i, blob, size);
        hash_of(blob, size, hashes[i]);
    }
    for (uint64_t i = 0; i < count; i++) {
        print_request("GET", hashes[asked(i, of)]);
        printf("\r\n");
    }
    return 0;
}

static int journal(uint64_t count, size_t size) {
    static const uint8_t head[] = {'D', 'D', 'C', 'J', 'L', 'O', 'G', 10, 1, 0, 0, 0, 1, 0, 0, 0, 0, 0, 0, 0, 1,
                                   1, 14, 0, 0, 0, 1, 4, 'g', 'a', 'm', 'e', 24, 0, 0, 0, 4, 0, 0, 0};
    uint8_t *blob = malloc(size), hash[20];
    if (!blob) return 1;
    fwrite(head, 1, sizeof head, stdout);
    for (uint64_t i = 0; i < count; i++) {
        blob_of(i, blob, size);
        hash_of(blob, size, hash);
        set_item(i, hash, size);
        putchar(1);
        fwrite(item, 1, sizeof item - 1, stdout);
    }
    putchar(0);
    return 0;
}

static int blobs(uint64_t count, size_t size) {
    uint8_t *blob = calloc(1, extent_of(size));
    if (!blob) return 1;
    for (uint64_t i = 0; i < count; i++) {
        blob_of(i, blob, size);
        fwrite(blob, 1, extent_of(size), stdout);
    }
    return 0;
}

int main(int argc, char **argv) {
    if (argc == 5 && !strcmp(argv[1], "peer")) return peer(argv[2], atoll(argv[3]), atoll(argv[4]), 0);
    if (argc == 5 && !strcmp(argv[1], "intake")) return peer(argv[2], atoll(argv[3]), atoll(argv[4]), 1);
    if (argc == 6 && !strcmp(argv[1], "fetch")) return fetch(argv[2], atoll(argv[3]), atoll(argv[4]), atoll(argv[5]));
    if (argc == 5 && !strcmp(argv[1], "puts")) return puts_of(atoll(argv[2]), atoll(argv[3]), atoll(argv[4]));
    if (argc == 5 && !strcmp(argv[1], "gets")) return gets_of(atoll(argv[2]), atoll(argv[3]), atoll(argv[4]));
    if (argc == 4 && !strcmp(argv[1], "journal")) return journal(atoll(argv[2]), atoll(argv[3]));
    if (argc == 4 && !strcmp(argv[1], "blobs")) return blobs(atoll(argv[2]), atoll(argv[3]));
    return 2;
}
