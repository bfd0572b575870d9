/* Times the tables of a volume: adf_index beside adf_check, and reads of 100 bytes at offset 1,000,000 of each long enough file
 * beside the same by a walk of the blocks that checks nothing.
 *
 *     tables IMAGE [PATH]       PATH in escape form; without one nothing is read
 *
 *     kit=$(dirname "$(rt doc)")
 *     cc -O2 -Iinclude -o tables bench/tables.c crates/adf_c/out/libadf_c.a "$kit/c/liblibc_c.a"
 *
 * The best of some runs is printed.
 */
#define _POSIX_C_SOURCE 200809L
#include "adf.h"

#include <stdio.h>
#include <stdlib.h>
#include <string.h>
#include <time.h>

enum { RUNS = 20, READS = 10000, PART = 100, OFFSET = 1000000 };

static uint8_t *image, part[PART];
static size_t length, node;
static struct adf_entry *entries;
static uint32_t *blocks;
static struct adf_contents contents;
static unsigned long sum; /* of what was read, so that no read is left out */

static double now(void) {
    struct timespec time;
    clock_gettime(CLOCK_MONOTONIC, &time);
    return 1e3 * (double)time.tv_sec + 1e-6 * (double)time.tv_nsec;
}

static void print_best(const char *what, void (*work)(void)) {
    double best = 1e9;
    for (int run = 0; run < RUNS; run++) {
        double begin = now();
        work();
        double took = now() - begin;
        best = took < best ? took : best;
    }
    printf("%-40s %9.3f ms\n", what, best);
}

static void check(void) {
    struct adf_verdict verdict = {0};
    sum += adf_check(image, length, &verdict);
}

static void make_tables(void) { sum += adf_index(image, length, entries, length / 512, blocks, length / 512, &contents); }

static void read_parts(void) {
    for (int i = 0; i < READS; i++) {
        sum += adf_read(image, length, entries, contents.entries, blocks, contents.data_blocks, node, OFFSET, part, PART);
        sum += part[i % PART];
    }
}

static uint32_t word(size_t block, size_t at) {
    const uint8_t *b = image + 512 * block + 4 * at;
    return (uint32_t)b[0] << 24 | (uint32_t)b[1] << 16 | (uint32_t)b[2] << 8 | b[3];
}

/* Through the chain of extension blocks, then from data block to data block. */
static void walk_parts(void) {
    size_t room = contents.kind == ADF_OFS ? 488 : 512;
    for (int i = 0; i < READS; i++) {
        for (size_t done = 0; done < PART;) {
            size_t index = (OFFSET + done) / room, at = (OFFSET + done) % room, list = entries[node - 1].header;
            for (size_t ext = 0; ext < index / 72; ext++)
                list = word(list, 126);
            size_t count = room - at < PART - done ? room - at : PART - done;
            memcpy(part + done, image + 512 * (size_t)word(list, 77 - index % 72) + (512 - room) + at, count);
            done += count;
        }
        sum += part[i % PART];
    }
}

static bool load(const char *name) {
    FILE *file = fopen(name, "rb");
    if (file == NULL || fseek(file, 0, SEEK_END) != 0 || (length = (size_t)ftell(file)) < 512)
        return false;
    rewind(file);
    image = malloc(length);
    entries = malloc(length / 512 * sizeof *entries);
    blocks = malloc(length / 512 * sizeof *blocks);
    return image != NULL && entries != NULL && blocks != NULL && fread(image, 1, length, file) == length;
}

int main(int count, char **words) {
    if (count < 2 || count > 3 || !load(words[1])) {
        fputs("usage: tables IMAGE [PATH]\n", stderr);
        return 2;
    }
    print_best("adf_check", check);
    print_best("adf_index", make_tables);
    printf("%zu entries, %zu data blocks\n", contents.entries, contents.data_blocks);
    if (count == 2)
        return 0;
    if (adf_find(entries, contents.entries, (const uint8_t *)words[2], strlen(words[2]), &node) != 0 || node == 0 ||
        entries[node - 1].size < OFFSET + PART) {
        fprintf(stderr, "tables: %s: no file of more than %d bytes\n", words[2], OFFSET + PART);
        return 1;
    }
    print_best("10,000 parts by adf_read", read_parts);
    print_best("10,000 parts by a walk of the blocks", walk_parts);
    return sum == 0;
}
