/* Tries the tables of an image where sanitizers look on: in rooms of just their size, in rooms too small by one, and with each of
 * their words changed, from eight threads at a time.
 *
 *     tables IMAGE
 *
 * Status 0 where all went well; a sanitizer ends it otherwise, and so does a failed assertion. trials/library builds and runs it.
 */
#include "adf.h"

#include <assert.h>
#include <pthread.h>
#include <stdio.h>
#include <stdlib.h>
#include <string.h>

enum { THREADS = 8, PART = 600 };

static const uint32_t VALUES[] = {0, 1, 255, 1760, UINT32_C(1) << 31, UINT32_MAX};

struct image {
    uint8_t *at;
    size_t length;
};

struct tables {
    struct adf_entry *entries;
    uint32_t *blocks;
    size_t entry_count, block_count;
};

/* Memory of just this size, so that a sanitizer sees one byte more. */
static void *just(size_t size) {
    void *at = malloc(size ? size : 1);
    assert(at != NULL);
    return at;
}

static struct image load(const char *name) {
    FILE *file = fopen(name, "rb");
    assert(file != NULL && fseek(file, 0, SEEK_END) == 0);
    struct image image = {.length = (size_t)ftell(file)};
    image.at = just(image.length);
    rewind(file);
    assert(fread(image.at, 1, image.length, file) == image.length);
    fclose(file);
    return image;
}

/* The tables in rooms that lack so many entries and blocks. */
static struct tables make(const struct image *image, size_t lacking) {
    struct adf_contents contents = {0};
    struct adf_entry none;
    uint32_t no_block;
    assert(adf_index(image->at, image->length, &none, 0, &no_block, 0, &contents) == ADF_ACCEPTED);
    size_t entries = contents.entries < lacking ? 0 : contents.entries - lacking;
    size_t blocks = contents.data_blocks < lacking ? 0 : contents.data_blocks - lacking;
    struct tables tables = {just(entries * sizeof none), just(blocks * sizeof no_block), entries, blocks};
    assert(adf_index(image->at, image->length, tables.entries, entries, tables.blocks, blocks, &contents) == ADF_ACCEPTED);
    return tables;
}

/* Looks a path up, and reads a part of each node and of one past the last. */
static void use(const struct image *image, const struct tables *tables, size_t offset) {
    static const uint8_t PATH[] = "c/readme";
    size_t node = 0;
    uint8_t answer = adf_find(tables->entries, tables->entry_count, PATH, sizeof PATH - 1, &node);
    assert(answer <= 1 && node <= tables->entry_count);
    uint8_t *part = just(PART);
    for (node = 0; node <= tables->entry_count + 1; node++)
        assert(adf_read(image->at, image->length, tables->entries, tables->entry_count, tables->blocks, tables->block_count, node,
                        offset, part, PART) <= PART);
    free(part);
}

/* Uses the tables with one word changed, for each of their words. */
static void change(const struct image *image, const struct tables *tables, void *words, size_t size) {
    for (size_t at = 0; at + sizeof(uint32_t) <= size; at += sizeof(uint32_t)) {
        uint32_t kept;
        memcpy(&kept, (uint8_t *)words + at, sizeof kept);
        for (size_t i = 0; i < sizeof VALUES / sizeof *VALUES; i++) {
            memcpy((uint8_t *)words + at, &VALUES[i], sizeof kept);
            use(image, tables, at % 2000);
        }
        memcpy((uint8_t *)words + at, &kept, sizeof kept);
    }
}

static void *try(void *of) {
    const struct image *image = of;
    for (size_t lacking = 0; lacking < 2; lacking++) {
        struct tables tables = make(image, lacking);
        use(image, &tables, 0);
        use(image, &tables, SIZE_MAX);
        change(image, &tables, tables.entries, tables.entry_count * sizeof *tables.entries);
        change(image, &tables, tables.blocks, tables.block_count * sizeof *tables.blocks);
        free(tables.entries);
        free(tables.blocks);
    }
    return NULL;
}

int main(int count, char **words) {
    assert(count == 2);
    struct image image = load(words[1]);
    pthread_t threads[THREADS];
    for (int i = 0; i < THREADS; i++)
        assert(pthread_create(&threads[i], NULL, try, &image) == 0);
    for (int i = 0; i < THREADS; i++)
        assert(pthread_join(threads[i], NULL) == 0);
    free(image.at);
    return 0;
}
