/* Tries adf_build where sanitizers look on: an image that `adf build` wrote is built again of its own entries, in a room of just its
 * size, and comes out byte for byte; with each byte of the table changed, and in a room too small by one, nothing is written unless
 * the answer is 0.
 *
 *     builds IMAGE
 *
 * Status 0 where all went well; a sanitizer ends it otherwise, and so does a failed assertion. trials/library builds and runs it.
 */
#include "adf.h"

#include <assert.h>
#include <stdio.h>
#include <stdlib.h>
#include <string.h>

static const uint8_t VALUES[] = {0, 1, 31, 80, 255};

static uint8_t *room, *old;
static size_t length, count, size;
static struct adf_addition *additions;
static uint8_t *contents;
static struct adf_new_volume volume;

static void *memory(size_t bytes) {
    void *at = calloc(bytes ? bytes : 1, 1);
    assert(at);
    return at;
}

static void read_image(const char *name, uint8_t **image) {
    FILE *file = fopen(name, "rb");
    assert(file && fseek(file, 0, SEEK_END) == 0);
    length = (size_t)ftell(file);
    *image = memory(length);
    rewind(file);
    assert(fread(*image, 1, length, file) == length);
    fclose(file);
}

/* The volume of an image, and the additions that are its entries, with their bytes one behind the other. */
static void take(const uint8_t *image) {
    struct adf_entry *entries = memory(length / 512 * sizeof *entries);
    uint32_t *blocks = memory(length / 512 * sizeof *blocks);
    struct adf_contents told;
    assert(adf_index(image, length, entries, length / 512, blocks, length / 512, &told) == ADF_ACCEPTED);
    volume = (struct adf_new_volume){told.kind, told.blocks, told.root, told.altered, told.created, told.label_length, {0}};
    memcpy(volume.label, told.label, sizeof volume.label);
    count = told.entries;
    additions = memory(count * sizeof *additions);
    for (size_t i = 0; i < count; i++)
        size += entries[i].size;
    contents = memory(size);
    for (size_t i = 0, at = 0; i < count; at += entries[i].size, i++) {
        const struct adf_entry *entry = &entries[i];
        struct adf_addition *addition = &additions[i];
        *addition = (struct adf_addition){.parent = entry->parent, .begin = at, .size = entry->size, .date = entry->date};
        addition->protection = entry->protection;
        addition->is_file = entry->is_file;
        addition->name_length = entry->name_length;
        addition->comment_length = entry->comment_length;
        memcpy(addition->name, entry->name, sizeof addition->name);
        memcpy(addition->comment, entry->comment, sizeof addition->comment);
        adf_read(image, length, entries, count, blocks, told.data_blocks, i + 1, 0, contents + at, entry->size);
    }
    free(entries);
    free(blocks);
}

static uint8_t build(size_t room_length) {
    struct adf_built built;
    memset(room, 9, length);
    uint8_t number = adf_build(&volume, additions, count, contents, size, room, room_length, &built);
    assert(number == 0 || memcmp(room, old, length) == 0);
    return number;
}

int main(int argc, char **argv) {
    uint8_t *image;
    assert(argc == 2);
    read_image(argv[1], &image);
    take(image);
    room = memory(length);
    old = memory(length);
    memset(old, 9, length);
    assert(build(length) == ADF_BUILD_DONE && memcmp(room, image, length) == 0);
    assert(build(length - 1) == ADF_BUILD_SMALL_ROOM);
    uint8_t *table = (uint8_t *)additions;
    for (size_t at = 0; at < count * sizeof *additions; at++) {
        uint8_t byte = table[at];
        for (size_t i = 0; i < sizeof VALUES; i++) {
            table[at] = VALUES[i];
            build(length);
        }
        table[at] = byte;
    }
    assert(build(length) == ADF_BUILD_DONE && memcmp(room, image, length) == 0);
    free(image), free(room), free(old), free(additions), free(contents);
    return 0;
}
