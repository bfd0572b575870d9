/* For trials/doors: the rescue of an image, in C.
 *
 *     doors IMAGE BLOCKS NEW
 *
 * The image is read as if it had so many blocks, 0 for those that it has. NEW gets the new volume; standard output of each of its files
 * `PATH SIZE` in a line, with the path in the escape form, and its bytes; standard error a line for each loss, as that of `adf-survey
 * rescue`. The status is 1 if there is a loss or an entry in doubt, 2 if nothing stands: then standard error has the first fault, and NEW
 * is not written.
 */
#include "adf.h"

#include <assert.h>
#include <stdio.h>
#include <stdlib.h>

enum { MOST_BYTES = 1 << 26, MOST_PATHS = 1 << 24, BLOCK = 512, LONGEST_TEXT = 64 };

static struct adf_entry entries[MOST_BYTES / BLOCK];
static struct adf_loss losses[MOST_BYTES / BLOCK];
static uint32_t blocks[MOST_BYTES / BLOCK];
static uint8_t given[MOST_BYTES], rescued[MOST_BYTES], paths[MOST_PATHS], room[MOST_BYTES];

/* Rescues an image into rooms that have too few bytes for the tables, and for the volume, and then into such as suffice. */
static uint8_t rescue(size_t length, uint32_t count, struct adf_rescue_told *told) {
    uint8_t cause = adf_rescue(given, length, count, rescued, sizeof rescued, losses, 1, paths, 1, told);
    if (cause != ADF_ACCEPTED)
        return cause;
    size_t size = (size_t)BLOCK * told->blocks;
    struct adf_rescue_told small = {0};
    assert(told->losses <= MOST_BYTES / BLOCK && told->paths <= MOST_PATHS);
    assert(adf_rescue(given, length, count, room, size - 1, losses, 1, paths, 1, &small) == ADF_RESCUE_SMALL_ROOM);
    assert(small.blocks == told->blocks && small.losses == 0 && small.paths == 0 && small.block == 0);
    return adf_rescue(given, length, count, rescued, size, losses, told->losses, paths, told->paths, told);
}

/* What stands before the path of an entry. */
static const char *const REASONS[] = {
    [ADF_LOSS_DAMAGED] = "damaged",
    [ADF_LOSS_LINK] = "link",
    [ADF_LOSS_NO_ROOM] = "no room",
    [ADF_LOSS_IN_DOUBT] = "in doubt",
    [ADF_LOSS_PERHAPS_DELETED] = "perhaps deleted",
    [ADF_LOSS_FOUND_AGAIN] = "found again",
    [ADF_LOSS_MADE] = "made",
    [ADF_LOSS_RENAMED] = "renamed",
    [ADF_LOSS_COMMENT_CUT] = "comment cut",
};

static void tell(const struct adf_loss *loss) {
    int length = (int)loss->path_length;
    const char *path = (const char *)paths + loss->path;
    if (loss->why == ADF_LOSS_HEADERS)
        fprintf(stderr, "lost: in %.*s/\n", length, path);
    else if (loss->why == ADF_LOSS_LABEL_CUT)
        fprintf(stderr, "label cut: block %lu\n", (unsigned long)loss->first);
    else if (loss->why == ADF_LOSS_BITMAP)
        fprintf(stderr, "bitmap: block %lu\n", (unsigned long)loss->first);
    else if (loss->why != ADF_LOSS_BLOCKS)
        fprintf(stderr, "%s: %.*s\n", REASONS[loss->why], length, path);
    else if (loss->first == loss->last)
        fprintf(stderr, "lost: block %lu\n", (unsigned long)loss->first);
    else
        fprintf(stderr, "lost: blocks %lu to %lu\n", (unsigned long)loss->first, (unsigned long)loss->last);
}

static void write_path(size_t node) {
    const struct adf_entry *entry = &entries[node - 1];
    if (entry->parent != 0) {
        write_path(entry->parent);
        putchar('/');
    }
    uint8_t name[4 * sizeof entry->name];
    fwrite(name, 1, adf_escape(entry->name, entry->name_length, name, sizeof name), stdout);
}

static void write_files(size_t length) {
    struct adf_contents told = {0};
    assert(adf_index(rescued, length, entries, MOST_BYTES / BLOCK, blocks, MOST_BYTES / BLOCK, &told) == ADF_ACCEPTED);
    for (size_t node = 1; node <= told.entries; node++) {
        if (!entries[node - 1].is_file)
            continue;
        size_t size = adf_read(rescued, length, entries, told.entries, blocks, told.data_blocks, node, 0, room, sizeof room);
        write_path(node);
        printf(" %zu\n", size);
        fwrite(room, 1, size, stdout);
    }
}

int main(int count, char **words) {
    struct adf_rescue_told told = {0};
    FILE *file = count == 4 ? fopen(words[1], "rb") : NULL;
    if (file == NULL)
        return 3;
    size_t length = fread(given, 1, sizeof given, file);
    fclose(file);
    uint8_t text[LONGEST_TEXT], cause = rescue(length, (uint32_t)strtoul(words[2], NULL, 10), &told);
    if (cause != ADF_ACCEPTED) {
        int size = (int)adf_cause_text(cause, text, sizeof text);
        fprintf(stderr, "block %lu: %.*s\n", (unsigned long)told.block, size, (const char *)text);
        return 2;
    }
    file = fopen(words[3], "wb");
    if (file == NULL || fwrite(rescued, BLOCK, told.blocks, file) != told.blocks || fclose(file) != 0)
        return 3;
    for (size_t i = 0; i < told.losses; i++)
        tell(&losses[i]);
    write_files((size_t)BLOCK * told.blocks);
    return told.losses != 0;
}
