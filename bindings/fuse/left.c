#define _GNU_SOURCE
#include "left.h"

#include "names.h"
#include "survey.h"

#include <errno.h>
#include <search.h>
#include <stdio.h>
#include <stdlib.h>
#include <string.h>

enum { BLOCK = 512, MOST_MORE = 64 };

/* A directory or file of the tree: its number among the entries that are found, that of its directory, and its name of the host. */
struct place {
    size_t parent;
    size_t number;
    char *name;
};

struct left {
    uint8_t *image; /* with zeros for the blocks that were not given */
    size_t blocks;
    size_t given;
    struct adf_found *found;
    struct adf_surveyed surveyed;
    struct adf_part *parts;
    struct place *places;
    size_t count;
    size_t damaged;
};

/* An open file: its header, and its data blocks. */
struct remains {
    const struct left *left;
    uint32_t header;
    size_t count;
    uint32_t blocks[];
};

/* Surveys the image, and marks as damaged each file that has a block that was not given. */
static bool survey(struct left *left) {
    struct adf_finding finding;
    size_t length = left->blocks * BLOCK;
    left->found = malloc((left->blocks + 1) * sizeof *left->found);
    left->parts = calloc(left->blocks + 1, sizeof *left->parts);
    if (left->found == NULL || left->parts == NULL ||
        adf_survey_index(left->image, length, &finding, 1, left->found, left->blocks + 1, &left->surveyed) != ADF_ACCEPTED ||
        adf_survey_parts(left->image, length, left->parts, left->blocks) != ADF_ACCEPTED)
        return false;
    for (size_t b = left->given; b < left->blocks; b++)
        if (left->parts[b].node != 0)
            left->found[left->parts[b].node - 1].is_sound = 0;
    struct adf_found *less = realloc(left->found, (left->surveyed.entries + 1) * sizeof *left->found);
    left->found = less == NULL ? left->found : less;
    return true;
}

static int by_name(const void *one, const void *other) {
    const struct place *first = one, *second = other;
    if (first->parent != second->parent)
        return first->parent < second->parent ? -1 : 1;
    return strcmp(first->name, second->name);
}

/* Gives a place a name that no earlier one of its directory has: that of its entry, and behind it the block of its header, and a count,
 * where it is taken. The tree `taken` has the places by their names. */
static bool name_place(struct place *place, const struct adf_found *found, void **taken) {
    char more[MOST_MORE] = "", name[NAME_TEXT];
    for (unsigned long count = 1;; count++) {
        show_name(found->name, found->name_length, more, name);
        place->name = strdup(name);
        const struct place *const *first = place->name == NULL ? NULL : tsearch(place, taken, by_name);
        if (first != NULL && *first == place)
            return true;
        free(place->name);
        place->name = NULL;
        if (first == NULL)
            return false;
        sprintf(more, count == 1 ? "-%lu" : "-%lu-%lu", (unsigned long)found->header, count);
    }
}

static void keep_place(void *place) { (void)place; }

/* Names all places, and sorts them. */
static bool name_places(struct left *left) {
    void *taken = NULL;
    bool has_room = true;
    for (size_t i = 0; has_room && i < left->count; i++)
        has_room = name_place(&left->places[i], &left->found[left->places[i].number - 1], &taken);
    tdestroy(taken, keep_place);
    if (has_room)
        qsort(left->places, left->count, sizeof *left->places, by_name);
    return has_room;
}

/* Whether an entry is a damaged file, by its header, and no link. */
static bool is_damaged_file(const struct left *left, const struct adf_found *found) {
    static const uint8_t FILE_TYPE[] = {0xff, 0xff, 0xff, 0xfd};
    const uint8_t *end = left->image + ((size_t)found->header + 1) * BLOCK;
    return found->is_file && !found->is_sound && found->header < left->blocks &&
           memcmp(end - sizeof FILE_TYPE, FILE_TYPE, sizeof FILE_TYPE) == 0;
}

/* Makes the places: each damaged file, and each directory that leads to one. */
static bool make_places(struct left *left) {
    size_t count = left->surveyed.entries;
    bool *is_wanted = calloc(count + 1, sizeof *is_wanted);
    left->places = malloc((count + 1) * sizeof *left->places);
    if (is_wanted == NULL || left->places == NULL) {
        free(is_wanted);
        return false;
    }
    for (size_t i = count; i-- > 0;) { /* an entry comes behind its directory */
        const struct adf_found *found = &left->found[i];
        bool is_damaged = is_damaged_file(left, found);
        left->damaged += is_damaged;
        is_wanted[i] |= is_damaged;
        if (is_wanted[i] && found->parent != 0)
            is_wanted[found->parent - 1] = true;
    }
    for (size_t i = 0; i < count; i++)
        if (is_wanted[i])
            left->places[left->count++] = (struct place){.parent = left->found[i].parent, .number = i + 1};
    free(is_wanted);
    return name_places(left);
}

struct left *left_of(uint8_t *image, size_t blocks, size_t given) {
    struct left *left = calloc(1, sizeof *left);
    if (left == NULL) {
        free(image);
        return NULL;
    }
    *left = (struct left){.image = image, .blocks = blocks, .given = given};
    if (survey(left) && make_places(left))
        return left;
    free_left(left);
    return NULL;
}

void free_left(struct left *left) {
    for (size_t i = 0; i < left->count; i++)
        free(left->places[i].name);
    free(left->places);
    free(left->parts);
    free(left->found);
    free(left->image);
    free(left);
}

size_t damaged_of(const struct left *left) { return left->damaged; }

static size_t number_of(const struct left *left, long place) { return place == 0 ? 0 : left->places[place - 1].number; }

/* The first place, from 0 on, that does not come before a name in a directory. */
static size_t lower_bound(const struct left *left, size_t parent, const char *name) {
    size_t low = 0, high = left->count;
    while (low < high) {
        size_t middle = low + (high - low) / 2;
        const struct place *place = &left->places[middle];
        if (place->parent < parent || (place->parent == parent && strcmp(place->name, name) < 0))
            low = middle + 1;
        else
            high = middle;
    }
    return low;
}

long find_left(const struct left *left, const char *path) {
    char *names = strdup(path), *rest = names, *name;
    long place = names == NULL ? -1 : 0;
    while (place >= 0 && (name = strsep(&rest, "/")) != NULL) {
        if (*name == '\0')
            continue;
        size_t found = lower_bound(left, number_of(left, place), name);
        bool is_there = found < left->count && left->places[found].parent == number_of(left, place);
        place = is_there && strcmp(left->places[found].name, name) == 0 ? (long)found + 1 : -1;
    }
    free(names);
    return place;
}

long first_left(const struct left *left, long place) { return (long)lower_bound(left, number_of(left, place), "") + 1; }
long left_end(const struct left *left, long place) { return (long)lower_bound(left, number_of(left, place) + 1, "") + 1; }

const char *left_name(const struct left *left, long place) { return left->places[place - 1].name; }
const struct adf_found *left_entry(const struct left *left, long place) { return &left->found[left->places[place - 1].number - 1]; }

size_t left_size(const struct left *left, long place) {
    size_t size = left_entry(left, place)->size;
    return size < left->blocks * BLOCK ? size : left->blocks * BLOCK;
}

int open_left(const struct left *left, long place, struct remains **opened) {
    uint32_t header = left_entry(left, place)->header, none = 0;
    size_t length = left->blocks * BLOCK, number = number_of(left, place);
    size_t count = adf_found_blocks(left->image, length, left->parts, left->blocks, number, header, &none, 0);
    struct remains *remains = malloc(sizeof *remains + (count + 1) * sizeof *remains->blocks);
    if (remains == NULL)
        return -ENOMEM;
    *remains = (struct remains){.left = left, .header = header, .count = count};
    adf_found_blocks(left->image, length, left->parts, left->blocks, number, header, remains->blocks, count);
    for (size_t i = 0; i < count; i++)
        if (remains->blocks[i] >= left->given)
            remains->blocks[i] = ADF_NO_BLOCK;
    *opened = remains;
    return 0;
}

int read_remains(const struct remains *remains, char *room, size_t size, size_t offset) {
    const struct left *left = remains->left;
    size_t lost = 0;
    size_t count = adf_found_read(left->image, left->blocks * BLOCK, remains->header, remains->blocks, remains->count, offset,
                                  (uint8_t *)room, size, &lost);
    return count == 0 && lost != 0 ? -EIO : (int)count;
}

void close_left(struct remains *remains) { free(remains); }
