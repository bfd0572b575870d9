#include "index.h"

#include "adf.h"

#include <stdlib.h>
#include <string.h>

void to_capitals(uint32_t kind, const uint8_t *name, size_t length, uint8_t *capitals) {
    bool has_all = kind >= ADF_OFS_INTERNATIONAL;
    for (size_t i = 0; i < length; i++) {
        uint8_t byte = name[i];
        bool is_small = ('a' <= byte && byte <= 'z') || (has_all && 0xe0 <= byte && byte <= 0xfe && byte != 0xf7);
        capitals[i] = is_small ? byte - 32 : byte;
    }
}

int by_name(const void *one, const void *other) {
    const struct row *first = one, *second = other;
    if (first->directory != second->directory)
        return first->directory < second->directory ? -1 : 1;
    int order = memcmp(first->name, second->name, first->length < second->length ? first->length : second->length);
    return order != 0 ? order : (first->length > second->length) - (first->length < second->length);
}

static int by_name_and_number(const void *one, const void *other) {
    const struct row *first = one, *second = other;
    int order = by_name(first, second);
    return order != 0 ? order : (first->number > second->number) - (first->number < second->number);
}

bool make_index(struct index *index, size_t count, size_t bytes) {
    *index = (struct index){.rows = malloc((count + 1) * sizeof *index->rows), .bytes = malloc(bytes + 1)};
    if (index->rows != NULL && index->bytes != NULL)
        return true;
    free_index(index);
    return false;
}

void free_index(struct index *index) {
    free(index->rows);
    free(index->bytes);
    *index = (struct index){0};
}

void add_row(struct index *index, uint32_t kind, size_t directory, const uint8_t *name, size_t length, size_t number) {
    uint8_t *capitals = index->bytes + index->used;
    to_capitals(kind, name, length, capitals);
    index->used += length;
    index->rows[index->count++] = (struct row){directory, length, capitals, number};
}

void sort_rows(struct index *index) { qsort(index->rows, index->count, sizeof *index->rows, by_name_and_number); }

size_t lower_bound(const void *elements, size_t count, size_t size, const struct row *wanted) {
    size_t low = 0, high = count;
    while (low < high) {
        size_t middle = low + (high - low) / 2;
        if (by_name((const char *)elements + middle * size, wanted) < 0)
            low = middle + 1;
        else
            high = middle;
    }
    return low;
}

size_t number_of(const struct index *index, size_t directory, const uint8_t *capitals, size_t length) {
    struct row wanted = {directory, length, capitals, 0};
    size_t place = lower_bound(index->rows, index->count, sizeof *index->rows, &wanted);
    return place < index->count && by_name(&index->rows[place], &wanted) == 0 ? index->rows[place].number : 0;
}
