/* Names of an Amiga by their directories, to be looked up whatever the case of the letters of a volume. */
#ifndef ADF_MOUNT_INDEX_H
#define ADF_MOUNT_INDEX_H

#include <stdbool.h>
#include <stddef.h>
#include <stdint.h>

/* A name in a directory, in capitals, and the number of what has it. */
struct row {
    size_t directory;
    size_t length;
    const uint8_t *name;
    size_t number;
};

/* Rows in the order of directories, names and numbers. */
struct index {
    struct row *rows;
    size_t count;
    uint8_t *bytes; /* of all names */
    size_t used;
};

/* A name in the capitals of a volume of an adf_kind. */
void to_capitals(uint32_t kind, const uint8_t *name, size_t length, uint8_t *capitals);

/* The order of directories and names. */
int by_name(const void *one, const void *other);

/* Makes an index that has room for so many names of so many bytes together. False if memory ran out. */
bool make_index(struct index *index, size_t count, size_t bytes);

void free_index(struct index *index);

/* Adds a name to the rows. All are added before they are sorted. */
void add_row(struct index *index, uint32_t kind, size_t directory, const uint8_t *name, size_t length, size_t number);
void sort_rows(struct index *index);

/* The first place among sorted elements, of so many bytes and each with a row at its front, that does not come before a row. */
size_t lower_bound(const void *elements, size_t count, size_t size, const struct row *wanted);

/* The lowest number of a name in capitals in a directory, or 0. */
size_t number_of(const struct index *index, size_t directory, const uint8_t *capitals, size_t length);

#endif
