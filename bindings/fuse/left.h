/* What is left of the damaged files of an image: a tree of its own, by the names in the headers. */
#ifndef ADF_MOUNT_LEFT_H
#define ADF_MOUNT_LEFT_H

#include "adf.h"

struct left;

/* An open file: its bytes, and which of them are lost. */
struct remains;

/* Takes over the bytes of an image of so many blocks, of which so many were given: zeros behind them are no data. NULL if memory ran
 * out. */
struct left *left_of(uint8_t *image, size_t blocks, size_t given);

void free_left(struct left *left);

/* The number of damaged files. */
size_t damaged_of(const struct left *left);

/* The place under a path, without a `/` at its begin: 0 for the empty one, -1 where nothing is. */
long find_left(const struct left *left, const char *path);

/* The first place whose entry is in the directory at a place; the entries of one directory stand together, up to `left_end`. */
long first_left(const struct left *left, long place);
long left_end(const struct left *left, long place);

/* The name of the host, and the entry, at a place from 1 on. */
const char *left_name(const struct left *left, long place);
const struct adf_found *left_entry(const struct left *left, long place);

/* How many bytes a file has here: as its header says, but no more than the image has. */
size_t left_size(const struct left *left, long place);

/* Opens the file at a place: 0, or an error as fuse wants it. */
int open_left(const struct left *left, long place, struct remains **opened);

/* Copies bytes up to the next that is lost, and answers how many; -EIO where that is the first. */
int read_remains(const struct remains *remains, char *room, size_t size, size_t offset);

void close_left(struct remains *remains);

#endif
