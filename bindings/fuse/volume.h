/* A volume in memory: that of an image, or that of what stands of one. */
#ifndef ADF_MOUNT_VOLUME_H
#define ADF_MOUNT_VOLUME_H

#include "adf.h"
#include "disk.h"
#include "left.h"
#include "links.h"

enum { SOUND = 0, REFUSED = 1, USAGE = 2, FAILED = 3 };
enum { LONGEST_TEXT = 64 }; /* the bytes of the texts that the library has for numbers */

/* How images are taken: refused ones as a whole, or what stands of them; with so many blocks, or 0 for those that they have; with
 * what is left of their damaged files, or without; and how many bytes there are of one that is too large to be read, or 0. */
struct taking {
    bool is_strict;
    size_t blocks;
    bool wants_left;
    uint64_t whole;
};

struct volume {
    struct held held;
    const uint8_t *image;
    size_t length;
    struct adf_entry *entries;
    uint32_t *blocks;
    struct adf_contents contents;
    struct links *links; /* NULL where the image has none */
    struct left *left;   /* NULL where nothing is wanted, or nothing is damaged */
};

/* Makes the volume of an image, whose bytes it takes over, and says what is left out or in doubt: SOUND, or the status to end with, and
 * why stands on standard error. The name stands before each line; without one nothing is said. */
int take_volume(struct volume *volume, const struct held *held, const char *name, const struct taking *taking);

void free_volume(struct volume *volume);

/* The entry that a path leads to, without a `/` at its begin: 0, or an error as fuse wants it. */
int find_entry(const struct volume *volume, const char *path, size_t *node);

/* The link that a path leads to, without a `/` at its begin, its directory and its place: 0, or an error as fuse wants it. */
int find_volume_link(const struct volume *volume, const char *path, size_t *directory, long *place);

/* The first place whose entry is in this directory or a later one: entries stand in the order of their directories. */
size_t first_in(const struct volume *volume, size_t directory);

#endif
