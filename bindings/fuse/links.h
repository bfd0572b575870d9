/* The right links of an image that is refused, as symbolic links of the volume of what stands of it. Each leads to an entry of the volume
 * or to its root, by a path that goes up no further than both have in common. */
#ifndef ADF_MOUNT_LINKS_H
#define ADF_MOUNT_LINKS_H

#include "adf.h"

#include <stdbool.h>

enum { LONGEST_PATH = 4095 };

struct links;
struct rescue;
struct volume;

/* What the links of a volume are made of: the bytes of the image, as it is surveyed, and the rescue that made the volume. */
struct linked {
    const uint8_t *image;
    size_t length;
    const struct rescue *rescue;
};

/* Makes the links of a volume, and says which right ones are left out, and why; the name stands before each line, without one nothing is
 * said. NULL if memory ran out. */
struct links *links_of(const struct volume *volume, const struct linked *linked, const char *name);

void free_links(struct links *links);

/* How many links there are. */
size_t links_shown(const struct links *links);

/* The place of the link that has a name of the host in a directory, whatever the case of the letters of the volume; -1 where none has. */
long find_link(const struct links *links, size_t directory, const char *name);

/* The first place whose link is in a directory; those of one directory stand together, up to `links_end`. */
long first_link(const struct links *links, size_t directory);
long links_end(const struct links *links, size_t directory);

/* What there is of a link: its name of the host, which no entry of its directory and no other link has, the block of its header in the
 * image, and its date. */
const char *link_name(const struct links *links, long place);
uint32_t link_header(const struct links *links, long place);
const struct adf_date *link_date(const struct links *links, long place);

/* Writes the path from the directory of a link to what it leads to; answers its length. */
size_t link_path(const struct links *links, long place, char path[LONGEST_PATH + 1]);

#endif
