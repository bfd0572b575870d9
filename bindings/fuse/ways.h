/* Where the right links of an image lead within what is found of it, as an Amiga follows them: to an entry, or out of the volume, or to
 * nothing. No path here is one of the host. */
#ifndef ADF_MOUNT_WAYS_H
#define ADF_MOUNT_WAYS_H

#include "adf.h"

/* Why a link leads to nothing that is shown. */
enum why { LEADS, LEADS_OUT, LEADS_IN_A_RING, LEADS_TO_NOTHING, IS_AWAY, IS_TOO_LONG };

/* The words for that, as adf-unpack has them. */
const char *why_text(enum why why);

/* What is found of an image, by its survey: its entries, and its right links. */
struct finds {
    const uint8_t *image;
    uint32_t kind; /* by which letters are compared */
    struct adf_found *found;
    struct adf_surveyed surveyed;
    struct adf_link *links;
    size_t count; /* of the links */
};

/* Surveys an image for them. False if memory ran out. */
bool find_all(const uint8_t *image, size_t length, uint32_t kind, struct finds *finds);

void free_finds(struct finds *finds);

/* Where a link leads in the end, with no link on the way: to the entry of this number, 0 for the root; or why it does not. */
struct way {
    size_t target;
    enum why why;
};

/* Follows all right links, each once: a table to be freed. NULL if memory ran out. */
struct way *follow_links(const struct finds *finds);

#endif
