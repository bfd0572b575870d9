/* Surveys and rescues of images in memory. */
#ifndef ADF_MOUNT_SURVEY_H
#define ADF_MOUNT_SURVEY_H

#include "adf.h"

#include <stddef.h>
#include <stdint.h>

/* A rescue: the volume of what stands of an image, and a table of what is not in it, or in it in doubt, in memory that the caller frees;
 * and how much that is. */
struct rescue {
    uint8_t *volume;
    size_t length;
    struct adf_loss *table;
    size_t losses;
    size_t left_out; /* entries, and links among them */
    size_t links;
    size_t in_doubt; /* entries of the volume */
    size_t lost;     /* directories in which headers are lost, and runs of blocks */
    uint32_t block;  /* the block of the first fault, where nothing stands */
};

/* Rescues an image, with its letters, read as if it had so many blocks (0: as many as it has). An adf_cause: 0, the first fault where
 * nothing stands, or ADF_NO_MEMORY. */
uint8_t rescue_image(const uint8_t *image, size_t length, size_t blocks, struct rescue *rescue);

void free_rescue(struct rescue *rescue);

/* Whether a loss is an entry that is left out. */
bool is_left_out(const struct adf_loss *loss);

/* The image that adf-survey surveys, in memory that the caller frees, and how many lines it has in front of its findings. */
struct subject {
    uint8_t *image;
    struct adf_subject told;
    size_t front;
};

/* Makes the image that adf-survey surveys of an image, read as if it had so many blocks (0: as many as it has). An adf_cause: 0, or
 * ADF_NO_MEMORY. */
uint8_t subject_of(const uint8_t *image, size_t length, size_t blocks, struct subject *subject);

/* Whether the survey finds a root where an image is read as if it had so many blocks. */
bool has_root(const uint8_t *image, size_t length, size_t blocks);

#endif
