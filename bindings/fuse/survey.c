#include "survey.h"

#include <stdlib.h>
#include <string.h>

enum { FIRST_LOSSES = 1024, BLOCK = 512 };

static bool is_lost(const struct adf_loss *loss) { return loss->why == ADF_LOSS_HEADERS || loss->why == ADF_LOSS_BLOCKS; }

bool is_left_out(const struct adf_loss *loss) {
    return !is_lost(loss) && (loss->why < ADF_LOSS_IN_DOUBT || loss->why > ADF_LOSS_BITMAP);
}

/* Counts the losses of a rescue, of which the table has so many. */
static void count_losses(struct rescue *rescue, size_t count) {
    for (size_t i = 0; i < count; i++) {
        const struct adf_loss *loss = &rescue->table[i];
        *(is_lost(loss) ? &rescue->lost : is_left_out(loss) ? &rescue->left_out : &rescue->in_doubt) += 1;
        rescue->links += loss->why == ADF_LOSS_LINK;
    }
}

void free_rescue(struct rescue *rescue) {
    free(rescue->volume);
    free(rescue->table);
    rescue->volume = NULL;
    rescue->table = NULL;
}

/* Rescues an image into a room of rescue->length bytes, with a table of so many losses. An adf_cause, or ADF_RESCUE_SMALL_ROOM: with it
 * rescue->length is the room that is wanted, and at 0 that of the volume. */
static uint8_t rescue_with(const uint8_t *image, size_t length, size_t blocks, struct rescue *rescue, size_t count) {
    size_t room = rescue->length;
    struct adf_rescue_told told = {0};
    uint8_t path, cause = ADF_NO_MEMORY;
    free_rescue(rescue);
    *rescue = (struct rescue){.volume = malloc(room + 1), .table = malloc(count * sizeof *rescue->table)};
    if (rescue->volume != NULL && rescue->table != NULL)
        cause = adf_rescue_types(image, length, (uint32_t)blocks, rescue->volume, room, rescue->table, count, &path, 0, &told);
    if (cause == ADF_ACCEPTED)
        count_losses(rescue, told.losses < count ? told.losses : count);
    rescue->length = (size_t)told.blocks * BLOCK;
    rescue->losses = told.losses;
    rescue->block = told.block;
    return cause;
}

uint8_t rescue_image(const uint8_t *image, size_t length, size_t blocks, struct rescue *rescue) {
    size_t room = blocks == 0 ? length : blocks * BLOCK;
    *rescue = (struct rescue){.length = room};
    uint8_t cause = rescue_with(image, length, blocks, rescue, FIRST_LOSSES);
    if (cause == ADF_RESCUE_SMALL_ROOM && rescue->length > room)
        cause = rescue_with(image, length, blocks, rescue, FIRST_LOSSES);
    if (cause == ADF_ACCEPTED && rescue->losses > FIRST_LOSSES)
        cause = rescue_with(image, length, blocks, rescue, rescue->losses);
    if (cause != ADF_ACCEPTED)
        free_rescue(rescue);
    return cause;
}

uint8_t subject_of(const uint8_t *image, size_t length, size_t blocks, struct subject *subject) {
    size_t room, wanted = blocks == 0 ? length : blocks * BLOCK, stated = wanted / BLOCK;
    uint8_t answer;
    *subject = (struct subject){0};
    do {
        room = wanted;
        free(subject->image);
        subject->image = malloc(room + 1);
        if (subject->image == NULL)
            return ADF_NO_MEMORY;
        answer = adf_survey_subject(image, length, (uint32_t)blocks, subject->image, room, &subject->told);
        wanted = subject->told.length;
    } while (answer == ADF_SUBJECT_SMALL_ROOM && wanted > room);
    subject->front = subject->told.is_begun + subject->told.is_retyped + (wanted / BLOCK != stated);
    if (answer != ADF_ACCEPTED) {
        free(subject->image);
        subject->image = NULL;
    }
    return answer;
}

bool has_root(const uint8_t *image, size_t length, size_t blocks) {
    struct adf_surveyed surveyed = {0};
    struct adf_finding finding;
    struct adf_found found;
    uint8_t *whole = calloc(blocks, BLOCK), cause = ADF_NO_MEMORY;
    if (whole != NULL) {
        memcpy(whole, image, length < blocks * BLOCK ? length : blocks * BLOCK);
        cause = adf_survey_index(whole, blocks * BLOCK, &finding, 1, &found, 1, &surveyed);
    }
    free(whole);
    return cause == ADF_ACCEPTED && surveyed.blocks != 0 && (surveyed.entries != 0 || surveyed.label_length != 0);
}
