#define _GNU_SOURCE
#include "volume.h"

#include "names.h"
#include "packed.h"
#include "survey.h"

#include <errno.h>
#include <stdio.h>
#include <stdlib.h>
#include <string.h>

enum { FLOPPY = 1760, HIGH_DENSITY = 3520, MOST_TYPE = 5 };

/* A table with no more room than it needs, or as it is where that cannot be had. */
static void *shrunk(void *table, size_t size) {
    void *less = realloc(table, size);
    return less == NULL ? table : less;
}

/* Checks the image and makes the tables, with the most room that they may take; what is not used is given back. */
static uint8_t make_tables(struct volume *volume) {
    size_t most = volume->length / BLOCK + 1;
    volume->entries = malloc(most * sizeof *volume->entries);
    volume->blocks = malloc(most * sizeof *volume->blocks);
    if (volume->entries == NULL || volume->blocks == NULL)
        return ADF_NO_MEMORY;
    uint8_t cause = adf_index_types(volume->image, volume->length, volume->entries, most, volume->blocks, most, &volume->contents);
    volume->entries = shrunk(volume->entries, (volume->contents.entries + 1) * sizeof *volume->entries);
    volume->blocks = shrunk(volume->blocks, (volume->contents.data_blocks + 1) * sizeof *volume->blocks);
    return cause;
}

void free_volume(struct volume *volume) {
    let_go(&volume->held);
    free(volume->entries);
    free(volume->blocks);
    if (volume->links != NULL)
        free_links(volume->links);
    if (volume->left != NULL)
        free_left(volume->left);
    *volume = (struct volume){0};
}

static int say_no_memory(const char *name) {
    if (name != NULL)
        fprintf(stderr, "adf-mount: %s: no memory\n", name);
    return FAILED;
}

/* The blocks that an image of a wrong length may be meant to have, the nearest first; 0 where no root is found at any. */
static size_t fitting_blocks(const uint8_t *image, size_t length) {
    size_t count = length / BLOCK;
    bool is_low = count < (FLOPPY + HIGH_DENSITY) / 2;
    size_t tried[] = {is_low ? FLOPPY : HIGH_DENSITY, is_low ? HIGH_DENSITY : FLOPPY, count, count + 1};
    for (size_t i = 0; i < sizeof tried / sizeof *tried; i++)
        if (tried[i] * BLOCK != length && tried[i] <= MOST_BLOCKS && has_root(image, length, tried[i]))
            return tried[i];
    return 0;
}

/* Says how many bytes an image has; at most one more than the largest volume has is read. */
static void say_length(size_t length, uint64_t whole) {
    const size_t most = (size_t)BLOCK * MOST_BLOCKS;
    if (length > most && whole <= most)
        fprintf(stderr, "; it has more than %zu bytes", most);
    else
        fprintf(stderr, "; it has %llu bytes", length > most ? (unsigned long long)whole : (unsigned long long)length);
}

/* Says why an image is refused as a whole, and what helps: REFUSED. */
static int say_refused(const struct volume *volume, const char *name, uint8_t cause, uint64_t whole) {
    uint8_t text[LONGEST_TEXT];
    int length = (int)adf_cause_text(cause, text, sizeof text);
    if (name == NULL)
        return REFUSED;
    const char *other = foreign(volume->image, volume->length);
    if (other != NULL) {
        fprintf(stderr, "adf-mount: %s: %s\n", name, other);
        return REFUSED;
    }
    fprintf(stderr, "adf-mount: %s: block %lu: %.*s", name, (unsigned long)volume->contents.block, length, (const char *)text);
    bool is_odd = cause == ADF_BAD_SIZE || volume->contents.block == volume->length / BLOCK / 2;
    size_t fits = is_odd ? fitting_blocks(volume->image, volume->length) : 0;
    if (cause == ADF_BAD_SIZE || fits != 0)
        say_length(volume->length, whole);
    if (fits != 0)
        fprintf(stderr, ", and %zu would fit: --blocks %zu", fits * BLOCK, fits);
    fputc('\n', stderr);
    return REFUSED;
}

/* Says how much of an image is not in the volume of what stands, or in it in doubt. */
static void say_left_out(const char *name, size_t findings, const struct rescue *rescue) {
    fprintf(stderr, "adf-mount: %s: %zu finding%s, %zu file%s left out", name, findings, findings == 1 ? "" : "s", rescue->left_out,
            rescue->left_out == 1 ? "" : "s");
    if (rescue->in_doubt != 0)
        fprintf(stderr, ", %zu in doubt", rescue->in_doubt);
    if (rescue->lost != 0)
        fprintf(stderr, ", %zu part%s lost", rescue->lost, rescue->lost == 1 ? "" : "s");
    fputs("; man adf-survey\n", stderr);
}

/* Surveys an image for the number of its findings: false if memory ran out. */
static bool count_findings(const struct subject *subject, size_t *count) {
    struct adf_surveyed surveyed = {0};
    struct adf_finding finding;
    struct adf_found found;
    uint8_t cause = adf_survey_index(subject->image, subject->told.length, &finding, 1, &found, 1, &surveyed);
    *count = subject->front + surveyed.findings;
    return cause == ADF_ACCEPTED;
}

/* Has an image read as the rescue reads it: as a volume of the same kind, also where its first bytes tell of no volume. */
static void begin_as(struct subject *subject, uint32_t kind) {
    uint8_t *image = subject->image;
    if (subject->told.length > 3 && (memcmp(image, "DOS", 3) != 0 || image[3] > MOST_TYPE)) {
        memcpy(image, "DOS", 3);
        image[3] = (uint8_t)kind;
    }
}

/* Makes the links of the image that is surveyed, if any are left out, which those that are shown are no more. False if memory ran out. */
static bool keep_links(struct volume *volume, const struct subject *subject, struct rescue *rescue, const char *name) {
    struct linked linked = {subject->image, subject->told.length, rescue};
    if (rescue->links == 0)
        return true;
    volume->links = links_of(volume, &linked, name);
    size_t count = volume->links == NULL ? 0 : links_shown(volume->links);
    rescue->left_out -= count < rescue->left_out ? count : rescue->left_out;
    return volume->links != NULL;
}

/* Keeps what is left of the damaged files of the image that is surveyed, which it takes over. False if memory ran out. */
static bool keep_left(struct volume *volume, struct subject *subject) {
    volume->left = left_of(subject->image, subject->told.length / BLOCK, subject->told.held);
    subject->image = NULL;
    if (volume->left != NULL && damaged_of(volume->left) == 0) {
        free_left(volume->left);
        volume->left = NULL;
        return true;
    }
    return volume->left != NULL;
}

/* Makes all that is shown of a rescue, and says what is not: false if memory ran out. */
static bool keep_all(struct volume *volume, struct subject *subject, struct rescue *rescue, const char *name) {
    size_t findings = 0;
    if (make_tables(volume) != ADF_ACCEPTED || (name != NULL && !count_findings(subject, &findings)))
        return false;
    if (subject->image != NULL)
        begin_as(subject, volume->contents.kind);
    if (!keep_links(volume, subject, rescue, name))
        return false;
    if (name != NULL)
        say_left_out(name, findings, rescue);
    return true;
}

/* Puts what stands of the image in its place. */
static int take_rescue(struct volume *volume, const char *name, const struct taking *taking) {
    struct rescue rescue;
    struct subject subject = {0};
    uint8_t cause = rescue_image(volume->image, volume->length, taking->blocks, &rescue);
    if (cause == ADF_NO_MEMORY)
        return say_no_memory(name);
    if (cause != ADF_ACCEPTED) {
        volume->contents.block = rescue.block;
        return say_refused(volume, name, cause, taking->whole);
    }
    if (name != NULL || taking->wants_left || rescue.links != 0)
        cause = subject_of(volume->image, volume->length, taking->blocks, &subject);
    free_volume(volume);
    *volume =
        (struct volume){.held = {.bytes = rescue.volume, .length = rescue.length}, .image = rescue.volume, .length = rescue.length};
    bool is_kept =
        cause == ADF_ACCEPTED && keep_all(volume, &subject, &rescue, name) && (!taking->wants_left || keep_left(volume, &subject));
    free(subject.image);
    free(rescue.table);
    return is_kept ? SOUND : say_no_memory(name);
}

int take_volume(struct volume *volume, const struct held *held, const char *name, const struct taking *taking) {
    size_t meant = taking->blocks == 0 ? held->length : taking->blocks * BLOCK;
    *volume = (struct volume){.held = *held, .image = held->bytes, .length = held->length < meant ? held->length : meant};
    uint8_t cause = make_tables(volume);
    if (cause == ADF_NO_MEMORY)
        return say_no_memory(name);
    if (cause == ADF_ACCEPTED && (taking->is_strict || volume->length == meant))
        return SOUND;
    bool is_long = volume->length > (size_t)BLOCK * MOST_BLOCKS;
    return taking->is_strict || is_long ? say_refused(volume, name, cause, taking->whole) : take_rescue(volume, name, taking);
}

int find_entry(const struct volume *volume, const char *path, size_t *node) {
    char *escaped = malloc(2 * strlen(path) + 1);
    if (escaped == NULL)
        return -ENOMEM;
    escape_path(path, escaped);
    const struct adf_contents *contents = &volume->contents;
    uint8_t answer =
        adf_find_types(contents->kind, volume->entries, contents->entries, (const uint8_t *)escaped, strlen(escaped), node);
    free(escaped);
    return answer == 0 ? 0 : answer == ADF_NO_MEMORY ? -ENOMEM : -ENOENT;
}

int find_volume_link(const struct volume *volume, const char *path, size_t *directory, long *place) {
    const char *last = strrchr(path, '/');
    if (volume->links == NULL)
        return -ENOENT;
    char *above = strndup(path, last == NULL ? 0 : (size_t)(last - path));
    int error = above == NULL ? -ENOMEM : find_entry(volume, above, directory);
    free(above);
    if (error != 0)
        return error;
    *place = find_link(volume->links, *directory, last == NULL ? path : last + 1);
    return *place < 0 ? -ENOENT : 0;
}

size_t first_in(const struct volume *volume, size_t directory) {
    size_t low = 0, high = volume->contents.entries;
    while (low < high) {
        size_t middle = low + (high - low) / 2;
        if (volume->entries[middle].parent < directory)
            low = middle + 1;
        else
            high = middle;
    }
    return low;
}
