/* What an emulator does with a disk image: it refuses it with the cause, or lists it and reads a file.
 *
 *     emulator IMAGE [PATH]
 *
 * Writes to standard output the numbers of the volume and its list, or only the bytes under PATH. Status 0; 1 if the image
 * is refused or nothing can be read under PATH, with the reason on standard error; 2 if the command line is another; 3 if a file
 * or memory failed. trials/library builds it.
 */
#include "adf.h"

#include <stdio.h>
#include <stdlib.h>
#include <string.h>

/* One byte more than the largest image, so that a longer one is seen to be longer. */
static const size_t MOST_BYTES = (size_t)512 * 1048576 + 1;
static const size_t FIRST_ROOM = 64;
static const char USAGE[] = "usage: emulator IMAGE [PATH]\n";

struct bytes {
    uint8_t *at;
    size_t length, room;
};

/* Makes room for more bytes. */
static bool grow(struct bytes *bytes, size_t room) {
    uint8_t *at = realloc(bytes->at, room);
    if (at == NULL)
        return false;
    bytes->at = at;
    bytes->room = room;
    return true;
}

/* Reads a file whole, or as much of it as tells that it is too long. */
static bool load(const char *name, struct bytes *image) {
    FILE *file = fopen(name, "rb");
    bool whole = file != NULL && grow(image, 1 << 20);
    while (whole && !feof(file) && image->length < MOST_BYTES) {
        if (image->length == image->room && !grow(image, 2 * image->room)) {
            whole = false;
            break;
        }
        image->length += fread(image->at + image->length, 1, image->room - image->length, file);
        whole = !ferror(file);
    }
    if (file != NULL)
        fclose(file);
    if (!whole)
        perror(name);
    return whole;
}

/* The words, each ended by a zero byte. */
static bool join(const char *const *words, size_t count, struct bytes *joined) {
    for (size_t i = 0; i < count; i++) {
        size_t length = strlen(words[i]) + 1;
        if (!grow(joined, joined->length + length))
            return false;
        memcpy(joined->at + joined->length, words[i], length);
        joined->length += length;
    }
    return true;
}

/* Runs a command over the image, with more room as long as it lacks some, and writes what it says. */
static int run(const struct bytes *image, const char *const *words, size_t count) {
    struct bytes joined = {0}, output = {0};
    uint8_t errors[256];
    struct adf_moved moved = {0};
    int status = 3;
    if (!join(words, count, &joined) || !grow(&output, FIRST_ROOM))
        goto done;
    for (;;) {
        status = adf_run(joined.at, joined.length, image->at, image->length, output.at, output.room, errors, sizeof errors, &moved);
        if (!moved.output_full)
            break;
        if (!grow(&output, 2 * output.room))
            goto done;
    }
    if (fwrite(output.at, 1, moved.output, stdout) != moved.output || fflush(stdout) != 0)
        status = 3;
    fwrite(errors, 1, moved.errors, stderr);
done:
    free(joined.at);
    free(output.at);
    return status;
}

/* Says why the image is refused: the number of the cause, and the line of `adf check`. */
static int refuse(const char *name, const struct bytes *image, uint8_t cause, const struct adf_verdict *verdict) {
    const char *const words[] = {"adf", "check"};
    if (cause == ADF_NO_MEMORY) {
        fprintf(stderr, "%s: no memory\n", name);
        return 3;
    }
    fprintf(stderr, "%s: refused, cause %d at block %lu\n", name, cause, (unsigned long)verdict->block);
    return run(image, words, 2);
}

static int show(const char *name, const struct bytes *image, const char *path) {
    const char *const list[] = {"adf", "list"};
    const char *const cat[] = {"adf", "cat", "--", path};
    struct adf_verdict verdict = {0};
    uint8_t cause = adf_check(image->at, image->length, &verdict);
    if (cause != ADF_ACCEPTED)
        return refuse(name, image, cause, &verdict);
    if (path != NULL)
        return run(image, cat, 4);
    printf("%s: %s, %lu of %lu blocks used, %lu free, %zu directories, %zu files\n", name, verdict.kind == ADF_OFS ? "OFS" : "FFS",
           (unsigned long)verdict.used, (unsigned long)verdict.blocks, (unsigned long)verdict.free, verdict.dirs, verdict.files);
    return run(image, list, 2);
}

int main(int count, char **words) {
    struct bytes image = {0};
    int status = 3;
    if (count < 2 || count > 3) {
        fputs(USAGE, stderr);
        return 2;
    }
    if (load(words[1], &image))
        status = show(words[1], &image, count == 3 ? words[2] : NULL);
    free(image.at);
    return status;
}
