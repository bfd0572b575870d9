#define _GNU_SOURCE
#include "packed.h"

#include "unpacking.h"
#include "volume.h"

#include <errno.h>
#include <fcntl.h>
#include <stdio.h>
#include <stdlib.h>
#include <string.h>
#include <sys/stat.h>
#include <unistd.h>

#ifdef ADF_ZLIB
#include <zlib.h>
#endif

enum { FIRST_BLOCKS = 16, LONGEST_LIMIT = 100 };

static const off_t FEW_BYTES = (off_t)512 << 20, MOST_BYTES = (off_t)4 << 30;

/* Bytes at a place in the first ones of a file, and what they say. */
struct sign {
    size_t at;
    const char *bytes;
    size_t count;
    const char *text;
};

static const struct sign PACKED[] = {
    {0, "\x1f\x8b\x08", 3, "gzip"}, {0, "PK\3\4", 4, "zip"}, {0, "PK\5\6", 4, "zip"},
    {0, "DMS!", 4, "DMS"},          {2, "-lh", 3, "LHA"},    {2, "-lz", 3, "LHA"},
};
static const struct sign OTHERS[] = {
    {0, "SCP", 3, "a flux image (SCP): adf reads sectors"},
    {0, "HXCPICFE", 8, "an image of tracks (HFE): adf reads sectors"},
    {0, "HXCHFEV3", 8, "an image of tracks (HFE): adf reads sectors"},
    {0, "CAPS\0\0\0\x0c", 8, "an image of tracks (IPF): adf reads sectors"},
    {0, "UAE--ADF", 8, "an image of tracks (extended ADF): adf reads sectors"},
    {0, "UAE-1ADF", 8, "an image of tracks (extended ADF): adf reads sectors"},
};

static const char *text_of(const struct sign *signs, size_t count, const uint8_t *begin, size_t length) {
    for (size_t i = 0; i < count; i++)
        if (signs[i].at + signs[i].count <= length && memcmp(begin + signs[i].at, signs[i].bytes, signs[i].count) == 0)
            return signs[i].text;
    return NULL;
}

const char *foreign(const uint8_t *image, size_t length) { return text_of(OTHERS, sizeof OTHERS / sizeof *OTHERS, image, length); }

int say(const char *name, const char *why, int status) {
    fprintf(stderr, "adf-mount: %s: %s\n", name, why);
    return status;
}

/* A new file without a name, which is open; -1 with errno if there can be none. */
static int temporary_file(void) {
    FILE *stream = tmpfile();
    int file = stream == NULL ? -1 : fcntl(fileno(stream), F_DUPFD_CLOEXEC, 3);
    if (stream != NULL)
        fclose(stream);
    return file;
}

bool write_all(int file, const void *bytes, size_t count) {
    const uint8_t *from = bytes;
    while (count > 0) {
        ssize_t done = write(file, from, count);
        if (done < 0 && errno != EINTR)
            return false;
        from += done < 0 ? 0 : done;
        count -= done < 0 ? 0 : (size_t)done;
    }
    return true;
}

/* Whether a file begins as a volume or as a hard disk does. */
static bool begins_as_image(int file) {
    char begin[FIRST_BLOCKS * BLOCK];
    if (pread(file, begin, sizeof begin, 0) != sizeof begin)
        return false;
    bool is_image = memcmp(begin, "DOS", 3) == 0;
    for (size_t at = 0; at < sizeof begin; at += BLOCK)
        is_image = is_image || memcmp(begin + at, "RDSK", 4) == 0;
    return is_image;
}

bool is_too_much(int unpacked, off_t whole, const char *name, const char *how) {
    char why[LONGEST_LIMIT];
    off_t most = whole <= FEW_BYTES || begins_as_image(unpacked) ? MOST_BYTES : FEW_BYTES;
    if (whole <= most)
        return false;
    snprintf(why, sizeof why, "%s: more than %lld bytes are not unpacked", how, (long long)most);
    say(name, why, REFUSED);
    return true;
}

#ifdef ADF_ZLIB
/* Writes what is packed into a file: SOUND, or the status to end with. */
static int copy_unpacked(gzFile packed, int file, const char *name, uint8_t *room) {
    off_t whole = 0;
    int count = 0;
    while ((count = gzread(packed, room, PART)) > 0) {
        whole += count;
        if (is_too_much(file, whole, name, "packed by gzip"))
            return REFUSED;
        if (!write_all(file, room, (size_t)count))
            return say(name, strerror(errno), FAILED);
    }
    return count < 0 ? say(name, "damaged archive", FAILED) : SOUND;
}

static int unpack_gzip(int file, int unpacked, const char *name) {
    uint8_t *room = malloc(PART);
    int given = dup(file);
    gzFile packed = room == NULL || given < 0 || lseek(given, 0, SEEK_SET) < 0 ? NULL : gzdopen(given, "rb");
    int status = packed == NULL ? say(name, strerror(errno), FAILED) : copy_unpacked(packed, unpacked, name, room);
    if (packed != NULL) {
        int closed = gzclose_r(packed);
        if (status == SOUND && closed != Z_OK) /* the end is missing */
            status = say(name, "damaged archive", FAILED);
    } else if (given >= 0)
        close(given);
    free(room);
    return status;
}
#else
static int unpack_gzip(int file, int unpacked, const char *name) {
    (void)file, (void)unpacked;
    return say(name, "packed by gzip, and adf-mount is built without zlib (Debian's zlib1g-dev)", FAILED);
}
#endif

/* Writes the image in a file of this form, the one that is wanted if that is not NULL. */
static int unpack_form(int file, int unpacked, const char *name, const char *form, const char *wanted) {
    bool is_one = strcmp(form, "gzip") == 0 || strcmp(form, "DMS") == 0;
    if (!is_one)
        return unpack_member(file, unpacked, name, form, wanted);
    if (wanted != NULL)
        return say(name, "no image has this name", REFUSED);
    return strcmp(form, "DMS") == 0 ? unpack_dms(file, unpacked, name) : unpack_gzip(file, unpacked, name);
}

int unpack_file(int *file, const char *name, const char *wanted) {
    uint8_t begin[16];
    ssize_t count = pread(*file, begin, sizeof begin, 0);
    const char *form = count <= 0 ? NULL : text_of(PACKED, sizeof PACKED / sizeof *PACKED, begin, (size_t)count);
    if (form == NULL)
        return wanted == NULL ? SOUND : say(name, strerror(ENOTDIR), FAILED);
    int unpacked = temporary_file();
    int status = unpacked < 0 ? say(name, strerror(errno), FAILED) : unpack_form(*file, unpacked, name, form, wanted);
    if (status == SOUND && dup3(unpacked, *file, O_CLOEXEC) < 0)
        status = say(name, strerror(errno), FAILED);
    if (unpacked >= 0)
        close(unpacked);
    return status;
}

char *member_of(char *path) {
    struct stat status;
    if (lstat(path, &status) == 0 || errno != ENOTDIR)
        return NULL;
    for (char *slash = strrchr(path, '/'); slash != NULL && slash != path; slash = memrchr(path, '/', (size_t)(slash - path))) {
        *slash = '\0';
        if (stat(path, &status) == 0 && S_ISREG(status.st_mode))
            return slash + 1;
        *slash = '/';
    }
    return NULL;
}
