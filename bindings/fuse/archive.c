#define _GNU_SOURCE
#include "unpacking.h"

#include "names.h"
#include "volume.h"

#include <locale.h>
#include <stdio.h>
#include <stdlib.h>
#include <string.h>
#include <strings.h>
#include <unistd.h>

#ifdef ADF_LIBARCHIVE
#include <archive.h>
#include <archive_entry.h>

enum { MOST_MEMBERS = 65536, MOST_LISTED = 20, BUFFER = 1 << 16 };

static int say_damaged(const char *name) { return say(name, "damaged archive", FAILED); }

/* Files of an archive that may be the one that is wanted: how many there are, the place of the first, and the names of some. */
struct fit {
    size_t count;
    size_t first;
    char *names;
    size_t length;
    FILE *listed;
};

static struct archive *begin_archive(int file, const char *form) {
    struct archive *archive = lseek(file, 0, SEEK_SET) < 0 ? NULL : archive_read_new();
    if (archive != NULL &&
        (strcmp(form, "zip") == 0 ? archive_read_support_format_zip(archive) : archive_read_support_format_lha(archive)) ==
            ARCHIVE_OK &&
        archive_read_open_fd(archive, file, BUFFER) == ARCHIVE_OK)
        return archive;
    archive_read_free(archive);
    return NULL;
}

static const char *name_of(struct archive_entry *entry) {
    const char *name = archive_entry_pathname_utf8(entry);
    if (name == NULL)
        name = archive_entry_pathname(entry);
    return name == NULL ? "" : name;
}

/* The next file of an archive: 1, 0 at its end, or -1 if it is damaged. A name that has no letters here is no fault. */
static int next_file(struct archive *archive, struct archive_entry **entry) {
    int answer;
    do
        answer = archive_read_next_header(archive, entry);
    while ((answer == ARCHIVE_OK || answer == ARCHIVE_WARN) && archive_entry_filetype(*entry) != AE_IFREG);
    return answer == ARCHIVE_EOF ? 0 : answer == ARCHIVE_OK || answer == ARCHIVE_WARN ? 1 : -1;
}

static bool is_image(const char *name) {
    size_t length = strlen(name);
    return length >= 4 && (strcasecmp(name + length - 4, ".adf") == 0 || strcasecmp(name + length - 4, ".hdf") == 0);
}

static void add_fit(struct fit *fit, size_t place, const char *name) {
    char *line = fit->count < MOST_LISTED && fit->listed != NULL ? host_line(name) : NULL;
    if (line != NULL)
        fprintf(fit->listed, "%s%s", fit->count == 0 ? "" : ", ", line);
    free(line);
    fit->first = fit->count++ == 0 ? place : fit->first;
}

/* Says why none of the files is the one that is wanted. */
static int say_choice(const char *name, const struct fit *fit, bool has_name) {
    char *why = NULL;
    if (has_name || fit->count == 0)
        return say(name,
                   !has_name         ? "no image in it"
                   : fit->count == 0 ? "no image has this name"
                                     : "more than one image has this name",
                   REFUSED);
    size_t more = fit->count > MOST_LISTED ? fit->count - MOST_LISTED : 0;
    int length = more == 0
                     ? asprintf(&why, "%zu images in it, give one as FILE/NAME: %s", fit->count, fit->names)
                     : asprintf(&why, "%zu images in it, give one as FILE/NAME: %s and %zu more", fit->count, fit->names, more);
    int status = length < 0 ? FAILED : say(name, why, REFUSED);
    free(length < 0 ? NULL : why);
    return status;
}

/* Lists the files of an archive: those that have the name that is wanted, or without one those that are images, or all. SOUND with the
 * place of the only one, or the status to end with. */
static int choose(struct archive *archive, const char *name, const char *wanted, size_t *place) {
    struct fit fits[2] = {{0}, {0}}; /* images, or those with the name; and all files */
    struct archive_entry *entry;
    size_t count = 0;
    int came = 0;
    for (size_t i = 0; i < 2; i++)
        fits[i].listed = open_memstream(&fits[i].names, &fits[i].length);
    while (count <= MOST_MEMBERS && (came = next_file(archive, &entry)) == 1) {
        const char *member = name_of(entry);
        if (wanted != NULL ? strcmp(member, wanted) == 0 : is_image(member))
            add_fit(&fits[0], count, member);
        add_fit(&fits[1], count++, member);
    }
    for (size_t i = 0; i < 2; i++)
        if (fits[i].listed != NULL)
            fclose(fits[i].listed);
    const struct fit *fit = &fits[wanted == NULL && fits[0].count == 0];
    int status = SOUND;
    if (came < 0)
        status = say_damaged(name);
    else if (count > MOST_MEMBERS)
        status = say(name, "more than 65536 files in it", REFUSED);
    else if (fit->count != 1)
        status = say_choice(name, fit, wanted != NULL);
    *place = fit->first;
    free(fits[0].names);
    free(fits[1].names);
    return status;
}

/* Writes the file at a place of an archive. */
static int write_member(struct archive *archive, size_t place, int unpacked, const char *name) {
    struct archive_entry *entry;
    off_t whole = 0;
    ssize_t count = -1;
    bool is_too_long = false;
    for (size_t i = 0; i <= place; i++)
        if (next_file(archive, &entry) != 1)
            return say_damaged(name);
    if (archive_entry_is_data_encrypted(entry))
        return say(name, "encrypted", FAILED);
    char *room = malloc(PART);
    while (room != NULL && (count = archive_read_data(archive, room, PART)) > 0 &&
           !(is_too_long = is_too_much(unpacked, whole += count, name, "packed")))
        if (!write_all(unpacked, room, (size_t)count)) {
            free(room);
            return say(name, "the temporary file cannot be written", FAILED);
        }
    free(room);
    if (is_too_long)
        return REFUSED;
    return count == 0 ? SOUND : say_damaged(name);
}

/* Unpacks a member while names have the letters of UTF-8. */
static int unpack_named(int file, int unpacked, const char *name, const char *form, const char *wanted) {
    size_t place = 0;
    struct archive *archive = begin_archive(file, form);
    int status = archive == NULL ? say_damaged(name) : choose(archive, name, wanted, &place);
    archive_read_free(archive);
    if (status != SOUND)
        return status;
    archive = begin_archive(file, form);
    status = archive == NULL ? say_damaged(name) : write_member(archive, place, unpacked, name);
    archive_read_free(archive);
    return status;
}

int unpack_member(int file, int unpacked, const char *name, const char *form, const char *wanted) {
    locale_t letters = newlocale(LC_CTYPE_MASK, "C.UTF-8", (locale_t)0), before = uselocale((locale_t)0);
    if (letters != (locale_t)0)
        uselocale(letters);
    int status = unpack_named(file, unpacked, name, form, wanted);
    uselocale(before);
    if (letters != (locale_t)0)
        freelocale(letters);
    return status;
}
#else
int unpack_member(int file, int unpacked, const char *name, const char *form, const char *wanted) {
    char why[128];
    (void)file, (void)unpacked, (void)wanted;
    snprintf(why, sizeof why,
             "packed by %s, and adf-mount is built without libarchive (Debian's libarchive-dev): adf-unpack reads it", form);
    return say(name, why, FAILED);
}
#endif
