#define _GNU_SOURCE
#include "disk.h"

#include "volume.h"

#include <errno.h>
#include <stdio.h>
#include <stdlib.h>
#include <string.h>
#include <strings.h>
#include <sys/mman.h>
#include <sys/stat.h>
#include <unistd.h>

enum { MOST_TABLES = 65536, MOST_PARTITIONS = 1024 };
enum { SECTOR_WORDS = 33, BLOCK_SECTORS = 36, RESERVED = 38 }; /* words of a partition block */
enum { MOST_RESERVED = 2, DOS = 0x444F5300, MOST_TYPE = 5, FIRST_ROOM = 1 << 20 };

/* One byte more than the largest image, so that a longer one is seen to be longer. */
static const size_t MOST_BYTES = (size_t)BLOCK * MOST_BLOCKS + 1;

/* A larger part is mapped. */
static const off_t LARGE = (off_t)512 << 20;

/* Reads the bytes of a part. NULL if it cannot be read (errno). */
static uint8_t *read_part(int file, const struct part *part, size_t *length) {
    bool is_pipe = lseek(file, 0, SEEK_CUR) < 0;
    size_t room = FIRST_ROOM < part->most ? FIRST_ROOM : part->most, count = 0;
    uint8_t *bytes = malloc(room + 1);
    while (bytes != NULL && count < part->most) {
        if (count == room) {
            room = room < part->most / 2 ? 2 * room : part->most;
            uint8_t *more = realloc(bytes, room + 1);
            if (more == NULL)
                free(bytes);
            bytes = more;
            continue;
        }
        ssize_t came = is_pipe ? read(file, bytes + count, room - count)
                               : pread(file, bytes + count, room - count, part->first + (off_t)count);
        if (came == 0)
            break;
        if (came < 0 && errno != EINTR) {
            free(bytes);
            return NULL;
        }
        count += came < 0 ? 0 : (size_t)came;
    }
    errno = bytes == NULL ? ENOMEM : 0;
    *length = count;
    return bytes;
}

/* How many bytes of a part a file has, if it can be mapped, otherwise 0. */
static off_t mapped_length(int file, const struct part *part) {
    struct stat status;
    bool is_mapped = fstat(file, &status) == 0 && (S_ISREG(status.st_mode) || S_ISBLK(status.st_mode));
    off_t length = is_mapped ? lseek(file, 0, SEEK_END) - part->first : 0;
    return length < (off_t)part->most ? length : (off_t)part->most;
}

bool hold_part(int file, const struct part *part, struct held *held) {
    off_t length = mapped_length(file, part), before = part->first % sysconf(_SC_PAGESIZE);
    *held = (struct held){0};
    if (length <= LARGE) {
        held->bytes = read_part(file, part, &held->length);
        return held->bytes != NULL;
    }
    void *map = mmap(NULL, (size_t)(before + length), PROT_READ, MAP_PRIVATE, file, part->first - before);
    if (map != MAP_FAILED)
        *held = (struct held){(uint8_t *)map + before, (size_t)length, map, (size_t)(before + length)};
    return map != MAP_FAILED;
}

void let_go(struct held *held) {
    if (held->map == NULL)
        free(held->bytes);
    else
        munmap(held->map, held->map_length);
    *held = (struct held){0};
}

/* The name of a partition as `adf-disk list` writes it. */
static void list_name(const struct adf_partition *partition, char text[NAME_TEXT]) {
    for (size_t i = 0; i < partition->name_length; i++) {
        uint8_t byte = partition->name[i];
        bool is_separator = byte == '/' || byte == ':';
        text += is_separator ? (size_t)sprintf(text, "\\x%02x", byte) : adf_escape(&byte, 1, (uint8_t *)text, 4);
    }
    strcpy(text, partition->name_length == 0 ? "\\x" : "");
}

/* Whether a partition is the one that is wanted, as of `adf-disk volume`: by its number, its name as `adf-disk list` writes it, or the
 * escape form of that; the case of a to z does not count. */
static bool is_wanted(const struct adf_partition *partition, size_t number, const char *wanted) {
    char *end, listed[NAME_TEXT], escaped[NAME_TEXT];
    bool is_number = wanted[0] != '\0' && wanted[strspn(wanted, "0123456789")] == '\0';
    if (is_number)
        return strtoull(wanted, &end, 10) == number;
    list_name(partition, listed);
    escaped[adf_escape(partition->name, partition->name_length, (uint8_t *)escaped, sizeof escaped - 1)] = '\0';
    return strcasecmp(wanted, listed) == 0 || strcasecmp(wanted, escaped) == 0;
}

/* A word of the block of a partition. */
static unsigned long word_of(int file, const struct adf_partition *partition, int number) {
    uint8_t word[4] = {0};
    if (pread(file, word, sizeof word, (off_t)partition->block * BLOCK + number * 4) != sizeof word)
        return 0;
    return (unsigned long)word[0] << 24 | (unsigned long)word[1] << 16 | (unsigned long)word[2] << 8 | word[3];
}

/* Why a partition cannot be read, as `adf-disk check` says it, or an empty text. A type of 0 says nothing. Of the one that is wanted a
 * type, and fields that are not about its place, are left to the check of its volume. */
static void why_unread(int file, const struct adf_partition *partition, bool is_chosen, char why[LONGEST_TEXT]) {
    unsigned long reserved = word_of(file, partition, RESERVED);
    uint8_t type[4] = {partition->dos_type >> 24 & 255, partition->dos_type >> 16 & 255, partition->dos_type >> 8 & 255,
                       partition->dos_type & 255};
    *why = '\0';
    if (!is_chosen && partition->dos_type != 0 && (partition->dos_type < DOS || partition->dos_type > DOS + MOST_TYPE))
        show_text(type, sizeof type, stpcpy(why, "type "));
    else if (!is_chosen && partition->fault == ADF_PARTITION_BLOCK_SIZE)
        sprintf(why, "other block size: %lu x %llu", word_of(file, partition, BLOCK_SECTORS),
                4ULL * word_of(file, partition, SECTOR_WORDS));
    else if (partition->blocks == 0 || (!is_chosen && partition->fault != ADF_PARTITION_SOUND))
        why[adf_partition_fault_text(partition->fault, (uint8_t *)why, LONGEST_TEXT - 1)] = '\0';
    else if (partition->fault == ADF_PARTITION_SOUND && reserved != MOST_RESERVED)
        sprintf(why, "reserved %lu", reserved);
    else if (partition->blocks % 2 != 0)
        strcpy(why, "odd blocks");
    else if (!is_chosen && partition->blocks > MOST_BLOCKS)
        strcpy(why, "block 0: bad size");
}

static struct part part_of(const struct adf_partition *partition) {
    bool is_small = partition->blocks <= MOST_BYTES / BLOCK;
    return (struct part){.first = (off_t)partition->first * BLOCK,
                         .most = is_small ? (size_t)partition->blocks * BLOCK : MOST_BYTES,
                         .whole = (uint64_t)partition->blocks * BLOCK};
}

/* Whether an earlier part has this name. */
static bool is_named(const struct parts *parts, const char *name) {
    for (size_t i = 0; i < parts->count; i++)
        if (strcmp(parts->parts[i].name, name) == 0)
            return true;
    return false;
}

/* Adds the folder of a partition: it has its name, or its number, where it has none or an earlier one has it too; with - behind it
 * while an earlier one has that. */
static void add_part(struct parts *parts, const struct adf_partition *partition, size_t number) {
    char name[NAME_TEXT];
    show_name(partition->name, partition->name_length, "", name);
    if (partition->name_length == 0 || is_named(parts, name))
        sprintf(name, "%zu", number);
    while (is_named(parts, name) && strlen(name) < LONGEST_NAME)
        strcat(name, "-");
    parts->parts[parts->count] = part_of(partition);
    strcpy(parts->parts[parts->count++].name, name);
}

void say_no_volume(const char *name) {
    fprintf(stderr, "adf-mount: %s: a hard disk without a volume that can be read (adf-disk survey)\n", name);
}

/* Says the first fault of the tables of a disk. */
static void say_fault(const char *name, const struct adf_disk *disk) {
    uint8_t text[LONGEST_TEXT];
    int length = (int)adf_disk_cause_text(disk->cause, text, sizeof text);
    fprintf(stderr, "adf-mount: %s: block %lu: %.*s\n", name, (unsigned long)disk->block, length, (const char *)text);
}

/* All partitions whose volumes can be read; a line for each other one. */
static int take_all(int file, const char *name, const struct adf_partition *rows, const struct adf_disk *disk,
                    struct parts *parts) {
    parts->is_disk = true;
    for (size_t i = 0; i < disk->partitions; i++) {
        char why[LONGEST_TEXT], drive[NAME_TEXT];
        why_unread(file, &rows[i], false, why);
        if (*why == '\0') {
            add_part(parts, &rows[i], i + 1);
            continue;
        }
        show_name(rows[i].name, rows[i].name_length, "", drive);
        if (rows[i].name_length == 0)
            sprintf(drive, "%zu", i + 1);
        fprintf(stderr, "adf-mount: %s: %s: %s\n", name, drive, why);
        parts->is_whole = false;
    }
    if (parts->count == 0)
        say_no_volume(name);
    return parts->count == 0 ? REFUSED : SOUND;
}

/* Says that a disk has no such partition, or why it is no disk. */
static void say_no_partition(const char *name, const char *wanted, const struct adf_disk *disk) {
    char *line = host_line(wanted);
    if (disk->cause == ADF_DISK_NO_RIGID_DISK && disk->partitions == 0)
        say_fault(name, disk);
    else
        fprintf(stderr, "adf-mount: %s: no such partition: %s (adf-disk survey)\n", name, line == NULL ? "" : line);
    free(line);
}

static int take_one(int file, const char *name, const char *wanted, const struct adf_partition *rows, const struct adf_disk *disk,
                    struct parts *parts) {
    char why[LONGEST_TEXT];
    size_t i = 0;
    while (i < disk->partitions && !is_wanted(&rows[i], i + 1, wanted))
        i++;
    if (i == disk->partitions) {
        say_no_partition(name, wanted, disk);
        return REFUSED;
    }
    why_unread(file, &rows[i], true, why);
    if (*why != '\0') {
        fprintf(stderr, "adf-mount: %s: %s\n", name, why);
        return REFUSED;
    }
    parts->parts[parts->count++] = part_of(&rows[i]);
    return SOUND;
}

/* Reads the partitions of a disk of this length: SOUND, or FAILED. */
static int read_rows(int file, off_t length, struct adf_partition *rows, struct adf_disk *disk) {
    const struct part front = {.most = (size_t)MOST_TABLES * BLOCK};
    size_t count = 0;
    uint8_t *tables = read_part(file, &front, &count);
    if (tables == NULL)
        return FAILED;
    uint8_t cause = adf_disk_index(tables, count, (uint64_t)length / BLOCK, rows, MOST_PARTITIONS, disk);
    free(tables);
    return cause == ADF_ACCEPTED ? SOUND : FAILED;
}

/* Whether a file begins as a volume does: then its volume is that of the whole file, whatever tables of a disk are saved in it. */
static bool begins_as_volume(int file) {
    char begin[3];
    return pread(file, begin, sizeof begin, 0) == sizeof begin && memcmp(begin, "DOS", sizeof begin) == 0;
}

int find_parts(int file, const char *name, const char *wanted, struct parts *parts) {
    static struct adf_partition rows[MOST_PARTITIONS];
    struct adf_disk disk = {0};
    off_t length = lseek(file, 0, SEEK_END);
    *parts = (struct parts){.parts = calloc(MOST_PARTITIONS, sizeof *parts->parts), .is_whole = true};
    if (parts->parts == NULL)
        return FAILED;
    bool is_volume = wanted == NULL && (length <= 0 || begins_as_volume(file));
    if (!is_volume && read_rows(file, length, rows, &disk) != SOUND)
        return FAILED;
    if (disk.partitions != 0 && disk.cause != ADF_DISK_WHOLE) {
        say_fault(name, &disk);
        parts->is_whole = false;
    }
    if (wanted != NULL)
        return take_one(file, name, wanted, rows, &disk, parts);
    if (disk.partitions != 0)
        return take_all(file, name, rows, &disk, parts);
    parts->has_tables = !is_volume && disk.cause != ADF_DISK_NO_RIGID_DISK;
    parts->parts[parts->count++] = (struct part){.most = MOST_BYTES, .whole = length < 0 ? 0 : (uint64_t)length};
    return SOUND;
}
