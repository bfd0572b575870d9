/* The places of volumes in an image: the whole image, or partitions of a hard disk. */
#ifndef ADF_MOUNT_DISK_H
#define ADF_MOUNT_DISK_H

#include "names.h"

#include <sys/types.h>

enum { BLOCK = 512, MOST_BLOCKS = 8388608 };

/* A volume in the file of an image: where it begins, how many of its bytes are read, one more than any volume has at most, how many it
 * has, or 0 where that is not known, and the folder that shows it; no name for a whole image. */
struct part {
    off_t first;
    size_t most;
    uint64_t whole;
    char name[NAME_TEXT];
};

struct parts {
    struct part *parts;
    size_t count;
    bool is_disk;    /* whether each part has a folder of its own */
    bool is_whole;   /* whether the tables of a disk are whole, and nothing of it is left out */
    bool has_tables; /* whether it is a whole image that has tables of a disk, in which no partition can be read */
};

/* Finds the volumes in an open file: that of the whole image; of a hard disk the partition that is wanted, by its number from 1 or
 * its name, or NULL for all that can be read. SOUND, or the status to end with; why, and what is left out, stands on standard error. */
int find_parts(int file, const char *name, const char *wanted, struct parts *parts);

/* Says that a hard disk has no volume that can be read, and what tells of it. */
void say_no_volume(const char *name);

/* The bytes of a part: in memory, or mapped, and then nothing may change its file. */
struct held {
    uint8_t *bytes;
    size_t length;
    void *map; /* NULL where they are in memory */
    size_t map_length;
};

/* Takes hold of the bytes of a part; a file that is shorter has fewer. Of a file or a device a large part is mapped. False if it cannot be
 * read (errno). */
bool hold_part(int file, const struct part *part, struct held *held);

void let_go(struct held *held);

#endif
