/* What the readers of packed images share. Each writes an image into a new file, and answers SOUND, or the status to end with; why then
 * stands on standard error, behind the name of the packed file. */
#ifndef ADF_MOUNT_UNPACKING_H
#define ADF_MOUNT_UNPACKING_H

#include <stdbool.h>
#include <stddef.h>
#include <sys/types.h>

enum { PART = 1 << 20 };

/* Says why a packed file is not read; the status. */
int say(const char *name, const char *why, int status);

bool write_all(int file, const void *bytes, size_t count);

/* Whether so many bytes that were unpacked into a file are more than an image may have, as is said then: more than 4 GiB, or more than
 * 512 MiB where they begin neither as a volume nor as a hard disk. */
bool is_too_much(int unpacked, off_t whole, const char *name, const char *how);

/* Writes a file of an archive of zip or LHA, as libarchive reads it: the one that is wanted, or the only image if that is NULL. */
int unpack_member(int file, int unpacked, const char *name, const char *form, const char *wanted);

/* Writes the disk in a file of DMS, which the program ancient unpacks in a temporary folder. */
int unpack_dms(int file, int unpacked, const char *name);

#endif
