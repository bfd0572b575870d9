/* Packed images: those of gzip (zlib, ADF_ZLIB), zip and LHA (libarchive, ADF_LIBARCHIVE) are unpacked, if the program is built with
 * these libraries, and those of DMS by the program ancient. */
#ifndef ADF_MOUNT_PACKED_H
#define ADF_MOUNT_PACKED_H

#include <stddef.h>
#include <stdint.h>

/* Puts the image of a packed file, in a temporary file without a name, in the place of that open file; one that is not packed, or cannot
 * seek, stays. Of an archive it is the one that is wanted, or the only one if that is NULL. SOUND, or the status to end with, and why
 * stands on standard error. */
int unpack_file(int *file, const char *name, const char *wanted);

/* The name of a member, if a path leads through a file to one: then the path is cut to that of the file. Otherwise NULL. */
char *member_of(char *path);

/* What an image is that is refused, if its first bytes say so for certain, or NULL. */
const char *foreign(const uint8_t *image, size_t length);

#endif
