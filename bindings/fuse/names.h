/* Names and texts of an Amiga as the host sees them, and the way back. */
#ifndef ADF_MOUNT_NAMES_H
#define ADF_MOUNT_NAMES_H

#include <stdbool.h>
#include <stddef.h>
#include <stdint.h>

enum { LONGEST_NAME = 255, NAME_TEXT = LONGEST_NAME + 1 };

/* Whether texts are in the escape form, which has letters of ASCII alone (-o escape). */
extern bool is_escaped;

/* Bytes as the host sees them: letters in UTF-8, all other bytes as \xHH. The room has 4 bytes for each, and one more. Answers where
 * the text ends. */
char *show_text(const uint8_t *bytes, size_t length, char *text);

/* A name as the host sees it, with a text behind it, as `host_name` of adf_tools/names.py makes it: of any bytes at most 255, which
 * lead neither out of their folder nor to a device of Windows. */
void show_name(const uint8_t *name, size_t length, const char *more, char text[NAME_TEXT]);

/* A text of the host as one line, to be freed: \xHH for the backslash, for control characters, and for what is not UTF-8. NULL if memory
 * ran out. */
char *host_line(const char *text);

/* The bytes for which a name of the host stands; the room has one for each character. Answers how many, or 0 if a letter has none. */
size_t bytes_of(const char *text, uint8_t *bytes);

/* A path of the host as adf_find takes it: in the escape form, in which what has a letter stands for itself. The room has two bytes for
 * each, and one more. */
void escape_path(const char *path, char *escaped);

#endif
