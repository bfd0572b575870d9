#define _GNU_SOURCE
#include "names.h"

#include <stdio.h>
#include <stdlib.h>
#include <string.h>
#include <strings.h>

enum { MOST_RAW = 79 };

bool is_escaped;

/* Whether a byte of a text stands for itself, as a letter of Latin-1; in the escape form only those of ASCII do. */
static bool has_letter(uint8_t byte) { return byte != '\\' && ((32 <= byte && byte <= 126) || (byte >= 160 && !is_escaped)); }

char *show_text(const uint8_t *bytes, size_t length, char *text) {
    for (size_t i = 0; i < length; i++) {
        uint8_t byte = bytes[i];
        if (!has_letter(byte))
            text += sprintf(text, "\\x%02x", byte);
        else if (byte < 128)
            text += sprintf(text, "%c", byte);
        else
            text += sprintf(text, "%c%c", 0xc0 | byte >> 6, 0x80 | (byte & 0x3f));
    }
    *text = '\0';
    return text;
}

/* The place of the third letter of a device of Windows, or the length of another name. A device is a file in every folder, also with a
 * dot and more behind it. */
static size_t device_letter(const uint8_t *name, size_t length) {
    static const char DEVICES[][4] = {"aux", "con", "nul", "prn"}, PORTS[][4] = {"com", "lpt"};
    enum { LETTERS = 3, THIRD = 2 };
    size_t dot = 0;
    while (dot < length && name[dot] != '.')
        dot++;
    bool is_port = dot == LETTERS + 1 && '0' <= name[LETTERS] && name[LETTERS] <= '9';
    for (size_t i = 0; i < sizeof DEVICES / sizeof *DEVICES; i++)
        if (dot == LETTERS && strncasecmp((const char *)name, DEVICES[i], LETTERS) == 0)
            return THIRD;
    for (size_t i = 0; i < sizeof PORTS / sizeof *PORTS; i++)
        if (is_port && strncasecmp((const char *)name, PORTS[i], LETTERS) == 0)
            return THIRD;
    return length;
}

/* The place of the last letter of .uaem at the end, by which FS-UAE knows the file that it keeps beside another, or the length. */
static size_t beside_letter(const uint8_t *name, size_t length) {
    static const char ENDING[] = ".uaem";
    enum { COUNT = sizeof ENDING - 1 };
    bool is_beside = length >= COUNT && strncasecmp((const char *)name + length - COUNT, ENDING, COUNT) == 0;
    return is_beside ? length - 1 : length;
}

/* What stands for the bytes of a name, and where the text of each ends. */
struct pieces {
    char text[4 * MOST_RAW + 1];
    size_t ends[MOST_RAW];
};

static void make_pieces(const uint8_t *name, size_t length, struct pieces *pieces) {
    size_t dots = 0, device = device_letter(name, length), beside = beside_letter(name, length);
    while (dots < length && name[dots] == '.')
        dots++;
    bool is_dots = dots == length && dots <= 2;
    char *text = pieces->text;
    for (size_t i = 0; i < length; i++) {
        if (is_dots || name[i] == '/' || name[i] == ':' || i == device || i == beside)
            text += sprintf(text, "\\x%02x", name[i]);
        else
            text = show_text(&name[i], 1, text);
        pieces->ends[i] = (size_t)(text - pieces->text);
    }
}

/* The CRC-32 of bytes, as in zip. */
static uint32_t check_of(const uint8_t *bytes, size_t length) {
    uint32_t sum = 0xFFFFFFFF;
    for (size_t i = 0; i < length; i++) {
        sum ^= bytes[i];
        for (int bit = 0; bit < 8; bit++)
            sum = sum >> 1 ^ (sum & 1 ? 0xEDB88320 : 0);
    }
    return ~sum;
}

void show_name(const uint8_t *name, size_t length, const char *more, char text[NAME_TEXT]) {
    enum { CHECK = 9 }; /* ~ and eight digits */
    struct pieces pieces;
    length = length < MOST_RAW ? length : MOST_RAW;
    make_pieces(name, length, &pieces);
    size_t room = LONGEST_NAME - strlen(more), whole = length == 0 ? 0 : pieces.ends[length - 1], end = 0;
    for (size_t i = 0; i < length && pieces.ends[i] + CHECK <= room; i++)
        end = pieces.ends[i];
    if (length == 0)
        sprintf(text, "\\x%s", more);
    else if (whole <= room)
        sprintf(text, "%.*s%s", (int)whole, pieces.text, more);
    else
        sprintf(text, "%.*s~%08lx%s", (int)end, pieces.text, (unsigned long)check_of(name, length), more);
}

/* The bytes of the letter at the front of a text in UTF-8, or 0 if there is no letter, or a control character. */
static int letter_length(const uint8_t *text) {
    int length = text[0] < 0x80 ? 1 : text[0] < 0xc2 ? 0 : text[0] < 0xe0 ? 2 : text[0] < 0xf0 ? 3 : text[0] < 0xf5 ? 4 : 0;
    bool is_control = text[0] < 32 || text[0] == 127 || text[0] == '\\' || (text[0] == 0xc2 && text[1] < 0xa0);
    for (int i = 1; i < length; i++)
        if ((text[i] & 0xc0) != 0x80)
            return 0;
    return is_control ? 0 : length;
}

char *host_line(const char *text) {
    char *line = malloc(4 * strlen(text) + 1), *end = line;
    while (line != NULL && *text != '\0') {
        int length = letter_length((const uint8_t *)text);
        end += length == 0 ? sprintf(end, "\\x%02x", (uint8_t)*text) : sprintf(end, "%.*s", length, text);
        text += length == 0 ? 1 : length;
    }
    if (line != NULL)
        *end = '\0';
    return line;
}

static int digit_of(char digit) {
    return '0' <= digit && digit <= '9' ? digit - '0' : 'a' <= digit && digit <= 'f' ? digit - 'a' + 10 : -1;
}

/* The byte for which \xHH stands, or -1. */
static int byte_of(const char *text) {
    int high = text[0] == '\\' && text[1] == 'x' ? digit_of(text[2]) : -1;
    int low = high < 0 ? -1 : digit_of(text[3]);
    return low < 0 ? -1 : 16 * high + low;
}

/* The letter of Latin-1 at the front of a text in UTF-8, which is two bytes there, or -1. */
static int latin_of(const char *text) {
    uint8_t lead = (uint8_t)text[0], next = (uint8_t)text[1];
    bool is_latin = !is_escaped && (lead == 0xc2 || lead == 0xc3) && 0x80 <= next && next <= 0xbf;
    return is_latin ? (lead & 3) << 6 | (next & 0x3f) : -1;
}

size_t bytes_of(const char *text, uint8_t *bytes) {
    size_t count = 0;
    while (*text != '\0') {
        int byte = byte_of(text), latin = latin_of(text);
        if (byte < 0 && latin < 0 && (*text < 32 || *text > 126))
            return 0;
        bytes[count++] = (uint8_t)(byte >= 0 ? byte : latin >= 0 ? latin : *text);
        text += byte >= 0 ? 4 : latin >= 0 ? 2 : 1;
    }
    return count;
}

/* What is no letter of Latin-1 stays, and is no name of an Amiga; so do digits for what separates names. */
void escape_path(const char *path, char *escaped) {
    while (*path != '\0') {
        int byte = byte_of(path), latin = latin_of(path);
        if (32 <= byte && byte <= 126 && byte != '\\' && byte != '/' && byte != ':') {
            *escaped++ = (char)byte;
            path += 4;
        } else if (latin >= 0) {
            escaped += sprintf(escaped, "\\x%02x", latin);
            path += 2;
        } else {
            *escaped++ = *path++;
        }
    }
    *escaped = '\0';
}
