#define _GNU_SOURCE
#include "links.h"

#include "index.h"
#include "names.h"
#include "survey.h"
#include "volume.h"
#include "ways.h"

#include <search.h>
#include <stdint.h>
#include <stdio.h>
#include <stdlib.h>
#include <string.h>

enum { MOST_MORE = 64, MOST_RAW = 79, SPELLED = 4, UP_LENGTH = 3 };

static const size_t LEFT_OUT = SIZE_MAX;

/* A link that is shown: its directory in the volume and its name in capitals, and what it leads to there. */
struct place {
    struct row row;
    size_t target;
    uint32_t header;
    struct adf_date date;
    char *name;
    uint8_t *capitals;
};

struct links {
    const struct adf_entry *entries;
    uint32_t kind;
    struct place *places;
    size_t count;
};

/* What is found, in the volume */

/* The names of the entries of a volume, and the volume. */
struct named {
    const struct volume *volume;
    struct index names;
};

static bool name_entries(const struct volume *volume, struct named *named) {
    const struct adf_contents *contents = &volume->contents;
    size_t bytes = 0;
    named->volume = volume;
    for (size_t i = 0; i < contents->entries; i++)
        bytes += volume->entries[i].name_length;
    if (!make_index(&named->names, contents->entries, bytes))
        return false;
    for (size_t i = 0; i < contents->entries; i++) {
        const struct adf_entry *entry = &volume->entries[i];
        add_row(&named->names, contents->kind, entry->parent, entry->name, entry->name_length, i + 1);
    }
    sort_rows(&named->names);
    return true;
}

/* The number of the entry that has a name as it is in a directory, or 0. */
static size_t entry_named(const struct named *named, size_t directory, const uint8_t *name, size_t length) {
    uint8_t capitals[MOST_RAW];
    to_capitals(named->volume->contents.kind, name, length, capitals);
    size_t number = number_of(&named->names, directory, capitals, length);
    return number != 0 && memcmp(named->volume->entries[number - 1].name, name, length) == 0 ? number : 0;
}

/* Which blocks are headers of what is left out: a table to be freed. NULL if memory ran out. */
static bool *left_out_of(const struct rescue *rescue, size_t blocks) {
    bool *is_out = calloc(blocks, sizeof *is_out);
    for (size_t i = 0; is_out != NULL && i < rescue->losses; i++)
        if (is_left_out(&rescue->table[i]) && rescue->table[i].first < blocks)
            is_out[rescue->table[i].first] = true;
    return is_out;
}

/* The number in the volume of an entry in a directory, or LEFT_OUT. An entry whose name is not a name, or is used already, is called
 * lost- and its block. */
static size_t kept_as(const struct named *named, const struct adf_found *found, size_t directory, bool *is_used) {
    char lost[MOST_MORE];
    size_t number = entry_named(named, directory, found->name, found->name_length);
    if (number == 0 || is_used[number])
        number =
            entry_named(named, directory, (const uint8_t *)lost, (size_t)sprintf(lost, "lost-%lu", (unsigned long)found->header));
    if (number == 0 || is_used[number])
        return LEFT_OUT;
    is_used[number] = true;
    return number;
}

/* The numbers in the volume of all that is found, from that of the root on, or LEFT_OUT: a table to be freed. NULL if memory ran out. */
static size_t *kept_of(const struct named *named, const struct finds *finds, const bool *is_out, size_t blocks) {
    size_t *kept = calloc(finds->surveyed.entries + 1, sizeof *kept);
    bool *is_used = calloc(named->volume->contents.entries + 1, sizeof *is_used);
    for (size_t i = 0; kept != NULL && is_used != NULL && i < finds->surveyed.entries; i++) {
        const struct adf_found *found = &finds->found[i]; /* an entry comes behind its directory */
        bool is_kept = kept[found->parent] != LEFT_OUT && found->header < blocks && !is_out[found->header];
        kept[i + 1] = is_kept ? kept_as(named, found, kept[found->parent], is_used) : LEFT_OUT;
    }
    if (is_used == NULL) {
        free(kept);
        kept = NULL;
    }
    free(is_used);
    return kept;
}

/* Paths */

/* Writes a path that goes up so often, and on by names that each end with `/`, without the last of these; its length, or 0 if it is too
 * long. */
static size_t join(size_t ups, const char *behind, size_t length, char path[LONGEST_PATH + 1]) {
    size_t whole = ups * UP_LENGTH + length;
    if (whole > LONGEST_PATH)
        return 0;
    for (size_t i = 0; i < ups; i++)
        memcpy(&path[i * UP_LENGTH], "../", UP_LENGTH);
    memcpy(&path[ups * UP_LENGTH], behind, length);
    if (whole == 0)
        whole = (size_t)sprintf(path, "./");
    path[whole - 1] = '\0';
    return whole - 1;
}

/* Writes the path on the host from a directory to an entry or to the root; its length, or 0 if it is too long. */
static size_t path_between(const struct adf_entry *entries, size_t directory, size_t target, char path[LONGEST_PATH + 1]) {
    char behind[LONGEST_PATH], name[NAME_TEXT];
    size_t ups = 0, begin = sizeof behind;
    while (directory != target && ups * UP_LENGTH <= begin) {
        bool goes_up = directory > target; /* an entry has a higher number than its directory */
        const struct adf_entry *entry = &entries[(goes_up ? directory : target) - 1];
        *(goes_up ? &directory : &target) = entry->parent;
        ups += goes_up;
        if (goes_up)
            continue;
        show_name(entry->name, entry->name_length, "", name);
        size_t length = strlen(name);
        if (length >= begin)
            return 0;
        behind[--begin] = '/';
        begin -= length;
        memcpy(&behind[begin], name, length);
    }
    return join(ups, &behind[begin], sizeof behind - begin, path);
}

/* A name as adf-survey spells it; the room has four bytes for each, and one more. */
static size_t spell(const struct adf_found *found, char text[SPELLED * MOST_RAW + 1]) {
    size_t length = 0;
    for (size_t i = 0; i < found->name_length; i++) {
        uint8_t byte = found->name[i];
        bool is_separator = byte == '/' || byte == ':';
        length += is_separator ? (size_t)sprintf(&text[length], "\\x%02x", byte)
                               : adf_escape(&byte, 1, (uint8_t *)&text[length], SPELLED);
    }
    return length == 0 ? (size_t)sprintf(text, "\\x") : length;
}

/* Says that a right link is left out: its path as adf-survey spells it, or if that is too long, its block. */
static void say_unshown(const struct finds *finds, const struct adf_link *link, enum why why, const char *name) {
    char path[LONGEST_PATH], text[SPELLED * MOST_RAW + 1];
    size_t begin = sizeof path, node = link->node;
    for (size_t length; node != 0 && (length = spell(&finds->found[node - 1], text)) < begin;
         node = finds->found[node - 1].parent) {
        if (begin < sizeof path)
            path[--begin] = '/';
        begin -= length;
        memcpy(&path[begin], text, length);
    }
    fprintf(stderr, "adf-mount: %s: link: ", name);
    if (node == 0)
        fprintf(stderr, "%.*s", (int)(sizeof path - begin), &path[begin]);
    else
        fprintf(stderr, "block %lu", (unsigned long)link->header);
    fprintf(stderr, ": %s\n", why_text(why));
}

/* The links of a volume */

/* What the places of links are made of. */
struct making {
    struct named named;
    struct finds finds;
    struct way *ways;
    bool *is_out;
    size_t *kept;
    void *taken; /* the tree of the places by their names */
};

/* Whether an entry or an earlier link of the directory has the name of a place; if none has, the place has it. -1 if memory ran out. */
static int take_name(struct place *place, struct making *making) {
    if (number_of(&making->named.names, place->row.directory, place->row.name, place->row.length) != 0)
        return 0;
    const struct place *const *first = tsearch(place, &making->taken, by_name);
    return first == NULL ? -1 : *first == place;
}

/* Gives a place the name of its link, and behind it the block of its header, and a count, while that is taken. False if memory ran out. */
static bool name_place(struct place *place, const struct adf_found *found, struct making *making) {
    uint32_t kind = making->named.volume->contents.kind;
    char more[MOST_MORE] = "", name[NAME_TEXT];
    uint8_t raw[NAME_TEXT];
    for (unsigned long count = 1;; count++) {
        show_name(found->name, found->name_length, more, name);
        place->name = strdup(name);
        place->row.length = bytes_of(name, raw);
        place->row.name = place->capitals = malloc(place->row.length + 1);
        if (place->name == NULL || place->capitals == NULL)
            return false;
        to_capitals(kind, raw, place->row.length, place->capitals);
        int taken = take_name(place, making);
        if (taken != 0)
            return taken > 0;
        free(place->name);
        free(place->capitals);
        sprintf(more, count == 1 ? "-%lu" : "-%lu-%lu", (unsigned long)found->header, count);
    }
}

/* Why a link is not shown, or LEADS. */
static enum why why_of(const struct making *making, size_t number) {
    const struct finds *finds = &making->finds;
    const struct way *way = &making->ways[number];
    size_t directory = making->kept[finds->found[finds->links[number].node - 1].parent];
    char path[LONGEST_PATH + 1];
    if (directory == LEFT_OUT || way->why != LEADS)
        return directory == LEFT_OUT ? IS_AWAY : way->why;
    size_t target = making->kept[way->target];
    if (target == LEFT_OUT)
        return LEADS_TO_NOTHING;
    return path_between(making->named.volume->entries, directory, target, path) == 0 ? IS_TOO_LONG : LEADS;
}

/* Makes the place of a link that is shown. False if memory ran out. */
static bool make_place(struct links *links, struct making *making, size_t number) {
    const struct adf_found *found = &making->finds.found[making->finds.links[number].node - 1];
    struct place *place = &links->places[links->count++];
    *place = (struct place){.row = {.directory = making->kept[found->parent]},
                            .target = making->kept[making->ways[number].target],
                            .header = found->header,
                            .date = found->date};
    return name_place(place, found, making);
}

static void keep_place(void *place) { (void)place; }

/* Makes the places of all links that are shown, in their order, and says which are not. False if memory ran out. */
static bool make_places(struct links *links, struct making *making, const char *name) {
    bool has_room = true;
    links->places = calloc(making->finds.count + 1, sizeof *links->places);
    for (size_t i = 0; links->places != NULL && has_room && i < making->finds.count; i++) {
        enum why why = why_of(making, i);
        if (why == LEADS)
            has_room = make_place(links, making, i);
        else if (name != NULL)
            say_unshown(&making->finds, &making->finds.links[i], why, name);
    }
    tdestroy(making->taken, keep_place);
    if (links->places != NULL && has_room)
        qsort(links->places, links->count, sizeof *links->places, by_name);
    return links->places != NULL && has_room;
}

/* Makes what the places are made of. False if memory ran out. */
static bool prepare(const struct volume *volume, const struct linked *linked, struct making *making) {
    size_t blocks = linked->length / BLOCK;
    if (!find_all(linked->image, linked->length, volume->contents.kind, &making->finds) || !name_entries(volume, &making->named))
        return false;
    making->is_out = left_out_of(linked->rescue, blocks);
    making->ways = follow_links(&making->finds);
    if (making->is_out == NULL || making->ways == NULL)
        return false;
    making->kept = kept_of(&making->named, &making->finds, making->is_out, blocks);
    return making->kept != NULL;
}

struct links *links_of(const struct volume *volume, const struct linked *linked, const char *name) {
    struct making making = {0};
    struct links *links = calloc(1, sizeof *links);
    if (links != NULL)
        *links = (struct links){.entries = volume->entries, .kind = volume->contents.kind};
    if (links != NULL && !(prepare(volume, linked, &making) && make_places(links, &making, name))) {
        free_links(links);
        links = NULL;
    }
    free_finds(&making.finds);
    free_index(&making.named.names);
    free(making.ways);
    free(making.is_out);
    free(making.kept);
    return links;
}

void free_links(struct links *links) {
    for (size_t i = 0; i < links->count; i++) {
        free(links->places[i].name);
        free(links->places[i].capitals);
    }
    free(links->places);
    free(links);
}

size_t links_shown(const struct links *links) { return links->count; }

static size_t place_of(const struct links *links, const struct row *wanted) {
    return lower_bound(links->places, links->count, sizeof *links->places, wanted);
}

long find_link(const struct links *links, size_t directory, const char *name) {
    uint8_t raw[NAME_TEXT], capitals[NAME_TEXT];
    size_t length = strlen(name) > LONGEST_NAME ? 0 : bytes_of(name, raw);
    struct row wanted = {directory, length, capitals, 0};
    if (length == 0)
        return -1;
    to_capitals(links->kind, raw, length, capitals);
    size_t place = place_of(links, &wanted);
    return place < links->count && by_name(&links->places[place], &wanted) == 0 ? (long)place : -1;
}

/* No name comes before the one without bytes. */
long first_link(const struct links *links, size_t directory) {
    struct row wanted = {.directory = directory, .name = (const uint8_t *)""};
    return (long)place_of(links, &wanted);
}

long links_end(const struct links *links, size_t directory) { return first_link(links, directory + 1); }

const char *link_name(const struct links *links, long place) { return links->places[place].name; }
uint32_t link_header(const struct links *links, long place) { return links->places[place].header; }
const struct adf_date *link_date(const struct links *links, long place) { return &links->places[place].date; }

size_t link_path(const struct links *links, long place, char path[LONGEST_PATH + 1]) {
    const struct place *link = &links->places[place];
    return path_between(links->entries, link->row.directory, link->target, path);
}
