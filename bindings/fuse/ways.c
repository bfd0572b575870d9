#include "ways.h"

#include "index.h"

#include <stdlib.h>
#include <string.h>

enum { BLOCK = 512, LONGEST_PART = 287 };

const char *why_text(enum why why) {
    static const char *const TEXTS[] = {[LEADS] = "",
                                        [LEADS_OUT] = "leads out of the volume",
                                        [LEADS_IN_A_RING] = "leads to itself",
                                        [LEADS_TO_NOTHING] = "leads to nothing that is kept",
                                        [IS_AWAY] = "its directory is left out",
                                        [IS_TOO_LONG] = "File name too long"};
    return TEXTS[why];
}

bool find_all(const uint8_t *image, size_t length, uint32_t kind, struct finds *finds) {
    struct adf_finding finding;
    size_t most = length / BLOCK + 1;
    *finds = (struct finds){.image = image, .kind = kind, .found = malloc(most * sizeof *finds->found)};
    if (finds->found == NULL || adf_survey_index(image, length, &finding, 1, finds->found, most, &finds->surveyed) != ADF_ACCEPTED)
        return false;
    size_t room = finds->surveyed.entries + 1;
    struct adf_found *less = realloc(finds->found, room * sizeof *finds->found);
    finds->found = less == NULL ? finds->found : less;
    finds->links = malloc(room * sizeof *finds->links);
    return finds->links != NULL && adf_survey_links(image, length, finds->links, room, &finds->count) == ADF_ACCEPTED;
}

void free_finds(struct finds *finds) {
    free(finds->found);
    free(finds->links);
    *finds = (struct finds){0};
}

/* A link that is being followed: where its path has come to, and what of it is left. */
struct walk {
    size_t link;
    const uint8_t *path;
    const uint8_t *end;
};

/* The links while they are followed: what is known of each, and those on the way from the one that was asked for. */
struct follower {
    const struct finds *finds;
    struct index names;
    struct way *ways;
    enum state { NEW, BEGUN, DONE } * states;
    struct walk *walks;
    size_t count; /* of the walks */
};

/* The place of the link that an entry is, or as many as there are. */
static size_t link_of(const struct finds *finds, size_t node) {
    size_t low = 0, high = finds->count;
    while (low < high) {
        size_t middle = low + (high - low) / 2;
        if (finds->links[middle].node < node)
            low = middle + 1;
        else
            high = middle;
    }
    return low < finds->count && finds->links[low].node == node ? low : finds->count;
}

static bool name_found(const struct finds *finds, struct index *names) {
    size_t bytes = 0;
    for (size_t i = 0; i < finds->surveyed.entries; i++)
        bytes += finds->found[i].name_length;
    if (!make_index(names, finds->surveyed.entries, bytes))
        return false;
    for (size_t i = 0; i < finds->surveyed.entries; i++) {
        const struct adf_found *found = &finds->found[i];
        add_row(names, finds->kind, found->parent, found->name, found->name_length, i + 1);
    }
    sort_rows(names);
    return true;
}

/* Whether a path names the volume by its label in front of `:`, or by nothing. */
static bool is_inside(const struct finds *finds, const uint8_t *front, size_t length) {
    uint8_t own[sizeof finds->surveyed.label], named[sizeof own];
    size_t label_length = finds->surveyed.label_length;
    if (length == 0 || length != label_length)
        return length == 0;
    to_capitals(finds->kind, finds->surveyed.label, length, own);
    to_capitals(finds->kind, front, length, named);
    return memcmp(own, named, length) == 0;
}

/* Begins to follow a link. */
static void begin_walk(struct follower *follower, size_t number) {
    const struct finds *finds = follower->finds;
    const struct adf_link *link = &finds->links[number];
    const uint8_t *path = finds->image + link->path, *end = path + link->path_length;
    const uint8_t *colon = link->path_length == 0 ? NULL : memchr(path, ':', link->path_length);
    struct way *way = &follower->ways[number];
    *way = (struct way){colon == NULL ? finds->found[link->node - 1].parent : 0, LEADS};
    if (colon != NULL && !is_inside(finds, path, (size_t)(colon - path)))
        way->why = LEADS_OUT;
    if (link->kind != ADF_LINK_SOFT)
        *way = (struct way){link->target, LEADS};
    follower->states[number] = BEGUN;
    follower->walks[follower->count++] = (struct walk){number, colon == NULL ? path : colon + 1, end};
}

/* What a name leads to from here, or an empty one, which leads to the parent. */
static struct way next(const struct follower *follower, size_t at, const uint8_t *name, size_t length) {
    const struct finds *finds = follower->finds;
    uint8_t capitals[LONGEST_PART];
    if (at != 0 && finds->found[at - 1].is_file)
        return (struct way){0, LEADS_TO_NOTHING};
    if (length == 0)
        return at == 0 ? (struct way){0, LEADS_OUT} : (struct way){finds->found[at - 1].parent, LEADS};
    if (length > sizeof capitals)
        return (struct way){0, LEADS_TO_NOTHING};
    to_capitals(finds->kind, name, length, capitals);
    size_t number = number_of(&follower->names, at, capitals, length);
    return (struct way){number, number == 0 ? LEADS_TO_NOTHING : LEADS};
}

/* Follows a link by the next name of its path. */
static void take_name(const struct follower *follower, struct walk *walk, struct way *way) {
    const uint8_t *slash = memchr(walk->path, '/', (size_t)(walk->end - walk->path));
    const uint8_t *behind = slash == NULL ? walk->end : slash;
    *way = next(follower, way->target, walk->path, (size_t)(behind - walk->path));
    walk->path = slash == NULL ? walk->end : slash + 1;
}

/* Follows a link up to the next link on its way, whose place is the answer; at the end of its path, as many as there are. */
static size_t go_on(const struct follower *follower, struct walk *walk) {
    struct way *way = &follower->ways[walk->link];
    while (way->why == LEADS) {
        size_t reached = link_of(follower->finds, way->target);
        if (reached < follower->finds->count || walk->path == walk->end)
            return reached;
        take_name(follower, walk, way);
    }
    return follower->finds->count;
}

/* Goes on with the link that was begun last. What leads through a link that is being followed leads to itself. */
static void go_on_with_last(struct follower *follower) {
    struct walk *walk = &follower->walks[follower->count - 1];
    size_t reached = go_on(follower, walk);
    if (reached == follower->finds->count) {
        follower->states[walk->link] = DONE;
        follower->count--;
    } else if (follower->states[reached] == NEW) {
        begin_walk(follower, reached);
    } else {
        bool is_ring = follower->states[reached] == BEGUN;
        follower->ways[walk->link] = is_ring ? (struct way){0, LEADS_IN_A_RING} : follower->ways[reached];
    }
}

static void follow_all(struct follower *follower) {
    for (size_t i = 0; i < follower->finds->count; i++)
        if (follower->states[i] == NEW) {
            begin_walk(follower, i);
            while (follower->count > 0)
                go_on_with_last(follower);
        }
}

struct way *follow_links(const struct finds *finds) {
    size_t room = finds->count + 1;
    struct follower follower = {.finds = finds,
                                .ways = calloc(room, sizeof *follower.ways),
                                .states = calloc(room, sizeof *follower.states),
                                .walks = calloc(room, sizeof *follower.walks)};
    bool has_room =
        follower.ways != NULL && follower.states != NULL && follower.walks != NULL && name_found(finds, &follower.names);
    if (has_room)
        follow_all(&follower);
    else
        free(follower.ways);
    free_index(&follower.names);
    free(follower.states);
    free(follower.walks);
    return has_room ? follower.ways : NULL;
}
