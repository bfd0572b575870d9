/* adf-mount: shows the volume of a disk image, or those of a hard disk, as a folder of the host, to read only (docs/adf-mount.1).
 *
 * The image is read into memory, or mapped if it is large, and checked before anything is mounted; of a damaged one what stands is shown,
 * with its links. A volume of a hard disk is read again when something in its folder is asked for first. Then all is answered from the
 * tables of the volume. Only whole tables are used, and nothing of a volume changes once it is read, so the threads of libfuse share them.
 * include/adf.h says what each call keeps and what is owed to it.
 *
 *     kit=$(dirname "$(rt doc)")
 *     cc -o adf-mount *.c -I../../include ../../crates/adf_c/out/libadf_c.a "$kit/c/liblibc_c.a" $(pkg-config --cflags --libs fuse3)
 *
 * With -DADF_ZLIB and -DADF_LIBARCHIVE, and what pkg-config has for zlib and libarchive, packed images are read too.
 */
#define _GNU_SOURCE
#define FUSE_USE_VERSION 31
#include "disk.h"
#include "packed.h"
#include "volume.h"

#include <dirent.h>
#include <errno.h>
#include <fcntl.h>
#include <fuse.h>
#include <fuse_log.h>
#include <pthread.h>
#include <signal.h>
#include <stdarg.h>
#include <stddef.h>
#include <stdio.h>
#include <stdlib.h>
#include <string.h>
#include <strings.h>
#include <sys/stat.h>
#include <sys/statvfs.h>
#include <unistd.h>

enum { DAYS_TO_1978 = 2922, LAST_DAY = 2929974, SECONDS = 86400, PROTECTION_BITS = 8, MOST_TEXT = 4 * 79 + 1 };

/* fuse_main answers 1 to 3 for words that it does not take; 3 also for a lack of memory, which it tells. */
enum { NO_SUCH_OPTION = 3 };

/* What is mounted: the file of the image, the volumes in it, and those of them that were read. */
static struct {
    int file;
    struct parts parts;
    struct taking taking;
    const char *left_folder; /* the folder of each volume in which what is left of damaged files is, or NULL */
    struct volume *volumes;
    bool *is_read;
    pthread_mutex_t lock;
} shown = {.lock = PTHREAD_MUTEX_INITIALIZER};

/* Volumes */

/* Whether an entry or a link at the top of a volume has a name. */
static bool is_taken(const struct volume *volume, const char *name) {
    size_t node = 0;
    long place;
    return find_entry(volume, name, &node) == 0 || find_volume_link(volume, name, &node, &place) == 0;
}

/* Reads the volume of a part. The name is that of its lines, or NULL for none. SOUND, or the status to end with. */
static int read_volume(size_t number, const char *name) {
    const struct part *part = &shown.parts.parts[number];
    struct volume *volume = &shown.volumes[number];
    struct held held;
    if (!hold_part(shown.file, part, &held)) {
        if (name != NULL)
            fprintf(stderr, "adf-mount: %s: %s\n", name, strerror(errno));
        return FAILED;
    }
    struct taking taking = shown.taking;
    taking.whole = part->whole;
    int status = take_volume(volume, &held, name, &taking);
    if (status == SOUND && volume->left != NULL && is_taken(volume, shown.left_folder)) {
        if (name != NULL)
            fprintf(stderr, "adf-mount: %s: it has an entry called %s: --damaged NAME\n", name, shown.left_folder);
        status = USAGE;
    }
    if (status != SOUND)
        free_volume(volume);
    return status;
}

/* The volume of a part, which is read where it was not yet: 0, or an error. */
static int volume_of(size_t number, const struct volume **volume) {
    pthread_mutex_lock(&shown.lock);
    if (!shown.is_read[number])
        shown.is_read[number] = read_volume(number, NULL) == SOUND;
    bool is_read = shown.is_read[number];
    pthread_mutex_unlock(&shown.lock);
    *volume = &shown.volumes[number];
    return is_read ? 0 : -EIO;
}

/* The part whose folder has a name, else the first that has it but for the case of a to z; as many as there are for none. */
static size_t part_named(const char *name, size_t length) {
    size_t count = shown.parts.count, found = count;
    for (size_t i = count; i-- > 0;)
        if (strlen(shown.parts.parts[i].name) == length && strncasecmp(shown.parts.parts[i].name, name, length) == 0)
            found = i;
    for (size_t i = 0; i < count; i++)
        if (strlen(shown.parts.parts[i].name) == length && strncmp(shown.parts.parts[i].name, name, length) == 0)
            return i;
    return found;
}

/* Where a path of the host leads: to the folders of a disk's volumes, to an entry or a link of a volume, or to what is left of a damaged
 * file. */
struct spot {
    enum { FOLDERS, ENTRY, LINK, LEFT } kind;
    size_t part;
    const struct volume *volume;
    size_t node;
    long place;
};

/* Finds what a path of a volume leads to: 0, or an error. */
static int locate_in_volume(const char *path, struct spot *spot) {
    size_t length = strcspn(path, "/");
    bool is_left =
        spot->volume->left != NULL && length == strlen(shown.left_folder) && strncmp(path, shown.left_folder, length) == 0;
    if (is_left) {
        spot->kind = LEFT;
        spot->place = find_left(spot->volume->left, path + length);
        return spot->place < 0 ? -ENOENT : 0;
    }
    int error = find_entry(spot->volume, path, &spot->node);
    if (error != -ENOENT)
        return error;
    spot->kind = LINK;
    return find_volume_link(spot->volume, path, &spot->node, &spot->place);
}

static int locate(const char *path, struct spot *spot) {
    *spot = (struct spot){.kind = ENTRY};
    path++;
    if (shown.parts.is_disk) {
        size_t length = strcspn(path, "/");
        spot->kind = length == 0 ? FOLDERS : ENTRY;
        if (spot->kind == FOLDERS)
            return 0;
        spot->part = part_named(path, length);
        if (spot->part == shown.parts.count)
            return -ENOENT;
        path += path[length] == '/' ? length + 1 : length;
    }
    int error = volume_of(spot->part, &spot->volume);
    return error == 0 ? locate_in_volume(path, spot) : error;
}

/* Attributes */

/* A date read as UTC; 1970-01-01 if it is not in the years up to 9999. */
static struct timespec time_of(const struct adf_date *date) {
    struct timespec time = {0};
    if (date->days <= LAST_DAY && date->mins < 1440 && date->ticks < 3000) {
        time.tv_sec = ((time_t)date->days + DAYS_TO_1978) * SECONDS + (time_t)date->mins * 60 + date->ticks / 50;
        time.tv_nsec = (long)(date->ticks % 50) * 20000000;
    }
    return time;
}

/* A directory has one link, by which programs that count them know that its directories are not counted. Its owner may write,
 * so that a copy of it can be removed: the file system is read-only all the same. */
static void describe(bool is_file, size_t size, const struct adf_date *date, uint64_t inode, struct stat *status) {
    *status = (struct stat){0};
    status->st_ino = inode;
    status->st_mode = is_file ? S_IFREG | 0444 : S_IFDIR | 0755;
    status->st_nlink = 1;
    status->st_uid = getuid();
    status->st_gid = getgid();
    status->st_size = (off_t)size;
    status->st_blksize = 512;
    status->st_blocks = (status->st_size + 511) / 512;
    if (date != NULL)
        status->st_mtim = status->st_ctim = status->st_atim = time_of(date);
}

/* The inode of a header: one of the image, of a link or of what is left, differs from one of the volume, and those of parts differ.
 * Block 1 is never a header. */
static uint64_t inode_of(size_t part, bool is_of_image, uint32_t header) {
    return (uint64_t)part << 33 | (uint64_t)is_of_image << 32 | header;
}

static void describe_entry(const struct spot *spot, size_t node, struct stat *status) {
    const struct adf_contents *contents = &spot->volume->contents;
    const struct adf_entry *entry = node == 0 ? NULL : &spot->volume->entries[node - 1];
    uint32_t header = entry == NULL ? contents->blocks / 2 : entry->header;
    describe(entry != NULL && entry->is_file, entry == NULL ? 0 : entry->size, entry == NULL ? &contents->root : &entry->date,
             inode_of(spot->part, false, header), status);
}

static void describe_link(const struct spot *spot, long place, struct stat *status) {
    const struct links *links = spot->volume->links;
    char path[LONGEST_PATH + 1];
    describe(true, link_path(links, place, path), link_date(links, place), inode_of(spot->part, true, link_header(links, place)),
             status);
    status->st_mode = S_IFLNK | 0777;
}

static void describe_left(const struct spot *spot, long place, struct stat *status) {
    const struct adf_found *found = place == 0 ? NULL : left_entry(spot->volume->left, place);
    if (found == NULL)
        describe(false, 0, &spot->volume->contents.root, inode_of(spot->part, true, 1), status);
    else
        describe(found->is_file, found->is_file ? left_size(spot->volume->left, place) : 0, &found->date,
                 inode_of(spot->part, true, found->header), status);
}

static void describe_spot(const struct spot *spot, struct stat *status) {
    if (spot->kind == FOLDERS)
        describe(false, 0, NULL, 1, status);
    else if (spot->kind == ENTRY)
        describe_entry(spot, spot->node, status);
    else if (spot->kind == LINK)
        describe_link(spot, spot->place, status);
    else
        describe_left(spot, spot->place, status);
}

static int get_attributes(const char *path, struct stat *status, struct fuse_file_info *file) {
    struct spot spot;
    (void)file;
    int error = locate(path, &spot);
    if (error == 0)
        describe_spot(&spot, status);
    return error;
}

/* Nothing is followed here: the path is for the host to follow. */
static int read_link(const char *path, char *room, size_t size) {
    struct spot spot;
    char target[LONGEST_PATH + 1];
    int error = locate(path, &spot);
    if (error != 0 || spot.kind != LINK)
        return error != 0 ? error : -EINVAL;
    link_path(spot.volume->links, spot.place, target);
    snprintf(room, size, "%s", target);
    return 0;
}

/* What an Amiga has of an entry and a host has not: its protection, and its comment as the host sees it. False if it has neither. */
struct extras {
    char protection[PROTECTION_BITS + 1];
    char comment[MOST_TEXT];
};

static bool extras_of(const struct spot *spot, struct extras *extras) {
    static const char LETTERS[] = "hsparwed";
    bool is_entry = spot->kind == ENTRY && spot->node != 0, is_left = spot->kind == LEFT && spot->place != 0;
    const struct adf_entry *entry = is_entry ? &spot->volume->entries[spot->node - 1] : NULL;
    const struct adf_found *found = is_left ? left_entry(spot->volume->left, spot->place) : NULL;
    if (entry == NULL && found == NULL)
        return false;
    uint32_t bits = entry != NULL ? entry->protection : found->protection;
    for (int i = 0; i < PROTECTION_BITS; i++) { /* a set bit of h, s, p and a grants, one of r, w, e and d forbids */
        bool is_set = bits >> (PROTECTION_BITS - 1 - i) & 1;
        extras->protection[i] = is_set == (i < PROTECTION_BITS / 2) ? LETTERS[i] : '-';
    }
    extras->protection[PROTECTION_BITS] = '\0';
    show_text(entry != NULL ? entry->comment : found->comment, entry != NULL ? entry->comment_length : found->comment_length,
              extras->comment);
    return true;
}

static const char PROTECTION[] = "user.amiga.protection", COMMENT[] = "user.amiga.comment";

/* Copies bytes into a room; a room of 0 bytes asks for their number. */
static int give(const char *bytes, size_t count, char *room, size_t size) {
    if (size == 0)
        return (int)count;
    if (size < count)
        return -ERANGE;
    memcpy(room, bytes, count);
    return (int)count;
}

static int get_extra(const char *path, const char *name, char *value, size_t size) {
    struct spot spot;
    struct extras extras;
    bool is_protection = strcmp(name, PROTECTION) == 0;
    if (!is_protection && strcmp(name, COMMENT) != 0)
        return -ENODATA;
    int error = locate(path, &spot);
    if (error != 0)
        return error;
    if (!extras_of(&spot, &extras) || (!is_protection && *extras.comment == '\0'))
        return -ENODATA;
    const char *text = is_protection ? extras.protection : extras.comment;
    return give(text, strlen(text), value, size);
}

static int list_extras(const char *path, char *list, size_t size) {
    struct spot spot;
    struct extras extras;
    char names[sizeof PROTECTION + sizeof COMMENT];
    int error = locate(path, &spot);
    if (error != 0 || !extras_of(&spot, &extras))
        return error;
    memcpy(names, PROTECTION, sizeof PROTECTION);
    memcpy(names + sizeof PROTECTION, COMMENT, sizeof COMMENT);
    return give(names, *extras.comment == '\0' ? sizeof PROTECTION : sizeof names, list, size);
}

/* Directories */

/* A list of names that is being filled; whether each comes with its attributes. */
struct listing {
    void *list;
    fuse_fill_dir_t fill;
    enum fuse_fill_dir_flags flags;
};

static bool add_name(const struct listing *listing, const char *name, const struct stat *status) {
    return listing->fill(listing->list, name, status, 0, listing->flags) == 0;
}

static bool list_folders(const struct listing *listing) {
    bool has_room = true;
    for (size_t i = 0; has_room && i < shown.parts.count; i++)
        has_room = listing->fill(listing->list, shown.parts.parts[i].name, NULL, 0, 0) == 0;
    return has_room;
}

static bool list_links(const struct spot *spot, const struct listing *listing) {
    const struct links *links = spot->volume->links;
    struct stat status;
    bool has_room = true;
    for (long i = first_link(links, spot->node), end = links_end(links, spot->node); has_room && i < end; i++) {
        describe_link(spot, i, &status);
        has_room = add_name(listing, link_name(links, i), &status);
    }
    return has_room;
}

static bool list_entries(const struct spot *spot, const struct listing *listing) {
    const struct volume *volume = spot->volume;
    struct stat status;
    char name[NAME_TEXT];
    bool has_room = true;
    for (size_t i = first_in(volume, spot->node);
         has_room && i < volume->contents.entries && volume->entries[i].parent == spot->node; i++) {
        show_name(volume->entries[i].name, volume->entries[i].name_length, "", name);
        describe_entry(spot, i + 1, &status);
        has_room = add_name(listing, name, &status);
    }
    if (has_room && spot->node == 0 && volume->left != NULL) {
        describe_left(spot, 0, &status);
        has_room = add_name(listing, shown.left_folder, &status);
    }
    return has_room && (volume->links == NULL || list_links(spot, listing));
}

static bool list_left(const struct spot *spot, const struct listing *listing) {
    const struct left *left = spot->volume->left;
    struct stat status;
    bool has_room = true;
    for (long i = first_left(left, spot->place); has_room && i < left_end(left, spot->place); i++) {
        describe_left(spot, i, &status);
        has_room = add_name(listing, left_name(left, i), &status);
    }
    return has_room;
}

static int read_directory(const char *path, void *list, fuse_fill_dir_t fill, off_t offset, struct fuse_file_info *file,
                          enum fuse_readdir_flags flags) {
    struct listing listing = {list, fill, flags & FUSE_READDIR_PLUS ? FUSE_FILL_DIR_PLUS : 0};
    struct spot spot;
    struct stat status;
    (void)offset, (void)file;
    int error = locate(path, &spot);
    if (error != 0)
        return error;
    describe_spot(&spot, &status);
    if (!S_ISDIR(status.st_mode))
        return -ENOTDIR;
    if (fill(list, ".", NULL, 0, 0) || fill(list, "..", NULL, 0, 0))
        return -ENOMEM;
    bool has_room = spot.kind == FOLDERS ? list_folders(&listing)
                    : spot.kind == ENTRY ? list_entries(&spot, &listing)
                                         : list_left(&spot, &listing);
    return has_room ? 0 : -ENOMEM;
}

/* Files */

/* An open file: an entry of a volume, or what is left of a damaged file. */
struct open_file {
    const struct volume *volume;
    size_t node;
    struct remains *remains;
};

/* What is left of a file is read without the host's cache, which would have zeros in place of what is lost. */
static int open_file(const char *path, struct fuse_file_info *file) {
    struct spot spot;
    int error = locate(path, &spot);
    if (error == 0 && spot.kind == LINK)
        error = -ELOOP;
    if (error == 0 && (file->flags & O_ACCMODE) != O_RDONLY)
        error = -EROFS;
    struct open_file *opened = error == 0 ? calloc(1, sizeof *opened) : NULL;
    if (opened == NULL)
        return error == 0 ? -ENOMEM : error;
    *opened = (struct open_file){.volume = spot.volume, .node = spot.node};
    if (spot.kind == LEFT)
        error = open_left(spot.volume->left, spot.place, &opened->remains);
    file->keep_cache = spot.kind == ENTRY;
    file->direct_io = spot.kind == LEFT;
    file->fh = (uintptr_t)opened;
    if (error != 0)
        free(opened);
    return error;
}

static int read_file(const char *path, char *room, size_t size, off_t offset, struct fuse_file_info *file) {
    const struct open_file *opened = (const struct open_file *)(uintptr_t)file->fh;
    const struct volume *volume = opened->volume;
    (void)path;
    if (opened->remains != NULL)
        return read_remains(opened->remains, room, size, (size_t)offset);
    return (int)adf_read(volume->image, volume->length, volume->entries, volume->contents.entries, volume->blocks,
                         volume->contents.data_blocks, opened->node, (size_t)offset, (uint8_t *)room, size);
}

static int close_file(const char *path, struct fuse_file_info *file) {
    struct open_file *opened = (struct open_file *)(uintptr_t)file->fh;
    (void)path;
    close_left(opened->remains);
    free(opened);
    return 0;
}

static int get_space(const char *path, struct statvfs *space) {
    struct spot spot;
    int error = locate(path, &spot);
    if (error != 0)
        return error;
    *space = (struct statvfs){.f_bsize = 512, .f_frsize = 512, .f_namemax = LONGEST_NAME};
    if (spot.kind != FOLDERS) {
        space->f_blocks = spot.volume->contents.blocks;
        space->f_bfree = space->f_bavail = spot.volume->contents.free;
        space->f_files = spot.volume->contents.entries;
    }
    return 0;
}

static void *begin(struct fuse_conn_info *connection, struct fuse_config *config) {
    (void)connection;
    config->use_ino = 1;
    return NULL;
}

static const struct fuse_operations OPERATIONS = {
    .init = begin,
    .getattr = get_attributes,
    .readlink = read_link,
    .getxattr = get_extra,
    .listxattr = list_extras,
    .readdir = read_directory,
    .open = open_file,
    .read = read_file,
    .release = close_file,
    .statfs = get_space,
};

/* The image */

/* Reads each volume once, and says what is wrong with it. Those of a disk are given back, and read again when they are asked for; of a
 * disk, those that are refused keep no folder. SOUND, or the status to end with. */
static int try_volumes(const char *name) {
    struct parts *parts = &shown.parts;
    size_t kept = 0;
    int status = SOUND;
    for (size_t i = 0; i < parts->count; i++) {
        char *told;
        if (asprintf(&told, parts->is_disk ? "%s: %s" : "%s", name, parts->parts[i].name) < 0)
            return FAILED;
        int tried = read_volume(i, told);
        free(told);
        if (tried > REFUSED)
            return tried;
        status = tried > status ? tried : status;
        if (tried == SOUND && parts->is_disk)
            free_volume(&shown.volumes[i]);
        if (tried == SOUND)
            parts->parts[kept++] = parts->parts[i];
    }
    parts->count = kept;
    shown.is_read[0] = !parts->is_disk && status == SOUND;
    return kept == 0 || shown.taking.is_strict ? status : SOUND;
}

/* Whether an open file is a pipe that has a name, which nobody may ever write to. */
static bool is_named_pipe(int file, const char *path) {
    struct stat status;
    char *place = fstat(file, &status) == 0 && S_ISFIFO(status.st_mode) ? realpath(path, NULL) : NULL;
    bool is_named = place != NULL && strncmp(place, "/dev/", strlen("/dev/")) != 0;
    free(place);
    return is_named;
}

/* Opens the file of the image, and waits for nobody: SOUND, or the status to end with, and why stands on standard error. */
static int open_file_of(const char *path, const char *name) {
    shown.file = open(path, O_RDONLY | O_CLOEXEC | O_NONBLOCK | O_NOCTTY);
    const char *why = shown.file < 0 ? strerror(errno) : NULL;
    if (why == NULL && is_named_pipe(shown.file, path))
        why = "a pipe: give it as /dev/stdin";
    if (why == NULL)
        fcntl(shown.file, F_SETFL, fcntl(shown.file, F_GETFL) & ~O_NONBLOCK);
    else
        fprintf(stderr, "adf-mount: %s: %s\n", name, why);
    return why == NULL ? SOUND : FAILED;
}

/* Opens the image and reads its volumes: SOUND, or the status to end with, and why stands on standard error. */
static int open_image(const char *path, const char *name, const char *wanted) {
    char *place = strdup(path), *member = place == NULL ? NULL : member_of(place);
    int status = place == NULL ? FAILED : open_file_of(place, name);
    if (status == SOUND)
        status = unpack_file(&shown.file, name, member);
    free(place);
    if (status != SOUND)
        return status;
    errno = 0;
    status = find_parts(shown.file, name, wanted, &shown.parts);
    if (status == FAILED)
        fprintf(stderr, "adf-mount: %s: %s\n", name, strerror(errno == 0 ? ENOMEM : errno));
    if (status != SOUND)
        return status;
    shown.volumes = calloc(shown.parts.count, sizeof *shown.volumes);
    shown.is_read = calloc(shown.parts.count, sizeof *shown.is_read);
    if (shown.volumes == NULL || shown.is_read == NULL)
        return FAILED;
    status = shown.taking.is_strict && !shown.parts.is_whole ? REFUSED : try_volumes(name);
    if (status == REFUSED && shown.parts.has_tables)
        say_no_volume(name);
    return status;
}

/* The words of the command line: the first that is no option is the image, the second the folder, and all others are libfuse's. */
struct words {
    char *image;
    char *folder;
    char *partition;
    char *damaged;
    char *blocks;
    bool has_more; /* words than the image and the folder */
    int strict;
    int nonempty;
    int escape;
    int help;
    int version;
};

/* Each option is also one behind -o, which is all that mount and /etc/fstab give. */
static const struct fuse_opt OPTIONS[] = {
    {"-h", offsetof(struct words, help), 1},
    {"--help", offsetof(struct words, help), 1},
    {"-V", offsetof(struct words, version), 1},
    {"--version", offsetof(struct words, version), 1},
    {"--partition %s", offsetof(struct words, partition), 0},
    {"--partition=%s", offsetof(struct words, partition), 0},
    {"partition=%s", offsetof(struct words, partition), 0},
    {"--damaged %s", offsetof(struct words, damaged), 0},
    {"--damaged=%s", offsetof(struct words, damaged), 0},
    {"damaged=%s", offsetof(struct words, damaged), 0},
    {"--blocks %s", offsetof(struct words, blocks), 0},
    {"--blocks=%s", offsetof(struct words, blocks), 0},
    {"blocks=%s", offsetof(struct words, blocks), 0},
    {"--strict", offsetof(struct words, strict), 1},
    {"strict", offsetof(struct words, strict), 1},
    {"nonempty", offsetof(struct words, nonempty), 1},
    {"escape", offsetof(struct words, escape), 1},
    FUSE_OPT_END,
};

static int take_word(void *data, const char *word, int key, struct fuse_args *arguments) {
    struct words *words = data;
    (void)arguments;
    if (key != FUSE_OPT_KEY_NONOPT)
        return 1;
    words->has_more = words->folder != NULL;
    if (words->has_more)
        return 0;
    char **place = words->image == NULL ? &words->image : &words->folder;
    *place = strdup(word);
    return *place == NULL ? -1 : place == &words->folder;
}

/* Whether there is anything in a directory. */
static bool has_entries(DIR *directory) {
    struct dirent *entry;
    while ((entry = readdir(directory)) != NULL)
        if (strcmp(entry->d_name, ".") != 0 && strcmp(entry->d_name, "..") != 0)
            return true;
    return false;
}

/* Why a volume cannot be mounted on a directory, or NULL. What is mounted there is of another device than what is above it. */
static const char *obstacle(DIR *directory, bool may_hide) {
    struct stat inner, outer;
    if (fstat(dirfd(directory), &inner) != 0 || fstatat(dirfd(directory), "..", &outer, 0) != 0)
        return strerror(errno);
    if (inner.st_dev != outer.st_dev)
        return "Something is mounted on it";
    return !may_hide && has_entries(directory) ? "Directory not empty (-o nonempty hides what is in it)" : NULL;
}

/* Looks at the folder: SOUND, or the status to end with, and why stands on standard error. */
static int try_folder(const struct words *words) {
    DIR *directory = opendir(words->folder);
    int status = directory == NULL && errno == ENOENT ? USAGE : FAILED;
    const char *why = directory == NULL ? strerror(errno) : obstacle(directory, words->nonempty);
    if (directory != NULL)
        closedir(directory);
    if (why == NULL)
        return SOUND;
    char *name = host_line(words->folder);
    fprintf(stderr, "adf-mount: %s: %s\n", name == NULL ? "" : name, why);
    free(name);
    return status;
}

/* Names the image as the source of the mount, unless the words name another one. */
static bool name_source(const char *image, struct fuse_args *arguments) {
    char *whole = realpath(image, NULL), *source, *options = NULL;
    if (asprintf(&source, "fsname=%s", whole == NULL ? image : whole) < 0)
        source = NULL;
    bool is_named = source != NULL && fuse_opt_add_opt_escaped(&options, source) == 0 &&
                    fuse_opt_insert_arg(arguments, 1, options) == 0 && fuse_opt_insert_arg(arguments, 1, "-o") == 0;
    free(options);
    free(source);
    free(whole);
    return is_named;
}

/* Writes what libfuse says to standard error, in pieces, with the name of the program in place of that of the library. */
static void say(enum fuse_log_level level, const char *format, va_list values) {
    static const char LIBRARY[] = "fuse: ";
    (void)level;
    if (strncmp(format, LIBRARY, sizeof LIBRARY - 1) == 0) {
        fputs("adf-mount: ", stderr);
        format += sizeof LIBRARY - 1;
    }
    vfprintf(stderr, format, values);
}

/* Mounts until the folder is unmounted. The volume never changes, so the host may keep what it was told for a day. */
static int mount_volume(const struct words *words, struct fuse_args *arguments) {
    if (!name_source(words->image, arguments) ||
        fuse_opt_insert_arg(arguments, 1, "-oentry_timeout=86400,attr_timeout=86400,negative_timeout=86400") != 0 ||
        fuse_opt_add_arg(arguments, "-oro,default_permissions,subtype=adf") != 0)
        return FAILED;
    int answer = fuse_main(arguments->argc, arguments->argv, &OPERATIONS, NULL);
    return answer == 0 ? SOUND : answer <= NO_SUCH_OPTION ? USAGE : FAILED;
}

/* The number of blocks that a word is, from 1 to those of the largest volume, or 0. */
static size_t blocks_in(const char *word) {
    bool is_number = *word != '\0' && word[strspn(word, "0123456789")] == '\0';
    unsigned long long blocks = is_number ? strtoull(word, NULL, 10) : 0;
    return blocks <= MOST_BLOCKS ? (size_t)blocks : 0;
}

/* Whether the words make sense together: the folder for what is left has a name. */
static bool are_possible(const struct words *words) {
    const char *name = words->damaged;
    bool is_name =
        name == NULL || (*name != '\0' && strchr(name, '/') == NULL && strcmp(name, ".") != 0 && strcmp(name, "..") != 0);
    return words->folder != NULL && !words->has_more && is_name && !(words->strict && name != NULL);
}

static const char USED[] =
    "usage: adf-mount IMAGE FOLDER [--partition NAME] [--damaged NAME] [--blocks N] [--strict] [-f] [-o OPTION,..]"
    "    (man adf-mount)\n";

/* Answers for help or the version: SOUND, or FAILED where that cannot be written. */
static int answer(const struct words *words) {
    if (words->help)
        fputs(USED, stdout);
    else
        printf("adf-mount %s, libfuse %s\n", ADF_VERSION, fuse_pkgversion());
    if (fflush(stdout) == 0)
        return SOUND;
    fprintf(stderr, "adf-mount: standard output: %s\n", strerror(errno));
    return FAILED;
}

/* Refuses the command line, and says why where that is not the form of the words: USAGE. */
static int refuse_words(const struct words *words, bool is_parsed) {
    bool is_form = !is_parsed || words->blocks == NULL || blocks_in(words->blocks) != 0;
    if (is_form)
        fputs(USED, stderr);
    else
        fprintf(stderr, "adf-mount: argument --blocks: a number of blocks from 1 to %d\n", MOST_BLOCKS);
    return USAGE;
}

/* Looks at the folder and the image, and mounts: the status to end with. */
static int show(const struct words *words, struct fuse_args *arguments) {
    char *name = host_line(words->image);
    if (name == NULL)
        return FAILED;
    int status = try_folder(words);
    if (status == SOUND)
        status = open_image(words->image, name, words->partition);
    free(name);
    return status == SOUND ? mount_volume(words, arguments) : status;
}

/* Does what the words ask for, and answers the status. */
static int run(const struct words *words, bool is_parsed, struct fuse_args *arguments) {
    if (is_parsed && (words->help || words->version))
        return answer(words);
    size_t blocks = is_parsed && words->blocks != NULL ? blocks_in(words->blocks) : 0;
    if (!is_parsed || (words->blocks != NULL && blocks == 0) || !are_possible(words))
        return refuse_words(words, is_parsed);
    is_escaped = words->escape;
    shown.left_folder = words->damaged;
    shown.taking = (struct taking){.is_strict = words->strict, .blocks = blocks, .wants_left = words->damaged != NULL};
    return show(words, arguments);
}

/* Ends the program where the file of a mapped image has become shorter. */
static void end_cut(int signal) {
    static const char CUT[] = "adf-mount: the image was cut while it was used\n";
    ssize_t done = write(STDERR_FILENO, CUT, sizeof CUT - 1);
    (void)signal, (void)done;
    _exit(FAILED);
}

/* Opens what stands for a standard stream that is closed, so that no file is opened as one: it can be neither read nor written. */
static bool fill_streams(void) {
    static const int ACCESS[] = {O_WRONLY, O_RDONLY, O_WRONLY};
    for (int stream = 0; stream <= STDERR_FILENO; stream++)
        if (fcntl(stream, F_GETFD) < 0 && open("/dev/null", ACCESS[stream]) != stream)
            return false;
    return true;
}

int main(int count, char **given) {
    struct fuse_args arguments = FUSE_ARGS_INIT(count, given);
    struct words words = {0};
    if (!fill_streams())
        return FAILED;
    fuse_set_log_func(say);
    sigaction(SIGBUS, &(struct sigaction){.sa_handler = end_cut}, NULL);
    bool is_parsed = fuse_opt_parse(&arguments, &words, OPTIONS, take_word) == 0;
    int status = run(&words, is_parsed, &arguments);
    fuse_opt_free_args(&arguments);
    free(words.image);
    free(words.folder);
    free(words.partition);
    free(words.damaged);
    free(words.blocks);
    return status;
}
