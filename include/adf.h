/* adf for C: checks images of Amiga disks, lists, looks up and reads their files, writes their boot blocks, finds the volumes of
 * hard disks, and runs the commands `adf` and `adf-survey` over memory.
 *
 *     struct adf_verdict verdict;
 *     if (adf_check(image, length, &verdict) == ADF_ACCEPTED)
 *         printf("%zu files\n", verdict.files);
 *
 * Linking, once adf is installed:
 *
 *     cc program.c $(pkg-config --cflags --libs adf)
 *
 * For a prefix of your own, such as ~/.local, pkg-config and the loader have to be told where it is:
 *
 *     export PKG_CONFIG_PATH=$HOME/.local/lib/pkgconfig
 *     cc program.c $(pkg-config --cflags --libs adf) -Wl,-rpath,$HOME/.local/lib
 *
 * or link the archive: cc program.c -I$HOME/.local/include $HOME/.local/lib/libadf.a
 *
 * In a clone of the source, `rt lib` in crates/adf_c leaves libadf_c.a in crates/adf_c/out; link liblibc_c.a of the Rattle
 * toolchain with it, which takes memory by malloc, realloc and free:
 *
 *     kit=$(dirname "$(rt doc)")
 *     cc -Iinclude program.c crates/adf_c/out/libadf_c.a "$kit/c/liblibc_c.a"
 *
 * Each function is proved to keep its contract, which is in the source (crates/adf_memory/src and crates/adf_memory_types/src).
 * The comments here say it in words, and what is not proved is marked so. The proofs begin at the call: the obligations of the
 * caller are not checked.
 *
 * What the caller owes
 *
 * - No pointer is null, not even where its length is 0: that of an empty std::vector may be, so pass another one in its place.
 * - A pointer to bytes has as many bytes as its length or room says, and one to structs or numbers as many elements as its room
 *   or count says. It is aligned for its type, and nothing that it points to has more than PTRDIFF_MAX bytes.
 * - Buffers and structs need not be initialised, except for the bools of a struct, which are true or false: `= {0}` will do.
 * - While a call runs, nothing else writes what it reads (const). What it writes (not const) overlaps nothing else that is
 *   passed, and nothing else reads or writes it.
 * - The thread that calls has 128 KiB of stack left. The calls took at most 52 KiB when this was measured.
 * - malloc, realloc and free belong together, and align as C demands: for any object that fits the size.
 * - No call is made from a signal handler, or in the forked child of a process that had threads.
 *
 * What the caller gets
 *
 * - All memory that is passed stays the caller's. A call frees whatever it allocates before it returns.
 * - A call writes to what is not const and to nothing else, and it returns.
 * - By design, not proved: there is no state between calls, and any thread may call while others do.
 */
#ifndef ADF_H
#define ADF_H

#include <stdbool.h>
#include <stddef.h>
#include <stdint.h>

/* The version of this header, as a text, and as a number to compare: 10000 for each major version, 100 for each minor one.
 * VERSIONS.md says which calls came with which version.
 */
#define ADF_VERSION "1.1"
#define ADF_VERSION_NUMBER 10100

#ifdef __cplusplus
extern "C" {
#endif
#ifdef __clang__ /* it takes bool for an extension where C is that of 1989 */
#pragma clang diagnostic push
#pragma clang diagnostic ignored "-Wc99-extensions"
#endif

/* Why an image is refused: what adf_check, adf_owners and adf_index return, and adf_check_types, adf_owners_types and
 * adf_index_types. Within one block the causes are tested in this order, except that ADF_SAME_NAME comes after all other causes of
 * a header. FAULTS.md explains them. A later version may have more of them, from 25 on: an image is accepted if and only if the
 * call returns 0.
 */
enum adf_cause {
    ADF_ACCEPTED = 0,
    ADF_BAD_SIZE = 1,       /* The length is not a multiple of 512, or not an allowed number of blocks: even, 4 to the most. */
    ADF_NOT_DOS = 2,        /* The first three bytes are not DOS, or the type byte is above 5. */
    ADF_INTERNATIONAL = 3,  /* Type 2 or 3: names are compared in another way. */
    ADF_DIR_CACHE = 4,      /* Type 4 or 5: directories have caches. */
    ADF_OUT_OF_RANGE = 5,   /* A pointer leads out of the volume; the block that holds it is named. */
    ADF_TAKEN = 6,          /* A block is claimed a second time. */
    ADF_BAD_SUM = 7,        /* The checksum is wrong: the 128 words do not add up to 0. */
    ADF_BAD_TYPE = 8,       /* The primary or secondary type is not one that may be here. */
    ADF_LINK = 9,           /* The secondary type is that of a soft or hard link. */
    ADF_BAD_OWN_KEY = 10,   /* Word 1 is not the block's own number. */
    ADF_BAD_PARENT = 11,    /* The word that names the parent, or the header, names another block. */
    ADF_BAD_NAME = 12,      /* The name or label is too long, or is not a name. */
    ADF_BAD_COMMENT = 13,   /* The comment is longer than 79 bytes. */
    ADF_WRONG_SLOT = 14,    /* The name does not hash to the slot whose chain the header is in. */
    ADF_BAD_FIRST = 15,     /* Word 4 of an OFS file header is not its first data block. */
    ADF_SAME_NAME = 16,     /* An earlier header of the chain has the same name, ignoring case. */
    ADF_BAD_HASH_SIZE = 17, /* The root's hash table does not have 72 slots. */
    ADF_NOT_VALIDATED = 18, /* The root's bitmap flag is not 0xFFFFFFFF. */
    ADF_SHORT_FILE = 19,    /* A file has too few extension blocks for its size. */
    ADF_BAD_DATA = 20,      /* An OFS data block has another header, number, length or successor. */
    ADF_LOST_BLOCK = 21,    /* A block is in use, and no part of the volume owns it. */
    ADF_OWNED_FREE = 22,    /* A block is owned and marked free. */
    ADF_NO_MEMORY = 23      /* An allocation failed. Nothing is said about the image, except that it begins as a volume. */
};

/* Writes the text of the cause with this number, such as `bad sum`, to the front of the room, as far as it fits, and returns
 * the length of the whole text, at most 15. Texts are lower-case letters and spaces, with no zero at the end. If no cause has
 * the number, as 0, it returns 0, and the room is unchanged.
 */
size_t adf_cause_text(uint8_t cause, uint8_t *room, size_t room_length);

/* Returns the version of the library, as a number like ADF_VERSION_NUMBER. It is at least that if the library has all calls of this
 * header.
 */
uint32_t adf_version(void);

/* The type of a volume. Even numbers are OFS, odd ones FFS; from 2 on names have international letters, and directories of types 4
 * and 5 have caches. adf_check, adf_owners and adf_index accept 0 and 1; adf_check_types, adf_owners_types, adf_index_types and
 * adf_find_types accept all; adf_build and adf_need make 0 to 3, adf_rescue 0 and 1, adf_rescue_types 0 to 3.
 */
enum adf_kind {
    ADF_OFS = 0,
    ADF_FFS = 1,
    ADF_OFS_INTERNATIONAL = 2,
    ADF_FFS_INTERNATIONAL = 3,
    ADF_OFS_CACHED = 4,
    ADF_FFS_CACHED = 5
};

struct adf_verdict {
    uint32_t kind;   /* an adf_kind */
    uint32_t blocks; /* all blocks, the two boot blocks included */
    uint32_t used;   /* blocks that parts of the volume own, so without the two boot blocks */
    uint32_t free;   /* blocks from 2 on that no part owns */
    size_t dirs;     /* directories, without the root */
    size_t files;
    uint32_t block; /* if the image is refused, the block with the fault, else 0 */
};

/* Checks an image of this length, of at most 1,048,576 blocks. Returns an adf_cause, and fills the verdict.
 *
 * 0: the image is that of one volume, whose numbers are in the verdict; `block` is 0.
 * Another cause: no volume has this image. It is the first fault, and `block` is where it is; the other fields are 0.
 * ADF_NO_MEMORY: an allocation failed, which can happen only after the size, the boot bytes and the root were accepted.
 *    Nothing else is said about the image, and all fields are 0.
 */
uint8_t adf_check(const uint8_t *image, size_t length, struct adf_verdict *verdict);

/* The same of an image of type 0 to 3, of at most 8,388,608 blocks. So do all calls below accept it, except adf_owners and adf_index,
 * which accept types 0 and 1 alone. Each is checked by the letters whose case is ignored in its names: on types 2 and 3 these are the bytes
 * 0xE0 to 0xFE too, except 0xF7. Types 0 and 1 have the verdict of adf_check, up to its size. Their tables are made by adf_index_types.
 *
 * It takes an image of an allowed size and of type 4 or 5 too, as `adf-disk check` does, with memory for a copy of it. 0: the caches
 * are right, and without them the volume is sound, and the same but for block 0 and the bitmap; `used` counts their blocks.
 * ADF_DIR_CACHE: `block` is the header of the first directory whose cache is wrong; or if none is, the root, where more than that
 * is another without caches, as in an image that was made for it. ADF_NO_MEMORY: nothing else is said about the image.
 */
uint8_t adf_check_types(const uint8_t *image, size_t length, struct adf_verdict *verdict);

/* Which part of the volume owns a block. */
enum adf_role {
    ADF_ROLE_FREE = 0, /* a block from 2 on that no part owns */
    ADF_ROLE_BOOT = 1, /* block 0 or 1 */
    ADF_ROLE_ROOT = 2,
    ADF_ROLE_PAGE = 3,    /* a page of the bitmap */
    ADF_ROLE_MAP_EXT = 4, /* a bitmap extension block */
    ADF_ROLE_HEAD = 5,    /* the header of a directory or file */
    ADF_ROLE_EXT = 6,     /* an extension block of a file, or a block of the cache of a directory */
    ADF_ROLE_DATA = 7     /* a data block of a file */
};

/* Writes the role of each block of an image of this length. Returns an adf_cause.
 *
 * 0: byte b of the room is the adf_role of block b, for each block for which there is room. An image has one block for each
 *    512 bytes; bytes of the room after the last block are unchanged.
 * An adf_cause: as for adf_check, and the room is unchanged.
 */
uint8_t adf_owners(const uint8_t *image, size_t length, uint8_t *roles, size_t room);

/* The same of an image of type 0 to 5, as adf_check_types checks it. */
uint8_t adf_owners_types(const uint8_t *image, size_t length, uint8_t *roles, size_t room);

/* Tables of a volume
 *
 * A program that shows a volume, such as an emulator or a file system, has it checked once by adf_index, which fills two
 * tables in the program's memory. From then on the program uses these tables: it lists by them directly, looks up a path by
 * adf_find, and reads a file by adf_read. adf_find allocates memory for the names of the path, and adf_read none.
 *
 * The entries of a volume, its directories and files, are numbered from 1; the root is number 0. A directory comes before
 * what is in it. The entries of one directory are next to each other, in the order of the slots and chains of the disk.
 */

/* A date of the file system, without a time zone. It may not be a civil date. */
struct adf_date {
    uint32_t days;  /* since 1978-01-01 */
    uint32_t mins;  /* of the day: below 1,440 in a civil date */
    uint32_t ticks; /* of 1/50 second, in the minute: below 3,000 in a civil date */
};

/* An entry. Entry n is at index n - 1 of the table. */
struct adf_entry {
    uint32_t parent;     /* the number of its directory, 0 for the root */
    uint32_t header;     /* the block of its header */
    uint32_t size;       /* bytes of a file, 0 for a directory */
    uint32_t first;      /* the index of its first data block in the table of blocks */
    uint32_t protection; /* from bit 7: h, s, p, a, set if it is so; r, w, e, d, set if it is forbidden */
    struct adf_date date;
    uint8_t is_file;        /* 1 for a file, 0 for a directory */
    uint8_t name_length;    /* 1 to 30 */
    uint8_t name[30];       /* any bytes except `/` and `:`, in no particular encoding, padded with zeros */
    uint8_t comment_length; /* 0 to 79 */
    uint8_t comment[79];    /* padded with zeros */
};

/* What a volume has beside its entries. */
struct adf_contents {
    uint32_t kind;        /* an adf_kind */
    uint32_t blocks;      /* all blocks, the two boot blocks included */
    uint32_t used;        /* blocks that parts of the volume own, so without the two boot blocks */
    uint32_t free;        /* blocks from 2 on that no part owns */
    size_t entries;       /* directories and files, without the root */
    size_t data_blocks;   /* data blocks of all files */
    uint32_t block;       /* if the image is refused, the block with the fault, else 0 */
    struct adf_date root; /* the three dates of the root block: its own, that of the last change, that of the creation */
    struct adf_date altered;
    struct adf_date created;
    uint8_t label_length; /* 0 to 30 */
    uint8_t label[30];    /* in no particular encoding, padded with zeros */
};

/* Checks an image of this length, and fills two tables, each as far as there is room: its entries, and the data blocks of its
 * files, file after file in the order of the entries. Returns an adf_cause.
 *
 * 0: the image is that of one volume, and the tables and contents are its own. contents->entries and contents->data_blocks
 *    are the whole numbers, whatever the rooms: if a room is smaller, the table is only its front part, and a second call with
 *    rooms of these sizes gives all. Both together are fewer than the blocks in use, so fewer than length / 512. The rest of a
 *    room is unchanged.
 * Another cause: no volume has this image. It is the first fault, and contents->block is where it is; the other fields are 0,
 *    and the tables are unchanged.
 * ADF_NO_MEMORY: as for adf_check. All fields are 0, and the tables are unchanged.
 */
uint8_t adf_index(const uint8_t *image, size_t length, struct adf_entry *entries, size_t entries_room, uint32_t *blocks,
                  size_t blocks_room, struct adf_contents *contents);

/* The same of an image of type 0 to 5, as adf_check_types checks it; types 0 and 1 have the tables and contents of adf_index, up to
 * its size. Blocks of directory caches count as used, and no table has them. In these tables a path is looked up by adf_find_types
 * with contents->kind, and files are read by adf_read, of types 4 and 5 too from this image as it is.
 */
uint8_t adf_index_types(const uint8_t *image, size_t length, struct adf_entry *entries, size_t entries_room, uint32_t *blocks,
                        size_t blocks_room, struct adf_contents *contents);

/* Looks up a path in a whole table of entries. The path is written as for `adf cat`: names joined by `/`, in escape form, in
 * which a byte outside 32 to 126, and the backslash, is \xHH. The case of a to z is ignored.
 *
 * 0: node is the number of the entry, 0 for the empty path.
 * 1: nothing has this path, and node is unchanged.
 * 2: the text is not a path, and node is unchanged.
 * ADF_NO_MEMORY: an allocation failed, and node is unchanged.
 *
 * If adf_index did not make the table, or it has been changed, the call still returns one of these four, 2 for the same texts,
 * and node is at most count.
 *
 * A budget, by reading the code and not proved: whatever the table is, each name of the path takes two binary searches, and
 * besides, all names together look at each entry at most once. In the table of a volume these are the entries of the chains
 * along the path.
 */
uint8_t adf_find(const struct adf_entry *entries, size_t count, const uint8_t *path, size_t path_length, size_t *node);

/* The same in a table of adf_index_types; the kind is that of its contents. From ADF_OFS_INTERNATIONAL on, and so with any
 * number above 3, the case of the bytes 0xE0 to 0xFE, except 0xF7, is ignored too. With ADF_OFS and ADF_FFS the answer
 * is that of adf_find.
 */
uint8_t adf_find_types(uint32_t kind, const struct adf_entry *entries, size_t count, const uint8_t *path, size_t path_length,
                       size_t *node);

/* Copies the bytes of file `node` from byte `offset` on into the room, as many as there are and fit, and returns how many: 0
 * for the root, a directory, a node past the last entry, and an offset past the end. The rest of the room is unchanged. The
 * image and the tables are those of one call of adf_index or adf_index_types, whole and unchanged. With any others the same is
 * read: at most `size` bytes of the data areas of the blocks that the table names from the entry's `first` on, up to the first
 * block that the image does not have.
 *
 * A budget, by reading the code and not proved: the work is proportional to the bytes that are copied.
 */
size_t adf_read(const uint8_t *image, size_t length, const struct adf_entry *entries, size_t entries_count, const uint32_t *blocks,
                size_t blocks_count, size_t node, size_t offset, uint8_t *room, size_t room_length);

/* Building volumes
 *
 * A volume is built of a table of what is added to it, in the order of the table, and of the contents of all its files.
 */

/* A directory or file that is to be built. Addition n is at index n - 1 of the table. */
struct adf_addition {
    size_t parent;       /* the number of its directory, which is less than its own, or 0 for the root */
    size_t begin;        /* the offset of a file's first byte in the contents */
    size_t size;         /* bytes of a file; of a directory, begin and size do not count */
    uint32_t protection; /* as in struct adf_entry */
    struct adf_date date;
    uint8_t is_file;        /* 0 for a directory, any other number for a file */
    uint8_t name_length;    /* 1 to 30 */
    uint8_t name[30];       /* any bytes except `/` and `:`; those after name_length do not count */
    uint8_t comment_length; /* 0 to 79 */
    uint8_t comment[79];    /* those after comment_length do not count */
};

/* A volume that is to be built. */
struct adf_new_volume {
    uint32_t kind;        /* an adf_kind */
    uint32_t blocks;      /* all blocks: even, 4 to 8,388,608; adf_need does not look at it */
    struct adf_date root; /* the three dates of the root block, as in struct adf_contents */
    struct adf_date altered;
    struct adf_date created;
    uint8_t label_length; /* 0 to 30 */
    uint8_t label[30];    /* any bytes; those after label_length do not count */
};

/* What is told beside the number. Fields that do not apply are 0. */
struct adf_built {
    size_t addition; /* the number of the addition that has the fault */
    uint64_t need;   /* ADF_BUILD_FULL: the blocks that the tree needs, and those that there are, without the two boot blocks */
    uint64_t have;
    uint32_t blocks; /* at 0, all blocks of the volume */
};

/* Why no volume is built. They are tested in this order: those of the volume and the room first, then those of each addition in turn,
 * and last whether the tree fits. */
enum adf_build_refusal {
    ADF_BUILD_DONE = 0,
    ADF_BUILD_BAD_KIND = 1,       /* The kind is above 3: no volume with caches is built. */
    ADF_BUILD_BAD_LABEL = 2,      /* The label is longer than 30 bytes. */
    ADF_BUILD_BAD_SIZE = 3,       /* The number of blocks is not allowed. */
    ADF_BUILD_SMALL_ROOM = 4,     /* The room has fewer than blocks * 512 bytes. */
    ADF_BUILD_NO_PARENT = 5,      /* The directory of the addition does not stand before it. */
    ADF_BUILD_PARENT_IS_FILE = 6, /* The directory of the addition is a file. */
    ADF_BUILD_BAD_NAME = 7,       /* Its name is empty or too long, or has a `/` or `:`. */
    ADF_BUILD_EXISTS = 8,         /* An earlier one has its directory and its name, ignoring case as adf_find_types does. */
    ADF_BUILD_BAD_COMMENT = 9,    /* Its comment is longer than 79 bytes. */
    ADF_BUILD_PAST_CONTENTS = 10, /* Its bytes end past the contents. */
    ADF_BUILD_FULL = 11,          /* The tree needs more blocks than there are. */
    ADF_BUILD_NO_MEMORY = 23      /* An allocation failed. */
};

/* Builds a volume of these additions at the front of the room. Returns an adf_build_refusal.
 *
 * 0: the first blocks * 512 bytes of the room are the image of the volume that has these entries and no others, as `adf build` lays
 *    it: the same table gives the same bytes. adf_check_types accepts it, and adf_check those of the kinds ADF_OFS and ADF_FFS, up to
 *    its size. The rest of the room is unchanged.
 * Another number: nothing is written to the room. If it is that of an addition, built->addition is the first one that has a fault,
 *    and the number is its first fault.
 *
 * The contents of all files may stand in any order, and share bytes. Besides the room, the call takes memory for a copy of the
 * contents, and some 500 bytes for each addition.
 */
uint8_t adf_build(const struct adf_new_volume *volume, const struct adf_addition *additions, size_t count, const uint8_t *contents,
                  size_t contents_length, uint8_t *room, size_t room_length, struct adf_built *built);

/* Finds the smallest volume for these additions. Returns an adf_build_refusal.
 *
 * 0: built->blocks is the fewest blocks of a volume in which they have room.
 * ADF_BUILD_FULL: not even the largest volume, of 8,388,608 blocks, has room for them.
 * Another number: as for adf_build.
 */
uint8_t adf_need(const struct adf_new_volume *volume, const struct adf_addition *additions, size_t count, const uint8_t *contents,
                 size_t contents_length, struct adf_built *built);

/* Surveys
 *
 * A survey continues past the first fault: it finds everything that is wrong. Which directories, files and links exist is judged, by all
 * that is left on the image, also of those that nothing leads to any more. adf-survey(1) says what each finding means, and what makes an
 * entry sound. What is judged is measured and not proved; it is the same for the same image.
 */

/* What is told of the image that adf-survey surveys. Fields that do not apply are 0. */
struct adf_subject {
    size_t length;      /* its bytes */
    uint32_t held;      /* how many of its first 8,388,608 blocks the given image holds whole: zeros behind them are no data */
    uint8_t is_begun;   /* 1 if the given image does not begin with `DOS` and a type up to 5, and they are put there, otherwise 0 */
    uint8_t is_retyped; /* 1 if the type, in byte 3, is the one that is judged in place of another, otherwise 0 */
};

/* The number of a subject that is larger than its room: no adf_cause has it. */
#define ADF_SUBJECT_SMALL_ROOM 24

/* Writes the image that adf-survey surveys, of a given image of this length, for the calls below. It has as many blocks as the volume is
 * judged to have, or if blocks is not 0, that many: the first ones of the given image, with zeros for what is not there. It begins with
 * `DOS` and a type, 0 to 3, of the kind and the letters that are judged, where it stated another, or none. All but its first four bytes
 * are those of the given image. One that cannot be judged, since no volume has so many blocks or its type has long names, stays as it is.
 *
 *     struct adf_subject subject;
 *     uint8_t answer = adf_survey_subject(image, length, 0, room, room_length, &subject);
 *     if (answer == ADF_SUBJECT_SMALL_ROOM && grow(&room, subject.length))
 *         answer = adf_survey_subject(image, length, 0, room, subject.length, &subject);
 *     if (answer == ADF_ACCEPTED)
 *         adf_survey_index(room, subject.length, findings, findings_room, entries, entries_room, &surveyed);
 *
 * Returns:
 *
 * 0: the room begins with the image that is surveyed, of subject->length bytes, and the rest of it is unchanged. Its tables are what
 *    adf-survey tells of the given image, whose lines for the fields of `subject` come first; it marks a file as damaged too if one of
 *    its data blocks is not below subject->held.
 * ADF_SUBJECT_SMALL_ROOM: the room has fewer than subject->length bytes, which may be more than those of the given image. A room of as
 *    many bytes is not refused so.
 * ADF_NO_MEMORY: an allocation failed. All fields are 0.
 *
 * Whatever is returned but 0, the room is unchanged. Besides the room, the call allocates a copy of the image, and tables of its blocks.
 */
uint8_t adf_survey_subject(const uint8_t *image, size_t length, uint32_t blocks, uint8_t *room, size_t room_length,
                           struct adf_subject *subject);

/* Findings of neighbouring blocks that have one cause and concern the same entry, in the order of the survey. */
struct adf_finding {
    uint32_t first;    /* the first block */
    uint32_t last;     /* the last block */
    size_t node;       /* the entry that is concerned, or the directory in which a header was skipped; 0 for the root and
                          for none */
    size_t owner;      /* if the cause is ADF_TAKEN, the entry that owns the blocks; 0 for the root, the bitmap, and other causes */
    uint8_t cause;     /* an adf_cause, 1 to 22 */
    uint8_t is_within; /* 1 if `node` is the directory in which a header was skipped, otherwise 0 */
};

/* An entry that exists. Entry n is at index n - 1 of the table. */
struct adf_found {
    size_t parent;       /* the number of its directory, which is less than its own, 0 for the root */
    uint32_t header;     /* the block of its header; of a directory whose header is lost the one that its entries name */
    uint32_t size;       /* bytes of a file, as its header says; 0 for a directory */
    uint32_t protection; /* as in struct adf_entry */
    struct adf_date date;
    uint8_t is_file;     /* 1 for a file or a link, 0 for a directory */
    uint8_t is_sound;    /* 1 if the entry is sound, otherwise 0, and 0 for a link */
    uint8_t name_length; /* 0 to 79; of what is judged 1 to 30 */
    uint8_t
        name[79]; /* any bytes, padded with zeros: it may be `..`, so it is no name for a file of the host. Where the header states
                               a name that no volume can have, or that another entry of the directory has, it is `lost-` and its block */
    uint8_t comment_length; /* 0 to 79 */
    uint8_t comment[79];    /* padded with zeros */
};

/* What a survey has beside its tables. If the image cannot be judged, all fields but `findings` are 0. */
struct adf_surveyed {
    uint32_t kind;        /* ADF_OFS for types 0, 2 and 4, ADF_FFS for 1, 3 and 5: the letters of names are not told */
    uint32_t blocks;      /* all blocks, the two boot blocks included */
    size_t findings;      /* rows of the table of findings */
    size_t entries;       /* directories, files and links that exist, without the root: no more than blocks */
    struct adf_date root; /* the three dates of the root block: its own, that of the last change, that of the creation */
    struct adf_date altered;
    struct adf_date created;
    uint8_t label_length; /* 0 to 30 */
    uint8_t label[30];    /* in no particular encoding, padded with zeros */
};

/* Surveys and judges an image of this length, and fills two tables, each as far as there is room: its findings, and the entries that
 * exist. The image is judged as a volume of as many blocks as it has. No number in the tables is that of an entry past the last one, and
 * each header is below length / 512. Returns an adf_cause: 0 or ADF_NO_MEMORY.
 *
 * 0: the tables and `surveyed` are those of the image. surveyed->findings and surveyed->entries are the whole numbers,
 *    whatever the rooms: if a room is smaller, the table is only its front part, and a second call with rooms of these sizes
 *    gives all. The rest of a room is unchanged.
 * ADF_NO_MEMORY: an allocation failed. All fields are 0, and the tables are unchanged.
 *
 * An image whose boot block has the cause ADF_NOT_DOS has that one finding, and its entries, even if nothing but the boot block is
 * overwritten. adf-survey surveys such an image as if it had one: adf_survey_subject has the image that it surveys.
 */
uint8_t adf_survey_index(const uint8_t *image, size_t length, struct adf_finding *findings, size_t findings_room,
                         struct adf_found *entries, size_t entries_room, struct adf_surveyed *surveyed);

/* A right link that exists: it leads to something. Fields that do not apply are 0. */
struct adf_link {
    size_t node;        /* the number of its entry */
    size_t target;      /* the file or directory that a hard link leads to, which is no link: the number of its entry */
    size_t path;        /* the byte of the image where the path of a soft link begins */
    size_t path_length; /* 1 to 287 */
    uint32_t header;    /* the block of its header */
    uint8_t kind;       /* an adf_link_kind */
};

enum adf_link_kind { ADF_LINK_FILE = 1, ADF_LINK_DIRECTORY = 2, ADF_LINK_SOFT = 3 };

/* Judges an image of this length, and fills a table of its right links, in the order of their entries, as far as there is room. The
 * entries are those of adf_survey_index, which has links too: there a link counts as a file, and is not sound. Which links are right,
 * adf-survey(1) says. The path of a soft link has any bytes but 0, as it is on the disk: `/` and `:` mean what they mean on an Amiga, and
 * nothing need have it. Returns an adf_cause: 0 or ADF_NO_MEMORY.
 *
 * 0: count is the number of right links, whatever the room: if that is smaller, the table is only its front part, and a second call
 *    with so much room gives all. The rest of the room is unchanged.
 * ADF_NO_MEMORY: an allocation failed. The table and count are unchanged.
 */
uint8_t adf_survey_links(const uint8_t *image, size_t length, struct adf_link *links, size_t room, size_t *count);

/* Files of a damaged image
 *
 * A program that reads what is left of files has the image judged once more by adf_survey_parts, which fills a table of its blocks.
 * From then on it makes the table of a file by adf_found_blocks, and reads by that from any place on, without a further one:
 *
 *     uint32_t header = entries[node - 1].header;
 *     size_t count = adf_found_blocks(image, length, parts, length / 512, node, header, blocks, blocks_room);
 *     for (size_t at = 0, lost = 0, n = 1; n + lost > 0; at += n + lost) {
 *         n = adf_found_read(image, length, header, blocks, count, at, room, sizeof room, &lost);
 *         write_at(at, room, n);
 *     }
 *
 * What lies between the parts that are read is lost: `lost` bytes behind each. Zeros are never given in their place. What is left of the
 * file ends with the last part that is read: the `lost` bytes that reach the end of the file, at its entry's size, belong to no part, and
 * `adf-survey cat --damaged` does not write them.
 */

/* What an entry has at a block. Block b is at index b of the table. */
struct adf_part {
    size_t node;     /* the entry that has the block; 0 for the root, the bitmap, and a block that no entry has */
    uint32_t number; /* the number of the data block of a file that it is, from 1, if it is that file's own; otherwise 0 */
};

/* The number that stands for no block in the table of a file. */
#define ADF_NO_BLOCK UINT32_C(0xFFFFFFFF)

/* Judges an image of this length, and fills a table with a row for each of its length / 512 blocks, as far as there is room. The
 * entries are those of adf_survey_index. If the image cannot be judged, there are no rows. The rest of the room is
 * unchanged. Returns an adf_cause: 0, or ADF_NO_MEMORY, and then the room is unchanged.
 */
uint8_t adf_survey_parts(const uint8_t *image, size_t length, struct adf_part *parts, size_t room);

/* Writes the role of each block of an image of this length, as it is judged: byte b of the room is the adf_role of block b, as far as
 * there is room. A block has the role of the part of the volume, or of an entry, that has it; without one it is ADF_ROLE_BOOT for
 * the blocks 0 and 1, and ADF_ROLE_FREE for others, which may be in use or lost. On an image that adf_check accepts these are the
 * roles of adf_owners. If the image cannot be judged, the room is unchanged; its bytes after the last block always are.
 * Returns an adf_cause: 0, or ADF_NO_MEMORY, and then the room is unchanged.
 */
uint8_t adf_survey_owners(const uint8_t *image, size_t length, uint8_t *roles, size_t room);

/* Judges an image of this length, and looks up a path among the entries that exist. The path is written as for adf_find, and names
 * are compared by the letters of the volume, as adf-survey does: of several entries of a directory with one name the first is taken.
 * Returns:
 *
 * 0: node is the number of the entry, 0 for the empty path.
 * 1: nothing has this path. If the image cannot be judged, nothing has one but the empty one.
 * 2: the text is not a path.
 * ADF_NO_MEMORY: an allocation failed.
 *
 * Whatever is returned but 0, node is unchanged.
 */
uint8_t adf_survey_find(const uint8_t *image, size_t length, const uint8_t *path, size_t path_length, size_t *node);

/* Fills the table of a file that exists, by its number and the block of its header: its data blocks in order, as far as there is
 * room, with ADF_NO_BLOCK for each that is not left: one is in it that its header or an extension block names, if the row of that block
 * says that it is this data block of the file. Returns how many its size asks for, whatever the room: at most length / 488 + 1, and 0 for a
 * directory, an empty file, and a block that is no file's header. The rest of the room is unchanged.
 *
 * With other rows than those of the image it is the same table by these rows: a block is in it only if the image has it, and its row
 * has the node and the number. It allocates nothing. A budget, by reading the code and not proved: the work is
 * proportional to the number that is returned.
 */
size_t adf_found_blocks(const uint8_t *image, size_t length, const struct adf_part *parts, size_t parts_count, size_t node,
                        uint32_t header, uint32_t *blocks, size_t blocks_room);

/* Copies the bytes of a file that exists into the room, by the block of its header and by its table: those from byte `offset`
 * on, up to the first data block that is not found, as many as there are and fit. Returns how many, and sets `lost` to the number
 * of bytes right behind them that are lost: 0 if the next byte is found, or the file ends there. So with a room of at least one
 * byte both are 0 only from the end of the file on. The rest of the room is unchanged.
 *
 * The size is the one that the header says, but no more than the image has. With any table the same is read: at most these bytes,
 * of the data areas of the blocks that the table names, where a number that the image does not have stands for a block that is
 * not found. What is behind a table that is cut is neither read nor lost. On an image that adf_check accepts the bytes are those
 * that adf_read gives, and none are lost.
 *
 * It allocates nothing. A budget, by reading the code and not proved: the work is proportional to the bytes that are copied, and
 * to the data blocks that are lost behind them.
 */
size_t adf_found_read(const uint8_t *image, size_t length, uint32_t header, const uint32_t *blocks, size_t blocks_count,
                      size_t offset, uint8_t *room, size_t room_length, size_t *lost);

/* Rescues
 *
 * A rescue of an image is a new, sound volume of all that exists on it: whole files, and directories, also such as no directory leads
 * to any more. adf-survey(1) says what exists.
 */

/* Why something is not in the volume of a rescue: 1 to 5; why an entry is in doubt that is in it: 6 to 9; or what is another one in it,
 * or could not be read: 10 to 13. A later version may have more of them. */
enum adf_loss_why {
    ADF_LOSS_DAMAGED = 1,         /* An entry is a file that is not whole, or a link that leads to nothing. */
    ADF_LOSS_LINK = 2,            /* An entry is a link. */
    ADF_LOSS_NO_ROOM = 3,         /* The blocks do not suffice. */
    ADF_LOSS_HEADERS = 4,         /* A hash chain of a directory is broken; what it led to may be found again. */
    ADF_LOSS_BLOCKS = 5,          /* Blocks in use are lost, not in the image, behind the volume, or made anew. */
    ADF_LOSS_IN_DOUBT = 6,        /* What it says of itself, its place or its data may be wrong. */
    ADF_LOSS_PERHAPS_DELETED = 7, /* The bitmap has a block of it free, or nothing tells whether it was deleted. */
    ADF_LOSS_FOUND_AGAIN = 8,     /* No directory leads to it: it was found by what its header says. */
    ADF_LOSS_MADE = 9,            /* The rescue made the directory, for what names a lost one. */
    ADF_LOSS_RENAMED = 10, /* The entry has another name: its own is none, or another one has it. Its path is the stated one, `: `,
                                     and the one in the volume; no name that is spelled has `: `. It may be left out by another row. */
    ADF_LOSS_COMMENT_CUT = 11, /* The comment of the entry is too long, and is cut. */
    ADF_LOSS_LABEL_CUT = 12,   /* The label in the root, the block of the row, is too long, and is cut. */
    ADF_LOSS_BITMAP = 13       /* The page of the bitmap in the block of the row cannot be read. */
};

/* Something of an image that is not in the volume of its rescue, or is in it in doubt, or is another one there. */
struct adf_loss {
    size_t path;        /* where its path begins in the text of all paths */
    size_t path_length; /* 0 for the root, and for blocks */
    uint32_t first;     /* the header of the entry or of the directory, 0 for the root; or the first of the blocks */
    uint32_t last;      /* the same header; or the last of the blocks */
    uint8_t why;        /* an adf_loss_why */
};

/* What is told of a rescue beside its number. Fields that do not apply are 0. */
struct adf_rescue_told {
    size_t losses;   /* all rows of losses */
    size_t paths;    /* the bytes of all paths */
    uint32_t blocks; /* all blocks of the volume, including the two boot blocks */
    uint32_t block;  /* the block of the first fault of the image */
};

/* The number of a rescue whose volume is larger than its room: no adf_cause has it. */
#define ADF_RESCUE_SMALL_ROOM 24

/* Rescues an image of this length, as `adf-survey rescue` does: as it is, or if blocks is not 0, as if it had so many blocks, with
 * zeros for what is not there; a number that no volume has is ADF_BAD_SIZE. The losses come in the order of the lines of that command,
 * and their paths are spelled as there, one of more than 1,024 bytes from a block on, as `\block 412/c/list`: also of what is in the
 * volume they are those of the image, so a name may be another one in the volume.
 * Returns:
 *
 * 0: the room begins with the volume, of told->blocks * 512 bytes, which adf_check accepts, up to its size, and the tables have
 *    what is not in it, and what is in it in doubt.
 *    told->losses and told->paths are the whole numbers: a table that is smaller has the front part. The rest of each room is
 *    unchanged.
 * An adf_cause: nothing exists, and more is wrong than the type. It is the first fault of the image, at told->block. A volume with long
 *    names, of type 6 or 7, is ADF_NOT_DOS.
 * ADF_RESCUE_SMALL_ROOM: the volume has told->blocks blocks, and the room has fewer bytes. A volume has as many blocks as what
 *    adf_survey_subject writes, which may be more than the image has. A room of as many blocks is not refused so.
 * ADF_NO_MEMORY: an allocation failed. All fields are 0.
 *
 * Whatever is returned but 0, the three rooms are unchanged. Besides the rooms, the call allocates the tree of the volume with its files,
 * and tables of the image's blocks. Proved is, whatever is judged: the volume is sound, each file in it has the bytes that one header of
 * the image and its extension blocks name, and no block of the image is of two entries.
 */
uint8_t adf_rescue(const uint8_t *image, size_t length, uint32_t blocks, uint8_t *room, size_t room_length, struct adf_loss *losses,
                   size_t losses_room, uint8_t *paths, size_t paths_room, struct adf_rescue_told *told);

/* The same, with the letters of the image, as `adf-survey rescue --keep-type` does: of an image of type 2 or 4 the volume is of type
 * 2, of one of type 3 or 5 of type 3, and adf_check_types accepts it. Others have the volume of adf_rescue.
 */
uint8_t adf_rescue_types(const uint8_t *image, size_t length, uint32_t blocks, uint8_t *room, size_t room_length,
                         struct adf_loss *losses, size_t losses_room, uint8_t *paths, size_t paths_room,
                         struct adf_rescue_told *told);

/* Writes the escape form of a name to the front of the room, as far as it fits, and returns the length of the whole text, at most
 * four times that of the name: a byte outside 32 to 126, and the backslash, is \xHH, as in the paths of adf_find. A `/` or `:`, which
 * only a name that is found may have, stays as it is: adf-survey writes \x2f and \x3a, and \x for a name without bytes. The text has no
 * zero at the end. A name of 2^61 bytes or more has none: then the call returns 0, and the room is unchanged.
 */
size_t adf_escape(const uint8_t *name, size_t name_length, uint8_t *room, size_t room_length);

/* Boot blocks
 *
 * An Amiga starts from a floppy by the code in its first two blocks, the boot blocks, of ADF_BOOT_BYTES bytes. adf-boot(1) and
 * FORMAT.md have them. They are no part of a volume: a tree neither rests on them nor says what is in them.
 *
 *     if (adf_boot_copy(rescued, length, original, original_length) == ADF_BOOT_DONE)
 *         save(rescued, length);
 */
#define ADF_BOOT_BYTES 1024

/* What boot blocks say. A mark is 1 if it is so, otherwise 0. */
struct adf_boot_blocks {
    uint32_t crc;            /* the CRC-32 of their 1,024 bytes, as zip has it and adf-boot writes it */
    uint8_t begins_with_dos; /* they begin with `DOS` */
    uint8_t volume_type;     /* byte 3: if they begin with `DOS`, the type of the volume, 0 or 1 for one that adf_check accepts */
    uint8_t has_right_sum;   /* the sum of their words is right */
    uint8_t is_bootable;     /* an Amiga starts their code: they begin with `DOS`, and their sum is right */
    uint8_t has_code;        /* there is something but zeros behind the type; it may be no code of a 68000 */
};

/* Why boot blocks are not told of, or not written. */
enum adf_boot_refusal {
    ADF_BOOT_DONE = 0,
    ADF_BOOT_BAD_SIZE = 1,        /* The image is not whole blocks of 512 bytes, or has fewer than 4, or more than 8,388,608. */
    ADF_BOOT_NOT_DOS = 2,         /* The image does not begin with `DOS`. */
    ADF_BOOT_BAD_SOURCE_SIZE = 3, /* The source has fewer than ADF_BOOT_BYTES bytes. */
    ADF_BOOT_SOURCE_NOT_DOS = 4   /* The source does not begin with `DOS`. */
};

/* Tells of the boot blocks at the front of an image of any length, or of a file of them. Returns an adf_boot_refusal.
 *
 * 0: `boot` has what they say.
 * ADF_BOOT_BAD_SIZE: there are fewer than ADF_BOOT_BYTES bytes, and `boot` is unchanged.
 */
uint8_t adf_boot(const uint8_t *image, size_t length, struct adf_boot_blocks *boot);

/* Change the boot blocks of an image of this length, and nothing else: its first four bytes, `DOS` and the type, and all from byte
 * ADF_BOOT_BYTES on stay as they are. adf_boot_install writes code that starts AmigaDOS, and the number of the root; adf_boot_copy
 * the boot blocks at the front of a source, which is another image of any length, or a file of them; adf_boot_clear zeros. They take
 * and refuse the images and sources that the commands of adf-boot(1) with these names do, and return an adf_boot_refusal.
 *
 * 0: they are written, by the first two with the checksum that is right for the type, so an Amiga starts them. If adf_check accepts
 *    the image, it does so now, with the same tree.
 * Another number: the image is unchanged. That of the source comes before that of the image, and a size before `DOS`.
 */
uint8_t adf_boot_install(uint8_t *image, size_t length);
uint8_t adf_boot_copy(uint8_t *image, size_t length, const uint8_t *source, size_t source_length);
uint8_t adf_boot_clear(uint8_t *image, size_t length);

/* A whole hard disk.
 *
 * Its image begins with tables that say where its volumes lie. adf-disk(1) and FORMAT.md have them. The bytes of a volume that
 * has a place, from `first` * 512 on and `blocks` * 512 long, are an image for the calls above.
 */

/* What is wrong with the tables of a disk: the first fault. */
enum adf_disk_cause {
    ADF_DISK_WHOLE = 0,
    ADF_DISK_NO_RIGID_DISK = 1, /* None of the blocks 0 to 15 is a rigid disk block with a sound checksum; at block 0. */
    ADF_DISK_BLOCK_SIZE = 2,    /* Its blocks do not have 512 bytes. */
    ADF_DISK_OUT_OF_RANGE = 3,  /* The block names a block that is not below 65,536, or past the bytes. */
    ADF_DISK_REPEATED = 4,      /* The list of partition blocks leads back to the block. */
    ADF_DISK_NO_PARTITION = 5,  /* The block should be a partition block, and is not. */
    ADF_DISK_BAD_SUM = 6,       /* Its checksum is wrong. */
    ADF_DISK_TOO_MANY = 7       /* It comes after 1,024 partitions. */
};

/* What is wrong with a partition alone. With 3 to 6 it has no place; they are tested first, in this order, then 1, 2 and 7, which
 * are about other fields: the volume lies there all the same, and may be sound. */
enum adf_partition_fault {
    ADF_PARTITION_SOUND = 0,
    ADF_PARTITION_SHORT_ENVIRONMENT = 1, /* Its block lacks the type. */
    ADF_PARTITION_BLOCK_SIZE = 2,        /* The blocks of its file system do not have 512 bytes. */
    ADF_PARTITION_BAD_CYLINDERS = 3,     /* It ends before it begins, or its cylinders have no blocks. */
    ADF_PARTITION_BEYOND_IMAGE = 4,      /* It ends past the end of the disk. */
    ADF_PARTITION_OVER_TABLES = 5,       /* It has blocks that belong to the tables. */
    ADF_PARTITION_OVER_PARTITION = 6,    /* It has blocks of an earlier partition that has a place. */
    ADF_PARTITION_BAD_NAME = 7           /* Its name is empty, longer than 31 bytes, or has `/` or `:`. */
};

struct adf_partition {
    uint64_t first;      /* the first block of its volume, counted from the beginning of the disk; 0 if it has no place */
    uint64_t blocks;     /* the blocks of its volume, of 512 bytes; 0 if it has no place */
    uint32_t block;      /* its partition block */
    uint32_t flags;      /* bit 0: a computer may start from it; bit 1: it is not mounted by itself */
    int32_t priority;    /* of starting */
    uint32_t dos_type;   /* four bytes, the first one the highest: 0x444F5300 (DOS\0) is OFS, 0x444F5301 is FFS */
    uint8_t fault;       /* an adf_partition_fault */
    uint8_t name_length; /* 0 to 31 */
    uint8_t name[31];    /* as it stands, in no particular encoding, padded with zeros; of a longer one the first 31 bytes */
};

/* What a disk has beside its partitions. */
struct adf_disk {
    size_t partitions; /* those that can be read, at most 1,024 */
    uint32_t block;    /* the block of the fault, or 0 */
    uint8_t cause;     /* an adf_disk_cause */
};

/* Reads the partitions of a disk of so many blocks of 512 bytes, and fills a table with them, as far as there is room. The bytes
 * are the first ones of the disk: its first 65,536 blocks, or all of it; bytes behind these blocks change nothing. The number of
 * blocks is below 2^55, so that `first` * 512 fits. A disk of fewer than 16 blocks is searched as far as it goes: without a rigid
 * disk block among its blocks the cause is ADF_DISK_NO_RIGID_DISK, as of one without any bytes. Returns an adf_cause: 0 or
 * ADF_NO_MEMORY.
 *
 * 0: disk->cause is the first fault of the tables, in disk->block. Without a fault the table has all partitions, in their order;
 *    otherwise those that can still be read, as `adf-disk survey` lists them. disk->partitions is the whole number, whatever the
 *    room. The rest of the room is unchanged. Volumes that have a place lie within the disk, and no two of them share a block.
 * ADF_NO_MEMORY: an allocation failed, which can happen only if there is a partition that can be read. All fields of the disk are
 *    0, and the table is unchanged.
 */
uint8_t adf_disk_index(const uint8_t *bytes, size_t length, uint64_t blocks, struct adf_partition *partitions, size_t room,
                       struct adf_disk *disk);

/* Write the text of an adf_disk_cause, such as `no rigid disk`, and of an adf_partition_fault, such as `beyond image`, as
 * adf_cause_text does: as far as they fit, with the length of the whole text returned, at most 17; 0 if nothing has the number.
 */
size_t adf_disk_cause_text(uint8_t cause, uint8_t *room, size_t room_length);
size_t adf_partition_fault_text(uint8_t fault, uint8_t *room, size_t room_length);

/* How far a command went, and whether it had room. */
struct adf_moved {
    size_t input;     /* bytes that were read */
    size_t output;    /* bytes at the front of the room for output */
    size_t errors;    /* bytes at the front of the room for errors */
    bool output_full; /* output had too little room, so that it has only the first part, and the status is 3 */
    bool errors_full; /* errors had too little room, so that they have only the first part */
};

/* Runs the command `adf` with these arguments over the input, and returns its status.
 *
 * Each of the words is one argument: UTF-8 text that ends in a zero byte. The first is the program's name. So
 * `adf cat s/startup-sequence` is "adf\0cat\0s/startup-sequence\0", 27 bytes. The input of `build` is a manifest, that of all
 * other commands an image. adf(1) has the commands and what each writes.
 *
 * 0: the result is in output, and errors are empty.
 * 1: the input is refused, or the path does not lead to a file. `check` says so in output, the others in errors.
 * 2: the arguments are refused, or are not such texts, or the path is not a path. Nothing was read, and output is empty. Errors
 *    have the usage, or `bad path` if the path is not a path.
 * 3: output had too little room (output_full), or an allocation failed. Errors say which (`write fault`, `no memory`), and
 *    output has the first part of a result, or nothing; with output_full, the first part of a result, but not all of it. Call
 *    again with more room: there is no state between calls.
 *
 * Nothing is said about the bytes of a room after those that `moved` counts.
 */
uint8_t adf_run(const uint8_t *words, size_t words_length, const uint8_t *input, size_t input_length, uint8_t *output,
                size_t output_room, uint8_t *errors, size_t errors_room, struct adf_moved *moved);

/* Runs the command `adf-survey` with these arguments over an image, and returns its status. The words are as for adf_run: so
 * `adf-survey cat c/readme` is "adf-survey\0cat\0c/readme\0", 24 bytes; with `rescue` the output is a volume of as many blocks as
 * are read: those of the image, or N with `--blocks N`, or those of a floppy, as for adf_survey_subject. adf-survey(1) has what it writes.
 *
 * 0: there is no finding, and output is empty; for `cat`, output has the bytes of the file, which is sound, or with `--damaged`
 *    has lost none, or with `--deleted` is whole; for `rescue`, it has the new volume, and nothing is left out or in doubt; for
 *    `deleted`, it has a line for each deleted header, for `blank` one for the bytes of files in blank blocks. Errors are empty.
 *    With `--map` the word behind that is not the name of a map, but its text.
 * 1: output has the lines of the findings; for `cat`, it is empty, and errors say `no such path: PATH`, `not a file` or
 *    `damaged`.
 *    For `cat --damaged`, output has what is left of the file, and errors a line for each range of bytes that are lost: zeros, or left out
 *    at the end.
 *    For `cat --deleted`, the same of a deleted file, with the line of its state behind them; or output is empty, and errors say
 *    `no deleted header in block B` or `not a file`. Where nothing is surveyed, these and `deleted` say `no volume`.
 *    With `--list` the lines of what is found follow those of the findings, at status 0 too.
 *    For `rescue`, output has the new volume, and errors a line for each entry that it leaves out or keeps in doubt, and for what is
 *    lost; or output is empty, and errors have the line of the first finding, and these lines behind it. If errors_full is set, call
 *    again with more room for them.
 *    If the image does not begin with `DOS`, and one of its blocks 0 to 15 begins with `RDSK`, the last line of errors says that it is a
 *    hard disk, for adf_disk_index.
 * 2, 3: as for adf_run. The image is `input`, and no file is opened: arguments that name a file are refused, at status 2.
 *
 * Nothing is said about the bytes of a room after those that `moved` counts. The call allocates what the command holds: copies of the
 * image, and surveys of them.
 */
uint8_t adf_survey_run(const uint8_t *words, size_t words_length, const uint8_t *input, size_t input_length, uint8_t *output,
                       size_t output_room, uint8_t *errors, size_t errors_room, struct adf_moved *moved);

#ifdef __clang__
#pragma clang diagnostic pop
#endif
#ifdef __cplusplus
}
#endif

#endif
