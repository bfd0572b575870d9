/* For an Amiga, where trials/peers and trials/amiga run it: copies all that is in a directory into another, with comments, dates and protection.
 *
 *     copy FROM TO [TYPE] [OTHER]
 *
 * With a type, TO is a drive, in which a volume of this type is made first. With OTHER each file is read by the other case of its letters.
 *
 * It stands alone, without a library of C, and runs at any address. A number in a call is where exec.library or dos.library has it.
 */
typedef unsigned char u8;
typedef int i32;

struct info { /* of an entry, as dos.library has it: FileInfoBlock */
    i32 key, type;
    u8 name[108];
    i32 protection, entry_type, size, blocks, date[3];
    u8 comment[80], reserved[36];
} __attribute__((aligned(4)));
struct work {
    void *dos;
    const u8 *words[4]; /* of the command line */
    u8 from[1024], to[1024], part[8192];
};

/* Calls a library with these registers. */
i32 call(void *base, i32 offset, i32 d0, i32 d1, i32 d2, i32 d3, const void *a1);
__asm(".text\n.even\n.globl call\ncall:\n movem.l %d2-%d7/%a2-%a6,-(%sp)\n"
      " move.l 48(%sp),%a6\n move.l 52(%sp),%a0\n add.l %a6,%a0\n move.l 56(%sp),%d0\n move.l 60(%sp),%d1\n move.l 64(%sp),%d2\n"
      " move.l 68(%sp),%d3\n move.l 72(%sp),%a1\n jsr (%a0)\n movem.l (%sp)+,%d2-%d7/%a2-%a6\n rts\n");
#define DOS(offset, d1, d2, d3) call(work->dos, offset, 0, (i32)(d1), (i32)(d2), (i32)(d3), 0)
enum { OPEN = -30, CLOSE = -36, READ = -42, WRITE = -48, LOCK = -84, UNLOCK = -90, EXAMINE = -102, NEXT = -108, CREATE_DIR = -120 };
enum {
    SET_COMMENT = -180,
    SET_PROTECTION = -186,
    DELAY = -198,
    SET_DATE = -396,
    FORMAT = -714,
    INHIBIT = -726,
    READ_ARGS = -798,
    DOS_TYPE = 0x444f5300,
    OLD = 1005,
    NEW = 1006,
    SHARED = -2
};

static int length_of(const u8 *text) {
    int length = 0;
    while (text[length])
        length++;
    return length;
}

/* Writes a name behind the path of a directory. */
static void append(u8 *path, int end, const u8 *name) {
    if (end && path[end - 1] != ':')
        path[end++] = '/';
    while ((path[end++] = *name++))
        ;
}

/* Changes the case of all letters of a path behind its drive: those of Latin-1 are 0xC0 to 0xDE and 0xE0 to 0xFE, without 0xD7 and 0xF7. */
static void change_case(u8 *path) {
    while (*path && *path++ != ':')
        ;
    for (; *path; path++) {
        u8 raised = *path & 0xdf;
        if ((raised >= 'A' && raised <= 'Z') || (raised >= 0xc0 && raised <= 0xde && raised != 0xd7))
            *path ^= 32;
    }
}

static void copy_file(struct work *work) {
    if (work->words[3])
        change_case(work->from);
    i32 from = DOS(OPEN, work->from, OLD, 0), to = DOS(OPEN, work->to, NEW, 0), count = 1;
    while (from && to && count > 0 && (count = DOS(READ, from, work->part, sizeof work->part)) > 0)
        count = DOS(WRITE, to, work->part, count);
    if (from)
        DOS(CLOSE, from, 0, 0);
    if (to)
        DOS(CLOSE, to, 0, 0);
    if (work->words[3])
        change_case(work->from);
}

static void copy_all(struct work *work) {
    struct info info;
    int from = length_of(work->from), to = length_of(work->to);
    i32 lock = DOS(LOCK, work->from, SHARED, 0), made;
    if (lock && DOS(EXAMINE, lock, &info, 0))
        while (DOS(NEXT, lock, &info, 0)) {
            append(work->from, from, info.name);
            append(work->to, to, info.name);
            if (info.type < 0) {
                copy_file(work);
            } else {
                if ((made = DOS(CREATE_DIR, work->to, 0, 0)))
                    DOS(UNLOCK, made, 0, 0);
                copy_all(work);
            }
            DOS(SET_COMMENT, work->to, info.comment, 0);
            DOS(SET_PROTECTION, work->to, info.protection, 0);
            DOS(SET_DATE, work->to, info.date, 0); /* the last, since the others change it */
            work->from[from] = work->to[to] = 0;
        }
    if (lock)
        DOS(UNLOCK, lock, 0, 0);
}

__attribute__((section(".text.start"))) int start(void) {
    void *exec = *(void *volatile *)4;
    struct work *work = (void *)call(exec, -198, sizeof *work, 0x10001, 0, 0, 0);
    if (!work || !(work->dos = (void *)call(exec, -552, 36, 0, 0, 0, "dos.library")))
        return 20;
    *(i32 *)(call(exec, -294, 0, 0, 0, 0, 0) + 184) = -1; /* a failure asks nobody */
    if (!DOS(READ_ARGS, "FROM/A,TO/A,TYPE/N,OTHER/S", work->words, 0))
        return 10;
    if (work->words[2]) {
        DOS(INHIBIT, work->words[1], -1, 0);
        DOS(FORMAT, work->words[1], "Peer", DOS_TYPE + *(const i32 *)work->words[2]);
        DOS(INHIBIT, work->words[1], 0, 0);
    }
    append(work->from, 0, work->words[0]);
    append(work->to, 0, work->words[1]);
    copy_all(work);
    DOS(DELAY, 500, 0, 0); /* ten seconds, since a file system may write its bitmap late */
    return 0;
}
