/* Tries the calls of adf.h on any bytes: a target for libFuzzer, in clang.
 *
 *     clang -g -O1 -fsanitize=fuzzer,address,undefined -fno-sanitize-recover=all -Iinclude -o fuzz bench/fuzz.c \
 *         crates/adf_c/out/libadf_c.a "$kit/c/liblibc_c.a"
 *     ./fuzz -max_len=32768 -max_total_time=60 FOLDER
 *
 * `kit` is $(dirname "$(rt doc)"), and FOLDER has images to begin with. The sanitizers look at this file alone, not into the
 * library, so each room has a guard behind it. What is new to the fuzzer is a pair of a cause and a block.
 */
#include "adf.h"

#include <stdlib.h>
#include <string.h>

enum { BLOCK = 512, GUARD = 64, MARK = 0xA5, PATH = 256, ERRORS = 200 };

__attribute__((section("__libfuzzer_extra_counters"))) static uint8_t seen[24 * 64];

size_t LLVMFuzzerMutate(uint8_t *data, size_t size, size_t most);
size_t LLVMFuzzerCustomMutator(uint8_t *data, size_t size, size_t most, unsigned seed);
int LLVMFuzzerTestOneInput(const uint8_t *data, size_t size);

static void must(bool holds) {
    if (!holds)
        abort();
}

struct room {
    uint8_t *at;
    size_t size;
};

/* Memory for so many bytes, which are marked, with a guard behind them. */
static struct room new_room(size_t size) {
    struct room room = {malloc(size + GUARD), size};
    must(room.at != NULL);
    memset(room.at, MARK, size + GUARD);
    return room;
}

static bool is_marked(const uint8_t *at, size_t size) {
    for (size_t i = 0; i < size; i++)
        if (at[i] != MARK)
            return false;
    return true;
}

static void end_room(struct room room) {
    must(is_marked(room.at + room.size, GUARD));
    free(room.at);
}

/* Runs a command of these words in rooms that may be too small. */
static uint8_t run(bool is_survey, const uint8_t *words, size_t length, const uint8_t *data, size_t size, size_t most) {
    struct room output = new_room(most), errors = new_room(ERRORS);
    struct adf_moved moved = {0};
    uint8_t status = (is_survey ? adf_survey_run : adf_run)(words, length, data, size, output.at, most, errors.at, ERRORS, &moved);
    must(status <= 3 && moved.output <= most && moved.errors <= ERRORS && moved.input <= size);
    must(!moved.output_full || status == 3);
    end_room(output);
    end_room(errors);
    return status;
}
#define RUN(is_survey, text, most) run(is_survey, (const uint8_t *)(text), sizeof(text), data, size, most)

/* Looks up and reads in tables that may be of any bytes. */
static void use(const uint8_t *data, size_t size, const struct adf_entry *entries, size_t count, const uint32_t *blocks,
                size_t total) {
    for (size_t n = 0; n <= count + 1; n++) {
        struct room part = new_room(BLOCK + n);
        must(adf_read(data, size, entries, count, blocks, total, n, n * n, part.at, part.size) <= part.size);
        end_room(part);
    }
    for (size_t length = 0; length <= size && length <= PATH; length += 1 + length / 2) {
        size_t node = count + 1;
        uint8_t answer = adf_find(entries, count, data + size - length, length, &node);
        must(answer == 0 ? node <= count : (answer <= 2 || answer == ADF_NO_MEMORY) && node == count + 1);
    }
}

/* Writes the escape form of a byte, and returns its end. */
static uint8_t *escape(uint8_t *at, uint8_t byte) {
    static const char digits[] = "0123456789abcdef";
    if (byte >= 32 && byte <= 126 && byte != '\\') {
        *at = byte;
        return at + 1;
    }
    memcpy(at, (const char[]){'\\', 'x', digits[byte >> 4], digits[byte & 15]}, 4);
    return at + 4;
}

/* Of an accepted image each file is read whole, and each entry of the root is found. */
static void use_volume(const uint8_t *data, size_t size, const struct adf_contents *contents, const struct adf_entry *entries,
                       const uint32_t *blocks) {
    for (size_t n = 1; n <= contents->entries; n++) {
        const struct adf_entry *entry = &entries[n - 1];
        struct room file = new_room(entry->size);
        size_t count = adf_read(data, size, entries, contents->entries, blocks, contents->data_blocks, n, 0, file.at, file.size);
        must(count == entry->size);
        end_room(file);
        uint8_t path[4 * sizeof entry->name], *end = path;
        for (size_t i = 0; i < entry->name_length; i++)
            end = escape(end, entry->name[i]);
        size_t node = 0;
        uint8_t answer = adf_find_types(contents->kind, entries, contents->entries, path, (size_t)(end - path), &node);
        must(entry->parent != 0 || (answer == 0 && node == n));
    }
}

/* The calls for types 0 to 3 agree on an image, and with those for types 0 and 1 unless it is international. */
static void use_types(const uint8_t *data, size_t size, uint8_t plain) {
    struct adf_verdict verdict = {0};
    struct adf_contents contents = {0};
    uint8_t cause = adf_check_types(data, size, &verdict);
    must(plain == ADF_INTERNATIONAL ? cause != plain : cause == plain);
    struct room roles = new_room(size / BLOCK), blocks = new_room(size / BLOCK * sizeof(uint32_t));
    struct room entries = new_room(size / BLOCK * sizeof(struct adf_entry));
    must(adf_owners_types(data, size, roles.at, roles.size) == cause);
    must(adf_index_types(data, size, (struct adf_entry *)entries.at, size / BLOCK, (uint32_t *)blocks.at, size / BLOCK,
                         &contents) == cause);
    must(contents.kind == verdict.kind && contents.block == verdict.block && contents.used == verdict.used);
    if (cause == ADF_ACCEPTED)
        use_volume(data, size, &contents, (struct adf_entry *)entries.at, (uint32_t *)blocks.at);
    end_room(roles);
    end_room(blocks);
    end_room(entries);
}

/* With other boot blocks an image starts and has the same verdict, or it is unchanged. */
static void use_boot(const uint8_t *data, size_t size, uint8_t cause) {
    struct room image = new_room(size);
    struct adf_boot_blocks boot = {0};
    struct adf_verdict verdict = {0};
    memcpy(image.at, data, size);
    if (adf_boot_install(image.at, size) == ADF_BOOT_DONE)
        must(adf_boot(image.at, size, &boot) == ADF_BOOT_DONE && boot.is_bootable);
    else
        must(memcmp(image.at, data, size) == 0);
    must(adf_check(image.at, size, &verdict) == cause);
    end_room(image);
}

/* The first fault of an image, once it has the type that its files say. */
static uint8_t typed_fault(const uint8_t *data, size_t size, struct adf_verdict *verdict, bool *is_retyped) {
    struct room image = new_room(size);
    struct adf_subject subject = {0};
    must(adf_survey_subject(data, size, 0, image.at, size, &subject) == ADF_ACCEPTED);
    *is_retyped = subject.is_retyped;
    uint8_t cause = adf_check(*is_retyped ? image.at : data, size, verdict);
    end_room(image);
    return cause;
}

/* A rescue in rooms that may be too small is a volume that is accepted, without losses if the image is; or the rooms are unchanged, and
 * the number is that of the first fault, or of a small room. */
static void use_rescue(const uint8_t *data, size_t size, size_t lacking) {
    struct adf_verdict typed = {0};
    bool is_retyped = false;
    uint8_t cause = typed_fault(data, size, &typed, &is_retyped);
    struct room volume = new_room(size < lacking ? 0 : size - lacking), losses = new_room(lacking * sizeof(struct adf_loss));
    struct room paths = new_room(PATH * lacking);
    struct adf_rescue_told told = {0};
    struct adf_verdict rescued = {0};
    uint8_t number =
        adf_rescue(data, size, 0, volume.at, volume.size, (struct adf_loss *)losses.at, lacking, paths.at, paths.size, &told);
    if (number == 0) {
        must((size_t)BLOCK * told.blocks == size && adf_check(volume.at, size, &rescued) == ADF_ACCEPTED);
        must(told.block == 0 && (told.losses != 0 || told.paths == 0));
        must(cause != ADF_ACCEPTED || told.losses == (is_retyped ? 1 : 0)); /* block 0, whose type was another */
    } else {
        must(is_marked(volume.at, volume.size) && is_marked(losses.at, losses.size) && is_marked(paths.at, paths.size));
        must(number == ADF_RESCUE_SMALL_ROOM ? lacking != 0 && (size_t)BLOCK * told.blocks == size
                                             : number == cause && told.block == typed.block);
    }
    end_room(volume);
    end_room(losses);
    end_room(paths);
}

/* What adf-survey surveys of an image, in a room that may be too small: the image but for its first four bytes, with a finding if and
 * only if the command tells of one, and look-ups of any text in it; or the room is unchanged. */
static void use_subject(const uint8_t *data, size_t size, size_t lacking) {
    struct room image = new_room(size < lacking ? 0 : size - lacking);
    struct adf_subject subject = {0};
    uint8_t number = adf_survey_subject(data, size, 0, image.at, image.size, &subject);
    must(subject.length == size && number == (image.size < size ? ADF_SUBJECT_SMALL_ROOM : ADF_ACCEPTED));
    if (number == ADF_ACCEPTED) {
        struct adf_finding finding;
        struct adf_found found;
        struct adf_surveyed surveyed = {0};
        must(adf_survey_index(image.at, size, &finding, 1, &found, 1, &surveyed) == ADF_ACCEPTED);
        bool is_clean = surveyed.findings == 0 && !subject.is_begun && !subject.is_retyped;
        must((RUN(true, "adf-survey", size) == 0) == is_clean);
        size_t same = subject.is_begun || subject.is_retyped ? 4 : 0;
        must(memcmp(image.at + same, data + same, size - same) == 0);
        size_t node = surveyed.entries + 1, length = size < PATH ? size : PATH;
        uint8_t answer = adf_survey_find(image.at, size, data + size - length, length, &node);
        must(answer == 0 ? node <= surveyed.entries : answer <= 2 && node == surveyed.entries + 1);
    } else {
        must(is_marked(image.at, image.size));
    }
    end_room(image);
}

int LLVMFuzzerTestOneInput(const uint8_t *data, size_t size) {
    struct adf_verdict verdict = {0};
    struct adf_contents contents = {0};
    uint8_t cause = adf_check(data, size, &verdict);
    must(cause <= ADF_NO_MEMORY);
    seen[64 * cause + (verdict.block ? 1 + verdict.block % 63 : 0)]++;

    struct room roles = new_room(size / BLOCK), blocks = new_room(size / BLOCK * sizeof(uint32_t));
    struct room entries = new_room(size / BLOCK * sizeof(struct adf_entry));
    must(adf_owners(data, size, roles.at, roles.size) == cause);
    must(adf_index(data, size, (struct adf_entry *)entries.at, size / BLOCK, (uint32_t *)blocks.at, size / BLOCK, &contents) ==
         cause);
    must(contents.block == verdict.block && contents.used == verdict.used && contents.free == verdict.free);
    if (cause == ADF_ACCEPTED) {
        must(contents.entries == verdict.dirs + verdict.files && verdict.used + verdict.free + 2 == verdict.blocks);
        use_volume(data, size, &contents, (struct adf_entry *)entries.at, (uint32_t *)blocks.at);
        use(data, size, (struct adf_entry *)entries.at, contents.entries, (uint32_t *)blocks.at, contents.data_blocks);
    } else {
        must(is_marked(roles.at, roles.size) && is_marked(entries.at, entries.size) && is_marked(blocks.at, blocks.size));
        memcpy(entries.at, data, size < entries.size ? size : entries.size);
        memcpy(blocks.at, data, blocks.size);
        use(data, size, (struct adf_entry *)entries.at, size / BLOCK, (uint32_t *)blocks.at, size / BLOCK);
    }
    end_room(roles);
    end_room(blocks);
    end_room(entries);
    use_types(data, size, cause);
    use_boot(data, size, cause);
    use_rescue(data, size, 0);
    use_rescue(data, size, 1);
    use_subject(data, size, 0);
    use_subject(data, size, 1);

    must(RUN(false, "adf\0check", 80) == (cause != ADF_ACCEPTED));
    uint8_t status = RUN(true, "adf-survey", 100 * size + 80);
    must(status == 1 || status == 3 || cause == ADF_ACCEPTED);
    RUN(true, "adf-survey\0--list", size);
    RUN(true, "adf-survey\0cat\0c/readme", size);
    RUN(false, "adf\0list", size);
    RUN(false, "adf\0cat\0c/readme", size);
    RUN(false, "adf\0convert\0ffs", size + 1);
    RUN(false, "adf\0build", 8 * BLOCK);
    run(false, data, size < PATH ? size : PATH, data, size, PATH);
    run(true, data, size < PATH ? size : PATH, data, size, PATH);
    return 0;
}

static uint32_t word_at(const uint8_t *at) { return (uint32_t)at[0] << 24 | (uint32_t)at[1] << 16 | (uint32_t)at[2] << 8 | at[3]; }

/* Changes what the fuzzer changes; three times of four all blocks then have right checksums in word 5. Of the bitmap of a small
 * volume that word is not read. */
size_t LLVMFuzzerCustomMutator(uint8_t *data, size_t size, size_t most, unsigned seed) {
    size = LLVMFuzzerMutate(data, size, most);
    for (uint8_t *block = data + 2 * BLOCK; seed % 4 != 0 && block + BLOCK <= data + size; block += BLOCK) {
        uint32_t sum = word_at(block + 20);
        for (size_t word = 0; word < BLOCK / 4; word++)
            sum -= word_at(block + 4 * word);
        for (size_t byte = 0; byte < 4; byte++)
            block[20 + byte] = (uint8_t)(sum >> (24 - 8 * byte));
    }
    return size;
}
