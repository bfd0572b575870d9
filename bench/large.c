/* Runs one call on an image, for bench/large, which builds it.
 *
 *     large CALL < IMAGE     CALL is `none`, `check` (adf_check_types) or `survey` (adf_survey_index); prints the bytes of memory that the
 *                            call took beyond the image, and its nanoseconds
 */
#include "adf.h"

#include <stdio.h>
#include <stdlib.h>
#include <string.h>
#include <sys/resource.h>
#include <sys/stat.h>
#include <time.h>
#include <unistd.h>

/* The most memory so far, in bytes. */
static long peak(void) {
    struct rusage usage;
    getrusage(RUSAGE_SELF, &usage);
    return usage.ru_maxrss * 1024;
}

static long now(void) {
    struct timespec time;
    clock_gettime(CLOCK_MONOTONIC, &time);
    return time.tv_sec * 1000000000L + time.tv_nsec;
}

/* Reads standard input, a file, whole. */
static uint8_t *load(size_t *length) {
    struct stat status;
    ssize_t got = 1;
    uint8_t *image = fstat(0, &status) == 0 ? malloc((size_t)status.st_size + 1) : NULL;
    for (*length = 0; image != NULL && got > 0; *length += got > 0 ? (size_t)got : 0)
        got = read(0, image + *length, (size_t)status.st_size - *length);
    return image;
}

__attribute__((noinline)) static uint8_t run(const char *call, const uint8_t *image, size_t length) {
    struct adf_verdict verdict;
    struct adf_surveyed surveyed;
    struct adf_finding finding;
    struct adf_found found;
    if (strcmp(call, "check") == 0)
        return adf_check_types(image, length, &verdict);
    return strcmp(call, "survey") == 0 ? adf_survey_index(image, length, &finding, 1, &found, 1, &surveyed) : 0;
}

int main(int count, char **words) {
    size_t length = 0;
    uint8_t *image = load(&length);
    if (count != 2 || image == NULL)
        return 3;
    long before = peak(), begun = now();
    uint8_t answer = run(words[1], image, length);
    long ended = now();
    printf("%ld %ld\n", peak() - before, ended - begun);
    free(image);
    return answer;
}
