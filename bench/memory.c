/* Checks the image on standard input in memory, by adf_check and, if TWIN is defined, by a C program that does the same.
 *
 *     memory RUNS      runs processes that share the image, one for each program in turn, RUNS times. Prints a line for each
 *                      program: the least nanoseconds of a process's first call, the pages that it touches first, and the
 *                      least nanoseconds of its later calls
 *     memory adf       runs adf_check once; memory c runs the C program once: for valgrind
 *
 * The C program is the file TWIN, which reads standard input into `image`, `length` bytes, by read_all(), and checks it by check(how);
 * what it prints goes nowhere.
 *
 *     cc -O3 -march=x86-64-v2 -Iinclude -DTWIN='"twin.c"' -o memory bench/memory.c crates/adf_c/out/libadf_c.a "$kit/c/liblibc_c.a"
 */
#ifdef TWIN
#define main main_of_twin
#include TWIN
#undef main
#else
#include <stdint.h>
#include <stdio.h>
#include <stdlib.h>
#include <string.h>
#include <unistd.h>

static uint8_t *image;
static size_t length;

static void read_all(void) {
    size_t room = 1 << 20;
    ssize_t got = 1;
    image = malloc(room);
    while (image != NULL && got > 0) {
        if (length == room)
            image = realloc(image, room *= 2);
        if (image != NULL)
            length += got = read(0, image + length, room - length);
    }
    if (image == NULL || got < 0)
        exit(3);
}
#endif
#include "adf.h"

#include <fcntl.h>
#include <sys/resource.h>
#include <sys/wait.h>
#include <time.h>

enum { LATER_CALLS = 5 };

/* The least of what several runs took. */
struct took {
    long first, pages, later;
};

__attribute__((noinline)) static void run_adf(void) {
    struct adf_verdict verdict;
    if (adf_check(image, length, &verdict) != 0)
        exit(1);
}

#ifdef TWIN
__attribute__((noinline)) static void run_c(void) { check("check"); }
#endif

static long least(long a, long b) { return a < b ? a : b; }

static long nanoseconds(void (*run)(void)) {
    struct timespec begin, end;
    clock_gettime(CLOCK_MONOTONIC, &begin);
    run();
    clock_gettime(CLOCK_MONOTONIC, &end);
    return (end.tv_sec - begin.tv_sec) * 1000000000L + (end.tv_nsec - begin.tv_nsec);
}

/* The pages that this process has touched first. */
static long touched(void) {
    struct rusage used;
    getrusage(RUSAGE_SELF, &used);
    return used.ru_minflt;
}

static struct took calls(void (*run)(void)) {
    long before = touched();
    struct took took = {.first = nanoseconds(run)};
    took.pages = touched() - before;
    took.later = nanoseconds(run);
    for (int i = 1; i < LATER_CALLS; i++)
        took.later = least(took.later, nanoseconds(run));
    return took;
}

/* The calls in a child, so that each first one begins with the same memory. */
static struct took in_child(void (*run)(void)) {
    int ends[2];
    struct took took = {0};
    if (pipe(ends) != 0)
        exit(3);
    pid_t child = fork();
    if (child < 0)
        exit(3);
    if (child == 0) {
        took = calls(run);
        _exit(write(ends[1], &took, sizeof took) != sizeof took);
    }
    close(ends[1]);
    if (read(ends[0], &took, sizeof took) != sizeof took)
        exit(1);
    close(ends[0]);
    waitpid(child, NULL, 0);
    return took;
}

static void note(struct took *all, struct took one, int is_first) {
    all->first = is_first ? one.first : least(all->first, one.first);
    all->pages = is_first ? one.pages : least(all->pages, one.pages);
    all->later = is_first ? one.later : least(all->later, one.later);
}

int main(int argc, char **argv) {
    if (argc != 2)
        return 2;
    read_all();
    FILE *told = fdopen(dup(1), "w");
    int nowhere = open("/dev/null", O_WRONLY);
    if (told == NULL || nowhere < 0 || dup2(nowhere, 1) < 0)
        return 3;
    if (strcmp(argv[1], "adf") == 0)
        return run_adf(), 0;
    struct took adf = {0};
#ifdef TWIN
    if (strcmp(argv[1], "c") == 0)
        return run_c(), 0;
    struct took c = {0};
#endif
    for (int i = 0; i < atoi(argv[1]); i++) {
#ifdef TWIN
        note(&c, in_child(run_c), i == 0);
#endif
        note(&adf, in_child(run_adf), i == 0);
    }
    fprintf(told, "%ld %ld %ld\n", adf.first, adf.pages, adf.later);
#ifdef TWIN
    fprintf(told, "%ld %ld %ld\n", c.first, c.pages, c.later);
#endif
    return fclose(told) != 0;
}
