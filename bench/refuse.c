/* Refuses one call of the C library in the program that loads this (LD_PRELOAD): REFUSE=KIND:N, KIND grow, read, write or full.
   grow: the Nth malloc or realloc; read, write: the Nth read or write fails; full: the Nth write takes 0 bytes. SHORT=1: each read
   and each write moves one byte. REPORT=FILE: how many calls of that kind there were is written there at the end. */
#define _GNU_SOURCE
#include <dlfcn.h>
#include <errno.h>
#include <fcntl.h>
#include <stdio.h>
#include <stdlib.h>
#include <string.h>
#include <unistd.h>

static char kind[8];
static long at, calls;
static int is_short, is_ready;

static void begin(void) {
    const char *refuse = getenv("REFUSE");
    is_ready = 1;
    if (refuse) {
        sscanf(refuse, "%7[a-z]:%ld", kind, &at);
    }
    is_short = getenv("SHORT") != NULL;
}

static int refused(const char *name) {
    if (!is_ready)
        begin();
    return strcmp(kind, name) == 0 && ++calls == at;
}

__attribute__((destructor)) static void report(void) {
    const char *file = getenv("REPORT");
    if (!file)
        return;
    char text[32];
    int length = snprintf(text, sizeof text, "%ld", calls);
    int out = open(file, O_WRONLY | O_CREAT | O_TRUNC, 0600);
    ssize_t (*real)(int, const void *, size_t) = dlsym(RTLD_NEXT, "write");
    if (out >= 0)
        real(out, text, length);
}

void *malloc(size_t size) {
    static void *(*real)(size_t);
    if (!real)
        real = dlsym(RTLD_NEXT, "malloc");
    if (refused("grow")) {
        errno = ENOMEM;
        return NULL;
    }
    return real(size);
}

void *realloc(void *old, size_t size) {
    static void *(*real)(void *, size_t);
    if (!real)
        real = dlsym(RTLD_NEXT, "realloc");
    if (refused("grow")) {
        errno = ENOMEM;
        return NULL;
    }
    return real(old, size);
}

ssize_t read(int from, void *into, size_t size) {
    static ssize_t (*real)(int, void *, size_t);
    if (!real)
        real = dlsym(RTLD_NEXT, "read");
    if (refused("read")) {
        errno = EIO;
        return -1;
    }
    return real(from, into, is_short && size > 1 ? 1 : size);
}

ssize_t write(int to, const void *bytes, size_t size) {
    static ssize_t (*real)(int, const void *, size_t);
    if (!real)
        real = dlsym(RTLD_NEXT, "write");
    if (to == 1 && refused("write")) {
        errno = EIO;
        return -1;
    }
    if (to == 1 && refused("full"))
        return 0;
    return real(to, bytes, is_short && size > 1 ? 1 : size);
}

ssize_t __write(int to, const void *bytes, size_t size) { return write(to, bytes, size); }
