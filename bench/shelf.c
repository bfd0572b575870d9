/* The loop that bench/shelf sets beside adf-shelf: opens each image that is named on standard input, the names ended by zero
 * bytes, reads it into one buffer, and checks it. Writes a line for each, with no escapes. */
#define _POSIX_C_SOURCE 200809L

#include <fcntl.h>
#include <stdio.h>
#include <stdlib.h>
#include <unistd.h>

#include "adf.h"

/* The bytes of a file, at the front of a buffer that grows; -1 where it cannot be read. */
static ssize_t read_whole(const char *name, uint8_t **buffer, size_t *room) {
    int file = open(name, O_RDONLY);
    size_t length = 0;
    ssize_t count = -1;

    while (file >= 0) {
        if (length == *room) {
            *room = *room ? 2 * *room : 1 << 20;
            *buffer = realloc(*buffer, *room);
            if (!*buffer)
                exit(3);
        }
        count = read(file, *buffer + length, *room - length);
        if (count <= 0)
            break;
        length += (size_t)count;
    }
    if (file >= 0)
        close(file);
    return count == 0 ? (ssize_t)length : -1;
}

int main(void) {
    uint8_t *buffer = NULL;
    char *name = NULL;
    size_t room = 0, name_room = 0;

    while (getdelim(&name, &name_room, 0, stdin) > 0) {
        struct adf_verdict verdict = {0};
        ssize_t length = read_whole(name, &buffer, &room);
        if (length < 0)
            printf("%s\tread fault\n", name);
        else if (length == 0)
            printf("%s\tempty\n", name);
        else
            printf("%s\t%d %u\n", name, adf_check(buffer, (size_t)length, &verdict), verdict.block);
        fflush(stdout);
    }
    free(name);
    free(buffer);
    return 0;
}
