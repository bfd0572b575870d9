#define _GNU_SOURCE
#include "unpacking.h"

#include "names.h"
#include "volume.h"

#include <errno.h>
#include <fcntl.h>
#include <sched.h>
#include <signal.h>
#include <stdio.h>
#include <stdlib.h>
#include <string.h>
#include <sys/resource.h>
#include <sys/wait.h>
#include <time.h>
#include <unistd.h>

/* What the program that unpacks may use, and what is read of it. */
enum {
    MOST_DMS = 16 << 20,
    MOST_MEMORY = 256 << 20,
    MOST_SECONDS = 60,
    MOST_LINE = 200,
    NO_PROCESS = 126,
    NO_PROGRAM = 127,
    STEPS = 100
};

static const char PACKED[] = "disk.dms", DISK[] = "disk.adf", ERRORS[] = "errors";

/* Copies a file from its begin into another: how many bytes, one more than the most if there are more, or -1. */
static ssize_t copy_file(int from, int to) {
    char *room = malloc(PART);
    ssize_t whole = 0, count = room == NULL ? -1 : 0;
    while (room != NULL && whole <= MOST_DMS && (count = pread(from, room, PART, whole)) > 0) {
        whole += count;
        if (!write_all(to, room, (size_t)count)) {
            count = -1;
            break;
        }
    }
    free(room);
    return count < 0 ? -1 : whole;
}

static void limit(int what, rlim_t most) {
    struct rlimit own;
    if (getrlimit(what, &own) == 0) {
        rlim_t least = own.rlim_max == RLIM_INFINITY || own.rlim_max > most ? most : own.rlim_max;
        setrlimit(what, &(struct rlimit){least, least});
    }
}

/* Becomes the program that unpacks in a folder, in a group of its own, without an environment and, where the system gives a name
 * space, without a network, within limits. */
static void become_unpacker(int folder) {
    char *words[] = {"ancient", "decompress", (char *)PACKED, (char *)DISK, NULL}, *nothing[] = {NULL};
    int null = open("/dev/null", O_RDWR), errors = openat(folder, ERRORS, O_WRONLY | O_CREAT | O_EXCL, 0600);
    setsid();
    limit(RLIMIT_FSIZE, MOST_DMS);
    limit(RLIMIT_AS, MOST_MEMORY);
    limit(RLIMIT_CPU, MOST_SECONDS);
    limit(RLIMIT_CORE, 0);
    if (unshare(CLONE_NEWUSER | CLONE_NEWNET) != 0)
        (void)unshare(CLONE_NEWNET);
    if (null >= 0 && errors >= 0 && fchdir(folder) == 0 && dup2(null, 0) == 0 && dup2(null, 1) == 1 && dup2(errors, 2) == 2)
        execvpe(words[0], words, nothing);
    _exit(NO_PROGRAM);
}

/* Whether a process has ended. It stays known to the system, so that its group is no other one. */
static bool has_ended(pid_t child) {
    siginfo_t told = {.si_pid = 0};
    return waitid(P_PID, (id_t)child, &told, WEXITED | WNOHANG | WNOWAIT) == 0 && told.si_pid == child;
}

/* Runs the program that unpacks in a folder, and ends all that it started: its status as of waitpid, or -1 if it took too long. */
static int run_unpacker(int folder) {
    int status = -1, step = 0;
    pid_t child = fork();
    if (child == 0)
        become_unpacker(folder);
    if (child < 0)
        return NO_PROCESS << 8;
    for (; step < MOST_SECONDS * STEPS && !has_ended(child); step++)
        nanosleep(&(struct timespec){.tv_nsec = 1000000000L / STEPS}, NULL);
    kill(-child, SIGKILL);
    waitpid(child, &status, 0);
    return step < MOST_SECONDS * STEPS ? status : -1;
}

/* Says what the program says of a file that it does not unpack: its first line, or how it ended. */
static int say_unpacker(int folder, const char *name, int status) {
    char text[MOST_LINE + 1] = "", why[4 * MOST_LINE + 64];
    int errors = openat(folder, ERRORS, O_RDONLY | O_NOFOLLOW | O_CLOEXEC);
    ssize_t count = errors < 0 ? 0 : read(errors, text, MOST_LINE);
    if (errors >= 0)
        close(errors);
    text[count < 0 ? 0 : count] = '\0';
    text[strcspn(text, "\n")] = '\0';
    char *line = host_line(text);
    if (WIFEXITED(status) && WEXITSTATUS(status) == NO_PROGRAM)
        strcpy(why, "packed by DMS: ancient (Debian's) is needed to read it");
    else if (status == -1)
        snprintf(why, sizeof why, "ancient: stopped after %d seconds", MOST_SECONDS);
    else if (line != NULL && *line != '\0')
        snprintf(why, sizeof why, "ancient: %s", line);
    else if (WIFSIGNALED(status))
        snprintf(why, sizeof why, "ancient: stopped by signal %d", WTERMSIG(status));
    else
        snprintf(why, sizeof why, "ancient: status %d", WEXITSTATUS(status));
    free(line);
    return say(name, why, FAILED);
}

/* Unpacks a file of DMS in an empty folder. */
static int unpack_in(int folder, int file, int unpacked, const char *name) {
    int packed = openat(folder, PACKED, O_WRONLY | O_CREAT | O_EXCL | O_CLOEXEC, 0600);
    ssize_t count = packed < 0 ? -1 : copy_file(file, packed);
    if (packed >= 0)
        close(packed);
    if (count < 0)
        return say(name, strerror(errno), FAILED);
    if (count > MOST_DMS)
        return say(name, "DMS of more than 16777216 bytes is not unpacked", FAILED);
    int status = run_unpacker(folder);
    if (status != 0)
        return say_unpacker(folder, name, status);
    int disk = openat(folder, DISK, O_RDONLY | O_NOFOLLOW | O_NONBLOCK | O_CLOEXEC);
    count = disk < 0 ? -1 : copy_file(disk, unpacked);
    if (disk >= 0)
        close(disk);
    return count < 0 ? say(name, "ancient: it wrote no disk", FAILED) : SOUND;
}

int unpack_dms(int file, int unpacked, const char *name) {
    const char *above = getenv("TMPDIR");
    char *path = NULL;
    if (asprintf(&path, "%s/adf-mount.XXXXXX", above == NULL || *above == '\0' ? "/tmp" : above) < 0)
        return FAILED;
    int folder = mkdtemp(path) == NULL ? -1 : open(path, O_RDONLY | O_DIRECTORY | O_CLOEXEC);
    int status = folder < 0 ? say(name, strerror(errno), FAILED) : unpack_in(folder, file, unpacked, name);
    if (folder >= 0) {
        unlinkat(folder, PACKED, 0);
        unlinkat(folder, DISK, 0);
        unlinkat(folder, ERRORS, 0);
        close(folder);
        rmdir(path);
    }
    free(path);
    return status;
}
