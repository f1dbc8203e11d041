// Preloaded into a program, it is a pair of disks for the database at the path DISK_OF and for its log, of which FAILING, `database`
// or `log`, fails: of the calls that read, write, measure, cut or sync the file, FAIL_AFTER pass, and each later one fails. What was
// synced of a file is copied beside it, with `.synced` behind its name: that is what a machine has which stops.
#define _GNU_SOURCE
#include <dlfcn.h>
#include <errno.h>
#include <fcntl.h>
#include <stdio.h>
#include <stdlib.h>
#include <string.h>
#include <sys/stat.h>
#include <unistd.h>

enum { PATH = 4096 };

static long calls;

// Puts the path of an open file into `path`. Whether it is that of the database, or with -wal behind that of its log.
static int is_ours(int file, char *path, int *is_log) {
    const char *database = getenv("DISK_OF");
    char link[64];
    snprintf(link, sizeof link, "/proc/self/fd/%d", file);
    ssize_t size = database ? readlink(link, path, PATH - 8) : -1;
    if (size < 0) return 0;
    path[size] = 0;
    size_t length = strlen(database);
    if (strncmp(path, database, length)) return 0;
    *is_log = strcmp(path + length, "-wal") == 0;
    return *is_log || path[length] == 0;
}

static int fails(int file) {
    char path[PATH];
    int is_log;
    if (!is_ours(file, path, &is_log)) return 0;
    if (is_log != (strcmp(getenv("FAILING"), "log") == 0) || calls++ < atol(getenv("FAIL_AFTER"))) return 0;
    errno = EIO;
    return 1;
}

static void *next(const char *name) {
    return dlsym(RTLD_NEXT, name);
}

// Copies a file that was just synced.
static void keep(int file) {
    static char room[1 << 16];
    char path[PATH];
    int is_log;
    if (!is_ours(file, path, &is_log)) return;
    ssize_t (*read_at)(int, void *, size_t, off_t) = next("pread"), got;
    int copy = open(strcat(path, ".synced"), O_WRONLY | O_CREAT | O_TRUNC, 0600);
    for (off_t place = 0; (got = read_at(file, room, sizeof room, place)) > 0; place += got)
        if (write(copy, room, got) != got) abort();
    close(copy);
}

ssize_t pread(int file, void *bytes, size_t size, off_t place) {
    ssize_t (*call)(int, void *, size_t, off_t) = next("pread");
    return fails(file) ? -1 : call(file, bytes, size, place);
}

ssize_t pwrite(int file, const void *bytes, size_t size, off_t place) {
    ssize_t (*call)(int, const void *, size_t, off_t) = next("pwrite");
    return fails(file) ? -1 : call(file, bytes, size, place);
}

int ftruncate(int file, off_t size) {
    int (*call)(int, off_t) = next("ftruncate");
    return fails(file) ? -1 : call(file, size);
}

int fstat(int file, struct stat *told) {
    int (*call)(int, struct stat *) = next("fstat");
    return fails(file) ? -1 : call(file, told);
}

static int synced(int file, const char *name) {
    int (*call)(int) = next(name);
    if (fails(file)) return -1;
    int done = call(file);
    if (done == 0) keep(file);
    return done;
}

int fsync(int file) {
    return synced(file, "fsync");
}

int fdatasync(int file) {
    return synced(file, "fdatasync");
}
