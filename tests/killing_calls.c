// Preloaded into a program, it kills the program at one of its calls that change a file: the call with the number
// KILL_AT, counted from 1. If that call writes at a place of a file, half of its bytes are written before that.
#define _GNU_SOURCE
#include <dlfcn.h>
#include <signal.h>
#include <stdlib.h>
#include <unistd.h>

static long calls;

static int is_last(void) {
    const char *number = getenv("KILL_AT");
    return ++calls == (number ? atol(number) : 0);
}

static void end(void) {
    raise(SIGKILL);
}

ssize_t pwrite(int file, const void *bytes, size_t size, off_t place) {
    ssize_t (*written)(int, const void *, size_t, off_t) = dlsym(RTLD_NEXT, "pwrite");
    if (!is_last()) return written(file, bytes, size, place);
    written(file, bytes, size / 2, place);
    end();
    return -1;
}

int ftruncate(int file, off_t size) {
    int (*cut)(int, off_t) = dlsym(RTLD_NEXT, "ftruncate");
    if (is_last()) end();
    return cut(file, size);
}

int fsync(int file) {
    int (*kept)(int) = dlsym(RTLD_NEXT, "fsync");
    if (is_last()) end();
    return kept(file);
}

int fdatasync(int file) {
    int (*kept)(int) = dlsym(RTLD_NEXT, "fdatasync");
    if (is_last()) end();
    return kept(file);
}
