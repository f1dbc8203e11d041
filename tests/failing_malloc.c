// Preloaded into a program, it refuses memory to the program. Each call that asks for memory is a growth.
//
// From outside: the environment's FAIL_AT is the number of the growth that is refused, counted from 1 when the program begins.
// The file FAIL_NOTE is made then. If the file is missing, no growth had that number.
//
// From inside, by paths that the program opens and that don't exist:
//   /refused-memory/once/N   growths are counted from 1 again, and the Nth is refused
//   /refused-memory/on/N     the Nth is refused, and each later one
//   /refused-memory/asked    none is refused any more; the answer is EACCES if one was refused since such a path, otherwise ENOENT
// Each of them appends a line to the file FAIL_LOG: how many growths there were since the path before, and how many of them
// were refused.
#define _GNU_SOURCE
#include <dlfcn.h>
#include <errno.h>
#include <fcntl.h>
#include <stdarg.h>
#include <stddef.h>
#include <stdio.h>
#include <stdlib.h>
#include <string.h>
#include <unistd.h>

extern void *__libc_malloc(size_t size);
extern void *__libc_calloc(size_t count, size_t size);
extern void *__libc_realloc(void *held, size_t size);
extern void *__libc_memalign(size_t align, size_t size);

static const char once[] = "/refused-memory/once/", on[] = "/refused-memory/on/", asked[] = "/refused-memory/asked";
static long calls, fail_at, refusals;
static int goes_on;

__attribute__((constructor)) static void begin(void) {
    const char *number = getenv("FAIL_AT");
    fail_at = number ? atol(number) : 0;
    calls = 0;
}

static int opened(const char *path, int flags, int mode) {
    int (*real)(const char *, int, ...) = dlsym(RTLD_NEXT, "open");
    return real(path, flags, mode);
}

static int refused(void) {
    ++calls;
    if (fail_at == 0 || calls < fail_at || (calls > fail_at && !goes_on)) return 0;
    const char *note = getenv("FAIL_NOTE");
    if (note && refusals == 0) close(opened(note, O_CREAT | O_WRONLY, 0600));
    ++refusals;
    errno = ENOMEM;
    return 1;
}

void *malloc(size_t size) { return refused() ? NULL : __libc_malloc(size); }
void *calloc(size_t count, size_t size) { return refused() ? NULL : __libc_calloc(count, size); }
void *realloc(void *held, size_t size) { return refused() ? NULL : __libc_realloc(held, size); }
void *aligned_alloc(size_t align, size_t size) { return refused() ? NULL : __libc_memalign(align, size); }

int posix_memalign(void **out, size_t align, size_t size) {
    if (refused()) return ENOMEM;
    void *held = __libc_memalign(align, size);
    if (!held) return ENOMEM;
    *out = held;
    return 0;
}

// From now on, this growth is refused. For 0, none is.
static void count_anew(long number, int more) {
    const char *log = getenv("FAIL_LOG");
    fail_at = 0;
    if (log) {
        char line[64];
        int size = snprintf(line, sizeof line, "%ld %ld\n", calls, refusals);
        int file = opened(log, O_CREAT | O_APPEND | O_WRONLY, 0600);
        if (write(file, line, size) != size) abort();
        close(file);
    }
    calls = refusals = 0;
    goes_on = more;
    fail_at = number;
}

int open(const char *path, int flags, ...) {
    va_list rest;
    va_start(rest, flags);
    int mode = va_arg(rest, int);
    va_end(rest);
    if (strncmp(path, once, sizeof once - 1) == 0) {
        count_anew(atol(path + sizeof once - 1), 0);
    } else if (strncmp(path, on, sizeof on - 1) == 0) {
        count_anew(atol(path + sizeof on - 1), 1);
    } else if (strcmp(path, asked) == 0) {
        long had = refusals;
        count_anew(0, 0);
        errno = had ? EACCES : ENOENT;
        return -1;
    }
    return opened(path, flags, mode);
}
