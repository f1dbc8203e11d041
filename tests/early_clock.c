// Preloaded into a program, it sets the machine's clock to a moment before 1970. The other clocks run as usual.
#define _GNU_SOURCE
#include <sys/syscall.h>
#include <time.h>
#include <unistd.h>

int clock_gettime(clockid_t clock, struct timespec *moment) {
    int failed = syscall(SYS_clock_gettime, clock, moment);
    if (failed == 0 && clock == CLOCK_REALTIME) moment->tv_sec = -86400;
    return failed;
}
