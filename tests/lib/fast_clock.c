// Loaded before the C library (LD_PRELOAD), it has the monotonic clock go as many times as fast as FAST says, from the
// program's first look at it on, and each look at it take LOOK_MS milliseconds. What the system itself waits for takes as
// long as ever.
#define _GNU_SOURCE
#include <stdlib.h>
#include <sys/syscall.h>
#include <time.h>
#include <unistd.h>

static const long long SECOND = 1000000000, MS = 1000000;
static long long began, factor, look_ms;

static long long real_now(void) {
    struct timespec now;
    syscall(SYS_clock_gettime, CLOCK_MONOTONIC, &now);
    return now.tv_sec * SECOND + now.tv_nsec;
}

static long long number_of(const char *name, long long otherwise) {
    const char *text = getenv(name);
    return text == NULL ? otherwise : atoll(text);
}

__attribute__((constructor)) static void begin(void) {
    factor = number_of("FAST", 1);
    look_ms = number_of("LOOK_MS", 0);
    began = real_now();
}

int clock_gettime(clockid_t clock, struct timespec *now) {
    if (clock != CLOCK_MONOTONIC)
        return (int)syscall(SYS_clock_gettime, clock, now);
    if (look_ms > 0) {
        struct timespec look = {look_ms / 1000, look_ms % 1000 * MS};
        syscall(SYS_nanosleep, &look, NULL);
    }
    long long told = began + (real_now() - began) * factor;
    now->tv_sec = told / SECOND;
    now->tv_nsec = told % SECOND;
    return 0;
}
