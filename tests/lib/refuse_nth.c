// Loaded before the C library (LD_PRELOAD), it refuses the allocation whose number is in REFUSE, of those
// that the program itself asks for, and says so on standard error by the line "[refused]". The signal SIGUSR1 has it
// refuse all from then on, and SIGUSR2 none any more.
#define _GNU_SOURCE
#include <dlfcn.h>
#include <signal.h>
#include <stdatomic.h>
#include <stdlib.h>
#include <string.h>
#include <unistd.h>

static atomic_long asked;
static atomic_int refuses_all;
static long number;

static void hear(int signal) {
    atomic_store(&refuses_all, signal == SIGUSR1);
}

__attribute__((constructor)) static void begin(void) {
    const char *text = getenv("REFUSE");
    number = text == NULL ? 0 : atol(text);
    struct sigaction action = {.sa_handler = hear, .sa_flags = SA_RESTART};
    sigaction(SIGUSR1, &action, NULL);
    sigaction(SIGUSR2, &action, NULL);
}

static int is_refused(void *caller) {
    Dl_info from;
    if (!dladdr(caller, &from) || from.dli_fname == NULL || strstr(from.dli_fname, ".so") != NULL)
        return 0;
    long at = atomic_fetch_add(&asked, 1) + 1;
    if (at != number && !atomic_load(&refuses_all))
        return 0;
    return write(2, "[refused]\n", 10) == 10;
}

void *malloc(size_t size) {
    static void *(*real)(size_t);
    if (real == NULL)
        real = dlsym(RTLD_NEXT, "malloc");
    return is_refused(__builtin_return_address(0)) ? NULL : real(size);
}

void *realloc(void *old, size_t size) {
    static void *(*real)(void *, size_t);
    if (real == NULL)
        real = dlsym(RTLD_NEXT, "realloc");
    return is_refused(__builtin_return_address(0)) ? NULL : real(old, size);
}
