// Loaded before the C library (LD_PRELOAD), it has the process close a descriptor of its own at SIGUSR1, whose value (sigqueue)
// is the descriptor's number. Who waits at it goes on waiting; the next call that is made with it fails.
#define _GNU_SOURCE
#include <errno.h>
#include <signal.h>
#include <unistd.h>

static void close_told(int signal, siginfo_t *told, void *context) {
    (void)signal, (void)context;
    int before = errno;
    close(told->si_value.sival_int);
    errno = before;
}

__attribute__((constructor)) static void begin(void) {
    struct sigaction how = {.sa_sigaction = close_told, .sa_flags = SA_SIGINFO | SA_RESTART};
    sigaction(SIGUSR1, &how, NULL);
}
