// Loaded before the C library (LD_PRELOAD), it has one call of the system fail, of those that the program itself makes:
//
//   FAIL_CALL   the call's name
//   FAIL_AT     the number of its first call that fails, from 1; the calls of all threads are counted together
//   FAIL_TIMES  how many fail from there on (1 if it isn't set)
//   FAIL_PERIOD if it isn't 0, each thread counts its own calls, and of each so many the first FAIL_TIMES fail
//   FAIL_WITH   the error's number; 0 has a read or a write take one byte alone; -1 is a lie: nothing is done, and all of it told; -2 has a
//               read or a write take all but its last byte, and the next one of that socket find nothing ready
//
// "[failed]" on standard error says that a call failed, once. A call that fails as if nothing were ready (EAGAIN, ENOTCONN) has the poller told
// of the socket once more, as the system tells of what becomes ready later: a poller of edges would wait for ever else.
// So has a read or a write that took one byte: by epoll(7) one that comes short has used up what was there, and what is left came later.
// A failed accept takes its connection off the queue where the error says that it is gone.
#define _GNU_SOURCE
#include <dlfcn.h>
#include <errno.h>
#include <fcntl.h>
#include <netdb.h>
#include <pthread.h>
#include <stdarg.h>
#include <stdatomic.h>
#include <stdlib.h>
#include <string.h>
#include <sys/epoll.h>
#include <sys/eventfd.h>
#include <sys/socket.h>
#include <sys/stat.h>
#include <sys/types.h>
#include <time.h>
#include <unistd.h>

#define MOST_SOCKETS 4096
#define ALL_BUT_THE_LAST -2
// What a waker writes and reads, which the system takes whole or not at all.
#define EVENT_BYTES 8

static const char *failing;
static long first, times, period, error;
static atomic_long asked;
static _Thread_local long asked_here;
static atomic_int was_told;

static struct {
    int poller;
    struct epoll_event event;
} told_of[MOST_SOCKETS];

// Of which sockets a call took all but the last byte, and the next one hasn't come yet.
static atomic_int was_cut[MOST_SOCKETS];

static long number_of(const char *name, long otherwise) {
    const char *text = getenv(name);
    return text == NULL ? otherwise : atol(text);
}

__attribute__((constructor)) static void begin(void) {
    failing = getenv("FAIL_CALL");
    first = number_of("FAIL_AT", 1);
    times = number_of("FAIL_TIMES", 1);
    period = number_of("FAIL_PERIOD", 0);
    error = number_of("FAIL_WITH", 0);
}

static void *real(const char *name) {
    return dlsym(RTLD_NEXT, name);
}

static void tell(void) {
    static ssize_t (*real_write)(int, const void *, size_t);
    if (atomic_exchange(&was_told, 1) == 0) {
        if (real_write == NULL)
            real_write = real("write");
        real_write(2, "[failed]\n", 9);
    }
}

// Whether this call is to fail. Of calls that aren't the program's own none is counted.
static int is_failed(const char *name, void *caller) {
    Dl_info from;
    if (failing == NULL || strcmp(failing, name) != 0)
        return 0;
    if (!dladdr(caller, &from) || from.dli_fname == NULL || strstr(from.dli_fname, ".so") != NULL)
        return 0;
    long at = period == 0 ? atomic_fetch_add(&asked, 1) + 1 - first : asked_here++ % period;
    if (at < 0 || at >= times)
        return 0;
    tell();
    return 1;
}

static void tell_again(int fd) {
    static int (*real_ctl)(int, int, int, struct epoll_event *);
    if (real_ctl == NULL)
        real_ctl = real("epoll_ctl");
    if (fd >= 0 && fd < MOST_SOCKETS && told_of[fd].poller > 0)
        real_ctl(told_of[fd].poller, EPOLL_CTL_MOD, fd, &told_of[fd].event);
}

static int fail(int fd) {
    if (error == -1)
        return 0;
    if (error == EAGAIN || error == ENOTCONN)
        tell_again(fd);
    errno = (int)error;
    return -1;
}

// Whether a call of so many bytes at a socket finds nothing ready, since the one before took all but the last byte; else how many it takes.
static int is_cut_off(int fd, size_t *count) {
    if (fd < 0 || fd >= MOST_SOCKETS)
        return 0;
    if (atomic_exchange(&was_cut[fd], 0)) {
        errno = EAGAIN;
        tell_again(fd);
        return 1;
    }
    if (*count > 1 && *count != EVENT_BYTES) {
        atomic_store(&was_cut[fd], 1);
        *count -= 1;
    }
    return 0;
}

#define CALLER __builtin_return_address(0)

// A call that fails without having been made.
#define FAILS(result, name, fd, parameters, ...)                                                                       \
    result name parameters {                                                                                           \
        static result(*it) parameters;                                                                                 \
        if (it == NULL)                                                                                                \
            it = real(#name);                                                                                          \
        return is_failed(#name, CALLER) ? (result)fail(fd) : it(__VA_ARGS__);                                          \
    }

// A call that moves so many bytes, or one alone.
#define MOVES(name, fd, count, parameters, ...)                                                                        \
    ssize_t name parameters {                                                                                          \
        static ssize_t(*it) parameters;                                                                                \
        if (it == NULL)                                                                                                \
            it = real(#name);                                                                                          \
        if (is_failed(#name, CALLER)) {                                                                                \
            if (error == ALL_BUT_THE_LAST)                                                                             \
                return is_cut_off(fd, &count) ? -1 : it(__VA_ARGS__);                                                  \
            if (error != 0)                                                                                            \
                return error < 0 ? (ssize_t)count : fail(fd);                                                          \
            if (count > 1 && count != EVENT_BYTES) {                                                                   \
                count = 1;                                                                                             \
                ssize_t moved = it(__VA_ARGS__);                                                                       \
                tell_again(fd);                                                                                        \
                return moved;                                                                                          \
            }                                                                                                          \
        }                                                                                                              \
        return it(__VA_ARGS__);                                                                                        \
    }

MOVES(recv, fd, size, (int fd, void *buf, size_t size, int flags), fd, buf, size, flags)
MOVES(send, fd, size, (int fd, const void *buf, size_t size, int flags), fd, buf, size, flags)
MOVES(recvfrom, fd, size, (int fd, void *buf, size_t size, int flags, struct sockaddr *from, socklen_t *length), fd, buf, size,
      flags, from, length)
MOVES(sendto, fd, size, (int fd, const void *buf, size_t size, int flags, const struct sockaddr *to, socklen_t length), fd, buf,
      size, flags, to, length)
MOVES(read, fd, size, (int fd, void *buf, size_t size), fd, buf, size)
MOVES(write, fd, size, (int fd, const void *buf, size_t size), fd, buf, size)

FAILS(int, socket, -1, (int domain, int type, int protocol), domain, type, protocol)
FAILS(int, bind, fd, (int fd, const struct sockaddr *at, socklen_t length), fd, at, length)
FAILS(int, shutdown, fd, (int fd, int how), fd, how)
FAILS(int, connect, fd, (int fd, const struct sockaddr *to, socklen_t length), fd, to, length)
FAILS(int, setsockopt, fd, (int fd, int level, int name, const void *value, socklen_t size), fd, level, name, value, size)
FAILS(int, getsockopt, fd, (int fd, int level, int name, void *value, socklen_t *size), fd, level, name, value, size)
FAILS(int, getpeername, fd, (int fd, struct sockaddr *to, socklen_t *size), fd, to, size)
FAILS(int, getsockname, fd, (int fd, struct sockaddr *at, socklen_t *size), fd, at, size)
FAILS(int, statx, -1, (int at, const char *path, int flags, unsigned mask, struct statx *found), at, path, flags, mask, found)
FAILS(int, unlink, -1, (const char *path), path)
FAILS(int, chmod, -1, (const char *path, mode_t mode), path, mode)
FAILS(int, epoll_create1, -1, (int flags), flags)
FAILS(int, eventfd, -1, (unsigned count, int flags), count, flags)
FAILS(int, epoll_wait, -1, (int poller, struct epoll_event *events, int most, int ms), poller, events, most, ms)
FAILS(int, nanosleep, -1, (const struct timespec *time, struct timespec *left), time, left)

// Its manual names an error of internet sockets alone.
int listen(int fd, int most) {
    static int (*it)(int, int);
    if (it == NULL)
        it = real("listen");
    int domain = AF_UNIX;
    socklen_t size = sizeof domain;
    getsockopt(fd, SOL_SOCKET, SO_DOMAIN, &domain, &size);
    return domain != AF_UNIX && is_failed("listen", CALLER) ? fail(fd) : it(fd, most);
}

// The program gives each of its calls a number as the third word.
int fcntl(int fd, int what, ...) {
    static int (*it)(int, int, ...);
    va_list rest;
    va_start(rest, what);
    long number = va_arg(rest, long);
    va_end(rest);
    if (it == NULL)
        it = real("fcntl");
    return is_failed("fcntl", CALLER) ? fail(fd) : it(fd, what, number);
}

int epoll_ctl(int poller, int what, int fd, struct epoll_event *event) {
    static int (*it)(int, int, int, struct epoll_event *);
    if (it == NULL)
        it = real("epoll_ctl");
    if (is_failed("epoll_ctl", CALLER))
        return fail(-1);
    if (what != EPOLL_CTL_DEL && event != NULL && fd >= 0 && fd < MOST_SOCKETS) {
        told_of[fd].event = *event;
        told_of[fd].poller = poller;
    }
    return it(poller, what, fd, event);
}

int close(int fd) {
    static int (*it)(int);
    if (it == NULL)
        it = real("close");
    if (fd >= 0 && fd < MOST_SOCKETS)
        told_of[fd].poller = 0;
    int is_failing = is_failed("close", CALLER);
    if (is_failing && error < 0)
        return 0;
    // A descriptor is given back, whatever the answer is.
    int done = it(fd);
    return is_failing ? fail(-1) : done;
}

int accept4(int fd, struct sockaddr *from, socklen_t *length, int flags) {
    static int (*it)(int, struct sockaddr *, socklen_t *, int);
    static int (*real_close)(int);
    if (it == NULL) {
        it = real("accept4");
        real_close = real("close");
    }
    if (!is_failed("accept4", CALLER))
        return it(fd, from, length, flags);
    if (error == ECONNABORTED || error == EPERM || error == EPROTO) {
        int gone = it(fd, from, length, flags);
        if (gone >= 0)
            real_close(gone);
    }
    return fail(fd);
}

int pthread_create(pthread_t *thread, const pthread_attr_t *with, void *(*run)(void *), void *value) {
    static int (*it)(pthread_t *, const pthread_attr_t *, void *(*)(void *), void *);
    if (it == NULL)
        it = real("pthread_create");
    return is_failed("pthread_create", CALLER) ? (int)error : it(thread, with, run, value);
}

// Its errors are numbers of their own, below 0; here each is given without its sign.
int getaddrinfo(const char *name, const char *service, const struct addrinfo *hints, struct addrinfo **found) {
    static int (*it)(const char *, const char *, const struct addrinfo *, struct addrinfo **);
    if (it == NULL)
        it = real("getaddrinfo");
    return is_failed("getaddrinfo", CALLER) ? -(int)error : it(name, service, hints, found);
}
