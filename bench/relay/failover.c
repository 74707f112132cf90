/* The targets and the clients of failover.py.
 *
 *     failover target PORT BACKLOG                 sends back what comes, and prints `ready` once it listens. At the signal USR2 it takes
 *                                                  nobody more, fills its own queue, and prints `full`
 *     failover load PORT RATE SECONDS PATIENCE     begins RATE requests a second, whatever became of those before, and prints a line for
 *                                                  each once all have ended: `MOMENT LATE WORD`, its moment by the system's clock and
 *                                                  how long after it it ended, in microseconds, and how it did
 *
 * A request is a connection, a byte there and back, and its end. One that isn't answered PATIENCE seconds after its moment is given up.
 */
#define _GNU_SOURCE
#include <arpa/inet.h>
#include <errno.h>
#include <netinet/tcp.h>
#include <signal.h>
#include <stdint.h>
#include <stdio.h>
#include <stdlib.h>
#include <string.h>
#include <sys/epoll.h>
#include <sys/resource.h>
#include <sys/socket.h>
#include <time.h>
#include <unistd.h>

enum { EVENTS = 256, FILLING = 4 };

static void fail(const char *text) {
    fprintf(stderr, "failover: %s: %s\n", text, strerror(errno));
    exit(1);
}

static uint64_t now(void) {
    struct timespec t;
    clock_gettime(CLOCK_MONOTONIC, &t);
    return (uint64_t)t.tv_sec * 1000000u + (uint64_t)t.tv_nsec / 1000u;
}

static struct sockaddr_in loopback(int port) {
    struct sockaddr_in at = {.sin_family = AF_INET, .sin_port = htons((uint16_t)port), .sin_addr.s_addr = htonl(INADDR_LOOPBACK)};
    return at;
}

static int new_socket(void) {
    int fd = socket(AF_INET, SOCK_STREAM | SOCK_NONBLOCK | SOCK_CLOEXEC, 0), one = 1;
    if (fd < 0) fail("socket");
    setsockopt(fd, IPPROTO_TCP, TCP_NODELAY, &one, sizeof one);
    return fd;
}

static void watch(int poll, int how, int fd, uint32_t events, uint64_t name) {
    struct epoll_event event = {.events = events, .data.u64 = name};
    if (epoll_ctl(poll, how, fd, &event) < 0) fail("epoll_ctl");
}

static void say(const char *word) {
    printf("%s\n", word);
    fflush(stdout);
}

/* A target. */

static volatile sig_atomic_t is_told;

static void told(int number) {
    (void)number;
    is_told = 1;
}

static int listening(int port, int backlog) {
    struct sockaddr_in at = loopback(port);
    int fd = new_socket(), one = 1;
    setsockopt(fd, SOL_SOCKET, SO_REUSEADDR, &one, sizeof one);
    if (bind(fd, (void *)&at, sizeof at) < 0 || listen(fd, backlog) < 0) fail("listen");
    return fd;
}

static void take_nobody_more(int poll, int fd, int port) {
    struct sockaddr_in at = loopback(port);
    epoll_ctl(poll, EPOLL_CTL_DEL, fd, NULL);
    if (listen(fd, 0) < 0) fail("listen");
    for (int filled = 0; filled < FILLING; filled++) connect(new_socket(), (void *)&at, sizeof at);
    say("full");
}

static void echo(int fd) {
    char bytes[4096];
    ssize_t count = recv(fd, bytes, sizeof bytes, 0);
    if (count < 0 && (errno == EAGAIN || errno == EINTR)) return;
    if (count <= 0 || send(fd, bytes, (size_t)count, MSG_NOSIGNAL) != count) close(fd);
}

static void target(int port, int backlog) {
    struct epoll_event events[EVENTS];
    int poll = epoll_create1(EPOLL_CLOEXEC), listener = listening(port, backlog);
    struct sigaction hears = {.sa_handler = told};
    sigaction(SIGUSR2, &hears, NULL);
    watch(poll, EPOLL_CTL_ADD, listener, EPOLLIN, (uint64_t)listener);
    say("ready");
    for (;;) {
        int count = epoll_wait(poll, events, EVENTS, 50);
        if (is_told == 1) {
            is_told = 2;
            take_nobody_more(poll, listener, port);
        }
        for (int at = 0; at < count; at++) {
            int fd = (int)events[at].data.u64;
            if (fd != listener) {
                echo(fd);
            } else if (!is_told && (fd = accept4(listener, NULL, NULL, SOCK_NONBLOCK | SOCK_CLOEXEC)) >= 0) {
                watch(poll, EPOLL_CTL_ADD, fd, EPOLLIN, (uint64_t)fd);
            }
        }
    }
}

/* The clients. */

struct request {
    uint64_t due, ended;
    int fd;
    const char *word; /* none while it goes on */
};

static int poller;

static void end(struct request *it, const char *word) {
    it->ended = now();
    it->word = word;
    close(it->fd);
}

static void begin(struct request *it, uint64_t name, int port) {
    struct sockaddr_in to = loopback(port);
    it->fd = new_socket();
    if (connect(it->fd, (void *)&to, sizeof to) < 0 && errno != EINPROGRESS) {
        end(it, "unconnected");
        return;
    }
    watch(poller, EPOLL_CTL_ADD, it->fd, EPOLLOUT, name);
}

static unsigned char byte_of(uint64_t name) {
    return (unsigned char)(name % 251);
}

/* It is connected, or can't be. */
static void ask(struct request *it, uint64_t name) {
    int fault = 0;
    socklen_t size = sizeof fault;
    unsigned char byte = byte_of(name);
    getsockopt(it->fd, SOL_SOCKET, SO_ERROR, &fault, &size);
    if (fault)
        end(it, fault == ECONNREFUSED ? "refused" : "unconnected");
    else if (send(it->fd, &byte, 1, MSG_NOSIGNAL) != 1)
        end(it, "reset");
    else
        watch(poller, EPOLL_CTL_MOD, it->fd, EPOLLIN, name);
}

static void hear(struct request *it, uint64_t name) {
    unsigned char byte;
    ssize_t count = recv(it->fd, &byte, 1, 0);
    if (count < 0 && (errno == EAGAIN || errno == EINTR)) return;
    end(it, count < 0 ? "reset" : count == 0 ? "ended" : byte == byte_of(name) ? "ok" : "wrong");
}

static void load(int port, double rate, double seconds, double patience) {
    uint64_t count = (uint64_t)(rate * seconds), begun = 0, oldest = 0, start = now(), patient = (uint64_t)(patience * 1e6);
    struct request *all = calloc(count + 1, sizeof *all);
    struct epoll_event events[EVENTS];
    poller = epoll_create1(EPOLL_CLOEXEC);
    while (oldest < count) {
        uint64_t moment = now();
        for (; begun < count && start + (uint64_t)((double)begun * 1e6 / rate) <= moment; begun++) {
            all[begun].due = start + (uint64_t)((double)begun * 1e6 / rate);
            begin(&all[begun], begun, port);
        }
        int some = epoll_wait(poller, events, EVENTS, 1);
        for (int at = 0; at < some; at++) {
            uint64_t name = events[at].data.u64;
            struct request *it = &all[name];
            if (it->word) continue;
            if (events[at].events & EPOLLOUT) ask(it, name);
            else hear(it, name);
        }
        for (moment = now(); oldest < begun && (all[oldest].word || all[oldest].due + patient <= moment); oldest++)
            if (!all[oldest].word) end(&all[oldest], "unanswered");
    }
    for (uint64_t at = 0; at < count; at++) printf("%lu %lu %s\n", all[at].due, all[at].ended - all[at].due, all[at].word);
    free(all);
}

int main(int count, char **words) {
    struct rlimit most;
    if (getrlimit(RLIMIT_NOFILE, &most) == 0) {
        most.rlim_cur = most.rlim_max;
        setrlimit(RLIMIT_NOFILE, &most);
    }
    if (count == 4 && strcmp(words[1], "target") == 0) target(atoi(words[2]), atoi(words[3]));
    else if (count == 6 && strcmp(words[1], "load") == 0) load(atoi(words[2]), atof(words[3]), atof(words[4]), atof(words[5]));
    else return 2;
    return 0;
}
