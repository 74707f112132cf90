/* The load of the relay's benchmark: clients and their target in one process, so that both ends' counts are compared.
 *
 * It prints `target PORT`, and then answers each line of standard input by one line:
 *
 *     bulk PORT CONNECTIONS SECONDS      bulk SECONDS BYTES
 *     turns PORT CONNECTIONS SECONDS     turns SECONDS TURNS P50 P99 MOST     (nanoseconds)
 *     connects PORT AT_ONCE SECONDS      connects SECONDS COUNT
 *     hold PORT CONNECTIONS              hold CONNECTIONS                (they stay open)
 *     drop                               drop                            (closes them)
 *
 * A count or a byte that isn't right is `error TEXT`, and the end. The first byte of a connection says what the target
 * does: 'B' counts all bytes up to the end and answers with the count, 'E' sends all back.
 */
#define _GNU_SOURCE
#include <arpa/inet.h>
#include <errno.h>
#include <netinet/tcp.h>
#include <pthread.h>
#include <stdint.h>
#include <stdio.h>
#include <stdlib.h>
#include <string.h>
#include <sys/epoll.h>
#include <sys/socket.h>
#include <time.h>
#include <unistd.h>

enum { CHUNK = 1 << 18, TARGET_THREADS = 2, TURN_THREADS = 2, MOST = 4096, STEPS = 32, BUCKETS = 40 * STEPS };

static int listening;

static void fail(const char *text) {
    printf(errno ? "error %s: %s\n" : "error %s\n", text, strerror(errno));
    fflush(stdout);
    _exit(1);
}

static uint64_t now(void) {
    struct timespec t;
    clock_gettime(CLOCK_MONOTONIC, &t);
    return (uint64_t)t.tv_sec * 1000000000u + (uint64_t)t.tv_nsec;
}

static void no_delay(int fd) {
    int one = 1;
    setsockopt(fd, IPPROTO_TCP, TCP_NODELAY, &one, sizeof one);
}

static void send_all(int fd, const void *from, size_t length) {
    const char *at = from;
    while (length > 0) {
        ssize_t count = send(fd, at, length, MSG_NOSIGNAL);
        if (count < 0 && errno == EINTR) continue;
        if (count <= 0) fail("send");
        at += count;
        length -= (size_t)count;
    }
}

static void receive_all(int fd, void *to, size_t length) {
    ssize_t count = recv(fd, to, length, MSG_WAITALL);
    if (count < 0) fail("recv");
    errno = 0;
    if (count != (ssize_t)length) fail("an end that came too early");
}

/* The target. */

struct conn {
    int fd;
    char kind;
    uint64_t count;
};

static void end_conn(struct conn *conn) {
    if (conn->kind == 'B') send_all(conn->fd, &conn->count, sizeof conn->count);
    close(conn->fd);
    free(conn);
}

static void take(int poll) {
    int fd = accept4(listening, NULL, NULL, 0);
    if (fd < 0) return; /* the other thread took it */
    no_delay(fd);
    struct conn *conn = calloc(1, sizeof *conn);
    conn->fd = fd;
    struct epoll_event event = {.events = EPOLLIN, .data.ptr = conn};
    if (epoll_ctl(poll, EPOLL_CTL_ADD, fd, &event) < 0) fail("epoll_ctl");
}

static void serve(struct conn *conn, char *buffer) {
    ssize_t count = recv(conn->fd, buffer, CHUNK, MSG_DONTWAIT);
    if (count < 0 && (errno == EAGAIN || errno == EINTR)) return;
    if (count < 0) { /* reset */
        close(conn->fd);
        free(conn);
        return;
    }
    if (count == 0) {
        end_conn(conn);
        return;
    }
    if (!conn->kind) conn->kind = buffer[0];
    conn->count += (uint64_t)count;
    if (conn->kind == 'E') send_all(conn->fd, buffer, (size_t)count);
}

static void *target(void *unused) {
    (void)unused;
    char *buffer = malloc(CHUNK);
    int poll = epoll_create1(0);
    struct epoll_event event = {.events = EPOLLIN | EPOLLEXCLUSIVE, .data.ptr = NULL}, events[64];
    if (poll < 0 || epoll_ctl(poll, EPOLL_CTL_ADD, listening, &event) < 0) fail("epoll");
    for (;;) {
        int count = epoll_wait(poll, events, 64, -1);
        for (int at = 0; at < count; at++) {
            if (events[at].data.ptr) serve(events[at].data.ptr, buffer);
            else take(poll);
        }
    }
    return NULL;
}

static int start_target(void) {
    struct sockaddr_in at = {.sin_family = AF_INET, .sin_addr.s_addr = htonl(INADDR_LOOPBACK)};
    socklen_t length = sizeof at;
    listening = socket(AF_INET, SOCK_STREAM | SOCK_NONBLOCK, 0);
    if (bind(listening, (void *)&at, sizeof at) < 0 || listen(listening, 4096) < 0) fail("listen");
    getsockname(listening, (void *)&at, &length);
    for (int thread = 0; thread < TARGET_THREADS; thread++) {
        pthread_t made;
        if (pthread_create(&made, NULL, target, NULL)) fail("a thread");
    }
    return ntohs(at.sin_port);
}

/* The clients. */

struct job {
    int port, connections;
    uint64_t last; /* the moment from which nothing new is begun */
    uint64_t bytes, turns, longest;
    uint32_t buckets[BUCKETS];
};

static int open_conn(int port) {
    struct sockaddr_in to = {.sin_family = AF_INET, .sin_port = htons((uint16_t)port), .sin_addr.s_addr = htonl(INADDR_LOOPBACK)};
    int fd = socket(AF_INET, SOCK_STREAM, 0);
    if (fd < 0 || connect(fd, (void *)&to, sizeof to) < 0) fail("connect");
    no_delay(fd);
    return fd;
}

static void *bulk(void *given) {
    struct job *job = given;
    char *buffer = malloc(CHUNK);
    uint64_t arrived;
    memset(buffer, 'B', CHUNK);
    int fd = open_conn(job->port);
    /* Once at least: on a loaded machine a thread may begin after the time is over, and without a first byte the target
       doesn't answer. */
    do {
        send_all(fd, buffer, CHUNK);
        job->bytes += CHUNK;
    } while (now() < job->last);
    shutdown(fd, SHUT_WR);
    receive_all(fd, &arrived, sizeof arrived);
    if (arrived != job->bytes) fail("bytes that the target didn't count");
    close(fd);
    free(buffer);
    return NULL;
}

/* STEPS buckets for each doubling, so a percentile is right to 3 %. */
static int bucket_of(uint64_t time) {
    int power = 63 - __builtin_clzll(time | STEPS);
    int bucket = (power - 5) * STEPS + (int)((time >> (power - 5)) & (STEPS - 1)) + (time >= STEPS ? STEPS : 0);
    return bucket < BUCKETS ? bucket : BUCKETS - 1;
}

static uint64_t time_of(int bucket) {
    if (bucket < STEPS) return (uint64_t)bucket;
    int power = bucket / STEPS - 1;
    return (uint64_t)(STEPS + bucket % STEPS) << power;
}

struct player {
    int fd;
    unsigned char turn;
    uint64_t began;
};

static void begin_turn(struct player *player) {
    player->began = now();
    send_all(player->fd, &player->turn, 1);
}

/* One byte came back: counts the turn and begins the next, or says that the time is over. */
static int end_turn(struct job *job, struct player *player) {
    unsigned char back;
    receive_all(player->fd, &back, 1);
    uint64_t moment = now();
    if (back != player->turn) fail("another byte than was sent");
    job->buckets[bucket_of(moment - player->began)]++;
    if (moment - player->began > job->longest) job->longest = moment - player->began;
    job->turns++;
    if (moment >= job->last) return 1;
    player->turn++;
    begin_turn(player);
    return 0;
}

static void *turns(void *given) {
    struct job *job = given;
    struct player *players = calloc((size_t)job->connections, sizeof *players);
    struct epoll_event event = {.events = EPOLLIN}, events[64];
    int poll = epoll_create1(0), left = job->connections;
    for (int at = 0; at < job->connections; at++) {
        players[at].fd = open_conn(job->port);
        send_all(players[at].fd, "E", 1);
        receive_all(players[at].fd, &players[at].turn, 1);
        event.data.ptr = &players[at];
        if (epoll_ctl(poll, EPOLL_CTL_ADD, players[at].fd, &event) < 0) fail("epoll_ctl");
    }
    for (int at = 0; at < job->connections; at++) begin_turn(&players[at]);
    while (left > 0) {
        int count = epoll_wait(poll, events, 64, -1);
        for (int at = 0; at < count; at++) left -= end_turn(job, events[at].data.ptr);
    }
    for (int at = 0; at < job->connections; at++) close(players[at].fd);
    close(poll);
    free(players);
    return NULL;
}

static void *connects(void *given) {
    struct job *job = given;
    char back;
    do {
        int fd = open_conn(job->port);
        send_all(fd, "E", 1);
        receive_all(fd, &back, 1);
        close(fd);
        job->turns++;
    } while (now() < job->last);
    return NULL;
}

/* Shares the connections out over threads, waits for all, and sums what they did. */
static double run(struct job *sum, void *(*work)(void *), int threads, double seconds) {
    struct job *jobs = calloc((size_t)threads, sizeof *jobs);
    pthread_t made[MOST];
    uint64_t began = now();
    for (int at = 0; at < threads; at++) {
        jobs[at].port = sum->port;
        jobs[at].connections = sum->connections / threads + (at < sum->connections % threads);
        jobs[at].last = began + (uint64_t)(seconds * 1e9);
        if (pthread_create(&made[at], NULL, work, &jobs[at])) fail("a thread");
    }
    for (int at = 0; at < threads; at++) {
        pthread_join(made[at], NULL);
        sum->bytes += jobs[at].bytes;
        sum->turns += jobs[at].turns;
        if (jobs[at].longest > sum->longest) sum->longest = jobs[at].longest;
        for (int bucket = 0; bucket < BUCKETS; bucket++) sum->buckets[bucket] += jobs[at].buckets[bucket];
    }
    double took = (double)(now() - began) / 1e9;
    free(jobs);
    return took;
}

static uint64_t percentile(const struct job *job, double part) {
    uint64_t seen = 0;
    for (int bucket = 0; bucket < BUCKETS; bucket++) {
        seen += job->buckets[bucket];
        if ((double)seen >= part * (double)job->turns) return time_of(bucket);
    }
    return 0;
}

static int held[MOST], held_count;

static void hold(int port, int count) {
    char back;
    for (; held_count < count; held_count++) {
        held[held_count] = open_conn(port);
        send_all(held[held_count], "E", 1);
        receive_all(held[held_count], &back, 1);
    }
    printf("hold %d\n", held_count);
}

static void drop(void) {
    while (held_count > 0) close(held[--held_count]);
    printf("drop\n");
}

static void command(const char *line) {
    static struct job job;
    double seconds = 0, took;
    memset(&job, 0, sizeof job);
    if (sscanf(line, "bulk %d %d %lf", &job.port, &job.connections, &seconds) == 3) {
        took = run(&job, bulk, job.connections, seconds);
        printf("bulk %.6f %lu\n", took, job.bytes);
    } else if (sscanf(line, "turns %d %d %lf", &job.port, &job.connections, &seconds) == 3) {
        took = run(&job, turns, job.connections < TURN_THREADS ? job.connections : TURN_THREADS, seconds);
        printf("turns %.6f %lu %lu %lu %lu\n", took, job.turns, percentile(&job, 0.5), percentile(&job, 0.99), job.longest);
    } else if (sscanf(line, "connects %d %d %lf", &job.port, &job.connections, &seconds) == 3) {
        took = run(&job, connects, job.connections, seconds);
        printf("connects %.6f %lu\n", took, job.turns);
    } else if (sscanf(line, "hold %d %d", &job.port, &job.connections) == 2 && job.connections <= MOST) {
        hold(job.port, job.connections);
    } else if (strcmp(line, "drop\n") == 0) {
        drop();
    } else {
        fail("no such command");
    }
    fflush(stdout);
}

int main(void) {
    char line[128];
    printf("target %d\n", start_target());
    fflush(stdout);
    while (fgets(line, sizeof line, stdin)) command(line);
    return 0;
}
