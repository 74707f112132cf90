// Plays its input to a relay's admin socket as one session, and aborts where the replies are not those of docs/admin-protocol.md: one for
// each line up to the end of the session, each of a kind that its command can be answered. afl-fuzz runs it.
//
//   fuzz_session SOCKET    the status is 7 where the input has told the relay to stop or to finish, and else 0
#define _GNU_SOURCE
#include <errno.h>
#include <poll.h>
#include <stdio.h>
#include <stdlib.h>
#include <string.h>
#include <sys/socket.h>
#include <sys/un.h>
#include <unistd.h>

#define MOST_INPUT 65536
#define MOST_REPLIES (64 * MOST_INPUT)
#define MOST_LINE 64
#define MOST_LINES 65536
#define STOPPED 7
#define REPLY_MS 20000

static char input[MOST_INPUT + 1];

static char relay[4096];

// The path that names the relay now: a link, which goes to another one once a relay that was stopped has a successor.
static void name_relay(const char *path, char *name) {
    ssize_t size = readlink(path, name, sizeof relay - 1);
    if (size < 0)
        abort();
    name[size] = 0;
}

static void wait_for_successor(const char *path) {
    char name[sizeof relay];
    for (int ms = 0; ms < REPLY_MS; ms++) {
        name_relay(path, name);
        if (strcmp(name, relay) != 0)
            return;
        usleep(1000);
    }
    abort();
}

static int connected(const char *path) {
    struct sockaddr_un at = {.sun_family = AF_UNIX};
    int sock = socket(AF_UNIX, SOCK_STREAM | SOCK_CLOEXEC, 0);
    strncpy(at.sun_path, path, sizeof at.sun_path - 1);
    if (sock < 0 || connect(sock, (struct sockaddr *)&at, sizeof at) != 0)
        abort();
    return sock;
}

static size_t all_of_input(void) {
    size_t size = 0;
    ssize_t got;
    while (size < MOST_INPUT && (got = read(0, input + size, MOST_INPUT - size)) > 0)
        size += (size_t)got;
    return size;
}

// Sends all and reads all at once, so that neither side waits for the other. The relay may end the session before it has read all.
static char *replies_to(int sock, size_t size) {
    char *replies = malloc(MOST_REPLIES + 1);
    size_t sent = 0, got = 0;
    if (replies == NULL)
        abort();
    int is_shut = 0;
    for (;;) {
        if (!is_shut && sent == size) {
            shutdown(sock, SHUT_WR);
            is_shut = 1;
        }
        struct pollfd ready = {.fd = sock, .events = (short)(POLLIN | (is_shut ? 0 : POLLOUT))};
        if (poll(&ready, 1, REPLY_MS) <= 0)
            abort();
        if ((ready.revents & POLLOUT) && !is_shut) {
            ssize_t count = send(sock, input + sent, size - sent, MSG_DONTWAIT | MSG_NOSIGNAL);
            if (count > 0)
                sent += (size_t)count;
            else if (errno != EAGAIN)
                is_shut = 1;
        }
        if (ready.revents & (POLLIN | POLLHUP | POLLERR)) {
            ssize_t count = recv(sock, replies + got, MOST_REPLIES - got, MSG_DONTWAIT);
            if (count == 0 || (count < 0 && errno != EAGAIN))
                break; // a reset comes where input was left unread
            if (count > 0)
                got += (size_t)count;
        }
    }
    replies[got] = 0;
    return replies;
}

static int is(const char *line, size_t size, const char *text) {
    return size == strlen(text) && memcmp(line, text, size) == 0;
}

static int begins(const char *line, size_t size, const char *text) {
    return size >= strlen(text) && memcmp(line, text, strlen(text)) == 0;
}

static int is_fault(const char *reply, size_t size) {
    return is(reply, size, "error 400 bad command") || is(reply, size, "error 404 no such connection") ||
           is(reply, size, "error 409 closed") || is(reply, size, "error 409 draining");
}

// What is shown is of the id that was asked for.
static int shows(const char *line, size_t length, const char *reply, size_t size) {
    return size > length && memcmp(reply, line, length) == 0 && begins(reply + length, size - length, " rule ");
}

static int answers(const char *line, size_t length, const char *reply, size_t size) {
    if (is(line, length, "list"))
        return begins(reply, size, "ids");
    if (is(line, length, "totals"))
        return is(reply, size, "totals up 0 down 0");
    if (is(line, length, "show"))
        return is(reply, size, "end");
    if (begins(line, length, "finish "))
        return is(reply, size, "ok") || is(reply, size, "error 400 bad command");
    if (is(line, length, "quit") || is(line, length, "stop"))
        return is(reply, size, "ok");
    if (begins(line, length, "close ") || begins(line, length, "drain ") || begins(line, length, "deadline "))
        return is(reply, size, "ok") || is_fault(reply, size);
    if (is(line, length, "reload"))
        return begins(reply, size, "rules ") || begins(reply, size, "bad rules: ") || is(reply, size, "cannot read rules") ||
               begins(reply, size, "cannot listen ") || is(reply, size, "error 409 closed");
    if (begins(line, length, "show "))
        return shows(line, length, reply, size) || is_fault(reply, size);
    return is(reply, size, "error 400 bad command");
}

// What comes behind the reply to this line, or nothing where there is no whole reply. That to `show` has a line for each id first.
static char *behind_reply(const char *line, size_t length, char *reply) {
    char *end = strchr(reply, '\n');
    while (end != NULL && is(line, length, "show") && begins(reply, (size_t)(end - reply), "show ")) {
        reply = end + 1;
        end = strchr(reply, '\n');
    }
    if (end == NULL)
        return NULL;
    size_t size = (size_t)(end - reply);
    if (length > MOST_LINE ? !is(reply, size, "error 400 bad command") : !answers(line, length, reply, size))
        abort();
    return end + 1;
}

// Whether the relay was told to end, once each line has its reply and there are no others.
static int is_told_to_end(size_t size, char *reply) {
    size_t at = 0, lines = 0;
    int is_over = 0, is_stopped = 0, is_finishing = 0;
    while (at < size && !is_over && lines++ < MOST_LINES) {
        char *line = input + at, *feed = memchr(line, '\n', size - at);
        size_t length = feed == NULL ? size - at : (size_t)(feed - line);
        char *rest = behind_reply(line, length, reply);
        if (rest == NULL && is_finishing)
            break; // it has no connection, so that it ends at once
        if (rest == NULL)
            abort();
        is_stopped = is(line, length, "stop");
        is_finishing |= begins(line, length, "finish ") && begins(reply, (size_t)(rest - reply), "ok");
        is_over = length > MOST_LINE || is_stopped || is(line, length, "quit");
        reply = rest;
        at += length + 1;
    }
    if (*reply != 0)
        abort();
    return is_stopped || is_finishing;
}

int main(int count, char **words) {
    if (count != 2)
        return 2;
    size_t size = all_of_input();
    name_relay(words[1], relay);
    if (!is_told_to_end(size, replies_to(connected(words[1]), size)))
        return 0;
    wait_for_successor(words[1]);
    return STOPPED;
}
