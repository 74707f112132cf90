// Sends its input to a relay as a client that is to say by a header of the PROXY protocol who it is, and is the relay's target too. It
// aborts where the relay does otherwise than docs/operations.md has it (Behind another proxy): behind a good header all bytes come to the
// target, and its answer comes back; any other client is ended, and nobody comes to the target. afl-fuzz runs it.
//
//   fuzz_header PORT PATH    PORT is the relay's on the loopback, PATH that of its target
//
// What a good header is it says by itself, by the protocol's public text. So afl-fuzz, which learns what code a text reaches here, finds
// good headers and those that are nearly good.
#define _GNU_SOURCE
#include <arpa/inet.h>
#include <errno.h>
#include <poll.h>
#include <stdlib.h>
#include <string.h>
#include <sys/socket.h>
#include <sys/un.h>
#include <unistd.h>

#define MOST_INPUT 65536
#define MOST_LINE 107
#define HEAD 16
#define MOST_BLOCK 520
#define WAIT_MS 20000
// Between the pieces of an input that goes out in two.
#define PAUSE_US 200

static unsigned char input[MOST_INPUT], arrived[MOST_INPUT + 1];

static size_t all_of_input(void) {
    size_t size = 0;
    ssize_t got;
    while (size < MOST_INPUT && (got = read(0, input + size, MOST_INPUT - size)) > 0)
        size += (size_t)got;
    return size;
}

static int is_address(int family, const char *word, size_t size) {
    char text[MOST_LINE + 1];
    unsigned char address[16];
    if (memchr(word, 0, size) != NULL)
        return 0;
    memcpy(text, word, size);
    text[size] = 0;
    return inet_pton(family, text, address) == 1;
}

static int is_port(const char *word, size_t size) {
    unsigned long port = 0;
    if (size == 0 || size > 5 || (size > 1 && *word == '0'))
        return 0;
    for (size_t at = 0; at < size; at++) {
        if (word[at] < '0' || '9' < word[at])
            return 0;
        port = 10 * port + (unsigned long)(word[at] - '0');
    }
    return port <= 65535;
}

// Two addresses and two ports, with a space between two of them.
static int are_ends(int family, const char *text, size_t size) {
    for (int part = 0; part < 4; part++) {
        const char *space = memchr(text, ' ', size);
        size_t length = part == 3 ? size : space == NULL ? size : (size_t)(space - text);
        if (!(part < 2 ? is_address(family, text, length) : is_port(text, length)))
            return 0;
        if (part < 3 && space == NULL)
            return 0;
        text += length + 1;
        size -= part < 3 ? length + 1 : 0;
    }
    return 1;
}

static int begins(const char *line, size_t size, const char *word) {
    return size >= strlen(word) && memcmp(line, word, strlen(word)) == 0;
}

static int is_line(const char *line, size_t size) {
    if (begins(line, size, "PROXY TCP4 "))
        return are_ends(AF_INET, line + 11, size - 11);
    if (begins(line, size, "PROXY TCP6 "))
        return are_ends(AF_INET6, line + 11, size - 11);
    return begins(line, size, "PROXY UNKNOWN ") || (size == 13 && begins(line, size, "PROXY UNKNOWN"));
}

// The bytes of the line that begins the input, or 0 where it is no header of version 1.
static size_t line_bytes(size_t size) {
    size_t most = size < MOST_LINE ? size : MOST_LINE;
    const unsigned char *end = memmem(input, most, "\r\n", 2);
    return end != NULL && is_line((const char *)input, (size_t)(end - input)) ? (size_t)(end - input) + 2 : 0;
}

// The least bytes of a block of such a family, or one more than any block has where there is no such family.
static size_t least_block(unsigned char family) {
    switch (family) {
    case 0x11:
        return 12;
    case 0x21:
        return 36;
    case 0x31:
        return 216;
    case 0:
    case 0x12:
    case 0x22:
    case 0x32:
        return 0;
    default:
        return MOST_BLOCK + 1;
    }
}

// The same of version 2.
static size_t block_bytes(size_t size) {
    if (size < HEAD || memcmp(input, "\r\n\r\n\0\r\nQUIT\n", 12) != 0)
        return 0;
    size_t block = 256 * (size_t)input[14] + input[15];
    int is_local = input[12] == 0x20, is_proxy = input[12] == 0x21;
    if (block > MOST_BLOCK || size < HEAD + block || !(is_local || (is_proxy && block >= least_block(input[13]))))
        return 0;
    return HEAD + block;
}

static int listening(const char *path) {
    struct sockaddr_un at = {.sun_family = AF_UNIX};
    int sock = socket(AF_UNIX, SOCK_STREAM | SOCK_NONBLOCK | SOCK_CLOEXEC, 0);
    strncpy(at.sun_path, path, sizeof at.sun_path - 1);
    unlink(path);
    if (sock < 0 || bind(sock, (struct sockaddr *)&at, sizeof at) != 0 || listen(sock, 8) != 0)
        abort();
    return sock;
}

static int connected(int port) {
    struct sockaddr_in to = {.sin_family = AF_INET, .sin_port = htons((unsigned short)port), .sin_addr.s_addr = htonl(INADDR_LOOPBACK)};
    int sock = socket(AF_INET, SOCK_STREAM | SOCK_CLOEXEC, 0);
    if (sock < 0 || connect(sock, (struct sockaddr *)&to, sizeof to) != 0)
        abort();
    return sock;
}

// The relay may end a client before it has read all of it.
static void say(int sock, const void *from, size_t size) {
    if (size > 0 && send(sock, from, size, MSG_NOSIGNAL) != (ssize_t)size && errno != EPIPE && errno != ECONNRESET)
        abort();
}

// An input of an odd number of bytes goes out in two pieces.
static void send_input(int sock, size_t size) {
    size_t first = size % 2 ? size / 2 : 0;
    say(sock, input, first);
    if (first > 0)
        usleep(PAUSE_US);
    say(sock, input + first, size - first);
    shutdown(sock, SHUT_WR);
}

static void wait_for(int sock) {
    struct pollfd ready = {.fd = sock, .events = POLLIN};
    if (poll(&ready, 1, WAIT_MS) <= 0)
        abort();
}

// All that comes until the end. A reset is an end where it may be one.
static size_t read_to_end(int sock, int may_be_reset) {
    size_t size = 0;
    for (;;) {
        wait_for(sock);
        ssize_t got = recv(sock, arrived + size, sizeof arrived - size, 0);
        if (got == 0 || (got < 0 && errno == ECONNRESET && may_be_reset))
            return size;
        if (got < 0)
            abort();
        size += (size_t)got;
        if (size == sizeof arrived)
            abort();
    }
}

// The relay comes to the target with all that is behind the header, and hands back the answer.
static void expect_served(int client, int listener, size_t header, size_t size) {
    struct pollfd ready[] = {{.fd = listener, .events = POLLIN}, {.fd = client, .events = POLLIN}};
    if (poll(ready, 2, WAIT_MS) <= 0 || ready[0].revents == 0)
        abort();
    int target = accept4(listener, NULL, NULL, SOCK_CLOEXEC);
    if (target < 0 || read_to_end(target, 0) != size - header || memcmp(arrived, input + header, size - header) != 0)
        abort();
    say(target, "x", 1);
    shutdown(target, SHUT_WR);
    if (read_to_end(client, 0) != 1 || *arrived != 'x')
        abort();
}

// The relay ends the client, has gone to no target, and takes the next client.
static void expect_ended(int client, int listener, int port) {
    if (read_to_end(client, 1) != 0)
        abort();
    if (accept4(listener, NULL, NULL, SOCK_CLOEXEC) >= 0 || errno != EAGAIN)
        abort();
    connected(port);
}

int main(int count, char **words) {
    if (count != 3)
        return 2;
    size_t size = all_of_input(), line = line_bytes(size), header = line > 0 ? line : block_bytes(size);
    int port = atoi(words[1]), listener = listening(words[2]), client = connected(port);
    send_input(client, size);
    if (header > 0)
        expect_served(client, listener, header, size);
    else
        expect_ended(client, listener, port);
    return 0;
}
