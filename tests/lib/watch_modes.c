// Loaded before the C library (LD_PRELOAD), it tells on standard error what becomes of each Unix socket at a path, as calls of the program come:
//
//   [bind PATH MODE]            the path was bound just now, and has this mode in octal
//   [chmod PATH MODE refused]   the path is to have this mode, and a client that comes right then is refused; `taken` where it is let in
//   [listen PATH MODE]          it listens from now on, and has this mode
#define _GNU_SOURCE
#include <dlfcn.h>
#include <stdio.h>
#include <string.h>
#include <sys/socket.h>
#include <sys/stat.h>
#include <sys/types.h>
#include <sys/un.h>
#include <unistd.h>

static unsigned mode_of(const char *path) {
    struct stat found;
    return stat(path, &found) == 0 ? found.st_mode & 07777 : 0;
}

static int is_path(const struct sockaddr *at) {
    return at->sa_family == AF_UNIX && ((const struct sockaddr_un *)at)->sun_path[0] == '/';
}

static const char *as_client(const char *path) {
    struct sockaddr_un at = {.sun_family = AF_UNIX};
    strncpy(at.sun_path, path, sizeof at.sun_path - 1);
    int client = socket(AF_UNIX, SOCK_STREAM, 0);
    int refused = connect(client, (struct sockaddr *)&at, sizeof at);
    close(client);
    return refused ? "refused" : "taken";
}

int bind(int fd, const struct sockaddr *at, socklen_t length) {
    int (*it)(int, const struct sockaddr *, socklen_t) = dlsym(RTLD_NEXT, "bind");
    int status = it(fd, at, length);
    if (status == 0 && is_path(at)) {
        const char *path = ((const struct sockaddr_un *)at)->sun_path;
        dprintf(2, "[bind %s %04o]\n", path, mode_of(path));
    }
    return status;
}

int chmod(const char *path, mode_t mode) {
    int (*it)(const char *, mode_t) = dlsym(RTLD_NEXT, "chmod");
    dprintf(2, "[chmod %s %04o %s]\n", path, mode, as_client(path));
    return it(path, mode);
}

int listen(int fd, int most) {
    int (*it)(int, int) = dlsym(RTLD_NEXT, "listen");
    struct sockaddr_un at;
    socklen_t length = sizeof at;
    memset(&at, 0, sizeof at);
    if (getsockname(fd, (struct sockaddr *)&at, &length) == 0 && is_path((struct sockaddr *)&at))
        dprintf(2, "[listen %s %04o]\n", at.sun_path, mode_of(at.sun_path));
    return it(fd, most);
}
