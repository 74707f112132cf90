// Loaded before the C library (LD_PRELOAD), it writes to the file that LEFT names what the process has, a line as it begins
// and one as it ends: how many threads go on, and each descriptor with what it is of, as in `1 0=/dev/null 1=pipe:[7]`.
#define _GNU_SOURCE
#include <dirent.h>
#include <fcntl.h>
#include <stdio.h>
#include <stdlib.h>
#include <string.h>
#include <sys/syscall.h>
#include <unistd.h>

// Linux's mark of a thread that is ending: it is set before who joins the thread is woken, and the system takes a moment
// more to forget the thread.
#define PF_EXITING 4

// Whether a thread goes on, by its line, in which a name of any characters stands in brackets. One that was forgotten has none.
static int goes_on(const char *thread) {
    char path[300], line[1024];
    unsigned flags;
    snprintf(path, sizeof path, "/proc/self/task/%s/stat", thread);
    FILE *file = fopen(path, "r");
    if (file == NULL)
        return 0;
    char *rest = fgets(line, sizeof line, file) == NULL ? NULL : strrchr(line, ')');
    fclose(file);
    return rest != NULL && sscanf(rest, ") %*c %*d %*d %*d %*d %*d %u", &flags) == 1 && !(flags & PF_EXITING);
}

static int threads(void) {
    int count = 0;
    DIR *all = opendir("/proc/self/task");
    for (struct dirent *one; all != NULL && (one = readdir(all)) != NULL;)
        count += one->d_name[0] != '.' && goes_on(one->d_name);
    if (all != NULL)
        closedir(all);
    return count;
}

static void write_files(FILE *to, int but) {
    DIR *all = opendir("/proc/self/fd");
    for (struct dirent *one; all != NULL && (one = readdir(all)) != NULL;) {
        char path[300], link[4096];
        snprintf(path, sizeof path, "/proc/self/fd/%s", one->d_name);
        ssize_t size = readlink(path, link, sizeof link - 1);
        if (size >= 0 && atoi(one->d_name) != but && atoi(one->d_name) != dirfd(all))
            fprintf(to, " %s=%.*s", one->d_name, (int)size, link);
    }
    if (all != NULL)
        closedir(all);
}

static void write_line(void) {
    const char *path = getenv("LEFT");
    FILE *to = path == NULL ? NULL : fopen(path, "a");
    if (to == NULL)
        return;
    fprintf(to, "%d", threads());
    write_files(to, fileno(to));
    fputc('\n', to);
    fclose(to);
}

__attribute__((constructor)) static void begin(void) {
    write_line();
}

// A program ends by `exit`, which runs the destructors, or by this call alone.
void _exit(int status) {
    write_line();
    for (;;)
        syscall(SYS_exit_group, status);
}

__attribute__((destructor)) static void end(void) {
    write_line();
}
