// Loaded before the C library (LD_PRELOAD) into a program that afl-fuzz runs, it is afl-fuzz's fork server, marks the blocks of code that
// a run reaches, and tells a run that ends with another status than FUZZ_STATUSES names as one that aborted.
//
// A process makes many runs. When the program first reads its input, its memory is copied; when a run ends, what it wrote is put back, and
// the next one goes on from there. So each run finds the program as it is after its start, and nothing of an earlier text. A run that
// crashes, hangs or ends in a way that isn't seen here takes its process with it, and the next has a new one.
//
//   FUZZ_BLOCKS    a file of 32-bit offsets into the program, rising: where a block of code begins. Each has a breakpoint, and the byte of
//                  afl-fuzz's map (AFL_MAP_SIZE) that has its number.
//   FUZZ_STATUSES  the digits of the statuses that are right, as "013"
//   FUZZ_VERDICTS  the keys of a configuration, each with a space behind it: a run that prints anything but a verdict on one, as it ends
//                  with its status, is told as one that aborted too. It holds without afl-fuzz as well.
//   FUZZ_RUNS      how many runs a process makes, 10,000 if it isn't given; with 1, each run has a process of its own, as a program with
//                  run-time checks needs: they keep too much memory for a copy
//   FUZZ_PLANTED   a text; a program that reads it aborts. It shows that a fault is found.
#define _GNU_SOURCE
#include "fuzz_verdict.h"

#include <fcntl.h>
#include <link.h>
#include <malloc.h>
#include <signal.h>
#include <stdarg.h>
#include <stdint.h>
#include <stdio.h>
#include <stdlib.h>
#include <string.h>
#include <sys/mman.h>
#include <sys/shm.h>
#include <sys/stat.h>
#include <sys/syscall.h>
#include <sys/wait.h>
#include <ucontext.h>
#include <unistd.h>

#define COMMANDS 198
#define ANSWERS 199
#define BREAKPOINT 0xcc
#define OFTEN 1000
#define RUNS 10000
#define MOST_AREAS 64
#define MOST_HITS 65536
#define STACK_BYTES 65536
#define MOST_SAID 4096

struct area {
    unsigned char *at, *copy;
    size_t size;
};

// What outlives a run: no part of what its end puts back, and shared by the fork server and its processes.
struct lasting {
    ucontext_t start, end;
    unsigned char stack[STACK_BYTES], text[STACK_BYTES];
    struct area areas[MOST_AREAS];
    size_t area_count, hit_count;
    uint32_t hits[MOST_HITS];
    unsigned char *top;
    unsigned long runs_left;
    int is_running, is_over, is_spent;
};

static struct lasting *lasting;
static unsigned char *map;
static unsigned char *program;
static uint32_t *blocks;
static unsigned char *kept;
static size_t count;
// How many runs reached each block, up to OFTEN. One that has been reached so often loses its breakpoint, and each run marks it.
static uint16_t *reached;
// What this run has printed.
static char said[MOST_SAID];
static size_t said_bytes;

static int find_program(struct dl_phdr_info *info, size_t size, void *none) {
    (void)size, (void)none;
    program = (unsigned char *)info->dlpi_addr;
    return 1; // the first is the program itself
}

static void reach(int number, siginfo_t *info, void *context) {
    (void)number, (void)info;
    ucontext_t *state = context;
    unsigned char *at = (unsigned char *)state->uc_mcontext.gregs[REG_RIP] - 1;
    uint32_t offset = (uint32_t)(at - program);
    size_t low = 0, high = count;
    while (low < high) {
        size_t middle = (low + high) / 2;
        if (blocks[middle] < offset)
            low = middle + 1;
        else
            high = middle;
    }
    if (low == count || blocks[low] != offset || lasting->hit_count == MOST_HITS)
        abort();
    *at = kept[low];
    map[low] = 1;
    if (reached[low] < OFTEN)
        reached[low]++;
    lasting->hits[lasting->hit_count++] = (uint32_t)low;
    state->uc_mcontext.gregs[REG_RIP] = (greg_t)at;
}

static void *shared(size_t size) {
    void *at = mmap(NULL, size, PROT_READ | PROT_WRITE, MAP_SHARED | MAP_ANONYMOUS, -1, 0);
    if (at == MAP_FAILED)
        abort();
    return at;
}

static void read_blocks(const char *path) {
    struct stat about;
    int file = open(path, O_RDONLY | O_CLOEXEC);
    if (file < 0 || fstat(file, &about) != 0)
        abort();
    count = (size_t)about.st_size / sizeof *blocks;
    blocks = mmap(NULL, (size_t)about.st_size, PROT_READ, MAP_SHARED, file, 0);
    close(file);
    if (blocks == MAP_FAILED)
        abort();
    kept = shared(count);
    reached = shared(count * sizeof *reached);
}

static void set_breakpoints(void) {
    dl_iterate_phdr(find_program, NULL);
    size_t page = (size_t)sysconf(_SC_PAGESIZE);
    unsigned char *from = (unsigned char *)((uintptr_t)(program + blocks[0]) & ~(page - 1));
    if (mprotect(from, (size_t)(program + blocks[count - 1] + 1 - from), PROT_READ | PROT_WRITE | PROT_EXEC) != 0)
        abort();
    for (size_t at = 0; at < count; at++) {
        kept[at] = program[blocks[at]];
        program[blocks[at]] = BREAKPOINT;
    }
    struct sigaction action = {.sa_sigaction = reach, .sa_flags = SA_SIGINFO | SA_NODEFER};
    sigaction(SIGTRAP, &action, NULL);
}

// Ahead of a process's first run: the blocks that others reached often have no breakpoint here either.
static void clear_the_often_reached(void) {
    for (size_t at = 0; at < count; at++)
        if (reached[at] == OFTEN)
            program[blocks[at]] = kept[at];
}

static void mark_the_often_reached(void) {
    map[0] = 1;
    for (size_t at = 0; at < count; at++)
        if (reached[at] == OFTEN)
            map[at] = 1;
}

// After a run: the blocks that it reached are waited for again.
static void set_again(void) {
    while (lasting->hit_count > 0) {
        uint32_t at = lasting->hits[--lasting->hit_count];
        if (reached[at] < OFTEN)
            program[blocks[at]] = BREAKPOINT;
    }
}

// The memory that a run may change, but for what of the stack is free at its start.
__attribute__((noinline)) static void copy_memory(void) {
    int file = open("/proc/self/maps", O_RDONLY | O_CLOEXEC);
    size_t size = 0;
    ssize_t got;
    while ((got = read(file, lasting->text + size, STACK_BYTES - 1 - size)) > 0)
        size += (size_t)got;
    close(file);
    lasting->text[size] = 0;
    unsigned char *here = __builtin_frame_address(0);
    for (char *line = (char *)lasting->text; *line != 0; line = strchr(line, '\n') + 1) {
        unsigned char *from, *to;
        if (sscanf(line, "%p-%p rw-p", (void **)&from, (void **)&to) != 2 || strncmp(strchr(line, ' '), " rw-p", 5) != 0)
            continue;
        if (from <= here && here < to)
            from = (unsigned char *)((uintptr_t)here & ~(uintptr_t)15);
        if (lasting->area_count == MOST_AREAS)
            abort();
        size_t length = (size_t)(to - from);
        lasting->areas[lasting->area_count++] = (struct area){.at = from, .copy = shared(length), .size = length};
    }
    lasting->top = sbrk(0);
    for (size_t at = 0; at < lasting->area_count; at++)
        memcpy(lasting->areas[at].copy, lasting->areas[at].at, lasting->areas[at].size);
}

static int is_right(int status) {
    const char *right = getenv("FUZZ_STATUSES"), *keys = getenv("FUZZ_VERDICTS");
    if (right != NULL && (status < 0 || 10 <= status || strchr(right, '0' + status) == NULL))
        return 0;
    return keys == NULL || is_verdict(keys, status, said, said_bytes);
}

// Waits until afl-fuzz wants a run, and answers with this process, which it ends where the run takes too long.
static void begin_run(void) {
    int32_t word;
    if (read(COMMANDS, &word, sizeof word) != sizeof word) {
        lasting->is_over = 1;
        _exit(0);
    }
    mark_the_often_reached();
    lasting->is_running = 1;
    word = getpid();
    if (write(ANSWERS, &word, sizeof word) != sizeof word)
        _exit(0);
}

// On a stack of its own, since the program's is put back too.
static void put_back(void) {
    if (sbrk(0) != lasting->top)
        brk(lasting->top);
    for (size_t at = 0; at < lasting->area_count; at++)
        memcpy(lasting->areas[at].at, lasting->areas[at].copy, lasting->areas[at].size);
    set_again();
    close_range(3, COMMANDS - 1, 0);
    close_range(ANSWERS + 1, ~0u, 0);
    int32_t status = 0;
    if (write(ANSWERS, &status, sizeof status) != sizeof status)
        abort();
    lasting->is_running = 0;
    if (--lasting->runs_left == 0) {
        lasting->is_spent = 1;
        syscall(SYS_exit_group, 0);
    }
    begin_run();
    setcontext(&lasting->start);
}

// Where the program would end.
static void end_run(int status, void *none) {
    (void)none;
    if (lasting == NULL && !is_right(status))
        abort();
    if (lasting == NULL || !lasting->is_running)
        return;
    fflush(NULL);
    if (!is_right(status))
        abort();
    setcontext(&lasting->end);
}

static void make_runs(void) {
    const char *runs = getenv("FUZZ_RUNS");
    lasting->runs_left = runs == NULL ? RUNS : strtoul(runs, NULL, 10);
    lasting->hit_count = lasting->area_count = 0;
    lasting->is_spent = 0;
    clear_the_often_reached();
    on_exit(end_run, NULL);
    getcontext(&lasting->end);
    lasting->end.uc_stack = (stack_t){.ss_sp = lasting->stack, .ss_size = STACK_BYTES};
    makecontext(&lasting->end, put_back, 0);
    begin_run();
    if (lasting->runs_left > 1)
        copy_memory();
    getcontext(&lasting->start); // every later run begins here
}

// Answers afl-fuzz where a process has ended, and makes the next one; goes on in each of them.
static void serve(void) {
    int32_t status = 0;
    for (;;) {
        pid_t made = fork();
        if (made == 0) {
            make_runs();
            return;
        }
        if (made < 0 || waitpid(made, &status, 0) != made || lasting->is_over)
            _exit(made < 0);
        if (!lasting->is_running && !lasting->is_spent)
            _exit(1);
        if (!lasting->is_running)
            continue;
        lasting->is_running = 0;
        if (WIFEXITED(status) && !is_right(WEXITSTATUS(status)))
            status = SIGABRT;
        if (write(ANSWERS, &status, sizeof status) != sizeof status)
            _exit(1);
    }
}

// Called ahead of the program's first look at its input.
static void begin(void) {
    static int has_begun;
    const char *memory = getenv("__AFL_SHM_ID"), *path = getenv("FUZZ_BLOCKS");
    int32_t none = 0;
    if (has_begun++ || memory == NULL || path == NULL || fcntl(ANSWERS, F_GETFD) < 0)
        return;
    map = shmat(atoi(memory), NULL, 0);
    if (map == (void *)-1)
        abort();
    mallopt(M_MMAP_MAX, 0); // all memory is below the top that is put back
    lasting = shared(sizeof *lasting);
    read_blocks(path);
    set_breakpoints();
    if (write(ANSWERS, &none, sizeof none) == sizeof none)
        serve();
}

static ssize_t watched(const void *buf, ssize_t got) {
    const char *planted = getenv("FUZZ_PLANTED");
    if (got > 0 && planted != NULL && memmem(buf, (size_t)got, planted, strlen(planted)) != NULL)
        abort();
    return got;
}

ssize_t read(int fd, void *buf, size_t size) {
    if (fd == 0)
        begin();
    return watched(buf, syscall(SYS_read, fd, buf, size));
}

ssize_t write(int fd, const void *buf, size_t size) {
    if (fd == 1) {
        size_t more = size < MOST_SAID - said_bytes ? size : MOST_SAID - said_bytes;
        memcpy(said + said_bytes, buf, more);
        said_bytes += more;
    }
    return syscall(SYS_write, fd, buf, size);
}

ssize_t recv(int fd, void *buf, size_t size, int flags) {
    return watched(buf, syscall(SYS_recvfrom, fd, buf, size, flags, NULL, NULL));
}

// The program's own call: afl-fuzz names its file by the last word.
int open(const char *path, int flags, ...) {
    va_list more;
    va_start(more, flags);
    mode_t mode = va_arg(more, mode_t);
    va_end(more);
    if (strstr(path, ".cur_input") != NULL)
        begin();
    return (int)syscall(SYS_open, path, flags, mode);
}

__attribute__((constructor)) static void look_at_the_end(void) {
    if (getenv("FUZZ_VERDICTS") != NULL)
        on_exit(end_run, NULL);
}

void _exit(int status) {
    end_run(status, NULL);
    syscall(SYS_exit_group, status);
    __builtin_unreachable();
}
