/* Makes single allocations of a program fail, each in a child of its own.
 *
 * Loaded by LD_PRELOAD. At each allocation that is tried the process forks: the child gets no memory for this one call and
 * runs on to its end; the parent waits for it, writes a line on how it ended, and goes on. Standard input is served from a
 * file and standard output is compared with another, so that no child disturbs the parent. The environment names them:
 * FAIL_INPUT, FAIL_OUTPUT (the right output), FAIL_RESULTS (where the lines go), FAIL_EVERY and FAIL_FIRST (of each EVERY
 * allocations the one at place FIRST is tried). A line has the number of the allocation, the child's wait status, how many
 * bytes it put, and whether they differ from the right ones; the last line has the count of all allocations, how many bytes
 * the parent put, and whether they differ.
 */
#include <errno.h>
#include <fcntl.h>
#include <stdio.h>
#include <stdlib.h>
#include <string.h>
#include <sys/mman.h>
#include <sys/stat.h>
#include <sys/syscall.h>
#include <sys/wait.h>
#include <unistd.h>

extern void *__libc_malloc(size_t size);
extern void *__libc_realloc(void *old, size_t size);

/* After this many seconds a child is ended, and that is a fault. */
enum { SECONDS = 60 };

struct text {
    const unsigned char *bytes;
    size_t size;
};

/* How many bytes were put, and whether they differ from the right ones. */
struct put {
    size_t count;
    int differs;
};

static struct text input, right;
static size_t taken;
static struct put put;
/* What a child tells its parent. */
static struct put *told;
static long calls, every, first;
static int results = -1, is_ready, is_child;

static struct text mapped(const char *path) {
    struct text text = {NULL, 0};
    struct stat stat;
    int file = open(path, O_RDONLY);
    if (file < 0 || fstat(file, &stat))
        _exit(99);
    text.size = stat.st_size;
    if (text.size)
        text.bytes = mmap(NULL, text.size, PROT_READ, MAP_PRIVATE, file, 0);
    close(file);
    return text;
}

static void line(const char *text, int length) {
    if (syscall(SYS_write, results, text, length) != length)
        _exit(99);
}

static void try_to_end(long number) {
    char text[96];
    int status = 0;
    pid_t child;
    *told = put;
    child = fork();
    if (child < 0)
        _exit(99);
    if (!child) {
        is_child = 1;
        alarm(SECONDS);
        return;
    }
    waitpid(child, &status, 0);
    line(text, snprintf(text, sizeof text, "%ld %d %zu %d\n", number, status, told->count, told->differs));
}

/* Whether this allocation fails: in a child that was made for it. */
static int fails(void) {
    if (!is_ready || is_child)
        return 0;
    calls++;
    if (calls % every == first)
        try_to_end(calls);
    if (is_child)
        errno = ENOMEM;
    return is_child;
}

void *malloc(size_t size) {
    return fails() ? NULL : __libc_malloc(size);
}

void *realloc(void *old, size_t size) {
    return fails() ? NULL : __libc_realloc(old, size);
}

ssize_t read(int file, void *into, size_t count) {
    if (file != 0 || !is_ready)
        return syscall(SYS_read, file, into, count);
    if (count > input.size - taken)
        count = input.size - taken;
    memcpy(into, input.bytes + taken, count);
    taken += count;
    return count;
}

ssize_t write(int file, const void *from, size_t count) {
    if (file > 2 || !is_ready)
        return syscall(SYS_write, file, from, count);
    if (file == 1) {
        if (count > right.size - put.count || memcmp(right.bytes + put.count, from, count))
            put.differs = 1;
        else
            put.count += count;
        *told = put;
    }
    return count;
}

__attribute__((constructor)) static void begin(void) {
    input = mapped(getenv("FAIL_INPUT"));
    right = mapped(getenv("FAIL_OUTPUT"));
    every = atol(getenv("FAIL_EVERY"));
    first = atol(getenv("FAIL_FIRST"));
    results = open(getenv("FAIL_RESULTS"), O_WRONLY | O_CREAT | O_TRUNC, 0600);
    told = mmap(NULL, sizeof *told, PROT_READ | PROT_WRITE, MAP_SHARED | MAP_ANONYMOUS, -1, 0);
    if (results < 0 || told == MAP_FAILED)
        _exit(99);
    is_ready = 1;
}

__attribute__((destructor)) static void end(void) {
    char text[96];
    if (!is_child)
        line(text, snprintf(text, sizeof text, "%ld %zu %d\n", calls, put.count, put.differs));
}
