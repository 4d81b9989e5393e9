/* Preloaded into a program by tools/fail-each: what the program makes of each of its calls of one kind, where that call fails.

   At each such call the program forks. In the child the call fails, and the child goes on to its end. The program waits for
   it, tells how it ended and what it wrote, and goes on as if nothing had been. So it comes to its own end as well, which is
   told last, under number 0. Nothing reaches standard output and standard error.

   FAILING_CALL    which calls: growth (malloc, realloc), open, read, write
   FAILING_HOW     what such a call answers: a number of errno, or a minus and how many bytes it moves instead
   FAILING_BEHIND  1 where each later call of the kind fails too
   FAILING_FIRST, FAILING_STEP  the number of the first call, from 1, and how far apart the calls are
   FAILING_TO      the file to which all is told: for each end four words (the number of the call, the status of wait, the bytes
                   of standard output and of standard error) and then these bytes */
#define _GNU_SOURCE
#include <errno.h>
#include <fcntl.h>
#include <stdlib.h>
#include <string.h>
#include <sys/mman.h>
#include <sys/syscall.h>
#include <sys/wait.h>
#include <unistd.h>

extern void *__libc_malloc(size_t);
extern void *__libc_realloc(void *, size_t);

enum { ROOM = 1 << 26, SECONDS = 60 };
enum kind { NONE, GROWTH, OPEN, READ, WRITE };

/* What a child wrote, as long as it lives and behind its end. */
static struct told {
    long lengths[2];
    char bytes[2][ROOM];
} *told;

static enum kind kind;
static long how, first, step, calls, lengths[2];
static int to, is_child, is_behind, fails_on;

static long number(const char *name, long otherwise) {
    const char *text = getenv(name);
    return text ? atol(text) : otherwise;
}

static void give_up(void) { _exit(127); }

static void tell_bytes(const void *bytes, size_t count) {
    for (const char *at = bytes; count > 0;) {
        long done = syscall(SYS_write, to, at, count);
        if (done <= 0) give_up();
        at += done, count -= done;
    }
}

static void tell(long call, long status) {
    long words[4] = {call, status, told->lengths[0], told->lengths[1]};
    tell_bytes(words, sizeof words);
    for (int i = 0; i < 2; i++) tell_bytes(told->bytes[i], told->lengths[i]);
}

__attribute__((constructor)) static void begin(void) {
    const char *call = getenv("FAILING_CALL"), *path = getenv("FAILING_TO");
    if (!call || !path) return;
    how = number("FAILING_HOW", ENOMEM);
    is_behind = number("FAILING_BEHIND", 0);
    first = number("FAILING_FIRST", 1);
    step = number("FAILING_STEP", 1);
    to = open(path, O_WRONLY | O_CREAT | O_TRUNC | O_APPEND | O_CLOEXEC, 0600);
    told = mmap(0, sizeof *told, PROT_READ | PROT_WRITE, MAP_SHARED | MAP_ANONYMOUS | MAP_NORESERVE, -1, 0);
    if (to < 0 || told == MAP_FAILED) give_up();
    kind = !strcmp(call, "growth") ? GROWTH : !strcmp(call, "open") ? OPEN : !strcmp(call, "read") ? READ : WRITE;
}

__attribute__((destructor)) static void end(void) {
    if (kind && !is_child) tell(0, calls);
}

/* Whether this call of the kind fails. */
static int fails(enum kind its) {
    if (!kind || its != kind) return 0;
    if (is_child) return fails_on;
    calls++;
    if (calls < first || (calls - first) % step) return 0;
    memcpy(told->lengths, lengths, sizeof lengths);
    pid_t child = fork();
    if (child < 0) give_up();
    if (child == 0) {
        is_child = 1, fails_on = is_behind;
        alarm(SECONDS);
        return 1;
    }
    int status;
    while (waitpid(child, &status, 0) < 0)
        if (errno != EINTR) give_up();
    tell(calls, status);
    memcpy(told->lengths, lengths, sizeof lengths);
    return 0;
}

void *malloc(size_t size) {
    if (!fails(GROWTH)) return __libc_malloc(size);
    errno = how;
    return 0;
}

void *realloc(void *old, size_t size) {
    if (size == 0 || !fails(GROWTH)) return __libc_realloc(old, size);
    errno = how;
    return 0;
}

int open(const char *path, int flags, ...) {
    if (fails(OPEN)) return errno = how, -1;
    return syscall(SYS_openat, AT_FDCWD, path, flags, 0);
}

/* How many bytes a call that fails moves, or -1. */
static long moved(size_t count) {
    if (how > 0) return errno = how, -1;
    return count < (size_t)-how ? (long)count : -how;
}

ssize_t read(int from, void *bytes, size_t count) {
    if (fails(READ)) {
        long most = moved(count);
        if (most <= 0) return most;
        count = most;
    }
    return syscall(SYS_read, from, bytes, count);
}

ssize_t write(int fd, const void *bytes, size_t count) {
    if (fails(WRITE)) {
        long most = moved(count);
        if (most <= 0) return most;
        count = most;
    }
    if (!kind || (fd != 1 && fd != 2)) return syscall(SYS_write, fd, bytes, count);
    long *length = is_child ? &told->lengths[fd - 1] : &lengths[fd - 1];
    if (*length + count > ROOM) give_up();
    memcpy(told->bytes[fd - 1] + *length, bytes, count);
    *length += count;
    if (!is_child) told->lengths[fd - 1] = *length;
    return count;
}
