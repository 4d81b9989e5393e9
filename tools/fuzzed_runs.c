/* Preloaded into a program by tools/fuzz: runs it again and again, each time on another script and another file.

   Where the program opens its script it forks, once a run. The child reads a script that was made at random from those given,
   and from every file that it opens a file made so; the program waits for it and looks at how it ended and at what it wrote.
   A run goes wrong where it ends by a signal (also for 10 s of processor time, or of waiting 60), with another status than 0 and
   1, with words on standard error, without memory although it may have a gigabyte, or with an output that is not a list of
   answers. Its script and its file are kept. A script whose answers come in an order of kinds that was not seen yet is one of
   those given from then on.

   FUZZED_SCRIPTS, FUZZED_FILES  the scripts and the files to begin with: each its length as a word, and then its bytes
   FUZZED_SEED, FUZZED_SECONDS   which runs, and for how long
   FUZZED_TO                     the folder of what goes wrong, and of the figures */
#define _GNU_SOURCE
#include <errno.h>
#include <fcntl.h>
#include <signal.h>
#include <stdint.h>
#include <stdio.h>
#include <stdlib.h>
#include <string.h>
#include <sys/mman.h>
#include <sys/resource.h>
#include <sys/syscall.h>
#include <sys/wait.h>
#include <time.h>
#include <unistd.h>

enum { MOST = 1 << 14, SLOT = 1 << 12, TEXTS = 1 << 13, ROOM = 1 << 22, SEEN = 1 << 20, SCRIPT = 1000, CSV = 1001 };

struct text {
    int length;
    char *bytes;
};

struct pool {
    int count;
    struct text texts[TEXTS];
};

/* All that is large. A fork copies none of it. */
static struct shared {
    struct pool scripts, files;
    char slots[2 * TEXTS][SLOT], seen[SEEN], script[MOST], csv[MOST];
    long lengths[2];
    char bytes[2][ROOM];
} *shared;

static struct text script, csv;
static int slots, offsets[2], is_child;
static const char *kept;
static uint64_t state;

static const char *const TOKENS[] = {
    "AND ", "AS ", "ASC ", "BETWEEN ", "BY ", "COPY ", "COUNT(*) ", "CREATE TABLE ", "CREATE VIEW ",
    "DATE '2024-02-29' ", "DELETE FROM ", "DESC ", "DISTINCT ", "DROP TABLE ", "DROP VIEW ", "EXTRACT(YEAR FROM ",
    "FROM ", "GROUP BY ", "HAVING ", "IN (", "INNER JOIN ", "INSERT INTO ", "INTEGER ", "IS NULL ", "IS NOT NULL ",
    "JOIN ", "LEFT JOIN ", "LIKE ", "LIMIT ", "MAX(", "MERGE ", "MIN(", "MOVE ", "NOT ", "NULL ", "ON ", "OR ",
    "ORDER BY ", "REFRESH ", "SELECT ", "SET ", "SORT BY ", "SUM(", "COUNT(", "TEXT ", "UPDATE ", "VALUES ", "WHERE ",
    ";", ";", "(", ")", ",", ".", "=", "<>", "<", "<=", ">", ">=", "+", "-", "*", "--", "'", "''", "'%'", "'_'", "\n",
    " ", "t", "u", "v", "w", "a", "b", "c", "k", "n", "s", "x", "y", "0", "1", "2", "7", "1024", "65536",
    "9223372036854775807", "-9223372036854775808", "9223372036854775808", "170141183460469231731687303715884105727",
    "170141183460469231731687303715884105728", "\xff", "\xc3\xa9"};
static const char *const FIELDS[] = {
    ",", "\"", "\n", "\r", "\\", "\\N", "7", "-", "x", "\xef\xbb\xbf", "\xc3", "\xa9", "2024-02-29", "\"\"",
    "9223372036854775807", "-9223372036854775808", "9223372036854775808", "\n\n", ",,", "0000-01-01", "tea",
    "\"a,b\""};

static uint64_t next(void) {
    state ^= state << 13, state ^= state >> 7, state ^= state << 17;
    return state;
}

static int below(int end) { return end > 0 ? (next() >> 11) % end : 0; }

static void give_up(const char *why) {
    if (write(2, why, strlen(why)) < 0) _exit(126);
    _exit(127);
}

/* A file as a pool of texts, none longer than a slot. */
static void load(struct pool *pool, const char *path) {
    int from = syscall(SYS_openat, AT_FDCWD, path, O_RDONLY, 0), length;
    while (pool->count < TEXTS && syscall(SYS_read, from, &length, sizeof length) == sizeof length) {
        char *bytes = shared->slots[slots++];
        if (length > SLOT || syscall(SYS_read, from, bytes, length) != length) give_up("no such text\n");
        pool->texts[pool->count++] = (struct text){length, bytes};
    }
    syscall(SYS_close, from);
    if (pool->count == 0) give_up("no texts to begin with\n");
}

/* Puts bytes in the place of others. */
static void replace(struct text *text, int at, int old, const char *bytes, int count) {
    char copy[512];
    if (count > (int)sizeof copy || text->length - old + count > MOST) return;
    memcpy(copy, bytes, count);
    memmove(text->bytes + at + count, text->bytes + at + old, text->length - at - old);
    memcpy(text->bytes + at, copy, count);
    text->length += count - old;
}

/* From a place on, up to the next blank or so. */
static int word(const struct text *text, int at) {
    int end = at;
    while (end < text->length && end - at < 40 && !strchr(" ,();\n", text->bytes[end])) end++;
    return end - at + (end == at && end < text->length);
}

static void change(struct text *text, const struct pool *others, const char *const *tokens, int count) {
    int at = below(text->length + 1), left = text->length - at, some = below(left < 64 ? left + 1 : 64);
    const struct text *other = &others->texts[below(others->count)];
    int from = below(other->length + 1), taken = below(other->length - from < 500 ? other->length - from + 1 : 500);
    const char *token = tokens[below(count)];
    char byte = next() >> 20;
    switch (below(11)) {
    case 0: if (left) text->bytes[at] ^= 1 << below(8); break;
    case 1: if (left) text->bytes[at] = byte; break;
    case 2: replace(text, at, some, "", 0); break;
    case 3: replace(text, at, 0, text->bytes + at, some); break;
    case 4: case 5: replace(text, at, 0, token, strlen(token)); break;
    case 6: case 7: replace(text, at, word(text, at), token, strlen(token)); break;
    case 8: replace(text, at, word(text, at), other->bytes + from, word(other, from)); break;
    case 9: replace(text, at, 0, other->bytes + from, taken); break;
    default: replace(text, at, some, other->bytes + from, taken); break;
    }
}

static void make(struct text *text, char *bytes, const struct pool *pool, const char *const *tokens, int count) {
    const struct text *one = &pool->texts[below(pool->count)];
    text->length = one->length < MOST ? one->length : MOST;
    text->bytes = memcpy(bytes, one->bytes, text->length);
    for (int i = 1 << below(5); i > 0; i--) change(text, pool, tokens, count);
}

/* Where the record ends that begins here, or 0 where none does. */
static const char *record(const char *at, const char *end) {
    for (int quotes = 0; at < end; at++) {
        quotes ^= *at == '"';
        if (*at == '\n' && !quotes) return at + 1;
    }
    return 0;
}

/* The kind of the answer that begins here: the number of a refusal, or one behind these. */
static int kind(const char *line) {
    if (!strncmp(line, "error ", 6)) return atoi(line + 6);
    return line[0] == 'r' ? 40 + (line[5] != '0') : 50 + (line[2] == ' ') + (line[3] == '0');
}

/* How many kinds of three answers one behind the other come in an output that no output had before, or -1 where it is no list
   of answers. */
static int kinds(const char *at, long length) {
    const char *end = at + length;
    int order = 0, new = 0;
    while (at < end) {
        const char *line = at;
        if (!(at = record(at, end))) return -1;
        long count = -1;
        if (!strncmp(line, "rows ", 5)) count = atol(line + 5);
        else if (strncmp(line, "ok", 2) && strncmp(line, "error ", 6)) return -1;
        for (; count >= 0; count--)
            if (!(at = record(at, end))) return -1;
        order = (order << 6 | kind(line)) & (1 << 18) - 1;
        new += !shared->seen[order];
        shared->seen[order] = 1;
    }
    return new;
}

static void keep(const char *why, long run) {
    for (int i = 0; i < 2; i++) {
        char path[4096];
        const struct text *text = i ? &csv : &script;
        snprintf(path, sizeof path, "%s/%s-%s-%ld.%s", kept, why, getenv("FUZZED_SEED"), run, i ? "csv" : "sql");
        int to = syscall(SYS_openat, AT_FDCWD, path, O_WRONLY | O_CREAT | O_TRUNC, 0644);
        if (to < 0 || syscall(SYS_write, to, text->bytes, text->length) < 0) give_up("nothing can be kept\n");
        syscall(SYS_close, to);
    }
}

/* A script whose answers are new is one to begin with. */
static void learn(void) {
    struct pool *pool = &shared->scripts;
    if (script.length > SLOT) return;
    struct text *to = &pool->texts[pool->count < TEXTS ? pool->count : below(TEXTS)];
    if (pool->count < TEXTS) to->bytes = shared->slots[slots++], pool->count++;
    memcpy(to->bytes, script.bytes, to->length = script.length);
}

/* What is wrong with a run that ended so, or 0. */
static const char *fault(int status) {
    if (WIFSIGNALED(status)) return WTERMSIG(status) == SIGXCPU || WTERMSIG(status) == SIGALRM ? "hang" : "crash";
    if (WEXITSTATUS(status) > 1 || shared->lengths[1]) return "status";
    if (shared->lengths[0] >= ROOM) return 0;
    if (memmem(shared->bytes[0], shared->lengths[0], "error 1 out of memory", 21)) return "memory";
    int new = kinds(shared->bytes[0], shared->lengths[0]);
    if (new > 0) learn();
    return new < 0 ? "output" : 0;
}

static void limit(void) {
    struct rlimit seconds = {10, 11}, bytes = {1 << 30, 1 << 30}, none = {0, 0};
    setrlimit(RLIMIT_CPU, &seconds), setrlimit(RLIMIT_AS, &bytes), setrlimit(RLIMIT_CORE, &none);
    alarm(60);
}

/* Runs until the time is over, and goes on in each child alone. */
static void run_all(void) {
    long runs = 0, wrong = 0;
    time_t end = time(0) + atol(getenv("FUZZED_SECONDS"));
    while (time(0) < end) {
        runs++;
        make(&script, shared->script, &shared->scripts, TOKENS, sizeof TOKENS / sizeof *TOKENS);
        make(&csv, shared->csv, &shared->files, FIELDS, sizeof FIELDS / sizeof *FIELDS);
        shared->lengths[0] = shared->lengths[1] = 0;
        pid_t child = fork();
        if (child < 0) give_up("no process\n");
        if (child == 0) {
            is_child = 1;
            limit();
            return;
        }
        int status;
        while (waitpid(child, &status, 0) < 0)
            if (errno != EINTR) give_up("no child\n");
        const char *why = fault(status);
        if (why) wrong++, keep(why, runs);
    }
    char path[4096];
    snprintf(path, sizeof path, "%s/figures-%s", kept, getenv("FUZZED_SEED"));
    FILE *to = fopen(path, "w");
    fprintf(to, "%ld %ld %d\n", runs, wrong, shared->scripts.count);
    fclose(to);
    _exit(0);
}

__attribute__((constructor)) static void begin(void) {
    kept = getenv("FUZZED_TO");
    if (!kept) return;
    shared = mmap(0, sizeof *shared, PROT_READ | PROT_WRITE, MAP_SHARED | MAP_ANONYMOUS | MAP_NORESERVE, -1, 0);
    if (shared == MAP_FAILED) give_up("no memory\n");
    load(&shared->scripts, getenv("FUZZED_SCRIPTS"));
    load(&shared->files, getenv("FUZZED_FILES"));
    state = (atol(getenv("FUZZED_SEED")) + 1) * 0x9e3779b97f4a7c15u;
}

int open(const char *path, int flags, ...) {
    if (shared && !is_child) {
        run_all();
        return SCRIPT;
    }
    if (is_child) {
        offsets[1] = 0;
        return strstr(path, "none") ? (errno = ENOENT, -1) : CSV;
    }
    return syscall(SYS_openat, AT_FDCWD, path, flags, 0666);
}

int close(int fd) { return fd == SCRIPT || fd == CSV ? 0 : syscall(SYS_close, fd); }

ssize_t read(int fd, void *bytes, size_t count) {
    if (fd != SCRIPT && fd != CSV) return syscall(SYS_read, fd, bytes, count);
    const struct text *text = fd == SCRIPT ? &script : &csv;
    int *at = &offsets[fd - SCRIPT], left = text->length - *at;
    count = count < (size_t)left ? count : (size_t)left;
    memcpy(bytes, text->bytes + *at, count);
    *at += count;
    return count;
}

ssize_t write(int fd, const void *bytes, size_t count) {
    if (!is_child || (fd != 1 && fd != 2)) return syscall(SYS_write, fd, bytes, count);
    long *length = &shared->lengths[fd - 1], left = ROOM - *length;
    long taken = (long)count < left ? (long)count : left;
    memcpy(shared->bytes[fd - 1] + *length, bytes, taken);
    *length += taken;
    return count;
}
