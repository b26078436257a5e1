/* Refuses one request for memory, one read or one write: the one whose number stands in REFUSE_MEMORY, REFUSE_READ or
   REFUSE_WRITE, counted from 1. REFUSE_FROM=N refuses the Nth request for memory and all that come after it. A request
   for memory is a call of malloc, calloc or realloc, and gets none; a read (also one at an offset) or a write fails with
   EIO. SHORT_WRITE=N has the Nth write take one byte alone, so that another one follows. At the end the numbers of all
   three are written to the file descriptor that TELL names. TELL_AT=WORD has the number of requests for memory written
   there too, before each write that begins with this word.
   Built as a shared library and loaded by LD_PRELOAD; see injection.py. */
#define _GNU_SOURCE
#include <dlfcn.h>
#include <errno.h>
#include <stdio.h>
#include <stdlib.h>
#include <string.h>
#include <unistd.h>

static unsigned long refuse_memory, refuse_from, refuse_read, refuse_write, short_write;
static unsigned long requests, reads, writes;
static const char *tell_at;
static void *(*next_malloc)(size_t);
static void *(*next_calloc)(size_t, size_t);
static void *(*next_realloc)(void *, size_t);
static ssize_t (*next_read)(int, void *, size_t);
static ssize_t (*next_pread)(int, void *, size_t, off_t);
static ssize_t (*next_write)(int, const void *, size_t);

static unsigned long number(const char *name) {
    const char *word = getenv(name);
    return word ? strtoul(word, 0, 10) : 0;
}

__attribute__((constructor)) static void find(void) {
    next_malloc = dlsym(RTLD_NEXT, "malloc");
    next_calloc = dlsym(RTLD_NEXT, "calloc");
    next_realloc = dlsym(RTLD_NEXT, "realloc");
    next_read = dlsym(RTLD_NEXT, "read");
    next_pread = dlsym(RTLD_NEXT, "pread");
    next_write = dlsym(RTLD_NEXT, "write");
    refuse_memory = number("REFUSE_MEMORY");
    refuse_from = number("REFUSE_FROM");
    refuse_read = number("REFUSE_READ");
    refuse_write = number("REFUSE_WRITE");
    short_write = number("SHORT_WRITE");
    tell_at = getenv("TELL_AT");
    requests = reads = writes = 0;
}

__attribute__((destructor)) static void tell(void) {
    static int told;
    char text[96];
    if (told++) return;
    int n = snprintf(text, sizeof text, "%lu %lu %lu\n", requests, reads, writes);
    if (next_write((int)number("TELL"), text, n) < 0) { }
}

static void tell_requests(void) {
    char text[32];
    int n = snprintf(text, sizeof text, "%lu\n", requests);
    if (next_write((int)number("TELL"), text, n) < 0) { }
}

/* A program with threads ends so, without the destructors of its libraries. */
void _exit(int status) {
    void (*next)(int) = (void (*)(int))dlsym(RTLD_NEXT, "_exit");
    tell();
    next(status);
    __builtin_unreachable();
}

static int is_next(unsigned long *count, unsigned long refused) {
    return __atomic_add_fetch(count, 1, __ATOMIC_SEQ_CST) == refused;
}

static int is_without_memory(void) {
    unsigned long request = __atomic_add_fetch(&requests, 1, __ATOMIC_SEQ_CST);
    return request == refuse_memory || (refuse_from && request >= refuse_from);
}

static void *none(void) {
    errno = ENOMEM;
    return NULL;
}

void *malloc(size_t size) {
    if (!next_malloc) next_malloc = dlsym(RTLD_NEXT, "malloc");
    return is_without_memory() ? none() : next_malloc(size);
}

/* dlsym itself may ask for zeroed memory while it looks for calloc: it gets none, which it can do without. */
void *calloc(size_t count, size_t size) {
    static int finding;
    if (!next_calloc) {
        if (finding) return NULL;
        finding = 1;
        next_calloc = dlsym(RTLD_NEXT, "calloc");
        finding = 0;
    }
    return is_without_memory() ? none() : next_calloc(count, size);
}

void *realloc(void *old, size_t size) {
    if (!next_realloc) next_realloc = dlsym(RTLD_NEXT, "realloc");
    return is_without_memory() ? none() : next_realloc(old, size);
}

ssize_t read(int file, void *to, size_t most) {
    if (!next_read) next_read = dlsym(RTLD_NEXT, "read");
    if (is_next(&reads, refuse_read)) {
        errno = EIO;
        return -1;
    }
    return next_read(file, to, most);
}

ssize_t pread(int file, void *to, size_t most, off_t offset) {
    if (!next_pread) next_pread = dlsym(RTLD_NEXT, "pread");
    if (is_next(&reads, refuse_read)) {
        errno = EIO;
        return -1;
    }
    return next_pread(file, to, most, offset);
}

ssize_t write(int file, const void *from, size_t most) {
    if (!next_write) next_write = dlsym(RTLD_NEXT, "write");
    if (tell_at && most >= strlen(tell_at) && !memcmp(from, tell_at, strlen(tell_at))) tell_requests();
    if (is_next(&writes, refuse_write)) {
        errno = EIO;
        return -1;
    }
    return next_write(file, from, writes == short_write && most > 1 ? 1 : most);
}
