//go:build scarce

/*
 * For tests: an allocator of which some requests fail. `go test -tags scarce` has it in place of heap.c.
 *
 * Which requests fail is a matter of each thread, so a test locks its goroutine to one.
 */
#include <stdatomic.h>
#include <stdbool.h>
#include <stddef.h>
#include <stdlib.h>

struct rattle_block {
    bool ok;
    void *at;
};

static char nowhere[16];
static _Thread_local long left, failing, failed;
static atomic_long live;

/* After so many requests, so many fail. */
void scarce_fail(long after, long many) {
    left = after;
    failing = many;
    failed = 0;
}

/* No more requests fail. Answers how many did. */
long scarce_stop(void) {
    failing = 0;
    return failed;
}

/* How many blocks are not freed. */
long scarce_live(void) {
    return live;
}

static bool fails(void) {
    if (failing == 0) return false;
    if (left > 0) {
        left--;
        return false;
    }
    failing--;
    failed++;
    return true;
}

static struct rattle_block block_at(void *at) {
    return (struct rattle_block){at != NULL, at != NULL ? at : nowhere};
}

struct rattle_block rattle_alloc(size_t size, size_t align) {
    void *at = fails() ? NULL : malloc(size > 0 ? size : align);
    if (at != NULL) live++;
    return block_at(at);
}

struct rattle_block rattle_realloc(void *at, size_t kept, size_t size, size_t align) {
    (void)kept;
    return block_at(fails() ? NULL : realloc(at, size > 0 ? size : align));
}

void rattle_dealloc(void *at) {
    live--;
    free(at);
}
