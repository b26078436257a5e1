/*
 * How does the library take memory? By these three functions, here over malloc. A program that keeps its own heap
 * defines them itself and leaves this file out.
 *
 *   - All three serve one heap. A block that one thread took may be freed by another, if the table moved there.
 *   - A block is aligned to `align`, a power of two of at most 16. A size of 0 is answered like a block of `align`
 *     bytes.
 *   - If there is no memory, `ok` is false. `at` is then any address but null. A failed rattle_realloc keeps the block.
 *   - rattle_realloc keeps the first `kept` bytes of the block.
 *
 * Here a new block of more than a line of cache takes whole lines, so two such blocks share none. The library does not ask
 * for that, but a shared table is faster so on several threads.
 */
#include <stdbool.h>
#include <stddef.h>
#include <stdint.h>
#include <stdlib.h>

#define LINE ((size_t)64)

struct rattle_block {
    bool ok;
    void *at;
};

static char nowhere[16];

static struct rattle_block block_at(void *at) {
    return (struct rattle_block){at != NULL, at != NULL ? at : nowhere};
}

struct rattle_block rattle_alloc(size_t size, size_t align) {
    if (size > LINE && size < SIZE_MAX - LINE) return block_at(aligned_alloc(LINE, (size + LINE - 1) / LINE * LINE));
    return block_at(malloc(size > 0 ? size : align));
}

struct rattle_block rattle_realloc(void *at, size_t kept, size_t size, size_t align) {
    (void)kept;
    return block_at(realloc(at, size > 0 ? size : align));
}

void rattle_dealloc(void *at) {
    free(at);
}
