/* Are the blocks of heap.c as it says? Exits with 0 if they are. */
#include "heap.c"
#include <string.h>

static volatile size_t sizes[] = {0, 1, 16, 63, 64, 65, 127, 128, 129, 1 << 20};
static volatile size_t too_large[] = {SIZE_MAX, SIZE_MAX - 1, SIZE_MAX - 63, SIZE_MAX - 64, SIZE_MAX - 65, SIZE_MAX / 2 + 1};

int main(void) {
    for (size_t i = 0; i < sizeof sizes / sizeof *sizes; i++) {
        size_t size = sizes[i];
        struct rattle_block block = rattle_alloc(size, 16);
        if (!block.ok || (uintptr_t)block.at % (size > 64 ? 64 : 16) != 0) return 1;
        memset(block.at, 7, size);
        block = rattle_realloc(block.at, size, size + 100, 16);
        if (!block.ok || (uintptr_t)block.at % 16 != 0) return 2;
        memset((char *)block.at + size, 7, 100);
        for (size_t at = 0; at < size; at++)
            if (((char *)block.at)[at] != 7) return 3;
        rattle_dealloc(block.at);
    }
    for (size_t i = 0; i < sizeof too_large / sizeof *too_large; i++) {
        struct rattle_block block = rattle_alloc(too_large[i], 16);
        if (block.ok || block.at == NULL) return 4;
    }
    return 0;
}
