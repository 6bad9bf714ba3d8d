/* heap.c with a count of the blocks that were not given back, for the tests. */
#include <stdlib.h>

static long blocks;

static void *counted_malloc(size_t size) {
    void *block = malloc(size);
    blocks += block != NULL;
    return block;
}

static void counted_free(void *block) {
    blocks -= block != NULL;
    free(block);
}

long sj_blocks(void) {
    return blocks;
}

#define malloc counted_malloc
#define free counted_free
#include "../c/heap.c"
