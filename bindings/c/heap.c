/* The three functions by which the library asks for memory and gives it back, by malloc. A block is
 * aligned to 16 at most; a request of no bytes gets a block of its alignment's size. */
#include <stdbool.h>
#include <stddef.h>
#include <stdlib.h>

typedef struct {
    bool is_granted;
    void *block;
} answer;

/* A refused request is answered with a place that is not null, and is never read. */
static unsigned char nowhere;

static answer granted(void *block) {
    return (answer){block != NULL, block != NULL ? block : &nowhere};
}

answer rattle_alloc(size_t size, size_t align) {
    return granted(malloc(size != 0 ? size : align));
}

answer rattle_realloc(void *block, size_t kept, size_t size, size_t align) {
    (void)kept;
    return granted(realloc(block, size != 0 ? size : align));
}

void rattle_dealloc(void *block) {
    free(block);
}
