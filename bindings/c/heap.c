/* Hands the library's requests for memory on to malloc, realloc and free. Each request answers whether it was met, and
 * where the memory is; a request for no bytes is one for as many as its alignment, so that it has a place. It does what
 * liblibc_c.a of the Rattle kit does, for machines for which the kit has none. */
#include <stdint.h>
#include <stdlib.h>

typedef struct memory {
    uint64_t met;
    void *place;
} memory;

memory rattle_alloc(size_t size, size_t alignment);
memory rattle_realloc(void *place, size_t old_size, size_t size, size_t alignment);
void rattle_dealloc(void *place, size_t size, size_t alignment);

/* Where a request that isn't met points: no bytes of it are used. */
static char nothing[1];

static memory answer(void *place) {
    memory given = {place != NULL, place ? place : nothing};
    return given;
}

memory rattle_alloc(size_t size, size_t alignment) {
    return answer(malloc(size ? size : alignment));
}

memory rattle_realloc(void *place, size_t old_size, size_t size, size_t alignment) {
    (void)old_size;
    return answer(realloc(place, size ? size : alignment));
}

void rattle_dealloc(void *place, size_t size, size_t alignment) {
    (void)size;
    (void)alignment;
    free(place);
}
