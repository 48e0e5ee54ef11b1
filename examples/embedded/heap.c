/* The memory that an interlocking takes as it starts, from malloc. It reads the layout's text then, and gives back what it needs no more.
   Controllers may take theirs here too; arena.c is for those that have no malloc. */
#include <stddef.h>
#include <stdint.h>
#include <stdlib.h>

struct answer {
    size_t given;
    void *at;
};

static struct answer given(void *at) {
    static _Alignas(16) uint8_t nothing[16];
    return (struct answer){at != NULL, at ? at : nothing};
}

struct answer rattle_alloc(size_t size, size_t align) {
    (void)align; /* at most 16, which malloc keeps */
    return given(malloc(size));
}

struct answer rattle_realloc(void *at, size_t old, size_t size, size_t align) {
    (void)old, (void)align;
    return given(realloc(at, size));
}

void rattle_dealloc(void *at) { free(at); }
