/* The memory that controllers take as they start, of a static array. It isn't given back; no later call takes any. A controller takes
   two blocks, of 1600 and 12408 bytes. A program with malloc may link heap.c in its place. */
#include <stddef.h>
#include <stdint.h>
#ifndef ARENA_BYTES
#define ARENA_BYTES 14336
#endif

struct answer {
    size_t given;
    void *at;
};

static _Alignas(16) uint8_t arena[ARENA_BYTES];
static size_t used;

struct answer rattle_alloc(size_t size, size_t align) {
    (void)align; /* at most 16 */
    if (size > sizeof arena - used) return (struct answer){0, arena};
    void *at = arena + used;
    used += (size + 15) & ~(size_t)15;
    return (struct answer){1, at};
}

struct answer rattle_realloc(void *at, size_t old, size_t size, size_t align) { /* an interlocking asks for it, a controller doesn't */
    struct answer moved = rattle_alloc(size, align);
    for (size_t i = 0; moved.given && i < old && i < size; i++) ((uint8_t *)moved.at)[i] = ((uint8_t *)at)[i];
    return moved;
}

void rattle_dealloc(void *at) { (void)at; }
