// Refuses one call of the C allocator, the one of the number REFUSED_CALL, counted from 1; or all from the one of the number
// REFUSED_FROM on. At the end of the program the number of its calls stands in the file COUNTED_CALLS, if that is set. To be
// loaded by LD_PRELOAD.
#define _GNU_SOURCE
#include <dlfcn.h>
#include <stdio.h>
#include <stdlib.h>

static long calls;

static long number_of(const char *name) {
    const char *number = getenv(name);
    return number ? atol(number) : 0;
}

static int is_refused(void) {
    static long one = -1, first;
    if (one < 0) {
        one = number_of("REFUSED_CALL");
        first = number_of("REFUSED_FROM");
    }
    calls++;
    return calls == one || (first > 0 && calls >= first);
}

void *malloc(size_t size) {
    static void *(*next)(size_t);
    if (!next) next = dlsym(RTLD_NEXT, "malloc");
    return is_refused() ? NULL : next(size);
}

void *realloc(void *block, size_t size) {
    static void *(*next)(void *, size_t);
    if (!next) next = dlsym(RTLD_NEXT, "realloc");
    return is_refused() ? NULL : next(block, size);
}

__attribute__((destructor)) static void tell(void) {
    const char *path = getenv("COUNTED_CALLS");
    FILE *file = path ? fopen(path, "w") : NULL;
    if (file) {
        fprintf(file, "%ld\n", calls);
        fclose(file);
    }
}

// A program that other threads wait in ends without what is done at its end.
void _exit(int status) {
    void (*next)(int) = (void (*)(int))dlsym(RTLD_NEXT, "_exit");
    tell();
    next(status);
    __builtin_unreachable();
}
