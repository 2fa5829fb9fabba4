/* A stand-in for malloc and realloc that refuses some requests for memory in a row: REFUSED_AT gives
 * the number of the first, counted from 1, and REFUSED_COUNT how many, one if it is not set.
 * Descriptor 9 gets a byte for each. */
#define _GNU_SOURCE
#include <dlfcn.h>
#include <stdlib.h>
#include <unistd.h>

static _Atomic long requests;
static long first_refused = -1;
static long past_refused;

static long number(const char *name, long otherwise) {
    const char *text = getenv(name);
    return text ? atol(text) : otherwise;
}

static int is_refused(void) {
    long request = ++requests;
    if (first_refused < 0) {
        long first = number("REFUSED_AT", 0);
        past_refused = first + number("REFUSED_COUNT", 1);
        first_refused = first;
    }
    return first_refused <= request && request < past_refused && write(9, "!", 1) == 1;
}

void *malloc(size_t size) {
    static void *(*real)(size_t);
    if (!real) real = (void *(*)(size_t))dlsym(RTLD_NEXT, "malloc");
    return is_refused() ? NULL : real(size);
}

void *realloc(void *block, size_t size) {
    static void *(*real)(void *, size_t);
    if (!real) real = (void *(*)(void *, size_t))dlsym(RTLD_NEXT, "realloc");
    return is_refused() ? NULL : real(block, size);
}
