/* Counts the requests for memory. That with the number FAIL_AT finds none. */

#include "shim.h"

static long own, *count, at;

static int lacks(void) {
    if (!count) {
        count = counts_or(&own, sizeof own);
        at = number_of("FAIL_AT");
    }
    return ++*count == at;
}

void *malloc(size_t size) {
    NEXT(void *(*next)(size_t), "malloc");
    return lacks() ? NULL : next(size);
}

void *realloc(void *old, size_t size) {
    NEXT(void *(*next)(void *, size_t), "realloc");
    return lacks() ? NULL : next(old, size);
}
