/* What each shim needs: the next function of its name, and numbers that outlive the program. */

#define _GNU_SOURCE
#include <dlfcn.h>
#include <fcntl.h>
#include <stdlib.h>
#include <sys/mman.h>

/* Declares `next` as this type and lets it be the function of this name that the shim stands before. */
#define NEXT(type, name) static type; if (!next) next = dlsym(RTLD_NEXT, name)

/* The bytes of the file that COUNT_FILE names, as a shared page, since the program ends without destructors; or the
   shim's own numbers. */
static inline long *counts_or(long *own, size_t size) {
    const char *path = getenv("COUNT_FILE");
    int file = path ? open(path, O_RDWR) : -1;
    void *page = file < 0 ? MAP_FAILED : mmap(NULL, size, PROT_READ | PROT_WRITE, MAP_SHARED, file, 0);
    return page == MAP_FAILED ? own : page;
}

/* The number that a variable has, 0 if it isn't there. */
static inline long number_of(const char *name) {
    const char *word = getenv(name);
    return word ? atol(word) : 0;
}
