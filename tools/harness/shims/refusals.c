/* Counts the writes, flushes and reads of regular files. The call of FAIL_KIND with the number FAIL_AT fails. */

#include "shim.h"
#include <errno.h>
#include <string.h>
#include <sys/stat.h>
#include <sys/types.h>

enum { WRITE, FLUSH, READ, KINDS };
static long own[KINDS], *counts, at;
static int kind = -1;

__attribute__((constructor)) static void begin(void) {
    const char *name = getenv("FAIL_KIND");
    counts = counts_or(own, sizeof own);
    at = number_of("FAIL_AT");
    kind = !name ? -1 : !strcmp(name, "write") ? WRITE : !strcmp(name, "flush") ? FLUSH : READ;
}

static int refuses(int file, int call) {
    struct stat is;
    if (fstat(file, &is) || !S_ISREG(is.st_mode)) return 0;
    long count = __atomic_add_fetch(&counts[call], 1, __ATOMIC_SEQ_CST);
    if (call != kind || count != at) return 0;
    errno = EIO;
    return 1;
}

ssize_t pwrite64(int file, const void *bytes, size_t size, off64_t place) {
    NEXT(ssize_t (*next)(int, const void *, size_t, off64_t), "pwrite64");
    return refuses(file, WRITE) ? -1 : next(file, bytes, size, place);
}

ssize_t pwrite(int file, const void *bytes, size_t size, off_t place) { return pwrite64(file, bytes, size, place); }

ssize_t pread64(int file, void *bytes, size_t size, off64_t place) {
    NEXT(ssize_t (*next)(int, void *, size_t, off64_t), "pread64");
    return refuses(file, READ) ? -1 : next(file, bytes, size, place);
}

ssize_t pread(int file, void *bytes, size_t size, off_t place) { return pread64(file, bytes, size, place); }

int fsync(int file) {
    NEXT(int (*next)(int), "fsync");
    return refuses(file, FLUSH) ? -1 : next(file);
}

int fdatasync(int file) {
    NEXT(int (*next)(int), "fdatasync");
    return refuses(file, FLUSH) ? -1 : next(file);
}
