/* Each read, write and sync of a regular file takes as many milliseconds longer as DELAY says. */

#include "shim.h"
#include <sys/stat.h>
#include <sys/types.h>
#include <time.h>

static struct timespec delay;

__attribute__((constructor)) static void begin(void) {
    long milliseconds = number_of("DELAY");
    delay.tv_sec = milliseconds / 1000;
    delay.tv_nsec = milliseconds % 1000 * 1000000;
}

static void wait_for(int file) {
    struct stat is;
    if (!fstat(file, &is) && S_ISREG(is.st_mode)) nanosleep(&delay, NULL);
}

ssize_t pwrite64(int file, const void *bytes, size_t size, off64_t place) {
    NEXT(ssize_t (*next)(int, const void *, size_t, off64_t), "pwrite64");
    wait_for(file);
    return next(file, bytes, size, place);
}

ssize_t pwrite(int file, const void *bytes, size_t size, off_t place) { return pwrite64(file, bytes, size, place); }

ssize_t pread64(int file, void *bytes, size_t size, off64_t place) {
    NEXT(ssize_t (*next)(int, void *, size_t, off64_t), "pread64");
    wait_for(file);
    return next(file, bytes, size, place);
}

ssize_t pread(int file, void *bytes, size_t size, off_t place) { return pread64(file, bytes, size, place); }

int fsync(int file) {
    NEXT(int (*next)(int), "fsync");
    wait_for(file);
    return next(file);
}

int fdatasync(int file) {
    NEXT(int (*next)(int), "fdatasync");
    wait_for(file);
    return next(file);
}
