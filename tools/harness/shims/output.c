/* Standard output has room for as many bytes as OUTPUT_ROOM says. A write takes those that have room, and fails if none
   has. */

#include "shim.h"
#include <errno.h>
#include <sys/types.h>
#include <unistd.h>

static size_t room;

__attribute__((constructor)) static void begin(void) { room = (size_t)number_of("OUTPUT_ROOM"); }

ssize_t write(int file, const void *bytes, size_t size) {
    NEXT(ssize_t (*next)(int, const void *, size_t), "write");
    if (file != STDOUT_FILENO) return next(file, bytes, size);
    if (room == 0) {
        errno = ENOSPC;
        return -1;
    }
    ssize_t taken = next(file, bytes, size < room ? size : room);
    if (taken > 0) room -= (size_t)taken;
    return taken;
}
