/* Notes the writes, syncs and sizes of regular files and block devices, and the syncs of folders, a line each, in the
   file that CALLS_FILE names. The bytes of the writes go into the file that BYTES_FILE names, one after the other. With
   NOTE_OUTPUT each sync but a folder's has a line at its end too, and each write to standard output one before it. With
   NOTE_FILES each line but a folder's has the file's name behind it, and each removal of a file has a line. With
   NOTE_READS each read of a file at a place has a line. */

#include "shim.h"
#include <limits.h>
#include <stdio.h>
#include <string.h>
#include <sys/stat.h>
#include <sys/types.h>
#include <unistd.h>

static int noted = -1, copied = -1, notes_output, notes_files, notes_reads;

static int opened(const char *variable) {
    const char *path = getenv(variable);
    return path ? open(path, O_WRONLY | O_APPEND | O_CREAT, 0600) : -1;
}

__attribute__((constructor)) static void begin(void) {
    noted = opened("CALLS_FILE");
    copied = opened("BYTES_FILE");
    notes_output = getenv("NOTE_OUTPUT") != NULL;
    notes_files = getenv("NOTE_FILES") != NULL;
    notes_reads = getenv("NOTE_READS") != NULL;
}

static const char *last_part(const char *path) {
    const char *slash = strrchr(path, '/');
    return slash ? slash + 1 : path;
}

/* A line with the name of an open file behind it. */
static void note_named(int file, const char *name, long long place, long long size) {
    char link[32], path[PATH_MAX] = "";
    snprintf(link, sizeof link, "/proc/self/fd/%d", file);
    if (readlink(link, path, sizeof path - 1) < 0) abort();
    dprintf(noted, "%s %lld %lld %s\n", name, place, size, last_part(path));
}

static int note(int file, const char *name, long long place, long long size) {
    struct stat is;
    if (noted < 0 || fstat(file, &is) || !(S_ISREG(is.st_mode) || S_ISBLK(is.st_mode))) return 0;
    if (notes_files) note_named(file, name, place, size);
    else dprintf(noted, "%s %lld %lld\n", name, place, size);
    return 1;
}

/* What a sync returned, once its end is noted. */
static int ended(int file, int result) {
    if (notes_output && !result) note(file, "synced", 0, 0);
    return result;
}

ssize_t write(int file, const void *bytes, size_t size) {
    NEXT(ssize_t (*next)(int, const void *, size_t), "write");
    if (notes_output && noted >= 0 && file == STDOUT_FILENO) dprintf(noted, "output 0 %zu\n", size);
    return next(file, bytes, size);
}

ssize_t pwrite64(int file, const void *bytes, size_t size, off64_t place) {
    NEXT(ssize_t (*next)(int, const void *, size_t, off64_t), "pwrite64");
    if (note(file, "write", place, size) && copied >= 0 && write(copied, bytes, size) != (ssize_t)size) abort();
    return next(file, bytes, size, place);
}

ssize_t pwrite(int file, const void *bytes, size_t size, off_t place) { return pwrite64(file, bytes, size, place); }

ssize_t pread64(int file, void *bytes, size_t size, off64_t place) {
    NEXT(ssize_t (*next)(int, void *, size_t, off64_t), "pread64");
    if (notes_reads) note(file, "read", place, size);
    return next(file, bytes, size, place);
}

ssize_t pread(int file, void *bytes, size_t size, off_t place) { return pread64(file, bytes, size, place); }

int fsync(int file) {
    NEXT(int (*next)(int), "fsync");
    struct stat is;
    if (noted >= 0 && !fstat(file, &is) && S_ISDIR(is.st_mode)) dprintf(noted, "folder 0 0\n");
    note(file, "fsync", 0, 0);
    return ended(file, next(file));
}

int fdatasync(int file) {
    NEXT(int (*next)(int), "fdatasync");
    note(file, "fdatasync", 0, 0);
    return ended(file, next(file));
}

int ftruncate64(int file, off64_t size) {
    NEXT(int (*next)(int, off64_t), "ftruncate64");
    note(file, "size", 0, size);
    return next(file, size);
}

int ftruncate(int file, off_t size) { return ftruncate64(file, size); }

int unlink(const char *path) {
    NEXT(int (*next)(const char *), "unlink");
    if (notes_files && noted >= 0) dprintf(noted, "removed 0 0 %s\n", last_part(path));
    return next(path);
}
