/* Lets the end of a process be as a power failure: preloaded by LD_PRELOAD, it keeps what is written by pwrite in the
 * process until a sync. Some writes reach the file before: whole, or some of their sectors of 512 bytes. A process that
 * is killed loses the rest. POWERCUT_LIES=N: each N-th sync writes nothing, as with a disk that ignores flushes. */
#define _GNU_SOURCE
#include <dlfcn.h>
#include <pthread.h>
#include <stdlib.h>
#include <string.h>
#include <sys/types.h>
#include <time.h>
#include <unistd.h>

enum { SECTOR = 512 };

/* A write that a power failure loses. */
typedef struct kept {
    struct kept *next;
    int file;
    off_t at;
    size_t count;
    unsigned char bytes[];
} kept;

static kept *first, **last = &first;
static pthread_mutex_t lock = PTHREAD_MUTEX_INITIALIZER;
static unsigned chance, lies, syncs;

static ssize_t (*real_pread)(int, void *, size_t, off_t);
static ssize_t (*real_pwrite)(int, const void *, size_t, off_t);

__attribute__((constructor)) static void begin(void) {
    *(void **)&real_pread = dlsym(RTLD_NEXT, "pread");
    *(void **)&real_pwrite = dlsym(RTLD_NEXT, "pwrite");
    chance = (unsigned)time(NULL) ^ (unsigned)getpid();
    const char *word = getenv("POWERCUT_LIES");
    lies = word ? (unsigned)atoi(word) : 0;
}

/* Writes some sectors of what is kept at once. */
static void write_some(const kept *k, int all) {
    for (size_t at = 0; at < k->count; at += SECTOR) {
        size_t some = k->count - at < SECTOR ? k->count - at : SECTOR;
        if (all || rand_r(&chance) % 2) real_pwrite(k->file, k->bytes + at, some, k->at + (off_t)at);
    }
}

ssize_t pwrite(int file, const void *bytes, size_t count, off_t at) {
    kept *k = malloc(sizeof *k + count);
    if (!k) return -1;
    *k = (kept){.file = file, .at = at, .count = count};
    memcpy(k->bytes, bytes, count);
    pthread_mutex_lock(&lock);
    int way = rand_r(&chance) % 4;
    if (way < 2) write_some(k, way);
    *last = k;
    last = &k->next;
    pthread_mutex_unlock(&lock);
    return (ssize_t)count;
}

/* Reads find what is kept. */
ssize_t pread(int file, void *into, size_t count, off_t at) {
    pthread_mutex_lock(&lock);
    ssize_t got = real_pread(file, into, count, at);
    for (const kept *k = first; k && got > 0; k = k->next) {
        off_t low = k->at > at ? k->at : at, high = at + got;
        if (k->at + (off_t)k->count < high) high = k->at + (off_t)k->count;
        if (k->file == file && low < high)
            memcpy((char *)into + (low - at), k->bytes + (low - k->at), (size_t)(high - low));
    }
    pthread_mutex_unlock(&lock);
    return got;
}

static int empty(void) {
    pthread_mutex_lock(&lock);
    int is_lie = lies && ++syncs % lies == 0;
    while (first && !is_lie) {
        kept *k = first;
        first = k->next;
        write_some(k, 1);
        free(k);
    }
    if (!first) last = &first;
    pthread_mutex_unlock(&lock);
    return 0;
}

int fsync(int file) {
    (void)file;
    return empty();
}

int fdatasync(int file) {
    (void)file;
    return empty();
}
