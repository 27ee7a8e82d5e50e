/* What a write-ahead log needs besides files: memory that the connections share, and locks on eight places of it. Both
 * are those of one process. If a hub has the pool, SQLite isn't offered them. */
#include "vfs.h"

#include <string.h>
SQLITE_EXTENSION_INIT3

static pthread_mutex_t *lock_of(const handle *h) { return &h->file->pool->lock; }

/* Lets there be so many regions. */
static int extend(memory *m, uint32_t count, int size) {
    while (m->count < count) {
        void *region = sqlite3_malloc64((sqlite3_uint64)size);
        if (!region) return SQLITE_NOMEM;
        memset(region, 0, (size_t)size);
        m->regions[m->count++] = region;
    }
    return SQLITE_OK;
}

int memory_map(sqlite3_file *given, int at, int size, int extends, void volatile **region) {
    handle *h = (handle *)given;
    memory *m = &h->file->memory;
    *region = NULL;
    if (at >= MOST_REGIONS) return SQLITE_IOERR_SHMSIZE;
    pthread_mutex_lock(lock_of(h));
    m->users += !h->has_memory;
    h->has_memory = 1;
    int code = extends ? extend(m, (uint32_t)at + 1, size) : SQLITE_OK;
    if (!code && (uint32_t)at < m->count) *region = m->regions[at];
    pthread_mutex_unlock(lock_of(h));
    return code;
}

/* Gives back the lock of a place, if the handle has it. */
static void give_back(memory *m, handle *h, int place) {
    uint32_t bit = 1u << place;
    if (m->exclusive[place] == h) m->exclusive[place] = NULL;
    if (h->memory_shared & bit) m->shared[place]--;
    h->memory_shared &= ~bit;
}

/* Whether another handle keeps this one from the lock of a place. */
static int is_taken(const memory *m, const handle *h, int place, int is_exclusive) {
    uint32_t own = h->memory_shared >> place & 1;
    if (m->exclusive[place] && m->exclusive[place] != h) return 1;
    return is_exclusive && m->shared[place] > own;
}

static void take(memory *m, handle *h, int place, int is_exclusive) {
    uint32_t bit = 1u << place;
    if (is_exclusive) {
        m->exclusive[place] = h;
    } else if (!(h->memory_shared & bit)) {
        m->shared[place]++;
        h->memory_shared |= bit;
    }
}

/* Takes all places, or none. */
static int take_all(memory *m, handle *h, int first, int past, int is_exclusive) {
    for (int place = first; place < past; place++)
        if (is_taken(m, h, place, is_exclusive)) return SQLITE_BUSY;
    for (int place = first; place < past; place++) take(m, h, place, is_exclusive);
    return SQLITE_OK;
}

int memory_lock(sqlite3_file *given, int first, int count, int flags) {
    handle *h = (handle *)given;
    memory *m = &h->file->memory;
    int code = SQLITE_OK, is_exclusive = (flags & SQLITE_SHM_EXCLUSIVE) != 0;
    if ((flags & SQLITE_SHM_UNLOCK) && is_exclusive)
        code = code_of(file_settle(h->file), SQLITE_IOERR_SHMLOCK, "write of", h->file->name);
    pthread_mutex_lock(lock_of(h));
    if (flags & SQLITE_SHM_UNLOCK)
        for (int place = first; place < first + count; place++) give_back(m, h, place);
    else
        code = take_all(m, h, first, first + count, is_exclusive);
    pthread_mutex_unlock(lock_of(h));
    return code;
}

void memory_barrier(sqlite3_file *given) {
    pthread_mutex_lock(lock_of((handle *)given));
    pthread_mutex_unlock(lock_of((handle *)given));
}

int memory_unmap(sqlite3_file *given, int deletes) {
    handle *h = (handle *)given;
    memory *m = &h->file->memory;
    (void)deletes;
    if (!h->has_memory) return SQLITE_OK;
    pthread_mutex_lock(lock_of(h));
    for (int place = 0; place < SQLITE_SHM_NLOCK; place++) give_back(m, h, place);
    h->has_memory = 0;
    if (!--m->users)
        while (m->count) sqlite3_free(m->regions[--m->count]);
    pthread_mutex_unlock(lock_of(h));
    return SQLITE_OK;
}
