/* Pools that are open. All databases of a process that lie in one pool share it. */
#define _GNU_SOURCE
#include "vfs.h"

#include <errno.h>
#include <string.h>
#include <sys/stat.h>
SQLITE_EXTENSION_INIT3

enum { BLOCK = 4096, DEFAULT_DIRTY = 4 << 20 };

static pthread_mutex_t lock_of_all = PTHREAD_MUTEX_INITIALIZER;
static pool *all;

static void free_pool(pool *p) {
    pthread_mutex_destroy(&p->sending);
    pthread_mutex_destroy(&p->lock);
    sqlite3_free(p->table);
    sqlite3_free(p->locks);
    sqlite3_free(p);
}

static pool *new_pool(const char *path) {
    size_t count = strlen(path) + 1;
    pool *p = sqlite3_malloc64(sizeof *p + count);
    if (!p) return NULL;
    memset(p, 0, sizeof *p);
    memcpy(p->path, path, count);
    pthread_mutex_init(&p->sending, NULL);
    pthread_mutex_init(&p->lock, NULL);
    return p;
}

/* SQLite's code for a pool that can't be opened. */
static int cannot_open(const pool *p, int refusal) {
    int error = refusal == TOPZERAD_SYSTEM ? errno : 0, code = SQLITE_CANTOPEN;
    if (error == EAGAIN) code = SQLITE_BUSY;
    if (error == ENOMEM || refusal == TOPZERAD_NO_MEMORY) code = SQLITE_NOMEM;
    const char *cause = topzerad_cause(&p->handle);
    return tell(code, "%s can't be opened: %s", p->path, cause[0] ? cause : topzerad_text(refusal));
}

/* Opens the pool of a hub. Its locks lie in a file beside the socket. */
static int open_shared(pool *p, const char *uri, const topzerad_options *options) {
    const topzerad_options by_hub = {.timeout = options->timeout};
    const char *locks = uri ? sqlite3_uri_parameter(uri, "locks") : NULL;
    p->is_shared = 1;
    p->locks = locks ? sqlite3_mprintf("%s", locks) : sqlite3_mprintf("%s-locks", p->path);
    if (!p->locks) return SQLITE_NOMEM;
    int refusal = topzerad_open_socket(&p->handle, p->path, &by_hub);
    return refusal ? cannot_open(p, refusal) : SQLITE_OK;
}

static int open_alone(pool *p, const char *program, const topzerad_options *options) {
    int refusal = topzerad_open_options(&p->handle, program, p->path, options);
    return refusal ? cannot_open(p, refusal) : SQLITE_OK;
}

/* Reads what is known of names from the first moment on. */
static int read_names(pool *p) {
    p->is_table_stale = 1;
    int refusal = names_load(p);
    if (!refusal) return SQLITE_OK;
    topzerad_close(&p->handle);
    if (refusal != TOPZERAD_BAD_RANGE) return code_of(refusal, SQLITE_CANTOPEN, "names of", p->path);
    return tell(SQLITE_CANTOPEN, "%s: object 0 is no table of names", p->path);
}

/* Opens a pool, whose `sending` the caller has. */
static int open_pool(pool *p, const char *uri) {
    struct stat found;
    const char *program;
    topzerad_options options;
    int code = read_options(uri, &program, &options);
    if (code) return code;
    int is_socket = !stat(p->path, &found) && S_ISSOCK(found.st_mode);
    code = is_socket ? open_shared(p, uri, &options) : open_alone(p, program, &options);
    if (!code) code = read_names(p);
    if (code) return code;
    p->most_charge = (options.dirty && !is_socket ? options.dirty : DEFAULT_DIRTY) / BLOCK;
    gather_start(p);
    p->is_open = 1;
    return SQLITE_OK;
}

static pool *find(const char *path) {
    for (pool *p = all; p; p = p->next)
        if (!strcmp(p->path, path)) return p;
    return NULL;
}

/* Counts a user of a pool, which is open or is being opened. `is_new`: the caller has `sending`, and opens it. */
static pool *use(const char *path, int *is_new) {
    pthread_mutex_lock(&lock_of_all);
    pool *p = find(path);
    *is_new = !p;
    if (!p) p = new_pool(path);
    if (p && *is_new) {
        pthread_mutex_lock(&p->sending);
        p->next = all;
        all = p;
    }
    if (p) p->users++;
    pthread_mutex_unlock(&lock_of_all);
    return p;
}

int pool_acquire(const char *path, const char *uri, pool **acquired) {
    int is_new;
    pool *p = use(path, &is_new);
    if (!p) return SQLITE_NOMEM;
    if (is_new)
        p->code = open_pool(p, uri);
    else
        pthread_mutex_lock(&p->sending); /* another thread may be opening it */
    pthread_mutex_unlock(&p->sending);
    int code = p->code;
    if (code) pool_release(p);
    *acquired = code ? NULL : p;
    return code;
}

/* Sends what is left, and ends the process or the connection. */
static int close_pool(pool *p) {
    if (!p->is_open) return SQLITE_OK;
    pthread_mutex_lock(&p->sending);
    int refusal = pool_send(p, 0);
    pthread_mutex_unlock(&p->sending);
    int closed = topzerad_close(&p->handle);
    return code_of(refusal ? refusal : closed, SQLITE_IOERR_CLOSE, "close of", p->path);
}

int pool_release(pool *p) {
    int code = SQLITE_OK;
    pthread_mutex_lock(&lock_of_all);
    if (!--p->users) {
        pool **at = &all;
        while (*at != p) at = &(*at)->next;
        *at = p->next;
        code = close_pool(p);
        free_pool(p);
    }
    pthread_mutex_unlock(&lock_of_all);
    return code;
}
