/* The extension: a VFS of SQLite whose files lie in pools. Its name for a file is the path of the pool, `/`, and the
 * name of the file in the pool. In place of the pool's path it may have that of a hub's socket. Temporary files, which
 * have no name, are those of SQLite's default VFS. */
#define _GNU_SOURCE
#include "vfs.h"

#include <limits.h>
#include <stdlib.h>
#include <string.h>
SQLITE_EXTENSION_INIT1

enum { BLOCK = 4096, MOST_PATH = PATH_MAX + NAME_ROOM };

/* What is true of a file. A write of up to 32 KiB is one operation of one transaction, and so is an append: whole or
 * not there. Writes to other bytes don't touch these. An appended file has no new size without its bytes (vfs.h, rule
 * 2). */
#define ATOMIC_SIZES                                                                                            \
    (SQLITE_IOCAP_ATOMIC512 | SQLITE_IOCAP_ATOMIC1K | SQLITE_IOCAP_ATOMIC2K | SQLITE_IOCAP_ATOMIC4K |           \
     SQLITE_IOCAP_ATOMIC8K | SQLITE_IOCAP_ATOMIC16K | SQLITE_IOCAP_ATOMIC32K)
#define CHARACTERISTICS \
    (ATOMIC_SIZES | SQLITE_IOCAP_SAFE_APPEND | SQLITE_IOCAP_POWERSAFE_OVERWRITE | SQLITE_IOCAP_BATCH_ATOMIC)
/* Not SQLITE_IOCAP_SEQUENTIAL: what survives a power failure need not be the first of the transactions. It is so only
 * of those that conflict. It can be offered once the pool promises their order:
 * #define CHARACTERISTICS (.. | SQLITE_IOCAP_SEQUENTIAL) */

static sqlite3_vfs *real; /* SQLite's default VFS */

/* Files. */

static handle *of(sqlite3_file *given) { return (handle *)given; }

static int close_file(sqlite3_file *given) {
    handle *h = of(given);
    file *f = h->file;
    pool *p = f->pool;
    char name[NAME_ROOM];
    sqlite3_snprintf(NAME_ROOM, name, "%s", f->name);
    atomic_give_up(h);
    int code = lock_lower(h, SQLITE_LOCK_NONE);
    memory_unmap(given, 0);
    lock_close(h);
    int closed = code_of(file_close(f), SQLITE_IOERR_CLOSE, "close of", name);
    int released = pool_release(p);
    return code ? code : closed ? closed : released;
}

static int read_file(sqlite3_file *given, void *into, int count, sqlite3_int64 at) {
    file *f = of(given)->file;
    uint64_t got;
    int refusal = file_read(f, into, (uint64_t)count, (uint64_t)at, &got);
    if (refusal) return code_of(refusal, SQLITE_IOERR_READ, "read of", f->name);
    if (got == (uint64_t)count) return SQLITE_OK;
    memset((uint8_t *)into + got, 0, (size_t)count - got);
    return SQLITE_IOERR_SHORT_READ;
}

static int write_file(sqlite3_file *given, const void *bytes, int count, sqlite3_int64 at) {
    handle *h = of(given);
    if (h->batch) return atomic_write(h, bytes, (uint64_t)count, (uint64_t)at);
    return code_of(file_write(h->file, bytes, (uint64_t)count, (uint64_t)at), SQLITE_IOERR_WRITE, "write of",
                   h->file->name);
}

static int truncate_file(sqlite3_file *given, sqlite3_int64 size) {
    file *f = of(given)->file;
    return code_of(file_truncate(f, (uint64_t)size), SQLITE_IOERR_TRUNCATE, "truncation of", f->name);
}

static int sync_file(sqlite3_file *given, int flags) {
    file *f = of(given)->file;
    (void)flags;
    return code_of(file_sync(f), SQLITE_IOERR_FSYNC, "sync of", f->name);
}

static int size_of_file(sqlite3_file *given, sqlite3_int64 *size) {
    handle *h = of(given);
    uint64_t found = 0;
    int refusal = file_size(h->file, h->level > SQLITE_LOCK_NONE, &found);
    *size = (sqlite3_int64)found;
    return code_of(refusal, SQLITE_IOERR_FSTAT, "size of", h->file->name);
}

static int lock_file(sqlite3_file *given, int level) { return lock_raise(of(given), level); }

static int unlock_file(sqlite3_file *given, int level) { return lock_lower(of(given), level); }

static int check_reserved(sqlite3_file *given, int *is) { return lock_is_reserved(of(given), is); }

/* Reads or sets an option that is a number below 0 if it is to be read. */
static int swap_option(int *option, int *number) {
    if (*number < 0)
        *number = *option;
    else
        *option = *number;
    return SQLITE_OK;
}

static int control_file(sqlite3_file *given, int number, void *of_number) {
    handle *h = of(given);
    int yes = 1;
    switch (number) {
    case SQLITE_FCNTL_LOCKSTATE:
        *(int *)of_number = h->level;
        return SQLITE_OK;
    case SQLITE_FCNTL_LAST_ERRNO:
        *(int *)of_number = last_error(0, NULL);
        return SQLITE_OK;
    case SQLITE_FCNTL_VFSNAME:
        *(char **)of_number = sqlite3_mprintf("%s", VFS_NAME);
        return SQLITE_OK;
    case SQLITE_FCNTL_HAS_MOVED:
        *(int *)of_number = h->file->is_gone;
        return SQLITE_OK;
    case SQLITE_FCNTL_SYNC: /* before a sync, and also where `synchronous=OFF` leaves it out */
        return code_of(file_commit(h->file), SQLITE_IOERR_FSYNC, "write of", h->file->name);
    case SQLITE_FCNTL_CKPT_START:
    case SQLITE_FCNTL_CKPT_DONE:
        file_checkpoint(h->file, number == SQLITE_FCNTL_CKPT_START);
        return SQLITE_OK;
    case SQLITE_FCNTL_PERSIST_WAL:
        return swap_option(&h->keeps_log, of_number);
    case SQLITE_FCNTL_POWERSAFE_OVERWRITE:
        return swap_option(&yes, of_number);
    case SQLITE_FCNTL_BEGIN_ATOMIC_WRITE:
        return atomic_begin(h);
    case SQLITE_FCNTL_COMMIT_ATOMIC_WRITE:
        return atomic_commit(h);
    case SQLITE_FCNTL_ROLLBACK_ATOMIC_WRITE:
        atomic_give_up(h);
        return SQLITE_OK;
    default:
        return SQLITE_NOTFOUND;
    }
}

static int sector_size(sqlite3_file *given) {
    (void)given;
    return BLOCK;
}

static int characteristics(sqlite3_file *given) {
    (void)given;
    return CHARACTERISTICS;
}

#define METHODS(VERSION)                                                                                        \
    .iVersion = (VERSION), .xClose = close_file, .xRead = read_file, .xWrite = write_file,                      \
    .xTruncate = truncate_file, .xSync = sync_file, .xFileSize = size_of_file, .xLock = lock_file,              \
    .xUnlock = unlock_file, .xCheckReservedLock = check_reserved, .xFileControl = control_file,                 \
    .xSectorSize = sector_size, .xDeviceCharacteristics = characteristics

/* Programs that share a pool have no memory together, so SQLite makes no write-ahead log of theirs. */
static const sqlite3_io_methods shared_methods = {METHODS(1)};

static const sqlite3_io_methods methods = {
    METHODS(2),
    .xShmMap = memory_map,
    .xShmLock = memory_lock,
    .xShmBarrier = memory_barrier,
    .xShmUnmap = memory_unmap,
};

/* Names. */

/* The absolute path of a file that may not be there yet, or NULL without memory or folder. To be given back by free. */
static char *absolute(const char *path) {
    char *found = realpath(path, NULL), *made;
    if (found) return found;
    const char *slash = strrchr(path, '/'), *last = slash ? slash + 1 : path;
    char *folder = slash == path ? strdup("/") : slash ? strndup(path, (size_t)(slash - path)) : strdup(".");
    char *whole = folder ? realpath(folder, NULL) : NULL;
    free(folder);
    if (!whole) return NULL;
    size_t count = strlen(whole) + strlen(last) + 2;
    made = malloc(count);
    if (made) sqlite3_snprintf((int)count, made, "%s%s%s", whole, strcmp(whole, "/") ? "/" : "", last);
    free(whole);
    return made;
}

/* Puts the absolute path of a pool and the name of a database together, which isn't that of a piece. */
static int join(const char *place, const char *name, int room, char *into) {
    char *path = absolute(place);
    if (!path) return tell(SQLITE_CANTOPEN, "%s can't be opened: its folder isn't there", place);
    size_t count = strlen(path) + 1 + strlen(name);
    int fits = count < (size_t)room && *name && strlen(name) <= MOST_FILE_NAME && !strchr(name, '#');
    if (fits) sqlite3_snprintf(room, into, "%s/%s", path, name);
    free(path);
    return fits ? SQLITE_OK : tell(SQLITE_CANTOPEN, "\"%s\" can't be the name of a database in %s", name, place);
}

/* SQLite gives the name of a database with the options of its URI behind. */
static int full_name(sqlite3_vfs *vfs, const char *name, int room, char *into) {
    const char *place = sqlite3_uri_parameter(name, "pool"), *slash = strrchr(name, '/');
    (void)vfs;
    if (!place) place = sqlite3_uri_parameter(name, "socket");
    if (place && slash && slash != name) return tell(SQLITE_CANTOPEN, "%s: a name in a pool has no /", name);
    if (place) return join(place, slash ? slash + 1 : name, room, into);
    if (!slash) return tell(SQLITE_CANTOPEN, "%s: give pool=FILE or socket=PATH", name);
    char *copy = sqlite3_mprintf("%.*s", slash == name ? 1 : (int)(slash - name), name);
    if (!copy) return SQLITE_NOMEM;
    int code = join(copy, slash + 1, room, into);
    sqlite3_free(copy);
    return code;
}

/* Opens the pool of a file. `name` is that of the file in it. */
static int acquire(const char *full, const char *uri, pool **p, const char **name) {
    const char *slash = full ? strrchr(full, '/') : NULL;
    if (!slash) return SQLITE_CANTOPEN;
    *name = slash + 1;
    char *path = sqlite3_mprintf("%.*s", (int)(slash - full), full);
    if (!path) return SQLITE_NOMEM;
    int code = pool_acquire(path, uri, p);
    sqlite3_free(path);
    return code;
}

/* Opens. */

static int cannot_open(const pool *p, const char *name, int refusal) {
    if (refusal == TOPZERAD_BAD_RANGE)
        return tell(SQLITE_CANTOPEN, "\"%s\" can't be the name of a database in %s", name, p->path);
    return code_of(refusal, SQLITE_CANTOPEN, "open of", name);
}

static int open_handle(handle *h, pool *p, const char *name, int flags) {
    int code = cannot_open(p, name, file_open(p, name, flags, &h->file));
    if (code) return code;
    code = lock_open(h);
    if (code) file_close(h->file);
    return code;
}

static int open_file(sqlite3_vfs *vfs, const char *full, sqlite3_file *given, int flags, int *got) {
    const int temporary = SQLITE_OPEN_TEMP_DB | SQLITE_OPEN_TRANSIENT_DB | SQLITE_OPEN_TEMP_JOURNAL |
                          SQLITE_OPEN_SUBJOURNAL;
    handle *h = of(given);
    pool *p;
    const char *name;
    (void)vfs;
    if (!full || (flags & temporary)) return real->xOpen(real, full, given, flags, got);
    memset(h, 0, sizeof *h);
    int code = acquire(full, flags & SQLITE_OPEN_MAIN_DB ? full : NULL, &p, &name);
    if (code) return code;
    code = open_handle(h, p, name, flags);
    if (code) {
        pool_release(p);
        return code;
    }
    h->base.pMethods = p->is_shared ? &shared_methods : &methods;
    if (got) *got = flags;
    return SQLITE_OK;
}

static int delete_file(sqlite3_vfs *vfs, const char *full, int durable) {
    pool *p;
    const char *name;
    (void)vfs;
    int code = acquire(full, NULL, &p, &name);
    if (code) return code;
    int refusal = file_remove(p, name, durable);
    code = refusal == TOPZERAD_NO_OBJECT ? SQLITE_IOERR_DELETE_NOENT
                                         : code_of(refusal, SQLITE_IOERR_DELETE, "removal of", name);
    int released = pool_release(p);
    return code ? code : released;
}

/* A file without bytes doesn't count as one that exists, as with SQLite's own files. */
static int access_file(sqlite3_vfs *vfs, const char *full, int flags, int *is) {
    pool *p;
    const char *name;
    layout found = {.count = 0};
    (void)vfs;
    *is = 0;
    int code = acquire(full, NULL, &p, &name);
    if (code) return code;
    code = code_of(file_look(p, name, &found), SQLITE_IOERR_ACCESS, "look at", name);
    *is = !code && found.count && (flags != SQLITE_ACCESS_EXISTS || found.size);
    int released = pool_release(p);
    return code ? code : released;
}

static int get_last_error(sqlite3_vfs *vfs, int room, char *into) {
    (void)vfs;
    return last_error(room, into);
}

/* What has nothing to do with files is left to the default VFS. */

static void *open_library(sqlite3_vfs *vfs, const char *name) {
    (void)vfs;
    return real->xDlOpen(real, name);
}

static void tell_of_library(sqlite3_vfs *vfs, int room, char *into) {
    (void)vfs;
    real->xDlError(real, room, into);
}

static void (*find_symbol(sqlite3_vfs *vfs, void *library, const char *name))(void) {
    (void)vfs;
    return real->xDlSym(real, library, name);
}

static void close_library(sqlite3_vfs *vfs, void *library) {
    (void)vfs;
    real->xDlClose(real, library);
}

static int randomness(sqlite3_vfs *vfs, int count, char *into) {
    (void)vfs;
    return real->xRandomness(real, count, into);
}

static int sleep_for(sqlite3_vfs *vfs, int microseconds) {
    (void)vfs;
    return real->xSleep(real, microseconds);
}

static int current_time(sqlite3_vfs *vfs, double *days) {
    (void)vfs;
    return real->xCurrentTime(real, days);
}

static int current_milliseconds(sqlite3_vfs *vfs, sqlite3_int64 *milliseconds) {
    (void)vfs;
    return real->xCurrentTimeInt64(real, milliseconds);
}

static sqlite3_vfs the_vfs = {
    .iVersion = 2,
    .szOsFile = sizeof(handle),
    .mxPathname = MOST_PATH,
    .zName = VFS_NAME,
    .xOpen = open_file,
    .xDelete = delete_file,
    .xAccess = access_file,
    .xFullPathname = full_name,
    .xDlOpen = open_library,
    .xDlError = tell_of_library,
    .xDlSym = find_symbol,
    .xDlClose = close_library,
    .xRandomness = randomness,
    .xSleep = sleep_for,
    .xCurrentTime = current_time,
    .xGetLastError = get_last_error,
    .xCurrentTimeInt64 = current_milliseconds,
};

#pragma GCC visibility push(default)
/* SQLite calls this when it loads the extension. The VFS stays until the process ends. */
int sqlite3_topzerad_init(sqlite3 *db, char **message, const sqlite3_api_routines *api);
#pragma GCC visibility pop

int sqlite3_topzerad_init(sqlite3 *db, char **message, const sqlite3_api_routines *api) {
    SQLITE_EXTENSION_INIT2(api)
    (void)db;
    real = sqlite3_vfs_find(NULL);
    if (!real || real == &the_vfs || real->iVersion < 2) {
        *message = sqlite3_mprintf("topzerad needs a default VFS of version 2 or later");
        return SQLITE_ERROR;
    }
    if (the_vfs.szOsFile < real->szOsFile) the_vfs.szOsFile = real->szOsFile;
    int code = sqlite3_vfs_register(&the_vfs, 0);
    return code ? code : SQLITE_OK_LOAD_PERMANENTLY;
}
