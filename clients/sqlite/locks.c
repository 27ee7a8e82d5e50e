/* SQLite's five levels of locks. Handles of one process have them here. Programs that share a pool by a hub have them
 * on bytes of a file beside the hub's socket, as SQLite's own files have them: the system gives them back when a
 * process ends. Each handle opens that file anew, so its locks are its own and not those of its process. */
#define _GNU_SOURCE /* F_OFD_SETLK */
#include "vfs.h"

#include <errno.h>
#include <fcntl.h>
#include <string.h>
#include <sys/stat.h>
#include <unistd.h>
SQLITE_EXTENSION_INIT3

/* The bytes of a database's locks, from 4 * the number of its first object on. */
enum { PENDING, RESERVED, SHARED, BYTES = 4 };

/* Within the process. */

static int raise_shared(levels *l, const handle *h) {
    if ((l->pending && l->pending != h) || (l->exclusive && l->exclusive != h)) return SQLITE_BUSY;
    l->shared++;
    return SQLITE_OK;
}

static int raise_reserved(levels *l, const handle *h) {
    if ((l->reserved && l->reserved != h) || (l->pending && l->pending != h)) return SQLITE_BUSY;
    l->reserved = h;
    return SQLITE_OK;
}

/* While others read, the handle has a pending lock, by which no more begin to. */
static int raise_exclusive(levels *l, handle *h) {
    if ((l->pending && l->pending != h) || (l->reserved && l->reserved != h)) return SQLITE_BUSY;
    l->pending = h;
    h->level = SQLITE_LOCK_PENDING;
    if (l->shared > 1) return SQLITE_BUSY;
    l->exclusive = h;
    return SQLITE_OK;
}

static int raise_alone(handle *h, int level) {
    levels *l = &h->file->levels;
    pthread_mutex_t *lock = &h->file->pool->lock;
    pthread_mutex_lock(lock);
    int code = level == SQLITE_LOCK_SHARED     ? raise_shared(l, h)
               : level == SQLITE_LOCK_RESERVED ? raise_reserved(l, h)
                                               : raise_exclusive(l, h);
    if (!code) h->level = level;
    pthread_mutex_unlock(lock);
    return code;
}

static void lower_alone(handle *h, int level) {
    levels *l = &h->file->levels;
    pthread_mutex_t *lock = &h->file->pool->lock;
    pthread_mutex_lock(lock);
    if (l->reserved == h) l->reserved = NULL;
    if (l->pending == h) l->pending = NULL;
    if (l->exclusive == h) l->exclusive = NULL;
    if (level == SQLITE_LOCK_NONE) l->shared--;
    h->level = level;
    pthread_mutex_unlock(lock);
}

static int is_reserved_alone(const handle *h) {
    const levels *l = &h->file->levels;
    pthread_mutex_t *lock = &h->file->pool->lock;
    pthread_mutex_lock(lock);
    int is = l->reserved || l->pending || l->exclusive;
    pthread_mutex_unlock(lock);
    return is;
}

/* Between programs. */

static struct flock lock_of(const handle *h, short type, int byte) {
    struct flock lock;
    memset(&lock, 0, sizeof lock);
    lock.l_type = type;
    lock.l_whence = SEEK_SET;
    lock.l_start = (off_t)BYTES * h->first + byte;
    lock.l_len = 1;
    return lock;
}

/* Sets the lock of a byte: F_RDLCK, F_WRLCK, or F_UNLCK. SQLITE_BUSY if another handle keeps it from that. */
static int set_byte(handle *h, short type, int byte) {
    struct flock lock = lock_of(h, type, byte);
    while (fcntl(h->lock_file, F_OFD_SETLK, &lock)) {
        if (errno == EAGAIN || errno == EACCES) return SQLITE_BUSY;
        if (errno != EINTR) return code_of(TOPZERAD_SYSTEM, SQLITE_IOERR_LOCK, "lock in", h->file->pool->locks);
    }
    return SQLITE_OK;
}

/* No one begins to read while another handle has a pending lock. */
static int share_shared(handle *h) {
    int code = set_byte(h, F_RDLCK, PENDING);
    if (code) return code;
    code = set_byte(h, F_RDLCK, SHARED);
    int given_back = set_byte(h, F_UNLCK, PENDING);
    return code ? code : given_back;
}

static int share_exclusive(handle *h) {
    int code = h->level < SQLITE_LOCK_PENDING ? set_byte(h, F_WRLCK, PENDING) : SQLITE_OK;
    if (code) return code;
    h->level = SQLITE_LOCK_PENDING;
    return set_byte(h, F_WRLCK, SHARED);
}

static int lower_shared(handle *h, int level) {
    int code = set_byte(h, level == SQLITE_LOCK_SHARED ? F_RDLCK : F_UNLCK, SHARED);
    if (!code) code = set_byte(h, F_UNLCK, RESERVED);
    if (!code) code = set_byte(h, F_UNLCK, PENDING);
    if (code) return code;
    h->level = level;
    h->is_reserved = 0;
    return SQLITE_OK;
}

/* After a lock was got, what another program sent before was made: the answer to this says so. */
static int look_again(handle *h) {
    file *f = h->file;
    int code = code_of(file_refresh(f), SQLITE_IOERR_LOCK, "look at", f->name);
    if (!code && f->layout.pieces[0] != h->first) code = tell(SQLITE_IOERR_LOCK, "%s was removed meanwhile", f->name);
    return code;
}

static int raise_between(handle *h, int level) {
    int had = h->level;
    int code = level == SQLITE_LOCK_SHARED     ? share_shared(h)
               : level == SQLITE_LOCK_RESERVED ? set_byte(h, F_WRLCK, RESERVED)
                                               : share_exclusive(h);
    if (code) return code;
    h->level = level;
    if (h->is_reserved) return SQLITE_OK;
    code = look_again(h);
    if (code) lower_shared(h, had);
    h->is_reserved = !code && level == SQLITE_LOCK_RESERVED;
    return code;
}

/* Both. */

/* Opens the file of locks. One that is made is open to those that the socket is open to. */
static int open_locks(const pool *p) {
    struct stat socket;
    int file = open(p->locks, O_RDWR | O_CLOEXEC);
    if (file >= 0 || errno != ENOENT || stat(p->path, &socket)) return file;
    file = open(p->locks, O_RDWR | O_CLOEXEC | O_CREAT, 0600);
    if (file >= 0 && fchmod(file, socket.st_mode & 0666)) {
        close(file);
        return -1;
    }
    return file;
}

int lock_open(handle *h) {
    const pool *p = h->file->pool;
    h->level = SQLITE_LOCK_NONE;
    h->lock_file = -1;
    h->first = h->file->layout.pieces[0];
    if (!p->is_shared) return SQLITE_OK;
    h->lock_file = open_locks(p);
    return h->lock_file < 0 ? code_of(TOPZERAD_SYSTEM, SQLITE_CANTOPEN, "file of locks", p->locks) : SQLITE_OK;
}

void lock_close(handle *h) {
    if (h->lock_file >= 0) close(h->lock_file);
    h->lock_file = -1;
}

int lock_raise(handle *h, int level) {
    if (h->level >= level) return SQLITE_OK;
    return h->lock_file >= 0 ? raise_between(h, level) : raise_alone(h, level);
}

/* What was written under a lock that is given back is sent before. */
int lock_lower(handle *h, int level) {
    int code = SQLITE_OK;
    if (h->level <= level) return SQLITE_OK;
    if (h->level > SQLITE_LOCK_SHARED)
        code = code_of(file_settle(h->file), SQLITE_IOERR_UNLOCK, "write of", h->file->name);
    if (h->lock_file < 0) {
        lower_alone(h, level);
        return code;
    }
    int lowered = lower_shared(h, level);
    return code ? code : lowered;
}

int lock_is_reserved(handle *h, int *is) {
    struct flock lock = lock_of(h, F_WRLCK, RESERVED);
    *is = h->level > SQLITE_LOCK_SHARED;
    if (*is) return SQLITE_OK;
    if (h->lock_file < 0) {
        *is = is_reserved_alone(h);
        return SQLITE_OK;
    }
    if (fcntl(h->lock_file, F_OFD_GETLK, &lock))
        return code_of(TOPZERAD_SYSTEM, SQLITE_IOERR_CHECKRESERVEDLOCK, "lock in", h->file->pool->locks);
    *is = lock.l_type != F_UNLCK;
    return SQLITE_OK;
}
