/* vfs.h: what the files of the extension share.
 *
 * A file of SQLite is one object of a pool or several: its pieces. In the pool's table of names the first piece has the
 * name of the file, and piece k that name with `#` and k behind it. Each piece but the last has PIECE bytes.
 *
 * 1. Writes and cuts gather in one transaction of the pool. It is sent once it is full, before a read of bytes that it
 *    changes, before a lock is given back, and by a sync. What makes or removes a file is sent at once.
 * 2. A transaction that lets a file grow sets the length of its last piece. So it conflicts with each earlier change of
 *    that piece, and no power failure leaves the new size without what was written before.
 * 3. Before something is gathered the pool has the space for it, so that what SQLite was told is written can be sent.
 *    If it is refused nevertheless, as for want of memory, it is kept and sent again before anything else. What ends a
 *    commit of SQLite sends it, while SQLite can still take it back.
 * 4. If a hub has the pool, other programs change it and take its space. Nothing gathers longer than for one call,
 *    which is told of a refusal. A name is looked up anew each time, and a file once a handle of it gets a lock. Who
 *    changes names holds the hub's turn.
 * 5. Threads take locks in this order: that of all pools, a pool's `sending`, its `lock`. Who sends or changes anything
 *    has `sending`. Who looks at files, or changes what is known of them, has `lock`, and calls nothing that waits. */
#ifndef TOPZERAD_VFS_H
#define TOPZERAD_VFS_H

#include "../c/internal.h"

#include <pthread.h>
#include <sqlite3ext.h>

#define VFS_NAME "topzerad"
#define PIECE 28442624u /* a multiple of the largest page of SQLite, 65,536, so that no page lies in two pieces */

enum {
    MOST_PIECES = 64,
    MOST_OPERATIONS = 250, /* of a transaction: a pool refuses more than 256 ranges */
    MOST_FILE_NAME = TOPZERAD_MAX_OBJECT_NAME - 16, /* SQLite adds 12 bytes at most, as `-journal`, and a piece 3 */
    NAME_ROOM = TOPZERAD_MAX_OBJECT_NAME + 1,
    MOST_REGIONS = 256     /* of memory that connections share for a write-ahead log */
};

typedef struct pool pool;
typedef struct file file;
typedef struct handle handle;

/* The objects of a file, and its size. It has no pieces if it isn't there. */
typedef struct {
    uint32_t pieces[MOST_PIECES], count;
    uint64_t size;
} layout;

/* The locks of handles of this process, by SQLite's five levels. */
typedef struct {
    uint32_t shared;
    const handle *reserved, *pending, *exclusive;
} levels;

/* The memory that handles of this process share for a write-ahead log, and its locks. */
typedef struct {
    uint32_t users, count;
    void *regions[MOST_REGIONS];
    uint32_t shared[SQLITE_SHM_NLOCK];
    const handle *exclusive[SQLITE_SHM_NLOCK];
} memory;

/* What ended a commit of a database. */
typedef enum { OF_NONE, OF_DATABASE, OF_JOURNAL, OF_LOG, ENDS } commit_end;

/* A file that is open. Handles of one file share it. */
struct file {
    file *next;
    pool *pool;
    uint32_t users;
    int is_gone;        /* it was removed while it was open */
    int is_stale;       /* its layout has to be read anew */
    uint64_t growth;    /* the transaction that has set the length of its last piece */
    /* Of commits (commits.c). */
    int is_checkpoint;  /* SQLite takes the log into the database */
    uint64_t commit_at; /* where the header of the frame is in a log that ends the last commit */
    commit_end awaited; /* a sync may follow */
    uint8_t syncs[ENDS]; /* whether one followed the last time */
    layout layout;
    levels levels;
    memory memory;
    char name[];
};

/* Bytes of an object that the gathered transaction changes. */
typedef struct {
    uint32_t object;
    uint64_t low, high;
} span;

/* A pool that is open. */
struct pool {
    pool *next;
    uint32_t users;
    int is_open, is_shared; /* shared by a hub */
    int code;               /* why it isn't open, as SQLite's code */
    topzerad handle;
    pthread_mutex_t sending, lock;
    file *files;
    /* The table of names, and which objects are there. */
    uint8_t *table;
    size_t table_size, table_room;
    int is_table_stale;
    uint8_t there[(TOPZERAD_OBJECTS + 7) / 8];
    /* The transaction that gathers. */
    topzerad_tx tx;
    uint64_t number;        /* of the transaction, from 1 on */
    uint64_t charge, most_charge; /* blocks that it is charged */
    uint64_t available;     /* blocks that the pool has for it at least */
    span spans[MOST_OPERATIONS];
    uint32_t span_count;
    int is_dirty;           /* something that was sent isn't durable */
    uint8_t record[TOPZERAD_MAX_RECORD];
    char *locks;            /* the path of the file of locks, if a hub has the pool */
    char path[];
};

/* An atomic write of SQLite: one transaction of the pool. */
typedef struct {
    topzerad_tx tx;
    uint64_t size, charge;
    int is_full; /* it doesn't fit one transaction */
    uint8_t record[TOPZERAD_MAX_RECORD];
} batch;

/* What SQLite has of a file. */
struct handle {
    sqlite3_file base; /* has to be the first */
    file *file;
    int level;
    int is_reserved;   /* a reserved lock was got, so that no one else writes */
    int lock_file;     /* this handle's descriptor of the file of locks, or -1 */
    uint32_t first;    /* the object of the first piece, by which the bytes of its locks are found */
    int has_memory, keeps_log;
    uint32_t memory_shared;
    batch *batch;
};

static inline uint64_t least(uint64_t one, uint64_t other) { return one < other ? one : other; }

/* causes.c */

/* SQLite's code for a refusal of a pool: `otherwise`, if the cause has no code of its own. It is told by sqlite3_log,
 * as what was done with which file. */
int code_of(int refusal, int otherwise, const char *what, const char *path);
/* Tells a text by sqlite3_log. Returns the code. */
int tell(int code, const char *format, ...) __attribute__((format(printf, 2, 3)));
/* The last text that this thread told, and the error number of the system or 0. */
int last_error(int room, char *into);

/* options.c */

/* Reads the options in the URI of a database. Returns SQLITE_OK, or tells what is wrong. */
int read_options(const char *uri, const char **program, topzerad_options *options);

/* pools.c */

/* The pool in that file, or of the hub that listens there: it is opened, if it isn't open. `uri` is the name of a
 * database with options behind it, or NULL. Returns one of SQLite's codes. */
int pool_acquire(const char *path, const char *uri, pool **acquired);
/* Closes the pool if no one else has it. Returns one of SQLite's codes. */
int pool_release(pool *p);

/* sending.c. The caller has `sending`. Functions return a refusal, or 0. */

/* Begins an empty transaction. */
void gather_start(pool *p);
/* Operations that are to be gathered together. */
typedef struct {
    size_t bytes;
    uint32_t operations;
    uint64_t charge;
    int grows; /* they take space for good; others may use what is kept for taking changes back */
} demand;
/* Makes room for operations: sends what was gathered, if they wouldn't fit. TOPZERAD_NO_SPACE if the pool has none. */
int gather_room(pool *p, demand wanted);
int gather_create(pool *p, uint32_t object);
int gather_remove(pool *p, uint32_t object);
int gather_length(pool *p, uint32_t object, uint64_t length);
int gather_write(pool *p, uint32_t object, uint64_t at, const void *bytes, size_t count);
/* The blocks that a write is charged. */
uint64_t write_charge(uint64_t at, uint64_t count);
/* Whether the transaction changes one of these bytes. The caller has `lock`. */
int is_gathered(const pool *p, uint32_t object, uint64_t low, uint64_t high);
/* Sends what was gathered. If `durable`, no power failure loses it after that, nor what was sent before. */
int pool_send(pool *p, int durable);
/* Commits a transaction, likewise. If the pool has no space, it is tried again after a sync. */
int pool_commit(pool *p, const topzerad_tx *tx, int durable);

/* commits.c. The caller has `sending`. */

/* Whether a write ends a commit. It has to be asked of each write, in order. */
int commits_is_end(file *f, const uint8_t *bytes, uint64_t count, uint64_t at);
/* Sends what a commit wrote. */
int commits_send(file *f);
/* After the end of a commit: what follows is a sync, or something else. */
void commits_follow(file *f, int is_sync);

/* names.c. The caller has `sending`. */

/* Before names are changed, and after: between them no other program changes one. */
int names_begin(pool *p);
int names_end(pool *p, int refusal);
/* Reads the table, if it may have changed. */
int names_load(pool *p);
/* The object of a name, or 0. */
uint32_t names_find(const pool *p, const char *name);
/* What the next two need, which are to be one transaction with what else is gathered. */
static const demand NAME_DEMAND = {.bytes = 556, .operations = 4, .charge = 17};
/* Gathers that an object of that name is made. */
int names_add(pool *p, const char *name, uint32_t *object);
/* Gathers that an object and its name are removed. */
int names_remove(pool *p, uint32_t object);
/* Whether an object may have the name, and object 0 is a table of names. TOPZERAD_BAD_RANGE if not. */
int names_check(pool *p, const char *name);

/* files.c. Functions return a refusal, or 0. */

/* Opens a file, and makes it if SQLite's flags say so. TOPZERAD_NO_OBJECT if it isn't there, TOPZERAD_EXISTS if it is
 * there and was to be made, TOPZERAD_BAD_RANGE if a database can't have the name. */
int file_open(pool *p, const char *name, int flags, file **opened);
/* Ends a use of a file. */
int file_close(file *f);
/* What is there of a file. It has no pieces if there is none. */
int file_look(pool *p, const char *name, layout *found);
int file_remove(pool *p, const char *name, int durable);
/* Reads the bytes from `at` on that lie below the size. `got` says how many there were. */
int file_read(file *f, uint8_t *into, uint64_t count, uint64_t at, uint64_t *got);
int file_write(file *f, const uint8_t *bytes, uint64_t count, uint64_t at);
int file_truncate(file *f, uint64_t size);
int file_size(file *f, int is_locked, uint64_t *size);
int file_sync(file *f);
/* Sends what a commit wrote to the database. */
int file_commit(file *f);
/* SQLite begins or ends to take the log into the database. Meanwhile each write is sent. */
void file_checkpoint(file *f, int begins);
/* Reads the layout anew: another program may have changed it. It is an answer that the hub gave after the lock was got,
 * so what the one before sent was made before it (hub.h, rule 1). */
int file_refresh(file *f);
/* Sends what was gathered, so that a lock can be given back. */
int file_settle(file *f);

/* atomic.c: atomic writes of several pages. Functions return one of SQLite's codes. */

int atomic_begin(handle *h);
int atomic_write(handle *h, const uint8_t *bytes, uint64_t count, uint64_t at);
int atomic_commit(handle *h);
void atomic_give_up(handle *h);

/* locks.c: SQLite's five levels. Functions return one of SQLite's codes. */

/* The handle has no lock yet. */
int lock_open(handle *h);
void lock_close(handle *h);
int lock_raise(handle *h, int level);
int lock_lower(handle *h, int level);
int lock_is_reserved(handle *h, int *is);

/* memory.c: what connections of this process share for a write-ahead log. Its functions are methods of SQLite. */

int memory_map(sqlite3_file *given, int at, int size, int extends, void volatile **region);
int memory_lock(sqlite3_file *given, int first, int count, int flags);
void memory_barrier(sqlite3_file *given);
int memory_unmap(sqlite3_file *given, int deletes);

#endif
