/* topzerad.h: a pool of numbered objects in a file, changed by transactions that survive a power failure.
 *
 * topzerad_transact commits a transaction: a power failure may lose it until a flush or a sync has returned.
 * topzerad_transact_durably returns once no power failure loses it.
 *
 * topzerad_open starts `PROGRAM serve FILE`, a process that has the pool. topzerad_open_socket uses a pool that several
 * programs share by a hub, ztxg-hub. Calls are sent as frames (docs/FRAMES.md). Any thread may make any call at any
 * time. What several threads ask at once is sent in one frame, so their durable transactions share one flush. A thread
 * isn't cancelled within a call, but after it.
 *
 * Each call returns 0 or a refusal; topzerad_text has its words. A refused transaction changes nothing. After
 * TOPZERAD_WRITE and TOPZERAD_FLUSH the pool is suspended: close it and open it again. All memory is the caller's: the
 * library allocates none but a cache of reads that is asked for, and keeps nothing that is passed after the call.
 *
 * With a cache of reads, `read_cache`, a read of bytes that were read before is answered by this process. It has what
 * every call wrote that returned before, of whatever thread. What is read in order is read ahead.
 *
 * Limits: a transaction has at most 65,536 bytes and 256 operations; one of more operations is refused
 * TOPZERAD_TOO_MANY. Each write is charged 20,480 bytes or more of the dirty limit, so at the default limit one
 * transaction has at most 204 small writes; one of more is refused TOPZERAD_THROTTLED.
 */
#ifndef TOPZERAD_H
#define TOPZERAD_H

#include <pthread.h>
#include <stddef.h>
#include <stdint.h>
#include <sys/types.h>

#ifdef __cplusplus
extern "C" {
#endif

enum {
    TOPZERAD_OK = 0,
    /* Refusals of the pool. */
    TOPZERAD_NO_MEMORY = 1,
    TOPZERAD_READ = 2,
    TOPZERAD_WRITE = 3,
    TOPZERAD_FLUSH = 4,
    TOPZERAD_SUSPENDED = 5,
    TOPZERAD_NO_POOL = 6,
    TOPZERAD_DAMAGED = 7,
    TOPZERAD_BAD_GEOMETRY = 8,
    TOPZERAD_NO_OBJECT = 9,
    TOPZERAD_EXISTS = 10,
    TOPZERAD_BAD_RANGE = 11,
    TOPZERAD_OUT_OF_PLAN = 12,
    TOPZERAD_NOT_LOCKED = 13,
    TOPZERAD_BUSY = 14,
    TOPZERAD_LOCK_IN_USE = 15,
    TOPZERAD_NO_SPACE = 16,
    TOPZERAD_THROTTLED = 17,
    TOPZERAD_TOO_LARGE = 18,
    TOPZERAD_NO_SUCH_TRANSACTION = 19,
    TOPZERAD_NOT_READY = 20,
    TOPZERAD_NO_SUCH_LOCK = 21,
    TOPZERAD_TOO_MANY = 22,
    TOPZERAD_NO_LOG_SPACE = 23,
    /* The frame was refused: 100 and its number. None of its calls was made. */
    TOPZERAD_FRAME = 100,
    /* A call of the system failed: errno has its cause. */
    TOPZERAD_SYSTEM = 200,
    /* The process ended, answered what is no frame, or answered too late before. What was not durable may be lost. */
    TOPZERAD_ENDED = 201,
    /* The pool was opened before a fork, and the caller is the child. It opens a pool of its own. */
    TOPZERAD_FORKED = 202,
    /* The file can't be used, and the system has no error number for that, as for a folder. */
    TOPZERAD_UNUSABLE = 203,
    /* The process didn't answer within the timeout. Whether the call took place is not known. */
    TOPZERAD_TIMED_OUT = 204,
    /* The program ended before it said whether the pool is open, or said something else. */
    TOPZERAD_NO_OPENING = 205
};

#define TOPZERAD_VERSION "0.3.0"       /* of this header; the library and the program have to be of the same one */
#define TOPZERAD_OBJECTS 5292u         /* objects have the numbers below this */
#define TOPZERAD_MAX_LENGTH 28449792u  /* the most bytes of an object */
#define TOPZERAD_MAX_RECORD 65536u     /* the most bytes of a transaction */
#define TOPZERAD_MAX_NAME 64u          /* the most bytes of a pool's name */
#define TOPZERAD_MAX_OBJECT_NAME 254u  /* the most bytes of an object's name */
#define TOPZERAD_MAX_RANGES 64u        /* the most ranges that are read at one moment */
#define TOPZERAD_MAX_CAUSE 511u        /* the most bytes of a cause; a longer one is cut off */

/* What a pool said when it was opened: its guid, the group that was synced last, and how many records of the log the
 * open replayed. */
typedef struct {
    uint64_t guid, group, records;
} topzerad_opening;

/* A pool that is open, in the caller's memory. Its fields are the library's. */
typedef struct topzerad {
    int socket;
    pid_t process, opener; /* no process, 0, if a hub has it */
    pthread_mutex_t lock;
    pthread_cond_t turn;
    int led, ended, is_late, holds;
    uint16_t kind;
    struct topzerad_call *first, **last;
    uint64_t asked, timeout, deadline;
    struct topzerad_cache *cache; /* of reads, or NULL */
    topzerad_opening opening;
    char cause[TOPZERAD_MAX_CAUSE + 1];
    uint8_t bytes[65536];
    size_t used, taken;
    pthread_mutex_t naming;
    union {
        uint64_t hashes[TOPZERAD_OBJECTS];
        uint8_t record[TOPZERAD_MAX_RECORD];
    } names;
} topzerad;

/* How a pool is opened or made. A field of 0 is the default. */
typedef struct {
    uint64_t dirty;  /* of an open: the most bytes that unsynced transactions may be charged, 4,096 to 2^40 */
    uint32_t cache;  /* of an open: the tree blocks of 4,096 bytes that stay in memory, 1 to 262,144 */
    uint64_t moment; /* the time in the uberblocks that are written, in seconds */
    uint32_t wait;   /* the seconds to wait for a file that another process has, up to 86,400 */
    int replace;     /* of a create: not 0 if it may replace a file that is there */
    /* The seconds that the process may take to open or make the pool, besides `wait`; to answer a frame; and to end.
     * Up to 86,400, and 0.25 is a quarter of one. By default it has any time. */
    double timeout;
    /* Of an open of a file: the most bytes of memory of this process that keep what was read, 65,536 to 2^30. They are
     * taken as it fills. By default nothing is kept. */
    uint64_t read_cache;
} topzerad_options;

/* Where a transaction stands in the history since the pool was opened, and its group. */
typedef struct {
    uint64_t ordinal, group;
} topzerad_receipt;

/* What came of a transaction. `refusal` is 0 or why it was refused. `committed` says whether it took place: after a
 * refusal it did if it could not be made durable. `kind` and `address` are those of TOPZERAD_DAMAGED, else 0. */
typedef struct {
    int refusal, committed;
    topzerad_receipt receipt;
    uint64_t kind, address;
} topzerad_outcome;

/* The groups, 0 for one that isn't there; bytes charged to unsynced groups; blocks. */
typedef struct {
    uint64_t synced, syncing, middle, open, dirty, free, available;
} topzerad_status;

typedef struct {
    uint32_t object;
    uint64_t length;
} topzerad_listed;

/* The bytes of [low, high) of an object that lie below its length. `into` has room for high - low; `count` says how
 * many there were, and `refusal` is 0 or why they weren't read. `kind` and `address` are those of TOPZERAD_DAMAGED. */
typedef struct {
    uint32_t object;
    uint64_t low, high;
    void *into;
    size_t count;
    int refusal;
    uint64_t kind, address;
} topzerad_range;

/* The operations of one transaction: all take place, or none. */
typedef struct {
    uint8_t *bytes;
    size_t room, length;
    uint32_t count;
} topzerad_tx;

/* Begins a transaction without operations, in memory of at least 22 bytes. An operation takes 5 bytes more for a create
 * or a remove, 13 for a length, 17 and its bytes for a write, 5 and its bytes for a name. The memory is the
 * transaction's until it is committed or given up. */
void topzerad_tx_start(topzerad_tx *tx, void *memory, size_t size);
/* Each adds an operation, or returns a refusal and adds nothing. TOPZERAD_TOO_LARGE if there is no room for it, or it
 * would end above 65,536 bytes. TOPZERAD_BAD_RANGE if the number is none of an object, if a write has no byte, if the
 * object would be longer than TOPZERAD_MAX_LENGTH, or if the name is none: 1 to 64 bytes, first an ASCII letter, then
 * letters, digits, `-`, `_`, `.`. */
int topzerad_tx_create(topzerad_tx *tx, uint32_t object);
int topzerad_tx_remove(topzerad_tx *tx, uint32_t object);
int topzerad_tx_write(topzerad_tx *tx, uint32_t object, uint64_t offset, const void *bytes, size_t count);
int topzerad_tx_set_length(topzerad_tx *tx, uint32_t object, uint64_t length);
int topzerad_tx_set_name(topzerad_tx *tx, const void *name, size_t count);
/* Adds a write whose bytes the caller puts to `*content` before the transaction is committed. */
int topzerad_tx_write_to(topzerad_tx *tx, uint32_t object, uint64_t offset, size_t count, uint8_t **content);

/* Makes a pool of `size` bytes in a file by `program create`. Without `replace` a file that is there is an error (errno
 * EEXIST). `options` may be NULL. Returns 0, the refusal, TOPZERAD_SYSTEM with errno or TOPZERAD_UNUSABLE if the file
 * can't be used, TOPZERAD_TIMED_OUT, or TOPZERAD_ENDED if the program ended otherwise. After the last two the file may
 * be there, and no pool. */
int topzerad_create(const char *program, const char *path, const char *name, uint64_t guid, uint64_t size,
                    const topzerad_options *options);
/* Why this thread's last topzerad_create failed, in the program's words. */
const char *topzerad_create_cause(void);

/* Starts `program serve path` and waits until the pool is open. Returns 0; the refusal of the pool; TOPZERAD_SYSTEM
 * with errno if the file can't be used or the program can't be started, or TOPZERAD_UNUSABLE; TOPZERAD_TIMED_OUT; or
 * TOPZERAD_NO_OPENING. EAGAIN: another process has the file, or the system has no room for a process. A pool that
 * failed to open needs no close, and topzerad_cause says why it did. A program older than this library says nothing:
 * set a timeout if it may be one. The process has a process group of its own: a Ctrl-C that ends the caller lets it
 * sync the pool. */
int topzerad_open(topzerad *pool, const char *program, const char *path);
/* The same with options, which may be NULL. TOPZERAD_BAD_RANGE if one is outside its limits, and TOPZERAD_NO_MEMORY if
 * this process can't have the cache of reads. */
int topzerad_open_options(topzerad *pool, const char *program, const char *path, const topzerad_options *options);
/* The same with a command line of the caller's, as {"ztxg", "serve", "tank.pool", "--wait", "10", NULL}. */
int topzerad_open_with(topzerad *pool, const char *const words[]);
/* Opens the pool of a hub that listens on a Unix socket. `options` may be NULL, and has the timeout alone: no reads are
 * kept, as other programs change the pool. Returns 0; TOPZERAD_SYSTEM with errno if there is no hub, or it doesn't let
 * the caller in (EACCES) or has as many clients as it may have (EAGAIN); TOPZERAD_BAD_RANGE for any other option;
 * TOPZERAD_TIMED_OUT; or TOPZERAD_NO_OPENING. */
int topzerad_open_socket(topzerad *pool, const char *path, const topzerad_options *options);
/* What the pool said when it was opened. */
topzerad_opening topzerad_opened(const topzerad *pool);
/* Why the open failed, in the program's words; empty if it didn't. */
const char *topzerad_cause(const topzerad *pool);
/* Ends the process once it has synced the pool, and waits for its end. TOPZERAD_ENDED if it did not end well.
 * TOPZERAD_TIMED_OUT if it didn't end within the timeout: it is killed then, and what was not durable may be lost. No
 * other call may run. A hub goes on: the close makes what was committed durable, as topzerad_flush does. If the caller
 * ignores SIGCHLD, or waits for all its children, how the process ended isn't known. It counts as a good end then,
 * unless an earlier call returned TOPZERAD_ENDED or TOPZERAD_TIMED_OUT. After a fork the child's call ends nothing: it
 * gives up the child's end of the socket. */
int topzerad_close(topzerad *pool);

/* Commits a transaction. A power failure may lose it until topzerad_flush or topzerad_sync has returned. The receipt
 * may be NULL. TOPZERAD_BAD_RANGE if it has no operation. */
int topzerad_transact(topzerad *pool, const topzerad_tx *tx, topzerad_receipt *receipt);
/* Commits a transaction, and returns once no power failure loses it. The receipt may be NULL. `committed` may be NULL
 * too; after a refusal it says whether the transaction took place but could not be made durable. */
int topzerad_transact_durably(topzerad *pool, const topzerad_tx *tx, topzerad_receipt *receipt, int *committed);
/* Commits transactions in their order, each by itself: a refusal doesn't keep the next from being committed. They go in
 * one frame, or in few if they are long. Returns 0, or the first refusal. `outcomes` has room for `count`. */
int topzerad_transact_many(topzerad *pool, const topzerad_tx *txs, size_t count, topzerad_outcome *outcomes);
/* The same, and returns once no power failure loses them. Those of a frame share one flush. */
int topzerad_transact_many_durably(topzerad *pool, const topzerad_tx *txs, size_t count, topzerad_outcome *outcomes);
/* Reads the bytes of [low, high) that lie below the object's length, at one moment. `into` has room for high - low,
 * `count` says how many there were. More than 1 MiB are read in several frames, and other calls wait for the last. A
 * read that follows another one in order asks for more, from 16 KiB to 4 MiB in one frame, if there is a cache. */
int topzerad_read(topzerad *pool, uint32_t object, uint64_t low, uint64_t high, void *into, size_t *count);
/* Reads ranges in their order, all at one moment: no change comes between. Returns 0, or the first refusal, which keeps
 * no other range from being read. TOPZERAD_TOO_MANY above TOPZERAD_MAX_RANGES: nothing is read. */
int topzerad_read_many(topzerad *pool, topzerad_range *ranges, size_t count);
int topzerad_length(topzerad *pool, uint32_t object, uint64_t *length);
/* Which objects are there from `first` on, below `past`, by rising number. `into` has room for past - first. */
int topzerad_objects(topzerad *pool, uint32_t first, uint32_t past, topzerad_listed *into, size_t *count);
int topzerad_state(topzerad *pool, topzerad_status *status);
/* Whether no power failure loses a transaction. */
int topzerad_durable(topzerad *pool, topzerad_receipt receipt, int *durable);
/* Makes durable what was committed so far, by the log. */
int topzerad_flush(topzerad *pool);
/* Syncs the open group: what was committed so far is durable, and no longer charged. `group` may be NULL. */
int topzerad_sync(topzerad *pool, uint64_t *group);
/* The pool's name, with a 0 after it. */
int topzerad_name(topzerad *pool, char name[TOPZERAD_MAX_NAME + 1]);

/* Objects by name. Names stand in object 0 (docs/FORMATS.md, "Names of objects"). A name has 1 to
 * TOPZERAD_MAX_OBJECT_NAME bytes of UTF-8, no control characters and no `/`. Each call reads object 0 whole, and one
 * thread at a time makes it. Each returns TOPZERAD_BAD_RANGE if the name is none, or if object 0 is of another use,
 * which is left as it is. All but a put return TOPZERAD_NO_OBJECT if no object has the name. */

/* An object that has a name, which ends with a 0. */
typedef struct {
    uint32_t object;
    char name[TOPZERAD_MAX_OBJECT_NAME + 1];
} topzerad_named;

/* Gives the object of a name these bytes alone, and returns once no power failure loses them. If no object has the name
 * one is made: it takes the lowest number from 1 on that is free, or TOPZERAD_TOO_MANY if none is. The name and the
 * first 64,512 bytes are committed by one transaction, and what is left by further ones. After a refusal the first
 * bytes may be there: the object's length says how many. `object`, which may be NULL, is its number. */
int topzerad_put_named(topzerad *pool, const char *name, const void *bytes, size_t count, uint32_t *object);
/* The number of the object of a name. */
int topzerad_find_named(topzerad *pool, const char *name, uint32_t *object);
/* Reads the first `room` bytes of the object of a name, or all if it has fewer. `length` says how many it has. */
int topzerad_get_named(topzerad *pool, const char *name, void *into, size_t room, uint64_t *length);
/* Removes the object of a name, and the name, by one transaction. It returns once no power failure undoes it. */
int topzerad_remove_named(topzerad *pool, const char *name);
/* The first `room` objects from `first` on that have a name, by rising number. If there are fewer, these are all. */
int topzerad_names(topzerad *pool, uint32_t first, topzerad_named *into, size_t room, size_t *count);

/* The words for a refusal. Those for TOPZERAD_DAMAGED name the block that topzerad_damage has, and last until this
 * thread asks for them again. */
const char *topzerad_text(int refusal);
/* Which block is damaged, by the last call of this thread that returned TOPZERAD_DAMAGED: its kind (2 root, 3
 * directory, 4 indirect, 5 data, 6 log, 7 top), and its byte address in the file. Zeros if there was none. */
void topzerad_damage(uint64_t *kind, uint64_t *address);

#ifdef __cplusplus
}
#endif

#endif
