/* Makes the calls of the VFS on files of a pool: `check EXTENSION POOL PROGRAM`, or `check EXTENSION SOCKET` for the
 * pool of a hub. The pool has no objects before. */
#include <sqlite3.h>
#include <stdint.h>
#include <stdio.h>
#include <stdlib.h>
#include <string.h>

enum { PIECE = 28442624, LONG = 200000, PAGE = 4096 };
enum { DATABASE = SQLITE_OPEN_READWRITE | SQLITE_OPEN_MAIN_DB, MAKES = DATABASE | SQLITE_OPEN_CREATE };

static sqlite3_vfs *vfs;
static const char *place, *program;
static int is_shared;
static uint8_t bytes[LONG], back[LONG];

static void want(int is, const char *what, int line) {
    if (is) return;
    char text[512];
    int number = vfs ? vfs->xGetLastError(vfs, sizeof text, text) : 0;
    fprintf(stderr, "check.c:%d: %s (%s, %d)\n", line, what, vfs ? text : "", number);
    exit(1);
}
#define WANT(is) want((is) != 0, #is, __LINE__)

/* The name of a file as SQLite hands it to a VFS. To be given back by sqlite3_free_filename. */
static const char *full(const char *name) {
    const char *options[] = {"pool", place, "program", program};
    static char path[8192];
    const char *given = sqlite3_create_filename(name, "", "", 2, options);
    WANT(given && vfs->xFullPathname(vfs, given, sizeof path, path) == SQLITE_OK);
    sqlite3_free_filename((char *)given);
    return sqlite3_create_filename(path, "", "", 2, options);
}

static sqlite3_file *try_open(const char *name, int flags, int *code) {
    const char *path = full(name);
    sqlite3_file *file = calloc(1, (size_t)vfs->szOsFile);
    int got;
    *code = vfs->xOpen(vfs, path, file, flags, &got);
    sqlite3_free_filename((char *)path);
    if (*code == SQLITE_OK) return file;
    WANT(!file->pMethods);
    free(file);
    return NULL;
}

static sqlite3_file *open_file(const char *name, int flags) {
    int code;
    sqlite3_file *file = try_open(name, flags, &code);
    WANT(code == SQLITE_OK);
    return file;
}

static void close_file(sqlite3_file *file) {
    WANT(file->pMethods->xClose(file) == SQLITE_OK);
    free(file);
}

static int open_code(const char *name, int flags) {
    int code;
    sqlite3_file *file = try_open(name, flags, &code);
    if (file) close_file(file);
    return code;
}

static int delete_file(const char *name, int durable) {
    const char *path = full(name);
    int code = vfs->xDelete(vfs, path, durable);
    sqlite3_free_filename((char *)path);
    return code;
}

static int is_there(const char *name, int flags) {
    const char *path = full(name);
    int is;
    WANT(vfs->xAccess(vfs, path, flags, &is) == SQLITE_OK);
    sqlite3_free_filename((char *)path);
    return is;
}

static sqlite3_int64 size_of(sqlite3_file *file) {
    sqlite3_int64 size;
    WANT(file->pMethods->xFileSize(file, &size) == SQLITE_OK);
    return size;
}

static void put(sqlite3_file *file, const void *from, int count, sqlite3_int64 at) {
    WANT(file->pMethods->xWrite(file, from, count, at) == SQLITE_OK);
}

static void want_bytes(sqlite3_file *file, const void *wanted, int count, sqlite3_int64 at) {
    WANT(file->pMethods->xRead(file, back, count, at) == SQLITE_OK);
    WANT(!memcmp(back, wanted, (size_t)count));
}

/* Reads past the end give what there is, and zeros. */
static void want_short(sqlite3_file *file, int there, int count, sqlite3_int64 at) {
    memset(back, 1, (size_t)count);
    WANT(file->pMethods->xRead(file, back, count, at) == SQLITE_IOERR_SHORT_READ);
    for (int i = there; i < count; i++) WANT(back[i] == 0);
}

static void read_and_write(void) {
    WANT(open_code("a.db", DATABASE) == SQLITE_CANTOPEN && !is_there("a.db", SQLITE_ACCESS_EXISTS));
    sqlite3_file *file = open_file("a.db", MAKES);
    WANT(size_of(file) == 0 && !is_there("a.db", SQLITE_ACCESS_EXISTS) && is_there("a.db", SQLITE_ACCESS_READWRITE));
    put(file, bytes, LONG, 0);
    want_bytes(file, bytes, LONG, 0);
    want_bytes(file, bytes + 4090, 10, 4090);
    put(file, bytes + 7, 100, 5000);
    want_bytes(file, bytes + 7, 100, 5000);
    WANT(size_of(file) == LONG && is_there("a.db", SQLITE_ACCESS_EXISTS));
    want_short(file, 10, 100, LONG - 10);
    want_short(file, 0, 100, LONG + 5);
    put(file, "x", 1, LONG + 50);
    WANT(size_of(file) == LONG + 51);
    want_short(file, 51, 100, LONG);
    WANT(back[49] == 0 && back[50] == 'x');
    WANT(file->pMethods->xTruncate(file, 10) == SQLITE_OK && size_of(file) == 10);
    want_short(file, 10, 100, 0);
    WANT(file->pMethods->xTruncate(file, 20) == SQLITE_OK && size_of(file) == 20);
    want_short(file, 10, 100, 0);
    WANT(file->pMethods->xSync(file, SQLITE_SYNC_NORMAL) == SQLITE_OK);
    WANT(open_code("a.db", MAKES | SQLITE_OPEN_EXCLUSIVE) == SQLITE_CANTOPEN);
    close_file(file);
    file = open_file("a.db", DATABASE);
    WANT(size_of(file) == 20);
    close_file(file);
}

/* What was closed is there when the pool is opened again. */
static void open_again(void) {
    sqlite3_file *file = open_file("a.db", DATABASE);
    WANT(size_of(file) == 20);
    want_short(file, 10, 100, 0);
    WANT(!memcmp(back, bytes, 10));
    WANT(delete_file("a.db", 1) == SQLITE_OK);
    close_file(file);
}

static void remove_files(void) {
    sqlite3_file *file = open_file("b.db", MAKES);
    int has_moved = 0;
    put(file, bytes, PAGE, 0);
    WANT(file->pMethods->xFileControl(file, SQLITE_FCNTL_HAS_MOVED, &has_moved) == SQLITE_OK && !has_moved);
    WANT(delete_file("b.db", 0) == SQLITE_OK && delete_file("b.db", 1) == SQLITE_IOERR_DELETE_NOENT);
    WANT(file->pMethods->xFileControl(file, SQLITE_FCNTL_HAS_MOVED, &has_moved) == SQLITE_OK && has_moved);
    WANT(size_of(file) == 0 && file->pMethods->xWrite(file, bytes, 10, 0) == SQLITE_IOERR_WRITE);
    sqlite3_file *other = open_file("b.db", MAKES);
    put(other, bytes, 10, 0);
    WANT(size_of(other) == 10 && size_of(file) == 0);
    close_file(file);
    want_bytes(other, bytes, 10, 0);
    close_file(other);
    WANT(delete_file("b.db", 1) == SQLITE_OK && !is_there("b.db", SQLITE_ACCESS_READWRITE));
}

/* Files of several pieces, with holes. */
static void use_pieces(void) {
    sqlite3_file *file = open_file("large.db", MAKES);
    put(file, bytes, LONG, PIECE - 100);
    WANT(size_of(file) == PIECE - 100 + LONG);
    want_bytes(file, bytes, LONG, PIECE - 100);
    put(file, bytes, 10, 3 * (sqlite3_int64)PIECE + 5);
    WANT(size_of(file) == 3 * (sqlite3_int64)PIECE + 15);
    memset(back, 1, LONG);
    WANT(file->pMethods->xRead(file, back, LONG, 2 * (sqlite3_int64)PIECE - 50) == SQLITE_OK);
    for (int i = 0; i < LONG; i++) WANT(!back[i]);
    close_file(file);
    WANT(is_there("large.db", SQLITE_ACCESS_EXISTS));
    file = open_file("large.db", DATABASE);
    WANT(size_of(file) == 3 * (sqlite3_int64)PIECE + 15);
    want_bytes(file, bytes, LONG, PIECE - 100);
    WANT(file->pMethods->xTruncate(file, PIECE + 50) == SQLITE_OK && size_of(file) == PIECE + 50);
    want_short(file, 150, 300, PIECE - 100);
    WANT(!memcmp(back, bytes, 150));
    WANT(file->pMethods->xTruncate(file, PIECE) == SQLITE_OK && size_of(file) == PIECE);
    put(file, bytes, PAGE, PIECE);
    WANT(size_of(file) == PIECE + PAGE);
    want_bytes(file, bytes, PAGE, PIECE);
    WANT(file->pMethods->xTruncate(file, 0) == SQLITE_OK && size_of(file) == 0);
    WANT(file->pMethods->xWrite(file, bytes, 10, 64 * (sqlite3_int64)PIECE) == SQLITE_FULL);
    close_file(file);
    WANT(delete_file("large.db", 0) == SQLITE_OK);
}

static int lock(sqlite3_file *file, int level) { return file->pMethods->xLock(file, level); }
static int unlock(sqlite3_file *file, int level) { return file->pMethods->xUnlock(file, level); }

static int is_reserved(sqlite3_file *file) {
    int is = -1;
    WANT(file->pMethods->xCheckReservedLock(file, &is) == SQLITE_OK);
    return is;
}

static int level_of(sqlite3_file *file) {
    int level = -1;
    WANT(file->pMethods->xFileControl(file, SQLITE_FCNTL_LOCKSTATE, &level) == SQLITE_OK);
    return level;
}

/* Five levels, of three handles. */
static void take_locks(void) {
    sqlite3_file *one = open_file("c.db", MAKES), *two = open_file("c.db", MAKES), *three = open_file("c.db", MAKES);
    WANT(!is_reserved(one) && lock(one, SQLITE_LOCK_SHARED) == SQLITE_OK && lock(two, SQLITE_LOCK_SHARED) == SQLITE_OK);
    WANT(lock(one, SQLITE_LOCK_RESERVED) == SQLITE_OK && lock(two, SQLITE_LOCK_RESERVED) == SQLITE_BUSY);
    WANT(is_reserved(one) && is_reserved(two) && is_reserved(three));
    WANT(lock(three, SQLITE_LOCK_SHARED) == SQLITE_OK && lock(two, SQLITE_LOCK_EXCLUSIVE) == SQLITE_BUSY);
    WANT(unlock(two, SQLITE_LOCK_NONE) == SQLITE_OK && lock(one, SQLITE_LOCK_EXCLUSIVE) == SQLITE_BUSY);
    WANT(level_of(one) == SQLITE_LOCK_PENDING && lock(two, SQLITE_LOCK_SHARED) == SQLITE_BUSY);
    put(one, bytes, 10, 0);
    WANT(unlock(three, SQLITE_LOCK_NONE) == SQLITE_OK && lock(one, SQLITE_LOCK_EXCLUSIVE) == SQLITE_OK);
    WANT(lock(two, SQLITE_LOCK_SHARED) == SQLITE_BUSY && is_reserved(two));
    WANT(unlock(one, SQLITE_LOCK_SHARED) == SQLITE_OK && lock(two, SQLITE_LOCK_SHARED) == SQLITE_OK);
    WANT(!is_reserved(one) && lock(two, SQLITE_LOCK_EXCLUSIVE) == SQLITE_BUSY);
    WANT(unlock(one, SQLITE_LOCK_NONE) == SQLITE_OK && lock(two, SQLITE_LOCK_EXCLUSIVE) == SQLITE_OK);
    close_file(two); /* gives its lock back */
    WANT(lock(one, SQLITE_LOCK_SHARED) == SQLITE_OK && lock(one, SQLITE_LOCK_EXCLUSIVE) == SQLITE_OK);
    close_file(one);
    close_file(three);
    WANT(delete_file("c.db", 0) == SQLITE_OK);
}

static int control(sqlite3_file *file, int number) { return file->pMethods->xFileControl(file, number, NULL); }

/* Writes of several pages that are one transaction. */
static void write_atomically(void) {
    sqlite3_file *file = open_file("d.db", MAKES);
    int code = SQLITE_OK;
    WANT(file->pMethods->xDeviceCharacteristics(file) & SQLITE_IOCAP_BATCH_ATOMIC);
    WANT(!(file->pMethods->xDeviceCharacteristics(file) & SQLITE_IOCAP_SEQUENTIAL));
    put(file, bytes, 2 * PAGE, 0);
    WANT(control(file, SQLITE_FCNTL_BEGIN_ATOMIC_WRITE) == SQLITE_OK);
    for (int i = 0; i < 10; i++) put(file, bytes + i + 1, PAGE, (sqlite3_int64)i * PAGE);
    WANT(control(file, SQLITE_FCNTL_ROLLBACK_ATOMIC_WRITE) == SQLITE_OK);
    WANT(size_of(file) == 2 * PAGE);
    want_bytes(file, bytes, 2 * PAGE, 0);
    WANT(control(file, SQLITE_FCNTL_BEGIN_ATOMIC_WRITE) == SQLITE_OK);
    for (int i = 0; i < 10; i++) put(file, bytes + i + 1, PAGE, (sqlite3_int64)i * PAGE);
    WANT(control(file, SQLITE_FCNTL_COMMIT_ATOMIC_WRITE) == SQLITE_OK);
    WANT(size_of(file) == 10 * PAGE);
    for (int i = 0; i < 10; i++) want_bytes(file, bytes + i + 1, PAGE, (sqlite3_int64)i * PAGE);
    WANT(control(file, SQLITE_FCNTL_BEGIN_ATOMIC_WRITE) == SQLITE_OK);
    for (int i = 0; i < 20 && !code; i++) code = file->pMethods->xWrite(file, bytes, PAGE, (sqlite3_int64)i * PAGE);
    WANT(code == SQLITE_IOERR_WRITE);
    WANT(control(file, SQLITE_FCNTL_COMMIT_ATOMIC_WRITE) == SQLITE_IOERR_COMMIT_ATOMIC);
    WANT(control(file, SQLITE_FCNTL_ROLLBACK_ATOMIC_WRITE) == SQLITE_OK);
    want_bytes(file, bytes + 1, PAGE, 0);
    WANT(size_of(file) == 10 * PAGE);
    close_file(file);
    WANT(delete_file("d.db", 0) == SQLITE_OK);
}

static int lock_memory(sqlite3_file *file, int first, int count, int flags) {
    return file->pMethods->xShmLock(file, first, count, flags);
}

/* What connections share for a write-ahead log. */
static void share_memory(void) {
    sqlite3_file *one = open_file("e.db", MAKES), *two = open_file("e.db", MAKES);
    const int shared = SQLITE_SHM_LOCK | SQLITE_SHM_SHARED, exclusive = SQLITE_SHM_LOCK | SQLITE_SHM_EXCLUSIVE;
    void volatile *region, *same;
    if (is_shared) {
        WANT(one->pMethods->iVersion == 1);
        close_file(one);
        close_file(two);
        WANT(delete_file("e.db", 0) == SQLITE_OK);
        return;
    }
    WANT(one->pMethods->xShmMap(one, 0, 32768, 0, &region) == SQLITE_OK && !region);
    WANT(one->pMethods->xShmMap(one, 1, 32768, 1, &region) == SQLITE_OK && region);
    WANT(two->pMethods->xShmMap(two, 1, 32768, 0, &same) == SQLITE_OK && same == region);
    WANT(((volatile uint8_t *)region)[32767] == 0);
    WANT(lock_memory(one, 0, 1, shared) == SQLITE_OK && lock_memory(two, 0, 1, shared) == SQLITE_OK);
    WANT(lock_memory(one, 0, 1, exclusive) == SQLITE_BUSY);
    WANT(lock_memory(two, 0, 1, SQLITE_SHM_UNLOCK | SQLITE_SHM_SHARED) == SQLITE_OK);
    WANT(lock_memory(two, 1, 3, exclusive) == SQLITE_OK && lock_memory(one, 3, 1, shared) == SQLITE_BUSY);
    WANT(lock_memory(one, 0, 2, exclusive) == SQLITE_BUSY);
    WANT(lock_memory(two, 1, 3, SQLITE_SHM_UNLOCK | SQLITE_SHM_EXCLUSIVE) == SQLITE_OK);
    WANT(lock_memory(one, 3, 1, exclusive) == SQLITE_OK);
    one->pMethods->xShmBarrier(one);
    WANT(one->pMethods->xShmUnmap(one, 0) == SQLITE_OK);
    WANT(lock_memory(two, 0, 8, exclusive) == SQLITE_OK);
    close_file(two);
    close_file(one);
    WANT(delete_file("e.db", 0) == SQLITE_OK);
}

static int open_by_uri(const char *uri) {
    sqlite3 *db;
    int code = sqlite3_open_v2(uri, &db, SQLITE_OPEN_READWRITE | SQLITE_OPEN_CREATE | SQLITE_OPEN_URI, NULL);
    sqlite3_close(db);
    return code & 255;
}

/* Names and options that are refused, and two ways to say one name. */
static void refuse_names(void) {
    const char *const bad[] = {
        "a%23b", "a/b", "a%01", "%ff", "/x/a", "a?dirty=1", "a?dirty=x", "a?dirty=1048577", "a?pool_cache=4095",
        "a?pool_cache=1025M", "a?read_cache=60K", "a?read_cache=65537", "a?read_cache=2G", "a?read_cache=",
        "a?wait=-1", "a?wait=1h", "a?timeout=86401",
    };
    char uri[8192], longest[300];
    for (size_t i = 0; i < sizeof bad / sizeof *bad; i++) {
        const char *sign = strchr(bad[i], '?') ? "&" : "?";
        snprintf(uri, sizeof uri, "file:%s%svfs=topzerad&pool=%s&program=%s", bad[i], sign, place, program);
        if (open_by_uri(uri) == SQLITE_OK) fprintf(stderr, "%s was opened\n", uri);
        WANT(open_by_uri(uri) == SQLITE_CANTOPEN);
    }
    WANT(open_by_uri("file:a?vfs=topzerad") == SQLITE_CANTOPEN);
    WANT(open_by_uri("file:a?vfs=topzerad&pool=/no/folder/a.pool") == SQLITE_CANTOPEN);
    memset(longest, 'x', sizeof longest);
    longest[239] = 0;
    snprintf(uri, sizeof uri, "file:%s?vfs=topzerad&pool=%s&program=%s", longest, place, program);
    WANT(open_by_uri(uri) == SQLITE_CANTOPEN);
    snprintf(uri, sizeof uri, "file:%s?vfs=topzerad&pool=%s&program=%s", longest + 1, place, program);
    WANT(open_by_uri(uri) == SQLITE_OK);
    snprintf(uri, sizeof uri, "file:%s/f.db?vfs=topzerad&program=%s", place, program);
    WANT(open_by_uri(uri) == SQLITE_OK);
    sqlite3_file *file = open_file("f.db", DATABASE);
    WANT(delete_file(longest + 1, 0) == SQLITE_OK && delete_file("f.db", 1) == SQLITE_OK);
    close_file(file);
}

/* Memory: the request that is refused, counted down; none below 0. */
static sqlite3_mem_methods memory;
static int refused = -1;

static int is_refused(void) { return refused >= 0 && refused-- == 0; }

static void *take(int size) { return is_refused() ? NULL : memory.xMalloc(size); }

static void *change(void *bytes, int size) { return is_refused() ? NULL : memory.xRealloc(bytes, size); }

/* Lets SQLite, and what it loads, find no memory when it is to. */
static void refuse_memory(void) {
    sqlite3_mem_methods own;
    WANT(sqlite3_config(SQLITE_CONFIG_GETMALLOC, &memory) == SQLITE_OK);
    own = memory;
    own.xMalloc = take;
    own.xRealloc = change;
    WANT(sqlite3_config(SQLITE_CONFIG_MALLOC, &own) == SQLITE_OK);
}

static int is_memory(int code) { return code == SQLITE_NOMEM || code == SQLITE_IOERR_NOMEM; }

/* An open of a pool, at each request for memory. */
static void lack_memory(void) {
    const char *path = full("g.db");
    sqlite3_file *file = calloc(1, (size_t)vfs->szOsFile);
    int got, at = 0, code = SQLITE_NOMEM;
    for (; code && at < 100; at++) {
        refused = at;
        code = vfs->xOpen(vfs, path, file, MAKES, &got);
        refused = -1;
        WANT(!code || (is_memory(code) && !file->pMethods));
    }
    WANT(at > 4 && !code);
    sqlite3_free_filename((char *)path);
    for (at = 0, code = SQLITE_NOMEM; code; at++) {
        refused = at;
        code = control(file, SQLITE_FCNTL_BEGIN_ATOMIC_WRITE);
        refused = -1;
        WANT(!code || is_memory(code));
    }
    WANT(at == 2 && control(file, SQLITE_FCNTL_ROLLBACK_ATOMIC_WRITE) == SQLITE_OK);
    WANT(delete_file("g.db", 1) == SQLITE_OK);
    close_file(file);
}

/* Statements, at requests for memory. The database is sound at the end. SQLite goes on without some of them. */
static void lack_memory_in_statements(void) {
    const char *const statements =
        "pragma cache_size=2; drop table if exists t; create table t(a, b); begin; insert into t values "
        "(1, zeroblob(30000)); insert into t select * from t; commit; pragma integrity_check";
    sqlite3_file *held = open_file("held.db", MAKES);
    char uri[8192];
    int code = SQLITE_NOMEM, is_reached = 1, failures = 0;
    snprintf(uri, sizeof uri, "file:h.db?vfs=topzerad&pool=%s&program=%s", place, program);
    for (int at = 0; is_reached; at += at < 100 ? 1 : 7) {
        sqlite3 *db = NULL;
        refused = at;
        code = sqlite3_open_v2(uri, &db, SQLITE_OPEN_READWRITE | SQLITE_OPEN_CREATE | SQLITE_OPEN_URI, NULL);
        if (!code) code = sqlite3_exec(db, statements, NULL, NULL, NULL);
        is_reached = refused < 0;
        refused = -1;
        sqlite3_close(db);
        failures += code != SQLITE_OK;
        WANT(!code || code == SQLITE_NOMEM || code == SQLITE_IOERR);
    }
    WANT(!code && failures > 50);
    WANT(delete_file("h.db", 0) == SQLITE_OK && delete_file("held.db", 0) == SQLITE_OK);
    close_file(held);
}

int main(int count, char **words) {
    sqlite3 *db;
    char *message = NULL;
    refuse_memory();
    if (count != 3 && count != 4) return 2;
    place = words[2];
    is_shared = count == 3;
    program = is_shared ? "none" : words[3];
    for (size_t i = 0; i < LONG; i++) bytes[i] = (uint8_t)(i % 251 + 1);
    WANT(sqlite3_open(":memory:", &db) == SQLITE_OK);
    WANT(sqlite3_db_config(db, SQLITE_DBCONFIG_ENABLE_LOAD_EXTENSION, 1, NULL) == SQLITE_OK);
    if (sqlite3_load_extension(db, words[1], NULL, &message)) fprintf(stderr, "%s\n", message);
    vfs = sqlite3_vfs_find("topzerad");
    WANT(vfs && vfs != sqlite3_vfs_find(NULL));
    sqlite3_file *held = open_file("held.db", MAKES); /* the pool stays open */
    read_and_write();
    close_file(held);
    open_again();
    held = open_file("held.db", MAKES);
    remove_files();
    use_pieces();
    take_locks();
    write_atomically();
    share_memory();
    WANT(delete_file("held.db", 1) == SQLITE_OK);
    close_file(held);
    refuse_names();
    lack_memory();
    lack_memory_in_statements();
    WANT(sqlite3_close(db) == SQLITE_OK);
    puts("check: the calls of the VFS are right");
    return 0;
}
