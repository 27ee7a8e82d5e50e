/*
 * SQLite in WAL mode. A write is a row whose key is a number of object and offset. One INSERT puts it, or changes the
 * row that is there, and is a transaction of its own. That writes fewer pages than INSERT OR REPLACE, if the bytes are
 * many. Each session is a connection.
 *
 * A durable commit is made with synchronous=FULL, which syncs the log file after the commit. That makes all earlier
 * commits durable too, since they lie before it in the same file. Other commits are made with synchronous=NORMAL,
 * which syncs the log file only at checkpoints. A connection changes between the two outside of a transaction, and
 * only if the next commit needs it, so a run in which every commit is durable changes once.
 *
 * Variant `busy`: threads meet in SQLite, and one that finds the database locked sleeps and tries again, by
 * sqlite3_busy_timeout. Variant `queue`: threads wait for a mutex of the program first, as a program with one writer
 * does.
 */
#include "peer.h"

#include <pthread.h>
#include <sqlite3.h>
#include <stdlib.h>

enum { BUSY, QUEUE };
enum { PATIENCE = 600000 /* milliseconds */ };

/* An object has fewer offsets. */
#define PLACES (UINT64_C(1) << 32)

const char *const variants[] = {"busy", "queue", NULL};
const uint32_t most_workers = 16;
const bool keeps_bytes = false;

struct store {
    const char *path;
    unsigned variant;
    pthread_mutex_t turn;
};

struct session {
    struct store *store;
    sqlite3 *database;
    sqlite3_stmt *put;
    bool is_full;
};

static sqlite3 *connect(const char *path) {
    sqlite3 *database;
    if (sqlite3_open(path, &database) != SQLITE_OK)
        die("%s: %s", path, sqlite3_errmsg(database));
    sqlite3_busy_timeout(database, PATIENCE);
    return database;
}

static void execute(sqlite3 *database, const char *text) {
    if (sqlite3_exec(database, text, NULL, NULL, NULL) != SQLITE_OK)
        die("%s: %s", text, sqlite3_errmsg(database));
}

static void expect(sqlite3 *database, int answer, int right) {
    if (answer != right)
        die("sqlite: %s", sqlite3_errmsg(database));
}

static sqlite3_stmt *statement(sqlite3 *database, const char *text) {
    sqlite3_stmt *made;
    expect(database, sqlite3_prepare_v2(database, text, -1, &made, NULL), SQLITE_OK);
    return made;
}

static void disconnect(sqlite3 *database) {
    if (sqlite3_close(database) != SQLITE_OK)
        die("sqlite: %s", sqlite3_errmsg(database));
}

void store_prepare(unsigned variant, const char *path, const struct load *load) {
    (void)variant, (void)load;
    sqlite3 *database = connect(path);
    execute(database, "PRAGMA journal_mode=WAL");
    execute(database, "CREATE TABLE writes (place INTEGER PRIMARY KEY, bytes BLOB NOT NULL)");
    disconnect(database);
}

struct store *store_open(unsigned variant, const char *path) {
    struct store *store = need(sizeof *store);
    store->path = path;
    store->variant = variant;
    pthread_mutex_init(&store->turn, NULL);
    return store;
}

/* The last connection that closed has made a checkpoint with its syncs, if synchronous was FULL or NORMAL. */
void store_close(struct store *store) {
    pthread_mutex_destroy(&store->turn);
    free(store);
}

struct session *session_open(struct store *store) {
    struct session *session = need(sizeof *session);
    session->store = store;
    session->database = connect(store->path);
    execute(session->database, "PRAGMA synchronous=NORMAL");
    session->put = statement(session->database, "INSERT INTO writes VALUES (?, ?)"
                                                " ON CONFLICT DO UPDATE SET bytes = excluded.bytes");
    return session;
}

static void set_full(struct session *session, bool is_full) {
    if (session->is_full == is_full)
        return;
    execute(session->database, is_full ? "PRAGMA synchronous=FULL" : "PRAGMA synchronous=NORMAL");
    session->is_full = is_full;
}

void session_put(struct session *session, uint32_t object, uint64_t offset, const uint8_t *bytes, uint32_t length,
                 bool is_durable) {
    set_full(session, is_durable);
    if (session->store->variant == QUEUE)
        pthread_mutex_lock(&session->store->turn);
    sqlite3_bind_int64(session->put, 1, (sqlite3_int64)(PLACES * object + offset));
    sqlite3_bind_blob(session->put, 2, bytes, (int)length, SQLITE_STATIC);
    expect(session->database, sqlite3_step(session->put), SQLITE_DONE);
    expect(session->database, sqlite3_reset(session->put), SQLITE_OK);
    if (session->store->variant == QUEUE)
        pthread_mutex_unlock(&session->store->turn);
}

void session_close(struct session *session) {
    sqlite3_finalize(session->put);
    disconnect(session->database);
    free(session);
}

void store_read(unsigned variant, const char *path, write_reader reader, void *context) {
    (void)variant;
    sqlite3 *database = connect(path);
    sqlite3_stmt *rows = statement(database, "SELECT place, bytes FROM writes");
    int answer;
    while ((answer = sqlite3_step(rows)) == SQLITE_ROW) {
        uint64_t place = (uint64_t)sqlite3_column_int64(rows, 0);
        const uint8_t *bytes = sqlite3_column_blob(rows, 1);
        reader(context, (uint32_t)(place / PLACES), place % PLACES, bytes, (size_t)sqlite3_column_bytes(rows, 1));
    }
    expect(database, answer, SQLITE_DONE);
    sqlite3_finalize(rows);
    disconnect(database);
}
