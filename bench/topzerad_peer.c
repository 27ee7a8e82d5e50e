/*
 * A pool, through the library of `clients/c`: the process `ztxg serve FILE` has it, and sessions share the connection.
 * A write is a transaction of one operation on an object that is there.
 *
 * A durable commit asks for that with its transaction. The server answers it once all earlier commits are durable too
 * (`fsync_all`). What several sessions ask at once goes in one frame and shares a flush.
 *
 * The file is a pool without objects, as `ztxg create` makes it. The environment has the program in TOPZERAD_PROGRAM,
 * and in TOPZERAD_DIRTY its dirty limit, if it is to have another one than by default.
 */
#include "peer.h"
#include "topzerad.h"

#include <inttypes.h>
#include <stdlib.h>

enum { RECORD_HEAD = 22, CREATE_BYTES = 5 };

const char *const variants[] = {"default", NULL};
const uint32_t most_workers = 16;
const bool keeps_bytes = true;

struct store {
    topzerad pool;
};

struct session {
    struct store *store;
    uint8_t record[TOPZERAD_MAX_RECORD];
};

static void expect_done(int refusal) {
    if (refusal != TOPZERAD_OK)
        die("topzerad: %s (refusal %d)", topzerad_text(refusal), refusal);
}

/* The dirty limit, or 0 for that of the program. */
static uint64_t dirty_limit(void) {
    const char *text = getenv("TOPZERAD_DIRTY");
    char *end;
    if (text == NULL)
        return 0;
    uint64_t bytes = strtoull(text, &end, 10);
    if (bytes == 0 || *end != '\0')
        die("topzerad: TOPZERAD_DIRTY=%s is no number of bytes", text);
    return bytes;
}

struct store *store_open(unsigned variant, const char *path) {
    (void)variant;
    struct store *store = need(sizeof *store);
    const char *program = getenv("TOPZERAD_PROGRAM");
    const topzerad_options options = {.dirty = dirty_limit()};
    if (topzerad_open_options(&store->pool, program == NULL ? "ztxg" : program, path, &options) != TOPZERAD_OK)
        die("topzerad: %s can't be opened: %s", path, topzerad_cause(&store->pool));
    return store;
}

void store_close(struct store *store) {
    expect_done(topzerad_close(&store->pool));
    free(store);
}

/* The objects that writes go to are made here, so a run makes none. */
void store_prepare(unsigned variant, const char *path, const struct load *load) {
    struct store *store = store_open(variant, path);
    uint8_t record[RECORD_HEAD + OBJECTS * CREATE_BYTES];
    topzerad_tx tx;
    topzerad_tx_start(&tx, record, sizeof record);
    for (uint32_t object = 0; object < object_count(load); object++)
        expect_done(topzerad_tx_create(&tx, object));
    expect_done(topzerad_transact_durably(&store->pool, &tx, NULL, NULL));
    store_close(store);
}

struct session *session_open(struct store *store) {
    struct session *session = need(sizeof *session);
    session->store = store;
    return session;
}

void session_close(struct session *session) { free(session); }

void session_put(struct session *session, uint32_t object, uint64_t offset, const uint8_t *bytes, uint32_t length,
                 bool is_durable) {
    topzerad_tx tx;
    topzerad_tx_start(&tx, session->record, sizeof session->record);
    expect_done(topzerad_tx_write(&tx, object, offset, bytes, length));
    if (is_durable)
        expect_done(topzerad_transact_durably(&session->store->pool, &tx, NULL, NULL));
    else
        expect_done(topzerad_transact(&session->store->pool, &tx, NULL));
}

/* The bytes of each object. One that is longer than a load's writes are has another length than its bytes here. */
void store_read(unsigned variant, const char *path, write_reader reader, void *context) {
    struct store *store = store_open(variant, path);
    topzerad_listed *listed = need(TOPZERAD_OBJECTS * sizeof *listed);
    uint8_t *bytes = need(OBJECT_BYTES);
    size_t count, length;
    expect_done(topzerad_objects(&store->pool, 0, TOPZERAD_OBJECTS, listed, &count));
    for (size_t i = 0; i < count; i++) {
        expect_done(topzerad_read(&store->pool, listed[i].object, 0, OBJECT_BYTES, bytes, &length));
        if (length != listed[i].length)
            die("topzerad: object %" PRIu32 " has %zu bytes, not %" PRIu64, listed[i].object, length, listed[i].length);
        reader(context, listed[i].object, 0, bytes, length);
    }
    free(bytes);
    free(listed);
    store_close(store);
}
