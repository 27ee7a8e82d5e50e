/*
 * RocksDB with its log, and its other options as they are by default. A write is a value under a key of object and
 * offset, put by one call that is a transaction of its own. All sessions share the database, as RocksDB is used.
 *
 * A durable commit is a put with sync=true, which syncs every part of the log that isn't synced, and so makes all
 * earlier commits durable too. Other commits are puts with sync=false: they are in the log, but not synced.
 */
#include "peer.h"

#include <rocksdb/c.h>
#include <stdlib.h>

enum { KEY_BYTES = 12 };

const char *const variants[] = {"default", NULL};
const uint32_t most_workers = 16;
const bool keeps_bytes = false;

struct store {
    rocksdb_t *database;
    rocksdb_options_t *options;
    rocksdb_writeoptions_t *synced;
    rocksdb_writeoptions_t *unsynced;
};

struct session {
    struct store *store;
};

static void expect_none(char *error) {
    if (error != NULL)
        die("rocksdb: %s", error);
}

static struct store *open_database(const char *path, bool is_new) {
    struct store *store = need(sizeof *store);
    char *error = NULL;
    store->options = rocksdb_options_create();
    rocksdb_options_set_create_if_missing(store->options, is_new);
    store->synced = rocksdb_writeoptions_create();
    rocksdb_writeoptions_set_sync(store->synced, 1);
    store->unsynced = rocksdb_writeoptions_create();
    rocksdb_writeoptions_set_sync(store->unsynced, 0);
    store->database = rocksdb_open(store->options, path, &error);
    expect_none(error);
    return store;
}

void store_prepare(unsigned variant, const char *path, const struct load *load) {
    (void)variant, (void)load;
    store_close(open_database(path, true));
}

struct store *store_open(unsigned variant, const char *path) {
    (void)variant;
    return open_database(path, false);
}

void store_close(struct store *store) {
    char *error = NULL;
    rocksdb_flush_wal(store->database, 1, &error);
    expect_none(error);
    rocksdb_close(store->database);
    rocksdb_writeoptions_destroy(store->synced);
    rocksdb_writeoptions_destroy(store->unsynced);
    rocksdb_options_destroy(store->options);
    free(store);
}

struct session *session_open(struct store *store) {
    struct session *session = need(sizeof *session);
    session->store = store;
    return session;
}

void session_close(struct session *session) { free(session); }

/* Big-endian, so that keys lie in the order of the numbers. */
static void encode_key(char *key, uint32_t object, uint64_t offset) {
    for (int i = 0; i < 4; i++)
        key[i] = (char)(object >> (24 - 8 * i));
    for (int i = 0; i < 8; i++)
        key[4 + i] = (char)(offset >> (56 - 8 * i));
}

static uint64_t decode_number(const char *bytes, int count) {
    uint64_t number = 0;
    for (int i = 0; i < count; i++)
        number = number << 8 | (uint8_t)bytes[i];
    return number;
}

void session_put(struct session *session, uint32_t object, uint64_t offset, const uint8_t *bytes, uint32_t length,
                 bool is_durable) {
    struct store *store = session->store;
    char key[KEY_BYTES];
    char *error = NULL;
    encode_key(key, object, offset);
    rocksdb_put(store->database, is_durable ? store->synced : store->unsynced, key, KEY_BYTES, (const char *)bytes,
                length, &error);
    expect_none(error);
}

void store_read(unsigned variant, const char *path, write_reader reader, void *context) {
    (void)variant;
    struct store *store = open_database(path, false);
    rocksdb_readoptions_t *options = rocksdb_readoptions_create();
    rocksdb_iterator_t *at = rocksdb_create_iterator(store->database, options);
    for (rocksdb_iter_seek_to_first(at); rocksdb_iter_valid(at); rocksdb_iter_next(at)) {
        size_t key_length, length;
        const char *key = rocksdb_iter_key(at, &key_length);
        const char *bytes = rocksdb_iter_value(at, &length);
        if (key_length != KEY_BYTES)
            die("rocksdb: a key of %zu bytes", key_length);
        reader(context, (uint32_t)decode_number(key, 4), decode_number(key + 4, 8), (const uint8_t *)bytes, length);
    }
    char *error = NULL;
    rocksdb_iter_get_error(at, &error);
    expect_none(error);
    rocksdb_iter_destroy(at);
    rocksdb_readoptions_destroy(options);
    store_close(store);
}
