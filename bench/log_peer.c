/*
 * A plain log: one thread appends records and syncs the file. It keeps nothing else, so nothing that writes a log can
 * do less. A record has the form and so the size of one in the pool's intent log (docs/FORMATS.md): a head of 22
 * bytes, the 17 of a write, and its bytes. It lies in the file whole, whatever its size.
 *
 * Variant `grown`: the file grows with each append, so a sync also makes its new length durable. Variant `filled`: the
 * file was filled with zeros before, as a pool's file is, and is written from its start on.
 */
#include "peer.h"

#include <errno.h>
#include <fcntl.h>
#include <stdlib.h>
#include <string.h>
#include <sys/mman.h>
#include <sys/stat.h>
#include <unistd.h>

enum { GROWN, FILLED };
enum { HEAD = 22, OP = 17, LONGEST_RECORD = HEAD + OP + LONGEST, WRITE_TAG = 3, FIRST_GROUP = 9 };

const char *const variants[] = {"grown", "filled", NULL};
const uint32_t most_workers = 1;
const bool keeps_bytes = false;

struct store {
    int file;
    uint64_t ordinal;
    bool is_synced;
};

struct session {
    struct store *store;
};

static int open_file(const char *path, int flags) {
    int file = open(path, flags | O_CLOEXEC, 0644);
    if (file < 0)
        die("%s: %s", path, strerror(errno));
    return file;
}

static void write_whole(int file, const uint8_t *bytes, size_t count) {
    if (write(file, bytes, count) != (ssize_t)count)
        die("log: a write failed");
}

static void sync_file(int file) {
    if (fdatasync(file) != 0)
        die("log: a sync failed");
}

static void put_number(uint8_t *into, uint64_t number, int bytes) {
    for (int i = 0; i < bytes; i++)
        into[i] = (uint8_t)(number >> (8 * i));
}

static uint64_t number_at(const uint8_t *from, int bytes) {
    uint64_t number = 0;
    for (int i = bytes; i-- > 0;)
        number = number << 8 | from[i];
    return number;
}

void store_prepare(unsigned variant, const char *path, const struct load *load) {
    static const uint8_t zeros[4096];
    int file = open_file(path, O_WRONLY | O_CREAT | O_EXCL);
    if (variant == FILLED)
        for (uint64_t done = 0; done < write_count(load) * (HEAD + OP + longest_of(load)); done += sizeof zeros)
            write_whole(file, zeros, sizeof zeros);
    sync_file(file);
    close(file);
}

struct store *store_open(unsigned variant, const char *path) {
    (void)variant;
    struct store *store = need(sizeof *store);
    store->file = open_file(path, O_WRONLY);
    store->is_synced = true;
    return store;
}

void store_close(struct store *store) {
    if (!store->is_synced)
        sync_file(store->file);
    close(store->file);
    free(store);
}

struct session *session_open(struct store *store) {
    struct session *session = need(sizeof *session);
    session->store = store;
    return session;
}

void session_close(struct session *session) { free(session); }

void session_put(struct session *session, uint32_t object, uint64_t offset, const uint8_t *bytes, uint32_t length,
                 bool is_durable) {
    struct store *store = session->store;
    uint8_t record[LONGEST_RECORD];
    put_number(record, HEAD + OP + length, 4);
    put_number(record + 4, FIRST_GROUP, 8);
    put_number(record + 12, store->ordinal++, 8);
    put_number(record + 20, 1, 2);
    record[HEAD] = WRITE_TAG;
    put_number(record + HEAD + 1, object, 4);
    put_number(record + HEAD + 5, offset, 8);
    put_number(record + HEAD + 13, length, 4);
    memcpy(record + HEAD + OP, bytes, length);
    write_whole(store->file, record, HEAD + OP + length);
    if (is_durable)
        sync_file(store->file);
    store->is_synced = is_durable;
}

/* The bytes of a file. They stay until the program ends. */
static const uint8_t *map_file(const char *path, size_t *size) {
    int file = open_file(path, O_RDONLY);
    struct stat found;
    if (fstat(file, &found) != 0)
        die("%s: %s", path, strerror(errno));
    *size = (size_t)found.st_size;
    void *bytes = *size == 0 ? NULL : mmap(NULL, *size, PROT_READ, MAP_PRIVATE, file, 0);
    if (bytes == MAP_FAILED)
        die("%s: %s", path, strerror(errno));
    close(file);
    return bytes;
}

/* A log has each write, so only the last one of an offset is handed out. */
void store_read(unsigned variant, const char *path, write_reader reader, void *context) {
    (void)variant;
    size_t left;
    const uint8_t *record = map_file(path, &left);
    const uint8_t *(*last)[OBJECT_BYTES] = need(OBJECTS * sizeof *last);
    while (left >= HEAD + OP && number_at(record, 4) != 0) {
        const uint8_t *op = record + HEAD;
        uint64_t object = number_at(op + 1, 4);
        uint64_t offset = number_at(op + 5, 8);
        uint64_t length = number_at(op + 13, 4);
        if (object >= OBJECTS || offset >= OBJECT_BYTES || length > left - HEAD - OP)
            die("log: a record that no stream writes");
        last[object][offset] = op;
        record += HEAD + OP + length;
        left -= HEAD + OP + length;
    }
    for (uint32_t object = 0; object < OBJECTS; object++)
        for (uint32_t offset = 0; offset < OBJECT_BYTES; offset++) {
            const uint8_t *op = last[object][offset];
            if (op != NULL)
                reader(context, object, offset, op + OP, number_at(op + 13, 4));
        }
    free(last);
}
