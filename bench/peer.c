/*
 * The program of a peer: the writes of a run (stream.h) on the store that one other file provides (peer.h).
 * `bench/README.md` says what its commands do.
 */
#include "peer.h"

#include <errno.h>
#include <inttypes.h>
#include <pthread.h>
#include <stdarg.h>
#include <stdatomic.h>
#include <stdio.h>
#include <stdlib.h>
#include <string.h>
#include <sys/syscall.h>
#include <unistd.h>

enum { MOST_WORKERS = 16, MOST_OPS = 1000000 };

/* --- Flushes are counted: these two stand before the C library's, for the stores' libraries too. --- */

static atomic_ullong flushes;

int fsync(int file) {
    atomic_fetch_add(&flushes, 1);
    return (int)syscall(SYS_fsync, file);
}

int fdatasync(int file) {
    atomic_fetch_add(&flushes, 1);
    return (int)syscall(SYS_fdatasync, file);
}

void die(const char *format, ...) {
    va_list arguments;
    va_start(arguments, format);
    vfprintf(stderr, format, arguments);
    va_end(arguments);
    fputc('\n', stderr);
    exit(1);
}

void *need(size_t bytes) {
    void *memory = calloc(1, bytes);
    if (memory == NULL)
        die("no memory");
    return memory;
}

/* --- A run --- */

struct run {
    struct store *store;
    struct load load;
    uint32_t workers;
    bool is_each; /* every commit is durable, not only every eighth of a stream */
};

struct worker {
    const struct run *run;
    uint32_t number;
    pthread_t thread;
};

static void run_stream(const struct run *run, struct session *session, uint32_t number) {
    struct stream stream = stream_new(&run->load, number);
    for (uint32_t i = 0; i < run->load.ops; i++) {
        struct word word = stream_word(&stream);
        session_put(session, word.object, word.offset, word.bytes, word.length, run->is_each || is_eighth(i));
    }
}

/* A worker's streams are done one after the other, on a session of its own. */
static void *work(void *argument) {
    const struct worker *worker = argument;
    struct session *session = session_open(worker->run->store);
    for (uint32_t number = worker->number; number < STREAMS; number += worker->run->workers)
        run_stream(worker->run, session, number);
    session_close(session);
    return NULL;
}

static void run_all(const struct run *run) {
    struct worker workers[MOST_WORKERS];
    for (uint32_t k = 0; k < run->workers; k++) {
        workers[k] = (struct worker){.run = run, .number = k};
        if (pthread_create(&workers[k].thread, NULL, work, &workers[k]) != 0)
            die("no thread");
    }
    for (uint32_t k = 0; k < run->workers; k++)
        pthread_join(workers[k].thread, NULL);
}

static void run_command(unsigned variant, const char *path, struct run run) {
    run.store = store_open(variant, path);
    run_all(&run);
    store_close(run.store);
    printf("committed %" PRIu64 "\nflushes %llu\n", write_count(&run.load), atomic_load(&flushes));
}

/* --- What a store of rows has to hold after a run --- */

struct rows {
    struct word last[OBJECTS][OBJECT_BYTES]; /* the last write at each offset, of length 0 if there is none */
    uint64_t left;                           /* how many of them were not read yet */
};

/* Each offset of each object is written by one stream alone, so the order between streams does not matter. */
static void expect_rows(struct rows *rows, const struct load *load) {
    for (uint32_t number = 0; number < STREAMS; number++) {
        struct stream stream = stream_new(load, number);
        for (uint32_t i = 0; i < load->ops; i++) {
            struct word word = stream_word(&stream);
            struct word *last = &rows->last[word.object][word.offset];
            rows->left += last->length == 0;
            *last = word;
        }
    }
}

static void compare_row(void *context, uint32_t object, uint64_t offset, const uint8_t *bytes, size_t length) {
    struct rows *rows = context;
    if (object >= OBJECTS || offset >= OBJECT_BYTES)
        die("a write to object %" PRIu32 " at %" PRIu64 " that no stream makes", object, offset);
    struct word *last = &rows->last[object][offset];
    if (length == 0 || last->length != length)
        die("object %" PRIu32 " at %" PRIu64 ": %zu bytes, not %" PRIu32, object, offset, length, last->length);
    if (memcmp(bytes, last->bytes, length) != 0)
        die("object %" PRIu32 " at %" PRIu64 ": another byte", object, offset);
    last->length = 0;
    rows->left--;
}

static void check_rows(unsigned variant, const char *path, const struct load *load) {
    struct rows *rows = need(sizeof *rows);
    expect_rows(rows, load);
    uint64_t all = rows->left;
    store_read(variant, path, compare_row, rows);
    if (rows->left != 0)
        die("%" PRIu64 " of %" PRIu64 " offsets are not there", rows->left, all);
    printf("checked %" PRIu64 "\n", all);
    free(rows);
}

/* --- What the objects have to hold after a run --- */

struct contents {
    uint8_t bytes[OBJECTS][OBJECT_BYTES];
    uint32_t lengths[OBJECTS];
    uint32_t count;   /* of objects */
    uint32_t checked; /* how many of them were read and compared */
};

static struct contents *contents_of(const struct load *load) {
    struct contents *contents = need(sizeof *contents);
    contents->count = object_count(load);
    for (uint32_t number = 0; number < STREAMS; number++) {
        struct stream stream = stream_new(load, number);
        for (uint32_t i = 0; i < load->ops; i++) {
            struct word word = stream_word(&stream);
            uint32_t end = word.offset + word.length;
            memcpy(contents->bytes[word.object] + word.offset, word.bytes, word.length);
            if (contents->lengths[word.object] < end)
                contents->lengths[word.object] = end;
        }
    }
    return contents;
}

static void compare_object(void *context, uint32_t object, uint64_t offset, const uint8_t *bytes, size_t length) {
    struct contents *contents = context;
    if (object != contents->checked || object >= contents->count || offset != 0)
        die("object %" PRIu32 " is not the next one", object);
    if (length != contents->lengths[object])
        die("object %" PRIu32 ": %zu bytes, not %" PRIu32, object, length, contents->lengths[object]);
    if (memcmp(bytes, contents->bytes[object], length) != 0)
        die("object %" PRIu32 ": another byte", object);
    contents->checked++;
}

static void check_objects(unsigned variant, const char *path, const struct load *load) {
    struct contents *contents = contents_of(load);
    store_read(variant, path, compare_object, contents);
    if (contents->checked != contents->count)
        die("%" PRIu32 " of %" PRIu32 " objects are there", contents->checked, contents->count);
    printf("checked %" PRIu32 "\n", contents->checked);
    free(contents);
}

static void check_command(unsigned variant, const char *path, const struct load *load) {
    (keeps_bytes ? check_objects : check_rows)(variant, path, load);
}

/* --- The contents of a pool after a load, in the form over which its digest is computed --- */

static void put_number(uint64_t number, unsigned bytes) {
    for (unsigned i = 0; i < bytes; i++)
        putchar((int)(number >> (8 * i) & 255));
}

static void contents_command(const char *name, const struct load *load) {
    struct contents *contents = contents_of(load);
    put_number(strlen(name), 4);
    fputs(name, stdout);
    put_number(contents->count, 4);
    for (uint32_t object = 0; object < contents->count; object++) {
        put_number(object, 4);
        put_number(contents->lengths[object], 8);
        fwrite(contents->bytes[object], 1, contents->lengths[object], stdout);
    }
    free(contents);
}

/* --- Command line --- */

static _Noreturn void usage(void) {
    fputs("self-test\n"
          "contents NAME WRITES OPS SEED\n"
          "variants\n"
          "prepare VARIANT PATH WRITES OPS SEED\n"
          "run VARIANT PATH WRITES OPS SEED WORKERS each|eighth\n"
          "check VARIANT PATH WRITES OPS SEED\n"
          "WRITES is `small`, or the bytes of each write\n",
          stderr);
    exit(2);
}

static uint64_t number_of(const char *text, uint64_t most) {
    char *end;
    errno = 0;
    unsigned long long number = strtoull(text, &end, 10);
    if (*text < '0' || *text > '9' || *end != 0 || errno != 0 || number > most)
        usage();
    return number;
}

/* The three words WRITES OPS SEED. */
static struct load load_of(char **words) {
    struct load load = {
        .length = strcmp(words[0], "small") == 0 ? SMALL : (uint32_t)number_of(words[0], LONGEST),
        .ops = (uint32_t)number_of(words[1], MOST_OPS),
        .seed = number_of(words[2], UINT64_MAX),
    };
    if (load.length == SMALL && strcmp(words[0], "small") != 0)
        usage();
    streams_begin(&load);
    return load;
}

static unsigned variant_of(const char *name) {
    for (unsigned variant = 0; variants[variant] != NULL; variant++)
        if (strcmp(variants[variant], name) == 0)
            return variant;
    usage();
}

static bool is_each(const char *word) {
    if (strcmp(word, "each") != 0 && strcmp(word, "eighth") != 0)
        usage();
    return strcmp(word, "each") == 0;
}

int main(int count, char **words) {
    const char *command = count > 1 ? words[1] : "";
    if (count == 2 && strcmp(command, "self-test") == 0) {
        streams_test();
        puts("self-test ok");
    } else if (count == 6 && strcmp(command, "contents") == 0) {
        struct load load = load_of(words + 3);
        contents_command(words[2], &load);
    } else if (count == 2 && strcmp(command, "variants") == 0) {
        for (unsigned variant = 0; variants[variant] != NULL; variant++)
            puts(variants[variant]);
    } else if (count == 7 && strcmp(command, "prepare") == 0) {
        struct load load = load_of(words + 4);
        store_prepare(variant_of(words[2]), words[3], &load);
    } else if (count == 9 && strcmp(command, "run") == 0) {
        struct run run = {
            .load = load_of(words + 4),
            .workers = (uint32_t)number_of(words[7], most_workers),
            .is_each = is_each(words[8]),
        };
        if (run.workers == 0)
            usage();
        run_command(variant_of(words[2]), words[3], run);
    } else if (count == 7 && strcmp(command, "check") == 0) {
        struct load load = load_of(words + 4);
        check_command(variant_of(words[2]), words[3], &load);
    } else {
        usage();
    }
    return fflush(stdout) == 0 ? 0 : 1;
}
