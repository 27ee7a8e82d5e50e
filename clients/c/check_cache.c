/* What is read with a cache of reads is what is read without: in each call, by several threads, in caches that are much
 * too small, and after whatever ends. It needs a pool without objects that is named tank, and leaves it without. As
 * `serve` this program is a process with a damaged pool. */
#define _GNU_SOURCE
#include "check.h"
#include "topzerad.h"

#include <errno.h>
#include <pthread.h>
#include <signal.h>
#include <stdatomic.h>
#include <sys/resource.h>
#include <sys/wait.h>
#include <time.h>
#include <unistd.h>

enum { KIB = 1024, MIB = 1048576, UNIT = 4096, BIG = 60000, LONG = 5 * MIB / 4 + 9 };
enum { DAMAGED_FROM = 3 * UNIT + 100, BLOCK = 4198400 };
enum { THREADS = 4, OWN = 3, MOST = 100000, ROUNDS = 300 };
#ifndef STEPS /* of each thread that compares */
#define STEPS 100
#endif

static topzerad pool;
static const char *program, *file;
static uint8_t content[LONG], back[TOPZERAD_MAX_LENGTH];
static uint64_t asked;

static void open_with(uint64_t read_cache) {
    const topzerad_options options = {.read_cache = read_cache};
    WANT(topzerad_open_options(&pool, program, file, &options) == 0);
    asked = pool.asked;
}

/* How many calls the process has answered since this was asked last. */
static uint64_t answered(void) {
    uint64_t count = pool.asked - asked;
    asked = pool.asked;
    return count;
}

static void want_read(uint32_t object, uint64_t low, uint64_t high, const void *bytes, size_t wanted) {
    size_t count;
    memset(back, 255, high - low);
    WANT(topzerad_read(&pool, object, low, high, back, &count) == 0);
    WANT(count == wanted && !memcmp(back, bytes, wanted));
}

/* Reads so many bytes of object 1, which has the content. */
static void want_content(size_t at, size_t most) {
    want_read(1, at, at + most, content + at, LONG - at < most ? LONG - at : most);
}

static int refusal_of_read(uint32_t object, uint64_t low, uint64_t high) {
    size_t count;
    return topzerad_read(&pool, object, low, high, back, &count);
}

static void commit(topzerad_tx *tx) { WANT(topzerad_transact(&pool, tx, NULL) == 0); }

static void write_bytes(uint32_t object, uint64_t at, const void *bytes, size_t count) {
    static uint8_t memory[TOPZERAD_MAX_RECORD];
    topzerad_tx tx;
    topzerad_tx_start(&tx, memory, sizeof memory);
    WANT(topzerad_tx_write(&tx, object, at, bytes, count) == 0);
    commit(&tx);
}

static void create(uint32_t object) {
    uint8_t memory[64];
    topzerad_tx tx;
    topzerad_tx_start(&tx, memory, sizeof memory);
    WANT(topzerad_tx_create(&tx, object) == 0);
    commit(&tx);
}

static void set_length(uint32_t object, uint64_t length) {
    uint8_t memory[64];
    topzerad_tx tx;
    topzerad_tx_start(&tx, memory, sizeof memory);
    WANT(topzerad_tx_set_length(&tx, object, length) == 0);
    commit(&tx);
}

static void remove_all(void) {
    static topzerad_listed listed[TOPZERAD_OBJECTS];
    uint8_t memory[64];
    topzerad_tx tx;
    size_t count;
    WANT(topzerad_objects(&pool, 0, TOPZERAD_OBJECTS, listed, &count) == 0);
    for (size_t i = 0; i < count; i++) {
        topzerad_tx_start(&tx, memory, sizeof memory);
        WANT(topzerad_tx_remove(&tx, listed[i].object) == 0);
        commit(&tx);
    }
}

/* What was read is read again without the process, and each change is seen. */
static void change_what_is_kept(void) {
    uint8_t memory[TOPZERAD_MAX_RECORD];
    topzerad_tx tx;
    open_with(MIB);
    create(1);
    write_bytes(1, 0, content, BIG);
    answered();
    want_read(1, 100, 9000, content + 100, 8900);
    WANT(answered() == 1);
    want_read(1, 0, 3 * UNIT, content, 3 * UNIT);
    want_read(1, 5000, 5001, content + 5000, 1);
    WANT(answered() == 0);
    want_read(1, 5000, 3 * UNIT + 1, content + 5000, 3 * UNIT + 1 - 5000);
    WANT(answered() == 1);

    /* a write within units, across them, and to what isn't kept */
    write_bytes(1, 4000, "abcdefghij", 10);
    answered();
    memcpy(content + 4000, "abcdefghij", 10);
    write_bytes(1, 4090, content + 30000, 9000);
    memmove(content + 4090, content + 30000, 9000);
    WANT(answered() == 1);
    want_read(1, 0, 4 * UNIT, content, 4 * UNIT);
    WANT(answered() == 0);
    write_bytes(1, 50000, "xyz", 3);
    memcpy(content + 50000, "xyz", 3);
    want_read(1, 49990, 50010, content + 49990, 20);

    /* the end: it is kept where it is, and moves */
    want_read(1, BIG - 5, BIG + 5000, content + BIG - 5, 5);
    answered();
    want_read(1, BIG - 5, BIG + 5000, content + BIG - 5, 5);
    want_read(1, BIG + 1, BIG + 2, content, 0);
    WANT(answered() == 0);
    write_bytes(1, BIG + 10, "end", 3);
    memset(content + BIG, 0, 10);
    memcpy(content + BIG + 10, "end", 3);
    answered();
    want_read(1, BIG - 5, BIG + 5000, content + BIG - 5, 18);
    WANT(answered() == 0);
    set_length(1, 3 * UNIT - 7);
    memset(content + 3 * UNIT - 7, 0, 5 * UNIT);
    want_read(1, 2 * UNIT, 4 * UNIT, content + 2 * UNIT, UNIT - 7);
    set_length(1, 3 * UNIT + 9);
    want_read(1, 2 * UNIT, 4 * UNIT, content + 2 * UNIT, UNIT + 9);
    set_length(1, 0);
    want_read(1, 0, 10, content, 0);
    write_bytes(1, 0, content, 5 * UNIT);
    want_read(1, 0, 6 * UNIT, content, 5 * UNIT);

    /* several operations at once, all or none */
    topzerad_tx_start(&tx, memory, sizeof memory);
    WANT(topzerad_tx_write(&tx, 1, 10, "one", 3) == 0 && topzerad_tx_set_length(&tx, 1, 2 * UNIT) == 0);
    WANT(topzerad_tx_set_name(&tx, "tank", 4) == 0 && topzerad_tx_create(&tx, 1) == 0);
    WANT(topzerad_transact(&pool, &tx, NULL) == TOPZERAD_EXISTS);
    want_read(1, 0, 6 * UNIT, content, 5 * UNIT);
    topzerad_tx_start(&tx, memory, sizeof memory);
    WANT(topzerad_tx_write(&tx, 1, 10, "one", 3) == 0 && topzerad_tx_set_length(&tx, 1, 2 * UNIT) == 0);
    WANT(topzerad_tx_set_name(&tx, "tank", 4) == 0 && topzerad_tx_write(&tx, 1, 11, "two", 3) == 0);
    WANT(topzerad_transact_durably(&pool, &tx, NULL, NULL) == 0);
    memcpy(content + 10, "otwo", 4);
    answered();
    want_read(1, 0, 2 * UNIT, content, 2 * UNIT);
    WANT(answered() == 0);

    /* an object that is removed, and made again */
    topzerad_tx_start(&tx, memory, sizeof memory);
    WANT(topzerad_tx_remove(&tx, 1) == 0);
    commit(&tx);
    WANT(refusal_of_read(1, 0, 10) == TOPZERAD_NO_OBJECT);
    create(1);
    want_read(1, 0, 10, content, 0);
    write_bytes(1, 3, "new", 3);
    want_read(1, 0, 10, "\0\0\0new", 6);
    topzerad_tx_start(&tx, memory, sizeof memory);
    WANT(topzerad_tx_remove(&tx, 1) == 0 && topzerad_tx_create(&tx, 1) == 0);
    WANT(topzerad_tx_write(&tx, 1, 1, "2", 1) == 0);
    commit(&tx);
    want_read(1, 0, 10, "\0002", 2);
    WANT(refusal_of_read(1, 5, 5) == TOPZERAD_BAD_RANGE && refusal_of_read(5292, 0, 5) == TOPZERAD_BAD_RANGE);
    WANT(refusal_of_read(1, 0, TOPZERAD_MAX_LENGTH + 1) == TOPZERAD_BAD_RANGE);
    remove_all();
    WANT(topzerad_close(&pool) == 0);
}

/* Several ranges, of which all are kept or not. */
static void read_ranges(void) {
    uint8_t ends[3][4];
    open_with(256 * KIB);
    create(1);
    create(2);
    write_bytes(1, 0, content, BIG);
    write_bytes(2, 0, content, 2 * UNIT + 10);
    topzerad_range ranges[] = {
        {.object = 1, .low = 9, .high = 13, .into = ends[0]},
        {.object = 2, .low = 8, .high = 8, .into = ends[1]},
        {.object = 2, .low = 2 * UNIT + 8, .high = 2 * UNIT + 12, .into = ends[2]},
    };
    for (int is_kept = 0; is_kept < 2; is_kept++) {
        answered();
        memset(ends, 255, sizeof ends);
        WANT(topzerad_read_many(&pool, ranges, 3) == TOPZERAD_BAD_RANGE && answered() == (is_kept ? 0 : 2));
        WANT(ranges[0].refusal == 0 && ranges[0].count == 4 && !memcmp(ends[0], content + 9, 4));
        WANT(ranges[1].refusal == TOPZERAD_BAD_RANGE && ranges[1].count == 0);
        WANT(ranges[2].refusal == 0 && ranges[2].count == 2 && !memcmp(ends[2], content + 2 * UNIT + 8, 2));
        WANT(ends[2][2] == 255);
    }
    ranges[2].object = 3;
    WANT(topzerad_read_many(&pool, ranges, 3) == TOPZERAD_BAD_RANGE && ranges[2].refusal == TOPZERAD_NO_OBJECT);
    WANT(answered() == 2 && ranges[0].count == 4);
    remove_all();
    WANT(topzerad_close(&pool) == 0);
}

/* Objects by name. */
static void use_names(void) {
    uint64_t length;
    uint32_t object;
    open_with(256 * KIB);
    for (int i = 0; i < 3; i++) {
        WANT(topzerad_put_named(&pool, "one", content + i, 70000, NULL) == 0);
        WANT(topzerad_put_named(&pool, "two", content + i, 10, &object) == 0);
        WANT(topzerad_get_named(&pool, "one", back, sizeof back, &length) == 0);
        WANT(length == 70000 && !memcmp(back, content + i, 70000));
        WANT(topzerad_remove_named(&pool, "two") == 0);
        WANT(topzerad_find_named(&pool, "two", &object) == TOPZERAD_NO_OBJECT);
    }
    remove_all();
    WANT(topzerad_close(&pool) == 0);
}

/* What is read in order takes few calls, and what isn't one each. */
static void read_ahead(void) {
    open_with(16 * MIB);
    create(1);
    for (size_t at = 0; at < LONG; at += BIG)
        write_bytes(1, at, content + at, LONG - at < BIG ? LONG - at : BIG);
    answered();
    for (size_t at = 0; at < LONG; at += UNIT) want_content(at, UNIT);
    WANT(answered() < 13);
    WANT(topzerad_close(&pool) == 0);

    open_with(16 * MIB);
    for (size_t at = 0; at < LONG; at += 1000) want_content(at, 1000);
    WANT(answered() < 13);
    WANT(topzerad_close(&pool) == 0);

    open_with(16 * MIB);
    for (size_t at = 0; at < LONG; at += 30000) want_content(at, 1);
    WANT(answered() == (LONG + 29999) / 30000);
    want_content(0, TOPZERAD_MAX_LENGTH); /* in pieces */
    answered();
    want_content(1, TOPZERAD_MAX_LENGTH - 1);
    WANT(answered() == 0);
    WANT(topzerad_close(&pool) == 0);

    open_with(64 * KIB);
    for (size_t at = 0; at < LONG; at += 100 * KIB) want_content(at, 3 * UNIT);
    want_content(0, TOPZERAD_MAX_LENGTH);
    answered();
    want_content(0, 2 * UNIT); /* the first of it is kept, and no more than a quarter of the cache */
    WANT(answered() == 0);
    want_content(4 * UNIT, UNIT);
    WANT(answered() == 1);
    remove_all();
    WANT(topzerad_close(&pool) == 0);
}

/* The objects of a thread, as they should be. */
typedef struct {
    uint64_t chance;
    uint32_t first;
    struct {
        int is_there;
        size_t length;
        uint8_t bytes[MOST];
    } objects[OWN], before[OWN];
    uint8_t records[3][TOPZERAD_MAX_RECORD], read[4][MOST];
} model;

static uint64_t draw(model *m, uint64_t below) {
    m->chance = m->chance * UINT64_C(6364136223846793005) + UINT64_C(1442695040888963407);
    return (m->chance >> 33) % below;
}

/* Adds an operation to a transaction that is possible, and makes it in the model. */
static void add_any(model *m, topzerad_tx *tx) {
    size_t at = draw(m, OWN), count, from;
    uint32_t object = m->first + (uint32_t)at;
    if (!m->objects[at].is_there) {
        WANT(topzerad_tx_create(tx, object) == 0);
        m->objects[at].is_there = 1;
        m->objects[at].length = 0;
        return;
    }
    uint8_t *bytes = m->objects[at].bytes;
    size_t *length = &m->objects[at].length;
    switch (draw(m, 12)) {
    case 0:
        WANT(topzerad_tx_remove(tx, object) == 0);
        m->objects[at].is_there = 0;
        return;
    case 1:
    case 2:
        count = draw(m, MOST);
        WANT(topzerad_tx_set_length(tx, object, count) == 0);
        if (count > *length) memset(bytes + *length, 0, count - *length);
        *length = count;
        return;
    default:
        count = 1 + draw(m, draw(m, 2) ? 10000 : 20);
        from = draw(m, (*length < MOST - 30000 ? *length : MOST - 30000) + 10000);
        WANT(topzerad_tx_write(tx, object, from, content + draw(m, MIB), count) == 0);
        if (from > *length) memset(bytes + *length, 0, from - *length);
        memcpy(bytes + from, tx->bytes + tx->length - count, count);
        if (from + count > *length) *length = from + count;
    }
}

static void start_any(model *m, topzerad_tx *tx, uint8_t *memory) {
    topzerad_tx_start(tx, memory, TOPZERAD_MAX_RECORD);
    for (uint64_t left = 1 + draw(m, 4); left; left--) add_any(m, tx);
}

/* Adds what lets a transaction be refused, and takes the model back. */
static void spoil(model *m, topzerad_tx *tx) {
    int is_there = m->objects[0].is_there;
    WANT((is_there ? topzerad_tx_create(tx, m->first) : topzerad_tx_remove(tx, m->first)) == 0);
    memcpy(m->objects, m->before, sizeof m->before);
}

static void change_any(model *m) {
    topzerad_tx tx[3];
    topzerad_outcome outcomes[3];
    int is_spoiled = draw(m, 4) == 0, refusal;
    memcpy(m->before, m->objects, sizeof m->before);
    start_any(m, &tx[0], m->records[0]);
    if (draw(m, 4)) {
        if (is_spoiled) spoil(m, &tx[0]);
        refusal = draw(m, 8) ? topzerad_transact(&pool, tx, NULL) : topzerad_transact_durably(&pool, tx, NULL, NULL);
        WANT(is_spoiled ? refusal == TOPZERAD_EXISTS || refusal == TOPZERAD_NO_OBJECT : refusal == 0);
        return;
    }
    memcpy(m->before, m->objects, sizeof m->before);
    start_any(m, &tx[1], m->records[1]);
    if (is_spoiled) spoil(m, &tx[1]);
    start_any(m, &tx[2], m->records[2]);
    WANT((topzerad_transact_many(&pool, tx, 3, outcomes) != 0) == is_spoiled && !outcomes[2].refusal);
}

static topzerad_range any_range(model *m, uint8_t *into) {
    uint64_t low = draw(m, MOST + 9000), most = draw(m, 3) ? 9000 : MOST;
    uint32_t object = m->first + (uint32_t)draw(m, OWN);
    return (topzerad_range){.object = object, .low = low, .high = low + 1 + draw(m, most), .into = into};
}

/* Whether a range has the bytes of the model. */
static void want_any(const model *m, const topzerad_range *range) {
    size_t at = range->object - m->first, length = m->objects[at].length;
    size_t end = range->high < length ? range->high : length, wanted = end > range->low ? end - range->low : 0;
    WANT(range->refusal == (m->objects[at].is_there ? 0 : TOPZERAD_NO_OBJECT));
    if (range->refusal) return;
    WANT(range->count == wanted && !memcmp(range->into, m->objects[at].bytes + range->low, wanted));
}

static void read_any(model *m) {
    topzerad_range ranges[4];
    size_t count = 1 + draw(m, 4);
    for (size_t i = 0; i < count; i++) ranges[i] = any_range(m, m->read[i]);
    for (size_t i = 0; i < count; i++)
        if (ranges[i].high - ranges[i].low > MOST) ranges[i].high = ranges[i].low + MOST;
    topzerad_read_many(&pool, ranges, count);
    for (size_t i = 0; i < count; i++) want_any(m, &ranges[i]);
}

/* Reads on in order. */
static void read_on(model *m) {
    topzerad_range range = any_range(m, m->read[0]);
    uint64_t size = 1 + draw(m, 6000);
    for (int i = 0; i < 8; i++) {
        range.high = range.low + size;
        range.refusal = topzerad_read(&pool, range.object, range.low, range.high, range.into, &range.count);
        want_any(m, &range);
        range.low = range.high;
    }
}

static void *compare(void *of) {
    model *m = of;
    for (int i = 0; i < STEPS; i++) {
        change_any(m);
        read_any(m);
        if (i % 4 == 0) read_on(m);
        for (uint64_t left = draw(m, 4); left; left--) read_any(m);
    }
    return NULL;
}

/* Several threads, each with objects of its own, in a cache that has room for all, for some and for hardly any. */
static void compare_with_models(void) {
    static model models[THREADS];
    static const uint64_t sizes[] = {64 * KIB, 300 * KIB, 16 * MIB};
    pthread_t threads[THREADS];
    for (size_t round = 0; round < 3; round++) {
        open_with(sizes[round]);
        memset(models, 0, sizeof models);
        for (uint32_t i = 0; i < THREADS; i++) {
            models[i].first = 100 + OWN * i;
            models[i].chance = 7 * round + i;
            WANT(pthread_create(&threads[i], NULL, compare, &models[i]) == 0);
        }
        for (size_t i = 0; i < THREADS; i++) WANT(pthread_join(threads[i], NULL) == 0);
        remove_all();
        WANT(topzerad_close(&pool) == 0);
    }
}

/* What the writer of each pair has written, or some reader has read: no one may read less. */
static atomic_uint known[2];
static atomic_int is_over;

static void know(size_t of, uint32_t number) {
    uint32_t before = atomic_load(&known[of]);
    while (before < number && !atomic_compare_exchange_weak(&known[of], &before, number)) {}
}

static void *write_pairs(void *of) {
    uint8_t memory[128];
    topzerad_tx tx;
    size_t at = (size_t)of;
    for (uint32_t i = 1; i <= ROUNDS; i++) {
        topzerad_tx_start(&tx, memory, sizeof memory);
        WANT(topzerad_tx_write(&tx, 20, 8 * at, &i, 4) == 0);
        WANT(topzerad_tx_write(&tx, 21, 9 * UNIT - 2 + 8 * at, &i, 4) == 0);
        commit(&tx);
        know(at, i);
    }
    return NULL;
}

static void *read_pairs(void *of) {
    uint8_t ends[2][2 * UNIT];
    size_t at = (size_t)of;
    while (!atomic_load(&is_over)) {
        uint32_t least = atomic_load(&known[at]), numbers[2];
        topzerad_range ranges[] = {{.object = 20, .low = 0, .high = 16, .into = ends[0]},
                                   {.object = 21, .low = 8 * UNIT, .high = 10 * UNIT, .into = ends[1]}};
        WANT(topzerad_read_many(&pool, ranges, 2) == 0 && ranges[0].count == 16 && ranges[1].count == 2 * UNIT);
        memcpy(&numbers[0], ends[0] + 8 * at, 4);
        memcpy(&numbers[1], ends[1] + UNIT - 2 + 8 * at, 4);
        WANT(numbers[0] == numbers[1] && numbers[0] >= least);
        know(at, numbers[0]);
    }
    return NULL;
}

/* Pushes what others read out of the cache. */
static void *read_others(void *of) {
    static uint8_t bytes[5 * UNIT];
    size_t count;
    (void)of;
    for (uint64_t at = 0; !atomic_load(&is_over); at = (at + 5 * UNIT) % MIB)
        WANT(topzerad_read(&pool, 21, at, at + 5 * UNIT, bytes, &count) == 0);
    return NULL;
}

/* No read gives less than one before, or than a write that has returned, whatever comes and goes meanwhile. */
static void read_what_was_written(void) {
    static const uint64_t sizes[] = {64 * KIB, 4 * MIB};
    void *(*const runs[])(void *) = {write_pairs, write_pairs, read_pairs, read_pairs, read_pairs, read_others};
    pthread_t threads[6];
    for (size_t round = 0; round < 2; round++) {
        open_with(sizes[round]);
        create(20);
        create(21);
        write_bytes(20, 0, "\0\0\0\0\0\0\0\0\0\0\0\0\0\0\0", 16);
        set_length(21, MIB);
        atomic_store(&known[0], 0);
        atomic_store(&known[1], 0);
        atomic_store(&is_over, 0);
        for (size_t i = 0; i < 6; i++) WANT(pthread_create(&threads[i], NULL, runs[i], (void *)(i % 2)) == 0);
        for (size_t i = 0; i < 2; i++) WANT(pthread_join(threads[i], NULL) == 0);
        atomic_store(&is_over, 1);
        for (size_t i = 2; i < 6; i++) WANT(pthread_join(threads[i], NULL) == 0);
        remove_all();
        WANT(topzerad_close(&pool) == 0);
    }
}

/* A process that was killed, or doesn't answer. */
static void lose_the_process(void) {
    open_with(MIB);
    create(1);
    write_bytes(1, 0, content, 100);
    WANT(topzerad_flush(&pool) == 0);
    want_read(1, 0, 100, content, 100);
    WANT(kill(pool.process, SIGKILL) == 0);
    siginfo_t ended;
    WANT(waitid(P_PID, (id_t)pool.process, &ended, WEXITED | WNOWAIT) == 0);
    WANT(refusal_of_read(1, 0, 100) == TOPZERAD_ENDED && refusal_of_read(1, 0, 100) == TOPZERAD_ENDED);
    WANT(topzerad_close(&pool) == TOPZERAD_ENDED && refusal_of_read(1, 0, 100) == TOPZERAD_ENDED);

    open_with(MIB);
    want_read(1, 0, 100, content, 100);
    pool.timeout = 300000000; /* nanoseconds: too little for an open */
    WANT(kill(pool.process, SIGSTOP) == 0);
    want_read(1, 0, 100, content, 100);
    WANT(refusal_of_read(2, 0, 1) == TOPZERAD_TIMED_OUT && refusal_of_read(1, 0, 100) == TOPZERAD_ENDED);
    WANT(topzerad_close(&pool) == TOPZERAD_TIMED_OUT);
}

static void *read_for_ever(void *of) {
    static uint8_t bytes[100];
    size_t count;
    (void)of;
    pthread_setcanceltype(PTHREAD_CANCEL_ASYNCHRONOUS, NULL);
    for (;;) topzerad_read(&pool, 1, 0, 100, bytes, &count);
    return NULL;
}

/* Threads that are cancelled leave no lock behind. A child of a fork is refused. */
static void cancel_and_fork(void) {
    const struct timespec while_it_reads = {0, 3000000};
    pthread_t thread;
    int status;
    open_with(MIB);
    want_read(1, 0, 100, content, 100);
    for (int i = 0; i < 10; i++) {
        WANT(pthread_create(&thread, NULL, read_for_ever, NULL) == 0);
        nanosleep(&while_it_reads, NULL);
        pid_t child = fork();
        if (!child) _exit(refusal_of_read(1, 0, 100) != TOPZERAD_FORKED || topzerad_close(&pool) != TOPZERAD_FORKED);
        WANT(waitpid(child, &status, 0) == child && status == 0);
        WANT(pthread_cancel(thread) == 0 && pthread_join(thread, NULL) == 0);
    }
    want_read(1, 0, 100, content, 100);
    WANT(answered() == 1);
    remove_all();
    WANT(topzerad_close(&pool) == 0);
}

/* The bytes of memory that this process has taken for itself. */
static uint64_t memory_taken(void) {
    FILE *statm = fopen("/proc/self/statm", "r");
    unsigned long pages = 0;
    WANT(statm && fscanf(statm, "%lu", &pages) == 1 && fclose(statm) == 0);
    return pages * (uint64_t)sysconf(_SC_PAGESIZE);
}

/* Limits of the option, and of the memory that a cache takes. */
static void keep_limits(void) {
    const topzerad_options few = {.read_cache = 65535}, most = {.read_cache = 1u << 30};
    const topzerad_options many = {.read_cache = most.read_cache + 1};
    WANT(topzerad_open_options(&pool, program, file, &few) == TOPZERAD_BAD_RANGE);
    WANT(!strcmp(topzerad_cause(&pool), "read cache 65535: 65536 to 1073741824 bytes"));
    WANT(topzerad_open_options(&pool, program, file, &many) == TOPZERAD_BAD_RANGE);
    WANT(topzerad_open_socket(&pool, "/no socket", &most) == TOPZERAD_BAD_RANGE);
    WANT(!strcmp(topzerad_cause(&pool), "of a pool that a hub has the timeout alone can be set"));
    WANT(topzerad_open_options(&pool, program, "/no folder/pool", &most) == TOPZERAD_SYSTEM && errno == ENOENT);
    uint64_t before = memory_taken();
    WANT(topzerad_open_options(&pool, program, file, &most) == 0);
    WANT(memory_taken() - before >= most.read_cache && memory_taken() - before < most.read_cache + MIB);
    WANT(topzerad_close(&pool) == 0);
    WANT(memory_taken() < before + MIB);
#if !defined __SANITIZE_ADDRESS__ && !defined __SANITIZE_THREAD__ /* they take more than any limit */
    int status;
    pid_t child = fork();
    if (!child) {
        const struct rlimit limit = {before + 64 * MIB, before + 64 * MIB};
        WANT(setrlimit(RLIMIT_AS, &limit) == 0);
        WANT(topzerad_open_options(&pool, program, file, &most) == TOPZERAD_NO_MEMORY);
        WANT(!strcmp(topzerad_cause(&pool), "read cache of 1073741824 bytes: Cannot allocate memory (os error 12)"));
        open_with(MIB);
        _exit(topzerad_close(&pool));
    }
    WANT(waitpid(child, &status, 0) == child && status == 0);
#endif
}

/* A process with a pool whose blocks are damaged from DAMAGED_FROM on, and which is suspended by the first commit. */

static uint64_t number_at(const uint8_t *bytes, size_t count) {
    uint64_t value = 0;
    for (size_t i = 0; i < count; i++) value |= (uint64_t)bytes[i] << (8 * i);
    return value;
}

static void put_number(uint8_t *to, uint64_t value, size_t count) {
    for (size_t i = 0; i < count; i++) to[i] = (uint8_t)(value >> (8 * i));
}

static size_t refuse(uint8_t *answer, uint8_t refusal, uint64_t address) {
    answer[0] = refusal;
    put_number(answer + 1, address ? 5 : 0, 8);
    put_number(answer + 9, address, 8);
    return 17;
}

/* Answers a call from its number on. Returns how many bytes that takes. */
static size_t answer_call(const uint8_t *request, uint8_t *answer, int *is_suspended) {
    uint64_t low = number_at(request + 5, 8), high = number_at(request + 13, 8);
    answer[0] = 0;
    if (*is_suspended) return 1 + refuse(answer + 1, TOPZERAD_SUSPENDED, 0);
    if (request[0] == 2) {
        *is_suspended = 1;
        answer[0] = 11; /* committed, but not durable */
        memset(answer + 1, 0, 16);
        return 17 + refuse(answer + 17, TOPZERAD_FLUSH, 0);
    }
    if (request[0] != 3) exit(4);
    if (high > DAMAGED_FROM) return 1 + refuse(answer + 1, TOPZERAD_DAMAGED, BLOCK);
    answer[0] = 3;
    put_number(answer + 1, high - low, 4);
    for (uint64_t at = low; at < high; at++) answer[5 + at - low] = (uint8_t)(at % 251);
    return 5 + high - low;
}

/* Takes frames of one call each. */
static int serve(void) {
    static uint8_t frame[TOPZERAD_MAX_RECORD + 64], answer[TOPZERAD_MAX_RECORD] = {36, 0, 0, 0, 1, 0, 4};
    int is_suspended = 0;
    for (size_t size = 36;; size = 20 + answer_call(frame + 20, answer + 20, &is_suspended)) {
        put_number(answer, size, 4);
        if (fwrite(answer, size, 1, stdout) != 1 || fflush(stdout)) return 1;
        if (fread(frame, 12, 1, stdin) != 1) return 0;
        if (fread(frame + 12, number_at(frame, 4) - 12, 1, stdin) != 1) return 1;
        answer[6] = 2;
        put_number(answer + 8, 1, 4);
        memcpy(answer + 12, frame + 12, 8);
    }
}

/* What isn't asked for may be damaged. A suspended pool refuses what is kept, too. */
static void read_of_a_damaged_pool(void) {
    const topzerad_options options = {.read_cache = MIB};
    uint8_t memory[64];
    topzerad_tx tx;
    uint64_t kind, address;
    for (size_t i = 0; i < LONG; i++) content[i] = (uint8_t)(i % 251);
    WANT(topzerad_open_options(&pool, "/proc/self/exe", "none", &options) == 0);
    want_read(1, 0, DAMAGED_FROM, content, DAMAGED_FROM);
    want_read(1, DAMAGED_FROM - 10, DAMAGED_FROM, content + DAMAGED_FROM - 10, 10);
    WANT(refusal_of_read(1, 2 * UNIT, DAMAGED_FROM + 1) == TOPZERAD_DAMAGED);
    topzerad_damage(&kind, &address);
    WANT(kind == 5 && address == BLOCK);
    for (size_t at = 0; at + 100 <= DAMAGED_FROM; at += 100) want_read(1, at, at + 100, content + at, 100);
    answered();
    want_read(1, 0, UNIT, content, UNIT);
    WANT(answered() == 0);
    topzerad_tx_start(&tx, memory, sizeof memory);
    WANT(topzerad_tx_write(&tx, 1, 0, "a", 1) == 0);
    int committed;
    WANT(topzerad_transact_durably(&pool, &tx, NULL, &committed) == TOPZERAD_FLUSH && committed);
    WANT(refusal_of_read(1, 0, UNIT) == TOPZERAD_SUSPENDED);
    WANT(topzerad_close(&pool) == 0);
}

int main(int count, char **words) {
    if (count > 1 && !strcmp(words[1], "serve")) return serve();
    if (count != 3) return 2;
    program = words[1];
    file = words[2];
    for (size_t i = 0; i < LONG; i++) content[i] = (uint8_t)(i * i % 251 + i / UNIT);
    keep_limits();
    change_what_is_kept();
    read_ranges();
    use_names();
    read_ahead();
    compare_with_models();
    read_what_was_written();
    lose_the_process();
    cancel_and_fork();
    read_of_a_damaged_pool();
    puts("check_cache: what is kept is what the pool has");
    return 0;
}
