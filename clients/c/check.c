/* Makes each call once, and then many by several threads, on a pool without objects that is named tank. */
#define _GNU_SOURCE
#include "check.h"
#include "topzerad.h"

#include <signal.h>
#include <string.h>
#include <sys/wait.h>
#include <time.h>
#include <unistd.h>

enum { THREADS = 8, COMMITS = 200, BIG = 60000, LONG = 5000000, PIECE = 1048576, READ_LONG = 3 * PIECE };

static topzerad pool;
static pid_t process; /* that answers */
static uint8_t memory[TOPZERAD_MAX_RECORD], big[BIG], content[LONG], back[TOPZERAD_MAX_LENGTH];

static void *commit_many(void *of) {
    uint32_t object = 100 + (uint32_t)(size_t)of;
    uint8_t room[128], read[4];
    topzerad_tx tx;
    topzerad_receipt receipt;
    size_t count;
    for (uint32_t i = 0; i < COMMITS; i++) {
        int durable = 0;
        topzerad_tx_start(&tx, room, sizeof room);
        if (i == 0) WANT(topzerad_tx_create(&tx, object) == 0);
        WANT(topzerad_tx_write(&tx, object, 4 * i, &i, 4) == 0);
        WANT(topzerad_transact_durably(&pool, &tx, &receipt, NULL) == 0);
        WANT(topzerad_durable(&pool, receipt, &durable) == 0 && durable);
        WANT(topzerad_read(&pool, object, 4 * i, 4 * i + 4, read, &count) == 0);
        WANT(count == 4 && memcmp(read, &i, 4) == 0);
    }
    return NULL;
}

static topzerad_range range_of(uint32_t object, uint64_t low, uint64_t high, void *into) {
    return (topzerad_range){.object = object, .low = low, .high = high, .into = into};
}

/* More than go in one frame, the second of them refused. */
static void commit_many_at_once(void) {
    enum { MANY = 100, ROOM = 64 };
    static uint8_t rooms[MANY][ROOM];
    topzerad_tx txs[MANY];
    topzerad_outcome outcomes[MANY];
    size_t count;
    for (uint32_t i = 0; i < MANY; i++) {
        topzerad_tx_start(&txs[i], rooms[i], ROOM);
        if (i < 2) WANT(topzerad_tx_create(&txs[i], 50) == 0);
        WANT(topzerad_tx_write(&txs[i], 50, 4 * i, &i, 4) == 0);
    }
    WANT(topzerad_transact_many_durably(&pool, txs, MANY, outcomes) == TOPZERAD_EXISTS);
    for (size_t i = 0; i < MANY; i++) {
        WANT(outcomes[i].refusal == (i == 1 ? TOPZERAD_EXISTS : 0) && outcomes[i].committed == (i != 1));
        if (i > 1) WANT(outcomes[i].receipt.ordinal == outcomes[0].receipt.ordinal + i - 1);
    }
    WANT(topzerad_read(&pool, 50, 0, 4 * MANY, back, &count) == 0 && count == 4 * MANY);
    for (uint32_t i = 0, number; i < MANY; i++) {
        memcpy(&number, back + 4 * i, 4);
        WANT(number == (i == 1 ? 0 : i));
    }
    WANT(topzerad_transact_many(&pool, txs, 0, outcomes) == 0);
}

static void want_range(uint64_t low, uint64_t high, size_t expected) {
    size_t count;
    memset(back, 255, expected + 1);
    WANT(topzerad_read(&pool, 200, low, high, back, &count) == 0);
    WANT(count == expected && memcmp(back, content + low, expected) == 0 && back[expected] == 255);
}

/* An object of five million bytes, whose reads take several frames. */
static void read_long_object(void) {
    topzerad_tx tx;
    size_t count;
    for (uint64_t i = 0; i < LONG; i++) content[i] = (uint8_t)(i * i % 251);
    topzerad_tx_start(&tx, memory, sizeof memory);
    WANT(topzerad_tx_create(&tx, 200) == 0 && topzerad_transact(&pool, &tx, NULL) == 0);
    for (size_t at = 0; at < LONG; at += BIG) {
        topzerad_tx_start(&tx, memory, sizeof memory);
        WANT(topzerad_tx_write(&tx, 200, at, content + at, LONG - at < BIG ? LONG - at : BIG) == 0);
        WANT(topzerad_transact(&pool, &tx, NULL) == 0);
    }
    WANT(topzerad_flush(&pool) == 0);
    want_range(0, TOPZERAD_MAX_LENGTH, LONG);
    want_range(3, LONG - 2, LONG - 5);
    want_range(PIECE - 1, PIECE + 1, 2);
    want_range(PIECE, 2 * PIECE, PIECE);
    want_range(1, 2 * PIECE + 2, 2 * PIECE + 1);
    WANT(topzerad_read(&pool, 200, LONG, TOPZERAD_MAX_LENGTH, back, &count) == 0 && count == 0);
    topzerad_tx_start(&tx, memory, sizeof memory);
    WANT(topzerad_tx_set_length(&tx, 200, 2 * PIECE) == 0 && topzerad_transact(&pool, &tx, NULL) == 0);
    want_range(0, TOPZERAD_MAX_LENGTH, 2 * PIECE);
    WANT(topzerad_read(&pool, 200, 0, TOPZERAD_MAX_LENGTH + 1, back, &count) == TOPZERAD_BAD_RANGE && count == 0);
    WANT(topzerad_read(&pool, 201, 0, TOPZERAD_MAX_LENGTH, back, &count) == TOPZERAD_NO_OBJECT && count == 0);
}

static void *write_both_ends(void *of) {
    uint8_t room[128];
    topzerad_tx tx;
    (void)of;
    for (uint32_t i = 0; i < COMMITS; i++) {
        topzerad_tx_start(&tx, room, sizeof room);
        WANT(topzerad_tx_write(&tx, 300, 0, &i, 4) == 0);
        WANT(topzerad_tx_write(&tx, 300, READ_LONG - 4, &i, 4) == 0);
        WANT(topzerad_transact(&pool, &tx, NULL) == 0);
    }
    return NULL;
}

/* Reads all of an object, and its ends alone, while threads write its ends, each both of them at once. */
static void *read_both_ends(void *of) {
    uint8_t *bytes = of, ends[2][4];
    size_t count;
    for (uint32_t i = 0; i < COMMITS / 10; i++) {
        WANT(topzerad_read(&pool, 300, 0, READ_LONG, bytes, &count) == 0 && count == READ_LONG);
        WANT(memcmp(bytes, bytes + READ_LONG - 4, 4) == 0);
        topzerad_range ranges[] = {range_of(300, READ_LONG - 4, READ_LONG + 9, ends[0]), range_of(300, 0, 4, ends[1])};
        WANT(topzerad_read_many(&pool, ranges, 2) == 0 && ranges[0].count == 4 && ranges[1].count == 4);
        WANT(memcmp(ends[0], ends[1], 4) == 0);
    }
    return NULL;
}

static void read_at_one_moment(void) {
    static uint8_t bytes[2][READ_LONG];
    pthread_t threads[4];
    topzerad_tx tx;
    topzerad_tx_start(&tx, memory, sizeof memory);
    WANT(topzerad_tx_create(&tx, 300) == 0 && topzerad_tx_set_length(&tx, 300, READ_LONG) == 0);
    WANT(topzerad_transact(&pool, &tx, NULL) == 0);
    for (size_t i = 0; i < 4; i++) {
        void *(*run)(void *) = i < 2 ? read_both_ends : write_both_ends;
        WANT(pthread_create(&threads[i], NULL, run, i < 2 ? bytes[i] : NULL) == 0);
    }
    for (size_t i = 0; i < 4; i++) WANT(pthread_join(threads[i], NULL) == 0);
}

/* Ranges of several objects: the first of them is refused, and one is read in several frames. */
static void read_ranges(void) {
    static topzerad_range ranges[TOPZERAD_MAX_RANGES + 1];
    uint8_t ends[2][4];
    ranges[0] = range_of(201, 0, 4, ends[0]);
    ranges[1] = range_of(200, 0, TOPZERAD_MAX_LENGTH, back);
    ranges[2] = range_of(50, 8, 8, ends[1]);
    ranges[3] = range_of(50, 4, 8, ends[1]);
    ranges[0].count = 9;
    WANT(topzerad_read_many(&pool, ranges, 4) == TOPZERAD_NO_OBJECT);
    WANT(ranges[0].refusal == TOPZERAD_NO_OBJECT && ranges[0].count == 0);
    WANT(ranges[1].refusal == 0 && ranges[1].count == 2 * PIECE && memcmp(back, content, 2 * PIECE) == 0);
    WANT(ranges[2].refusal == TOPZERAD_BAD_RANGE && ranges[2].count == 0);
    WANT(ranges[3].refusal == 0 && ranges[3].count == 4);
    WANT(topzerad_read_many(&pool, ranges, 0) == 0);
    WANT(topzerad_read_many(&pool, ranges, TOPZERAD_MAX_RANGES + 1) == TOPZERAD_TOO_MANY);
}

static void make_each_call(void) {
    topzerad_tx tx;
    topzerad_receipt receipt;
    topzerad_status status;
    topzerad_listed listed[16];
    uint64_t length, group;
    size_t count;
    int committed, durable;
    uint8_t *to;
    char name[TOPZERAD_MAX_NAME + 1];

    WANT(topzerad_name(&pool, name) == 0 && strcmp(name, "tank") == 0);
    WANT(topzerad_length(&pool, 1, &length) == TOPZERAD_NO_OBJECT);

    topzerad_tx_start(&tx, memory, sizeof memory);
    WANT(topzerad_tx_create(&tx, 1) == 0);
    WANT(topzerad_tx_write(&tx, 1, 100, "wxyz", 4) == 0);
    WANT(topzerad_transact(&pool, &tx, &receipt) == 0);
    WANT(topzerad_transact_durably(&pool, &tx, NULL, &committed) == TOPZERAD_EXISTS && !committed);
    WANT(topzerad_flush(&pool) == 0);
    WANT(topzerad_durable(&pool, receipt, &durable) == 0 && durable);
    WANT(topzerad_read(&pool, 1, 98, 200, back, &count) == 0);
    WANT(count == 6 && memcmp(back, "\0\0wxyz", 6) == 0);
    WANT(topzerad_read(&pool, 1, 5, 5, back, &count) == TOPZERAD_BAD_RANGE && count == 0);

    memset(big, 7, sizeof big);
    topzerad_tx_start(&tx, memory, sizeof memory);
    WANT(topzerad_tx_create(&tx, 2) == 0);
    WANT(topzerad_tx_write(&tx, 2, 0, big, sizeof big) == 0);
    WANT(topzerad_tx_write(&tx, 2, 0, big, sizeof big) == TOPZERAD_TOO_LARGE);
    WANT(topzerad_tx_write_to(&tx, 2, 0, sizeof big, &to) == TOPZERAD_TOO_LARGE);
    WANT(topzerad_tx_write_to(&tx, 2, BIG, 3, &to) == 0);
    memcpy(to, "end", 3);
    WANT(topzerad_transact_durably(&pool, &tx, NULL, NULL) == 0);
    WANT(topzerad_read(&pool, 2, 0, TOPZERAD_MAX_LENGTH, back, &count) == 0);
    WANT(count == BIG + 3 && memcmp(back, big, BIG) == 0 && memcmp(back + BIG, "end", 3) == 0);

    topzerad_tx_start(&tx, memory, sizeof memory);
    WANT(topzerad_tx_set_length(&tx, 2, 10) == 0 && topzerad_tx_create(&tx, 3) == 0);
    WANT(topzerad_tx_remove(&tx, 1) == 0 && topzerad_tx_set_name(&tx, "pond", 4) == 0);
    WANT(topzerad_transact(&pool, &tx, NULL) == 0);
    WANT(topzerad_objects(&pool, 0, 16, listed, &count) == 0 && count == 2);
    WANT(listed[0].object == 2 && listed[0].length == 10 && listed[1].object == 3 && listed[1].length == 0);
    WANT(topzerad_name(&pool, name) == 0 && strcmp(name, "pond") == 0);
    WANT(topzerad_state(&pool, &status) == 0 && status.synced < status.open);
    WANT(topzerad_sync(&pool, &group) == 0 && status.open <= group);
}

/* What is outside the limits is refused here, and leaves the others of its frame alone. */
static void keep_limits(void) {
    const char *const bad_names[] = {"", "1x", "-x", "a/b", "a b", "n\303\244me"};
    const char longest_name[] = "n234567890123456789012345678901234567890123456789012345678901234";
    uint8_t rooms[3][128], *to;
    topzerad_tx tx, txs[3];
    topzerad_outcome outcomes[3];
    topzerad_listed listed;
    size_t count;
    topzerad_tx_start(&tx, memory, sizeof memory);
    WANT(topzerad_transact(&pool, &tx, NULL) == TOPZERAD_BAD_RANGE);
    WANT(topzerad_tx_create(&tx, 5292) == TOPZERAD_BAD_RANGE && topzerad_tx_remove(&tx, 5292) == TOPZERAD_BAD_RANGE);
    WANT(topzerad_tx_write(&tx, 5292, 0, "a", 1) == TOPZERAD_BAD_RANGE);
    WANT(topzerad_tx_write(&tx, 5291, 0, "a", 0) == TOPZERAD_BAD_RANGE);
    WANT(topzerad_tx_write(&tx, 5291, 28449792, "a", 1) == TOPZERAD_BAD_RANGE);
    WANT(topzerad_tx_write(&tx, 5291, UINT64_MAX, "ab", 2) == TOPZERAD_BAD_RANGE);
    WANT(topzerad_tx_write_to(&tx, 5291, 0, SIZE_MAX, &to) == TOPZERAD_BAD_RANGE);
    WANT(topzerad_tx_set_length(&tx, 5291, 28449793) == TOPZERAD_BAD_RANGE);
    WANT(topzerad_tx_set_length(&tx, 5292, 0) == TOPZERAD_BAD_RANGE);
    for (size_t i = 0; i < sizeof bad_names / sizeof *bad_names; i++)
        WANT(topzerad_tx_set_name(&tx, bad_names[i], strlen(bad_names[i])) == TOPZERAD_BAD_RANGE);
    WANT(topzerad_tx_set_name(&tx, longest_name, 65) == TOPZERAD_BAD_RANGE);
    WANT(tx.count == 0 && tx.length == 22);
    WANT(topzerad_tx_set_name(&tx, longest_name, 64) == 0 && topzerad_tx_set_name(&tx, "p-o_n.d9", 8) == 0);
    WANT(topzerad_tx_set_length(&tx, 5291, 28449792) == 0 && topzerad_tx_write(&tx, 5291, 28449791, "a", 1) == 0);
    topzerad_tx_start(&tx, memory, sizeof memory);
    WANT(topzerad_tx_create(&tx, 5291) == 0 && topzerad_transact(&pool, &tx, NULL) == 0);
    WANT(topzerad_objects(&pool, 5291, 5292, &listed, &count) == 0 && count == 1 && listed.object == 5291);

    /* the longest write, and one byte more */
    topzerad_tx_start(&tx, memory, sizeof memory);
    WANT(topzerad_tx_write_to(&tx, 5291, 0, 65498, &to) == TOPZERAD_TOO_LARGE);
    WANT(topzerad_tx_write_to(&tx, 5291, 0, 65497, &to) == 0 && topzerad_transact(&pool, &tx, NULL) == 0);

    for (size_t i = 0; i < 3; i++) topzerad_tx_start(&txs[i], rooms[i], i == 2 ? 21 : sizeof rooms[i]);
    WANT(topzerad_tx_remove(&txs[1], 5291) == 0 && topzerad_tx_create(&txs[2], 5291) == TOPZERAD_TOO_LARGE);
    WANT(topzerad_transact_many(&pool, txs, 3, outcomes) == TOPZERAD_BAD_RANGE);
    WANT(outcomes[0].refusal == TOPZERAD_BAD_RANGE && !outcomes[0].committed);
    WANT(outcomes[1].refusal == 0 && outcomes[1].committed);
    WANT(outcomes[2].refusal == TOPZERAD_TOO_LARGE && !outcomes[2].committed);
}

/* Its name isn't on the stack: the sanitizer looks for what a cancelled thread leaves there. */
static void *ask_name(void *unused) {
    static char name[TOPZERAD_MAX_NAME + 1];
    (void)unused;
    topzerad_name(&pool, name);
    pthread_testcancel();
    return NULL;
}

/* A thread is cancelled while it waits for the process, and the others are answered. */
static void cancel_a_leader(void) {
    const struct timespec while_it_waits = {0, 200000000};
    pthread_t thread;
    void *ended;
    char name[TOPZERAD_MAX_NAME + 1];
    WANT(kill(process, SIGSTOP) == 0);
    WANT(pthread_create(&thread, NULL, ask_name, NULL) == 0);
    nanosleep(&while_it_waits, NULL);
    WANT(pthread_cancel(thread) == 0);
    WANT(kill(process, SIGCONT) == 0);
    WANT(pthread_join(thread, &ended) == 0 && ended == PTHREAD_CANCELED);
    WANT(topzerad_name(&pool, name) == 0 && strcmp(name, "pond") == 0);
}

/* A child is refused, and its end leaves the parent's pool open. */
static void fork_with_an_open_pool(void) {
    char name[TOPZERAD_MAX_NAME + 1];
    int status;
    pid_t child = fork();
    WANT(child >= 0);
    if (!child) _exit(topzerad_name(&pool, name) != TOPZERAD_FORKED || topzerad_close(&pool) != TOPZERAD_FORKED);
    WANT(waitpid(child, &status, 0) == child && status == 0);
    WANT(topzerad_name(&pool, name) == 0 && strcmp(name, "pond") == 0);
}

int main(int count, char **words) {
    pthread_t threads[THREADS];
    process = open_pool(&pool, count, words);
    make_each_call();
    keep_limits();
    commit_many_at_once();
    for (size_t i = 0; i < THREADS; i++) WANT(pthread_create(&threads[i], NULL, commit_many, (void *)i) == 0);
    for (size_t i = 0; i < THREADS; i++) WANT(pthread_join(threads[i], NULL) == 0);
    read_long_object();
    read_ranges();
    read_at_one_moment();
    cancel_a_leader();
    fork_with_an_open_pool();
    WANT(topzerad_close(&pool) == 0);
    WANT(topzerad_flush(&pool) == TOPZERAD_ENDED && topzerad_close(&pool) == TOPZERAD_ENDED);
    puts("check: all calls are right");
    return 0;
}
