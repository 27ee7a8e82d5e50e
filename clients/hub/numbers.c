/* The numbers that a hub counts, as it and ztxg-ctl name them and pass them on. */
#include "numbers.h"

#include <errno.h>
#include <stdlib.h>
#include <string.h>

enum { NANOSECONDS_OF_A_MICROSECOND = 1000 };

const char *const hub_call_names[CALLS] = {
    "transact", "transact_durably", "read", "length", "objects", "status", "durable", "flush", "sync", "name",
};

const char *const hub_refusal_names[LAST_REFUSAL + 1] = {
    "",         "NoMemory",  "Read",      "Write",  "Flush",     "Suspended",         "NoPool",   "Damaged",
    "BadGeometry", "NoObject", "Exists",  "BadRange", "OutOfPlan", "NotLocked",       "Busy",     "LockInUse",
    "NoSpace",  "Throttled", "TooLarge",  "NoSuchTransaction", "NotReady", "NoSuchLock", "TooMany", "NoLogSpace",
};

const char *const hub_frame_refusal_names[FRAME_REFUSALS] = {
    "NoMemory", "CutOff", "BadLength", "BadVersion", "BadKind", "BadCall", "BadRecord", "Surplus", "AnswersTooLong",
};

const char *const hub_timed_names[TIMED] = {"read", "commit", "durable_commit"};

void hub_put_head(uint8_t *to, size_t size, int kind, uint32_t number) {
    put(to, size, 4);
    put(to + 4, VERSION, 2);
    put(to + 6, (uint64_t)kind, 2);
    put(to + 8, number, 4);
}

void hub_put_numbers(uint8_t *to, const numbers *n) {
    uint64_t all[NUMBER_COUNT];
    memcpy(all, n, sizeof all);
    hub_put_head(to, NUMBERS_SIZE, NUMBERS, NUMBER_COUNT);
    for (size_t i = 0; i < NUMBER_COUNT; i++) put(to + HEAD + 8 * i, all[i], 8);
}

void hub_get_numbers(const uint8_t *from, numbers *n) {
    uint64_t all[NUMBER_COUNT];
    for (size_t i = 0; i < NUMBER_COUNT; i++) all[i] = get(from + 8 * i, 8);
    memcpy(n, all, sizeof all);
}

int hub_read_bytes(const char *word, uint64_t *number) {
    static const char letters[] = "KMGT";
    char *end;
    if (*word < '0' || *word > '9') return -1;
    errno = 0;
    *number = strtoull(word, &end, 10);
    if (errno) return -1;
    if (!*end) return 0;
    const char *letter = strchr(letters, *end);
    if (!letter || end[1]) return -1;
    for (long i = letter - letters; i >= 0; i--) {
        if (*number > UINT64_MAX / 1024) return -1;
        *number *= 1024;
    }
    return 0;
}

void hub_count_time(times *t, uint64_t took) {
    uint64_t microseconds = took / NANOSECONDS_OF_A_MICROSECOND + (took % NANOSECONDS_OF_A_MICROSECOND > 0);
    size_t at = 0;
    while (at < BOUNDS && microseconds > UINT64_C(1) << at) at++;
    t->counts[at]++;
    t->sum += took;
    if (took > t->longest) t->longest = took;
}

uint64_t hub_count_calls(const times *t) {
    uint64_t count = 0;
    for (size_t i = 0; i < TIMES; i++) count += t->counts[i];
    return count;
}
