/* Measures reads with and without a cache of reads: `speed PROGRAM FILE [ROUNDS]`, on a pool with room for an object of
 * 24 MiB, whose number 1 has to be free. It prints the best of some rounds, each of a second a line. */
#define _GNU_SOURCE
#include "check.h"
#include "topzerad.h"

#include <time.h>

enum { PAGE = 4096, SIZE = 24 << 20, PAGES = SIZE / PAGE, PIECE = 61440, ROUNDS = 5 };

static topzerad pool;

static double now(void) {
    struct timespec time;
    clock_gettime(CLOCK_MONOTONIC, &time);
    return (double)time.tv_sec + (double)time.tv_nsec / 1e9;
}

static void make_object(const char *program, const char *file) {
    static uint8_t memory[TOPZERAD_MAX_RECORD], bytes[PIECE];
    topzerad_tx tx;
    WANT(topzerad_open(&pool, program, file) == 0);
    topzerad_tx_start(&tx, memory, sizeof memory);
    WANT(topzerad_tx_create(&tx, 1) == 0 && topzerad_transact(&pool, &tx, NULL) == 0);
    for (size_t at = 0; at < SIZE; at += PIECE) {
        for (size_t i = 0; i < PIECE; i++) bytes[i] = (uint8_t)((at + i) * (at + i) % 251);
        topzerad_tx_start(&tx, memory, sizeof memory);
        WANT(topzerad_tx_write(&tx, 1, at, bytes, SIZE - at < PIECE ? SIZE - at : PIECE) == 0);
        WANT(topzerad_transact(&pool, &tx, NULL) == 0);
    }
    WANT(topzerad_close(&pool) == 0);
}

/* How many pages a second are read: of the first ones of the object at random, or of all in order. */
static double measure(const char *program, const char *file, uint64_t read_cache, uint64_t pages, int in_order) {
    const topzerad_options options = {.read_cache = read_cache};
    uint8_t page[PAGE];
    size_t read;
    uint64_t chance = 1, count = 0;
    WANT(topzerad_open_options(&pool, program, file, &options) == 0);
    for (uint64_t at = 0; !in_order && at < pages; at++)
        WANT(topzerad_read(&pool, 1, PAGE * at, PAGE * (at + 1), page, &read) == 0);
    double begin = now(), seconds;
    do {
        for (int i = 0; i < 100; i++, count++) {
            chance = chance * UINT64_C(6364136223846793005) + UINT64_C(1442695040888963407);
            uint64_t at = in_order ? count % pages : (chance >> 33) % pages;
            WANT(topzerad_read(&pool, 1, PAGE * at, PAGE * (at + 1), page, &read) == 0 && read == PAGE);
        }
        seconds = now() - begin;
    } while (in_order ? count < pages : seconds < 1);
    WANT(topzerad_close(&pool) == 0);
    return (double)count / seconds;
}

int main(int count, char **words) {
    static const struct {
        const char *name;
        uint64_t read_cache, pages;
        int in_order;
    } lines[] = {
        {"random, no cache", 0, PAGES, 0},
        {"random, all in the cache", 64 << 20, PAGES, 0},
        {"random, a quarter in the cache", 6 << 20, PAGES, 0},
        {"random, hardly any in the cache", 65536, PAGES, 0},
        {"in order, no cache", 0, PAGES, 1},
        {"in order, read ahead", 64 << 20, PAGES, 1},
    };
    enum { LINES = sizeof lines / sizeof *lines };
    double best[LINES] = {0};
    if (count != 3 && count != 4) return 2;
    make_object(words[1], words[2]);
    for (int round = 0; round < (count == 4 ? atoi(words[3]) : ROUNDS); round++)
        for (size_t i = 0; i < LINES; i++) {
            double rate = measure(words[1], words[2], lines[i].read_cache, lines[i].pages, lines[i].in_order);
            if (rate > best[i]) best[i] = rate;
        }
    for (size_t i = 0; i < LINES; i++) printf("%-32s %10.0f pages a second\n", lines[i].name, best[i]);
    return 0;
}
