/* Tests of the numbers by themselves, by what they have to be. Then it prints a page of long numbers. */
#include "hub.h"

#include <inttypes.h>
#include <stdio.h>
#include <string.h>

static int faults;

static void want(int is_so, const char *what, uint64_t found) {
    if (is_so) return;
    faults++;
    fprintf(stderr, "%s: %" PRIu64 "\n", what, found);
}

/* A time in nanoseconds lies in the first bound that it isn't above. */
static void times_lie_in_bounds(void) {
    static const struct {
        uint64_t took;
        size_t at;
    } rows[] = {
        {0, 0},       {1, 0},       {1000, 0},           {1001, 1},           {2000, 1},      {2001, 2},   {4000, 2},
        {128000, 7},  {128001, 8},  {16777216000, 24},   {16777216001, 25},   {UINT64_MAX, 25},
    };
    for (size_t i = 0; i < sizeof rows / sizeof *rows; i++) {
        times t = {0};
        hub_count_time(&t, rows[i].took);
        want(t.counts[rows[i].at] == 1 && hub_count_calls(&t) == 1, "the bound of a time", rows[i].took);
        want(t.sum == rows[i].took && t.longest == rows[i].took, "the sum of a time", rows[i].took);
    }
}

static void bytes_are_read(void) {
    static const char *const wrong[] = {"",   "K",  "1KK", "1k",  "-1",
                                        "+1", " 1", "1 ",  "18446744073709551616", "16777216T"};
    static const struct {
        const char *word;
        uint64_t number;
    } rows[] = {{"0", 0}, {"4096", 4096}, {"1K", 1024}, {"8M", 8388608}, {"3G", 3221225472}, {"1T", UINT64_C(1) << 40}};
    uint64_t number = 0;
    for (size_t i = 0; i < sizeof rows / sizeof *rows; i++)
        want(!hub_read_bytes(rows[i].word, &number) && number == rows[i].number, rows[i].word, number);
    for (size_t i = 0; i < sizeof wrong / sizeof *wrong; i++) want(hub_read_bytes(wrong[i], &number), wrong[i], number);
}

static void numbers_are_told(const numbers *n) {
    uint8_t frame[NUMBERS_SIZE];
    numbers told;
    hub_put_numbers(frame, n);
    want(get(frame, 4) == NUMBERS_SIZE && get(frame + 6, 2) == NUMBERS, "the head", get(frame, 8));
    want(get(frame + HEAD, 8) == n->age, "the first number", get(frame + HEAD, 8));
    want(get(frame + NUMBERS_SIZE - 8, 8) == n->times[TIMED_DURABLE].counts[BOUNDS], "the last number", 0);
    hub_get_numbers(frame + HEAD, &told);
    want(!memcmp(&told, n, sizeof told), "numbers that were told", 0);
}

int main(void) {
    static char page[MOST_PAGE];
    topzerad_status pool;
    numbers n;
    memset(&pool, 0x0f, sizeof pool);
    pool.free = pool.available = UINT64_C(1) << 51;
    memset(&n, 0xff, sizeof n);
    for (size_t i = 0; i < TIMED; i++)
        for (size_t at = 1; at < TIMES; at++) n.times[i].counts[at] = 0;
    for (size_t at = 0; at < TIMES; at++) n.times[TIMED_COMMIT].counts[at] = 1000 + at;
    times_lie_in_bounds();
    bytes_are_read();
    numbers_are_told(&n);
    fwrite(page, 1, hub_write_page(page, &n, &pool), stdout);
    return faults || fflush(stdout) ? 1 : 0;
}
