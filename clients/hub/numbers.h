/* numbers.h: the numbers that a hub counts, and the frame that has them (docs/FRAMES.md, "The numbers of a hub"). */
#ifndef HUB_NUMBERS_H
#define HUB_NUMBERS_H

#include "../c/internal.h"

enum { CALLS = 10, FRAME_REFUSALS = 9 };
/* Times of calls: up to 1, 2, 4 .. 2^24 microseconds, and longer ones. */
enum { BOUNDS = 25, TIMES = BOUNDS + 1 };
/* The calls whose times are counted. */
enum { TIMED_READ, TIMED_COMMIT, TIMED_DURABLE, TIMED };

/* How long calls took, in nanoseconds. */
typedef struct {
    uint64_t sum, longest, counts[TIMES];
} times;

/* In the order of their frame. Those of a call, a refusal of a pool or one of a frame lie at its number less 1. */
typedef struct {
    uint64_t age;                                 /* nanoseconds since the hub began */
    uint64_t clients, most_clients;               /* that are there, and were at once */
    uint64_t connections, turned_away;            /* clients that were let in, and that were not */
    uint64_t waiting_frames;                      /* that aren't answered yet */
    uint64_t frames, server_frames, most_shared;  /* of clients, to the server, and the most that shared one */
    uint64_t commits, durable_commits, undurable_commits;
    uint64_t read_bytes, written_bytes;
    uint64_t syncs;                               /* groups that became synced, as far as answers say */
    uint64_t dirty_limit;                         /* in bytes */
    uint64_t requests[CALLS], refused_requests[LAST_REFUSAL], refused_frames[FRAME_REFUSALS];
    times times[TIMED];
} numbers;

enum { NUMBER_COUNT = 16 + CALLS + LAST_REFUSAL + FRAME_REFUSALS + TIMED * (2 + TIMES) };
enum { NUMBERS_SIZE = HEAD + 8 * NUMBER_COUNT };

_Static_assert(sizeof(numbers) == 8 * NUMBER_COUNT, "a frame has each number");

/* The names of calls, of refusals of a pool, of refusals of a frame (docs/FRAMES.md), and of timed calls. */
extern const char *const hub_call_names[CALLS];
extern const char *const hub_refusal_names[LAST_REFUSAL + 1]; /* the first is for 0 */
extern const char *const hub_frame_refusal_names[FRAME_REFUSALS];
extern const char *const hub_timed_names[TIMED];

void hub_put_head(uint8_t *to, size_t size, int kind, uint32_t number);
/* Puts the frame of the numbers, NUMBERS_SIZE bytes. */
void hub_put_numbers(uint8_t *to, const numbers *n);
/* Reads numbers that follow a head. */
void hub_get_numbers(const uint8_t *from, numbers *n);
/* Reads a number of digits, and maybe K, M, G or T after them. Returns 0, or -1 if it is none. */
int hub_read_bytes(const char *word, uint64_t *number);
/* Counts a call that took so many nanoseconds. */
void hub_count_time(times *t, uint64_t took);
/* How many calls there were. */
uint64_t hub_count_calls(const times *t);

#endif
