/* internal.h: what the files of the library share. Programs include topzerad.h alone. */
#ifndef TOPZERAD_INTERNAL_H
#define TOPZERAD_INTERNAL_H

#include "topzerad.h"

/* Frames: the bytes of their head and the most of all, their version, and their kinds. */
enum { HEAD = 12, MAX_FRAME = 4194304, VERSION = 1 };
enum { REQUESTS = 1, ANSWERS, REFUSED_FRAME, OPENED, UNOPENED, HOLDING, READING_ON, ASK_NUMBERS, NUMBERS };

enum { LAST_REFUSAL = 23 }; /* refusals of a pool have the numbers 1 to this one */

/* Of reads, in bytes: the most of one request, unless it reads ahead; what a cache keeps at once; the most of a request
 * that reads ahead, which are the whole units that one frame answers. */
enum { TOPZERAD_PIECE = 1048576, TOPZERAD_UNIT = 4096, TOPZERAD_MOST_AHEAD = 1023 * TOPZERAD_UNIT };

#define NO_DEADLINE UINT64_MAX

static inline void put(uint8_t *to, uint64_t value, size_t count) {
    for (size_t i = 0; i < count; i++) to[i] = (uint8_t)(value >> (8 * i));
}

static inline uint64_t get(const uint8_t *from, size_t count) {
    uint64_t value = 0;
    for (size_t i = 0; i < count; i++) value |= (uint64_t)from[i] << (8 * i);
    return value;
}

/* No program that is linked to the shared library can name these. */
#pragma GCC visibility push(hidden)

/* channel.c: the socket to the process, through the pool's buffer, until the pool's deadline. Functions that return an
 * int return 0, or -1 if the process is gone or the deadline has passed. `is_late` says then that it has passed. */

/* Nanoseconds of the clock that deadlines are told by. */
uint64_t topzerad_now(void);
/* The deadline that many nanoseconds from now, or none for 0. */
uint64_t topzerad_deadline(uint64_t from_now);
/* Waits until bytes can be read (POLLIN) or written (POLLOUT). Returns 0, or -1 once the deadline has passed. */
int topzerad_wait_ready(int file, short events, uint64_t deadline);
/* Adds bytes to the buffer, and sends what doesn't fit. */
int topzerad_put_out(topzerad *pool, const uint8_t *from, size_t count);
/* Sends what is in the buffer. */
int topzerad_empty_out(topzerad *pool);
/* Takes bytes of a frame that has `*left` more, and counts them off. -1 also if it has fewer. */
int topzerad_take_in(topzerad *pool, void *to, size_t count, size_t *left);

/* Whether the process still has its end. */
int topzerad_is_connected(const topzerad *pool);

/* cache.c: a cache of reads. The rule that keeps it true stands there. All functions but the first three take its
 * lock. */

typedef struct topzerad_cache topzerad_cache;

/* An empty cache of so many bytes, its own tables among them, or NULL with errno. They are taken as it fills. */
topzerad_cache *topzerad_cache_new(uint64_t size);
/* Gives a cache back, if it isn't NULL. In a child of a fork its memory has no bytes, and stays. */
void topzerad_cache_end(topzerad_cache *cache);
/* Whether the pool has a cache, and this process isn't a child of a fork. */
int topzerad_cache_is_usable(const topzerad *pool);
/* Reads all ranges that have no refusal, and sets their counts. Returns 0 if it doesn't have them all: nothing is read
 * then. */
int topzerad_cache_read(topzerad_cache *cache, topzerad_range *ranges, size_t count);
/* What is to be asked for a range: whole units from `low` to `high`, and more of them if it follows other reads in
 * order. Those below `past` are to be kept, which are no more than a quarter of the cache. */
typedef struct {
    uint64_t low, high, past;
} topzerad_plan;
topzerad_plan topzerad_cache_plan(topzerad_cache *cache, const topzerad_range *range);
/* An answer has the bytes of the unit that begins at `low`. They are fewer than a unit at the end of an object. */
void topzerad_cache_keep(topzerad_cache *cache, uint32_t object, uint64_t low, const uint8_t *bytes, size_t count);
/* An answer says that a transaction took place. */
void topzerad_cache_change(topzerad_cache *cache, const uint8_t *record, size_t length);
/* No answer can be relied on any more. */
void topzerad_cache_stop(topzerad_cache *cache);

/* topzerad.c */

/* Whether a hub lets no other program's frames in between those of this one. Without a hub nothing is to be done. */
void topzerad_hold(topzerad *pool, int holds);

/* Whether this process is a child of the one that opened the pool. Both have the socket then, and an answer goes to the
 * one that reads first. */
int topzerad_is_forked(const topzerad *pool);
/* Keeps for this thread what is damaged. */
void topzerad_set_damage(uint64_t kind, uint64_t address);

#pragma GCC visibility pop

#endif
