/* A cache of reads, for a pool that no other program changes: the process was started for this topzerad alone, and has
 * the pool until it ends. It keeps units of 4,096 bytes of objects. A frame costs more than the bytes in it, and what
 * programs read most is pages of that size at multiples of it, each of which is one unit then.
 *
 * The rule: the cache is what the answers say that were read so far, in their order.
 *
 * 1. One thread at a time, the leader, reads answers, and they have the order in which the process made the calls. It
 *    alone changes what is kept: at each answer, before it reads the next, and before any caller is told of the frame.
 *    A read that was made before a write is kept before that write changes it. So nothing stale is ever put in.
 * 2. A transaction changes all that is kept of its bytes in one hold of the lock, once its answer says that it took
 *    place. One that was refused changes nothing. Then each unit that is kept has the bytes that the process would
 *    answer, had it made no further call. A unit of fewer bytes than 4,096 is the last one of its object.
 * 3. A call reads from the cache all that it asks for, in one hold of the lock, or nothing. So its bytes are of one
 *    moment, and have the changes of all calls of all threads that had returned when it began.
 * 4. If an answer is missing, as after a timeout, or the pool is suspended, the cache is stopped for good: all later
 *    reads are asked of the process, which refuses them. A process that was killed may have had its file taken by
 *    another one. So a read from the cache counts only if the process has its end of the socket after it.
 * 5. What isn't asked for may be damaged. A read that was made longer, and is refused, is made again as it was asked.
 * 6. In a child of a fork the system has emptied the cache, and no call uses it: another thread of the parent may have
 *    had the lock. A thread isn't cancelled while it has it. Who has a pool's `lock` may take this one, and not the
 *    other way round. */
#define _GNU_SOURCE
#include "internal.h"

#include <errno.h>
#include <string.h>
#include <sys/mman.h>

enum { UNIT = TOPZERAD_UNIT, UNITS = (TOPZERAD_MAX_LENGTH + UNIT - 1) / UNIT };
enum { RECORD_HEAD = 22, CREATE = 1, REMOVE, WRITE, SET_LENGTH, SET_NAME };

/* Reads in order: where the next unit is that isn't kept, and how many were read ahead last. */
enum { STREAMS = 16, FIRST_AHEAD = 16384 / UNIT };

typedef struct {
    uint32_t object, next, size;
} stream;

/* A unit: its place, how many bytes it has, and its neighbours in its chain and by use. Units have numbers from 1 on.
 * That before the newest and after the oldest one is 0, which is no unit. */
typedef struct {
    uint32_t place, count, chained, newer, older;
} entry;

#define NOWHERE UINT32_MAX /* the place of a unit that has none */

struct topzerad_cache {
    pthread_mutex_t lock;
    size_t size;                     /* of all of this, in bytes; 0 in a child of a fork */
    uint32_t room, used;             /* how many units there may be, and how many there have been at once */
    uint32_t most_ahead, shift;
    uint32_t *chains;
    entry *entries;
    uint8_t *bytes;
    int is_stopped;
    uint32_t hand;
    stream streams[STREAMS];
    uint16_t past[TOPZERAD_OBJECTS]; /* above each unit of an object that is kept, and not above its last */
};

static uint32_t least(uint32_t one, uint32_t other) { return one < other ? one : other; }

/* Units. */

static uint32_t place_of(uint32_t object, uint32_t unit) { return object * UNITS + unit; }

static uint32_t *chain_of(topzerad_cache *cache, uint32_t place) {
    return &cache->chains[(place * UINT32_C(2654435769)) >> cache->shift];
}

static uint8_t *bytes_of(topzerad_cache *cache, uint32_t number) { return cache->bytes + (size_t)UNIT * (number - 1); }

/* The number of the unit at a place, or 0. */
static uint32_t find(topzerad_cache *cache, uint32_t object, uint32_t unit) {
    uint32_t place = place_of(object, unit), number = *chain_of(cache, place);
    while (number && cache->entries[number].place != place) number = cache->entries[number].chained;
    return number;
}

static void take_out(topzerad_cache *cache, uint32_t number) {
    entry *entries = cache->entries, *taken = &entries[number];
    entries[taken->newer].older = taken->older;
    entries[taken->older].newer = taken->newer;
}

/* Puts a unit before another one, by use. */
static void put_in(topzerad_cache *cache, uint32_t number, uint32_t older) {
    entry *entries = cache->entries, *put = &entries[number];
    put->older = older;
    put->newer = entries[older].newer;
    entries[put->newer].older = number;
    entries[older].newer = number;
}

static void use(topzerad_cache *cache, uint32_t number) {
    if (cache->entries[0].older == number) return;
    take_out(cache, number);
    put_in(cache, number, cache->entries[0].older);
}

/* Takes a unit from its place. */
static void unchain(topzerad_cache *cache, uint32_t number) {
    entry *entries = cache->entries;
    uint32_t *at = chain_of(cache, entries[number].place);
    while (*at != number) at = &entries[*at].chained;
    *at = entries[number].chained;
    entries[number].place = NOWHERE;
}

/* Gives a unit up: it is the next one that is taken. */
static void forget(topzerad_cache *cache, uint32_t number) {
    unchain(cache, number);
    take_out(cache, number);
    put_in(cache, number, 0);
}

/* A unit without a place: one that was given up, a new one, or that which wasn't used for longest. */
static uint32_t take_unit(topzerad_cache *cache) {
    uint32_t oldest = cache->entries[0].newer;
    int is_free = oldest && cache->entries[oldest].place == NOWHERE;
    if (!is_free && cache->used < cache->room) {
        put_in(cache, ++cache->used, cache->entries[0].older);
        return cache->used;
    }
    if (!is_free) unchain(cache, oldest);
    use(cache, oldest);
    return oldest;
}

/* What answers say. */

void topzerad_cache_keep(topzerad_cache *cache, uint32_t object, uint64_t low, const uint8_t *bytes, size_t count) {
    uint32_t unit = (uint32_t)(low / UNIT), place = place_of(object, unit);
    pthread_mutex_lock(&cache->lock);
    uint32_t number = find(cache, object, unit);
    if (number) {
        use(cache, number);
    } else if (!cache->is_stopped) {
        number = take_unit(cache);
        entry *taken = &cache->entries[number];
        uint32_t *chain = chain_of(cache, place);
        taken->place = place;
        taken->count = (uint32_t)count;
        taken->chained = *chain;
        *chain = number;
        memcpy(bytes_of(cache, number), bytes, count);
        if (cache->past[object] <= unit) cache->past[object] = (uint16_t)(unit + 1);
    }
    pthread_mutex_unlock(&cache->lock);
}

/* An object has no byte from `length` on. */
static void cut(topzerad_cache *cache, uint32_t object, uint64_t length) {
    uint32_t past = (uint32_t)((length + UNIT - 1) / UNIT), left = length % UNIT, number;
    for (uint32_t unit = past; unit < cache->past[object]; unit++)
        if ((number = find(cache, object, unit))) forget(cache, number);
    if (cache->past[object] > past) cache->past[object] = (uint16_t)past;
    number = left ? find(cache, object, past - 1) : 0;
    if (number && cache->entries[number].count > left) cache->entries[number].count = left;
}

/* An object has so many bytes or more: where it had none it has zeros. */
static void grow(topzerad_cache *cache, uint32_t object, uint64_t length) {
    uint32_t past = cache->past[object], number = past ? find(cache, object, past - 1) : 0;
    if (!number) return;
    entry *last = &cache->entries[number];
    uint64_t start = (uint64_t)UNIT * (past - 1);
    if (start + last->count >= length) return;
    uint32_t count = length - start < UNIT ? (uint32_t)(length - start) : UNIT;
    memset(bytes_of(cache, number) + last->count, 0, count - last->count);
    last->count = count;
}

static void write(topzerad_cache *cache, uint32_t object, uint64_t at, const uint8_t *bytes, uint64_t count) {
    grow(cache, object, at + count);
    while (count && at / UNIT < cache->past[object]) {
        uint32_t in = at % UNIT, some = count < UNIT - in ? (uint32_t)count : UNIT - in;
        uint32_t number = find(cache, object, (uint32_t)(at / UNIT));
        if (number) memcpy(bytes_of(cache, number) + in, bytes, some);
        at += some;
        bytes += some;
        count -= some;
    }
}

/* Makes an operation of a transaction, which has `left` bytes. Returns how many bytes it takes, or 0 if it is none. */
static uint64_t make(topzerad_cache *cache, const uint8_t *op, uint64_t left) {
    static const uint8_t heads[] = {1, 5, 5, 17, 13, 5};
    if (op[0] < CREATE || op[0] > SET_NAME || heads[op[0]] > left) return 0;
    uint64_t size = heads[op[0]], object = get(op + 1, 4);
    if (op[0] == SET_NAME) return size + object;
    if (object >= TOPZERAD_OBJECTS) return 0;
    if (op[0] == WRITE) {
        uint64_t count = get(op + 13, 4);
        if (count > left - size) return 0;
        write(cache, (uint32_t)object, get(op + 5, 8), op + size, count);
        return size + count;
    }
    cut(cache, (uint32_t)object, op[0] == SET_LENGTH ? get(op + 5, 8) : 0);
    if (op[0] == SET_LENGTH) grow(cache, (uint32_t)object, get(op + 5, 8));
    return size;
}

void topzerad_cache_change(topzerad_cache *cache, const uint8_t *record, size_t length) {
    pthread_mutex_lock(&cache->lock);
    for (uint64_t at = RECORD_HEAD, size; at < length; at += size) {
        size = make(cache, record + at, length - at);
        if (size) continue;
        cache->is_stopped = 1; /* what took place isn't known */
        break;
    }
    pthread_mutex_unlock(&cache->lock);
}

void topzerad_cache_stop(topzerad_cache *cache) {
    pthread_mutex_lock(&cache->lock);
    cache->is_stopped = 1;
    pthread_mutex_unlock(&cache->lock);
}

/* Reads. */

/* Whether all bytes of a range are kept that lie below the object's length. `count` is how many they are. */
static int has(topzerad_cache *cache, const topzerad_range *range, size_t *count) {
    uint64_t end = range->high;
    uint32_t past = (uint32_t)((end + UNIT - 1) / UNIT);
    for (uint32_t unit = (uint32_t)(range->low / UNIT); unit < past; unit++) {
        uint32_t number = find(cache, range->object, unit);
        if (!number) return 0;
        if (cache->entries[number].count == UNIT) continue;
        uint64_t length = (uint64_t)UNIT * unit + cache->entries[number].count;
        if (end > length) end = length;
        break;
    }
    *count = end > range->low ? end - range->low : 0;
    return 1;
}

static void copy(topzerad_cache *cache, topzerad_range *range) {
    for (size_t done = 0, some; done < range->count; done += some) {
        uint64_t at = range->low + done;
        uint32_t number = find(cache, range->object, (uint32_t)(at / UNIT)), in = at % UNIT;
        some = range->count - done < UNIT - in ? range->count - done : UNIT - in;
        memcpy((uint8_t *)range->into + done, bytes_of(cache, number) + in, some);
        use(cache, number);
    }
}

int topzerad_cache_read(topzerad_cache *cache, topzerad_range *ranges, size_t count) {
    pthread_mutex_lock(&cache->lock);
    int is = !cache->is_stopped;
    for (size_t i = 0; i < count && is; i++)
        if (!ranges[i].refusal) is = has(cache, &ranges[i], &ranges[i].count);
    for (size_t i = 0; i < count && is; i++)
        if (!ranges[i].refusal) copy(cache, &ranges[i]);
    pthread_mutex_unlock(&cache->lock);
    return is;
}

/* How many units a read takes whose first one that isn't kept is this. It goes on where another one ended, or it takes
 * the place of one that no read has gone on with for longest. */
static stream *follow(topzerad_cache *cache, uint32_t object, uint32_t missing) {
    stream *streams = cache->streams;
    for (size_t i = 0; i < STREAMS; i++) {
        if (streams[i].object != object || streams[i].next != missing) continue;
        streams[i].size = least(streams[i].size ? 2 * streams[i].size : FIRST_AHEAD, cache->most_ahead);
        return &streams[i];
    }
    while (streams[cache->hand].size) {
        streams[cache->hand].size /= 2;
        cache->hand = (cache->hand + 1) % STREAMS;
    }
    stream *taken = &streams[cache->hand];
    cache->hand = (cache->hand + 1) % STREAMS;
    *taken = (stream){object, missing, 0};
    return taken;
}

/* Where a read ends that goes from one unit on to another one, or further, if it follows others in order. */
static uint32_t plan_end(topzerad_cache *cache, uint32_t object, uint32_t first, uint32_t past) {
    uint32_t missing = first, end = past;
    while (missing < past && find(cache, object, missing)) missing++;
    if (missing == past) return past;
    stream *followed = follow(cache, object, missing);
    uint32_t most = least(least(missing + followed->size, first + TOPZERAD_MOST_AHEAD / UNIT), UNITS);
    while (end < most && !find(cache, object, end)) end++;
    followed->next = end;
    return end;
}

topzerad_plan topzerad_cache_plan(topzerad_cache *cache, const topzerad_range *range) {
    uint32_t first = (uint32_t)(range->low / UNIT), past = (uint32_t)((range->high + UNIT - 1) / UNIT);
    pthread_mutex_lock(&cache->lock);
    if (past - first <= TOPZERAD_PIECE / UNIT) past = plan_end(cache, range->object, first, past);
    pthread_mutex_unlock(&cache->lock);
    uint64_t low = (uint64_t)UNIT * first, high = past < UNITS ? (uint64_t)UNIT * past : TOPZERAD_MAX_LENGTH;
    return (topzerad_plan){low, high, low + (uint64_t)UNIT * (cache->room / 4)};
}

/* Begin and end. */

/* Lets a child of a fork find zeros in memory. So no read has to ask the system which process this is, unless the
 * system can't do that. */
#ifdef MADV_WIPEONFORK
static int empty_in_children(void *memory, size_t size) { return madvise(memory, size, MADV_WIPEONFORK); }

int topzerad_cache_is_usable(const topzerad *pool) { return pool->cache && pool->cache->size; }
#else
static int empty_in_children(void *memory, size_t size) { return !memory || !size; }

int topzerad_cache_is_usable(const topzerad *pool) { return pool->cache && !topzerad_is_forked(pool); }
#endif

topzerad_cache *topzerad_cache_new(uint64_t size) {
    uint32_t bits = 4;
    while ((UINT64_C(1) << bits) < size / UNIT / 2) bits++;
    size_t chains = sizeof(topzerad_cache), entries = chains + (sizeof(uint32_t) << bits);
    size_t room = (size - entries - sizeof(entry)) / (UNIT + sizeof(entry));
    void *memory = mmap(NULL, size, PROT_READ | PROT_WRITE, MAP_PRIVATE | MAP_ANONYMOUS, -1, 0);
    if (memory == MAP_FAILED) return NULL;
    if (empty_in_children(memory, size)) {
        munmap(memory, size);
        return NULL;
    }
    topzerad_cache *cache = memory;
    pthread_mutex_init(&cache->lock, NULL);
    cache->size = size;
    cache->room = (uint32_t)room;
    cache->most_ahead = least(cache->room / 8, TOPZERAD_MOST_AHEAD / UNIT);
    cache->shift = 32 - bits;
    cache->chains = (uint32_t *)((uint8_t *)memory + chains);
    cache->entries = (entry *)((uint8_t *)memory + entries);
    cache->bytes = (uint8_t *)memory + entries + (room + 1) * sizeof(entry);
    for (size_t i = 0; i < STREAMS; i++) cache->streams[i].next = NOWHERE;
    return cache;
}

void topzerad_cache_end(topzerad_cache *cache) {
    if (cache && cache->size) munmap(cache, cache->size);
}
