/* The calls of disk.h. All parts of a disk are objects from the moment that it gets its size, since an object without
 * bytes takes no block. So a write makes no object, and there is no state but the size: each call asks the pool. */
#include "disk.h"

#include <stdlib.h>
#include <string.h>

enum {
    HEADER = 32,
    OLD_HEADER = 24,
    PART_BLOCKS = DISK_PART / DISK_BLOCK,
    RECORD = 4032,    /* the bytes of a data block of the pool */
    MOST_TAILS = PART_BLOCKS * (DISK_BLOCK - RECORD),
    GROUP = 32,       /* the parts that one transaction makes or cuts: each is charged 20 KiB of the dirty limit */
    AT_ONCE = 16,     /* the transactions of one exchange */
    RECORD_HEAD = 22, /* the bytes of a transaction besides its operations */
    WRITE_HEAD = 17   /* and those of a write besides its content */
};

/* A transaction of writes lies in at most two parts, and has at most two writes in each. So this is the most content of
 * one, and the most bytes besides. */
#define BESIDES (RECORD_HEAD + 4 * WRITE_HEAD)
#define MOST_CONTENT (TOPZERAD_MAX_RECORD - BESIDES)

static const char MAGIC[8] = {'t', 'o', 'p', 'z', 'd', 'i', 's', 'k'};
static const uint8_t ZEROS[15 * DISK_BLOCK];

static uint64_t least(uint64_t one, uint64_t other) { return one < other ? one : other; }
static uint64_t greatest(uint64_t one, uint64_t other) { return one > other ? one : other; }

static void put_number(uint8_t *to, uint64_t value) {
    for (size_t i = 0; i < 8; i++) to[i] = (uint8_t)(value >> (8 * i));
}

static uint64_t get_number(const uint8_t *from) {
    uint64_t value = 0;
    for (size_t i = 0; i < 8; i++) value |= (uint64_t)from[i] << (8 * i);
    return value;
}

/* The number of parts of a disk of this size, and the part of a byte. */
static uint32_t parts_of(uint64_t size) { return (uint32_t)((size + DISK_PART - 1) / DISK_PART); }
static uint32_t part_of(uint64_t offset) { return (uint32_t)(offset / DISK_PART); }
static uint32_t object_of(uint32_t part) { return 1 + part; }

/* Bytes of one part: from `low` to `high` in it. */
typedef struct {
    uint32_t part;
    uint64_t low, high;
} place;

/* The first bytes of a range that is not empty, as far as they lie in one part. */
static place first_place(uint64_t offset, uint64_t end) {
    uint32_t part = part_of(offset);
    uint64_t start = (uint64_t)part * DISK_PART;
    return (place){part, offset - start, least(end - start, DISK_PART)};
}

/* Where the fronts and the tails of blocks begin in the object of their part (disk.h). */

static uint32_t tail_size(const disk *d) { return DISK_BLOCK - d->front; }

/* Where the fronts begin: behind the tails, with the first data block of the pool that has none of these. */
static uint64_t fronts_start(const disk *d) {
    uint64_t tails = (uint64_t)PART_BLOCKS * tail_size(d);
    return (tails + RECORD - 1) / RECORD * RECORD;
}

/* The bytes of fronts and of tails below a byte of a part. */
static uint64_t fronts_below(const disk *d, uint64_t at) {
    return at / DISK_BLOCK * d->front + least(at % DISK_BLOCK, d->front);
}

static uint64_t tails_below(const disk *d, uint64_t at) { return at - fronts_below(d, at); }

/* Moves bytes of a part from `low` on, which lie together, apart to their fronts and their tails. */
static void take_apart(const disk *d, uint64_t low, uint64_t high, const uint8_t *bytes, uint8_t *fronts,
                       uint8_t *tails) {
    while (low < high) {
        uint64_t past = least(low - low % DISK_BLOCK + DISK_BLOCK, high);
        size_t front = fronts_below(d, past) - fronts_below(d, low), tail = past - low - front;
        if (front) memcpy(fronts, bytes, front);
        if (tail) memcpy(tails, bytes + front, tail);
        fronts += front;
        tails += tail;
        bytes += front + tail;
        low = past;
    }
}

/* Puts tails between fronts, which lie at the beginning of `bytes`: from the last block down, so that each front moves
 * to where no other one is left. */
static void put_together(const disk *d, uint64_t low, uint64_t high, uint8_t *bytes, const uint8_t *tails) {
    while (low < high) {
        uint64_t start = greatest((high - 1) / DISK_BLOCK * DISK_BLOCK, low);
        size_t before = fronts_below(d, start) - fronts_below(d, low);
        size_t front = fronts_below(d, high) - fronts_below(d, start), tail = high - start - front;
        uint8_t *block = bytes + (start - low);
        if (front) memmove(block, bytes + before, front);
        if (tail) memcpy(block + front, tails + (start - low - before), tail);
        high = start;
    }
}

/* Transactions. */

static int transact(disk *d, const topzerad_tx *tx, int durable) {
    return durable ? topzerad_transact_durably(d->pool, tx, NULL, NULL) : topzerad_transact(d->pool, tx, NULL);
}

static int transact_many(disk *d, const topzerad_tx *txs, size_t count, int durable, topzerad_outcome *outcomes) {
    return durable ? topzerad_transact_many_durably(d->pool, txs, count, outcomes)
                   : topzerad_transact_many(d->pool, txs, count, outcomes);
}

/* Commits transactions, at most AT_ONCE. Where the pool has no space it is tried again after a sync, since what is not
 * synced is charged more than it takes. */
static int commit_all(disk *d, const topzerad_tx *txs, size_t count, int durable) {
    topzerad_outcome outcomes[AT_ONCE];
    int refusal = transact_many(d, txs, count, durable, outcomes);
    if (refusal != TOPZERAD_NO_SPACE) return refusal;
    refusal = topzerad_sync(d->pool, NULL);
    for (size_t i = 0; i < count && !refusal; i++)
        if (outcomes[i].refusal) refusal = transact(d, &txs[i], durable);
    return refusal;
}

/* Commits a transaction, unless it has no operation. */
static int commit(disk *d, const topzerad_tx *tx, int durable) {
    return tx->count ? commit_all(d, tx, 1, durable) : 0;
}

/* Sets where the bytes of a part end, of whose object the length is this: at the end of the last block that has a byte
 * of its front, or of its tail one that isn't zero. */
static int get_end(disk *d, uint32_t part, uint64_t length, uint64_t *end) {
    uint8_t tails[MOST_TAILS];
    uint64_t start = fronts_start(d), fronts = length > start ? length - start : 0;
    size_t count = 0;
    *end = least((fronts + d->front - 1) / d->front * DISK_BLOCK, DISK_PART);
    uint64_t low = tails_below(d, *end), high = tails_below(d, DISK_PART);
    if (low >= high || low >= length) return 0;
    int refusal = topzerad_read(d->pool, object_of(part), low, high, tails, &count);
    while (count && !tails[count - 1]) count--;
    if (count) *end += (count + tail_size(d) - 1) / tail_size(d) * DISK_BLOCK;
    return refusal;
}

/* Sets where the bytes of parts end, at most GROUP of them. */
static int get_ends(disk *d, uint32_t first, uint32_t past, uint64_t ends[GROUP]) {
    topzerad_listed listed[GROUP];
    size_t count;
    memset(ends, 0, GROUP * sizeof *ends);
    int refusal = topzerad_objects(d->pool, object_of(first), object_of(past), listed, &count);
    for (size_t i = 0; i < count && !refusal; i++) {
        uint32_t part = listed[i].object - object_of(0);
        refusal = get_end(d, part, listed[i].length, &ends[part - first]);
    }
    return refusal;
}

/* The header. */

static size_t header_size(const disk *d) { return d->front == DISK_BLOCK ? OLD_HEADER : HEADER; }

static int write_header(disk *d, uint64_t size, int is_new) {
    uint8_t memory[RECORD_HEAD + 5 + WRITE_HEAD + HEADER], header[HEADER];
    topzerad_tx tx;
    memcpy(header, MAGIC, sizeof MAGIC);
    put_number(header + 8, size);
    put_number(header + 16, DISK_PART);
    put_number(header + 24, d->front);
    topzerad_tx_start(&tx, memory, sizeof memory);
    int refusal = is_new ? topzerad_tx_create(&tx, 0) : 0;
    if (!refusal) refusal = topzerad_tx_write(&tx, 0, 0, header, header_size(d));
    if (!refusal) refusal = commit(d, &tx, 1);
    if (!refusal) d->size = size;
    return refusal;
}

/* Takes the size of a disk and of its fronts from its header. Returns whether it is one. */
static int take_header(disk *d, const uint8_t *header, size_t count) {
    if (memcmp(header, MAGIC, sizeof MAGIC) || get_number(header + 16) != DISK_PART) return 0;
    d->front = count == OLD_HEADER ? DISK_BLOCK : RECORD;
    d->size = get_number(header + 8);
    if (count == HEADER && get_number(header + 24) != d->front) return 0;
    return d->size <= DISK_MAX_SIZE && d->size % DISK_BLOCK == 0;
}

/* Whether a pool has an object. */
static int has_objects(topzerad *pool, int *has) {
    topzerad_listed listed[GROUP];
    size_t count = 0;
    int refusal = 0;
    for (uint32_t first = 0; first < TOPZERAD_OBJECTS && !count && !refusal; first += GROUP) {
        uint32_t past = (uint32_t)least(first + GROUP, TOPZERAD_OBJECTS);
        refusal = topzerad_objects(pool, first, past, listed, &count);
    }
    *has = count != 0;
    return refusal;
}

int disk_open(disk *d, topzerad *pool, disk_found *found) {
    uint8_t header[HEADER];
    size_t count;
    uint64_t length;
    int has = 0;
    *d = (disk){pool, 0, RECORD};
    *found = DISK_FOREIGN;
    int refusal = topzerad_length(pool, 0, &length);
    if (refusal == TOPZERAD_NO_OBJECT) {
        refusal = has_objects(pool, &has);
        if (!refusal && !has) *found = DISK_NONE;
        return refusal;
    }
    if (refusal || (length != HEADER && length != OLD_HEADER)) return refusal;
    refusal = topzerad_read(pool, 0, 0, length, header, &count);
    if (!refusal && count == length && take_header(d, header, count)) *found = DISK_THERE;
    return refusal;
}

int disk_make(disk *d) { return write_header(d, 0, 1); }

/* Makes the objects of parts, at most GROUP of them, where a disk that was to grow before doesn't have them. */
static int make_parts(disk *d, uint32_t first, uint32_t past) {
    topzerad_listed listed[GROUP];
    uint8_t memory[RECORD_HEAD + 5 * GROUP], is_there[GROUP] = {0};
    topzerad_tx tx;
    size_t count;
    int refusal = topzerad_objects(d->pool, object_of(first), object_of(past), listed, &count);
    for (size_t i = 0; i < count; i++) is_there[listed[i].object - object_of(first)] = 1;
    topzerad_tx_start(&tx, memory, sizeof memory);
    for (uint32_t part = first; part < past && !refusal; part++)
        if (!is_there[part - first]) refusal = topzerad_tx_create(&tx, object_of(part));
    return refusal ? refusal : commit(d, &tx, 0);
}

int disk_grow(disk *d, uint64_t size) {
    uint32_t end = parts_of(size);
    int refusal = 0;
    for (uint32_t first = parts_of(d->size); first < end && !refusal; first += GROUP)
        refusal = make_parts(d, first, (uint32_t)least(first + GROUP, end));
    if (!refusal) refusal = topzerad_flush(d->pool);
    return refusal ? refusal : write_header(d, size, 0);
}

/* Reads and writes. */

static topzerad_range range_of(uint32_t part, uint64_t low, uint64_t high, uint8_t *into) {
    return (topzerad_range){.object = object_of(part), .low = low, .high = high, .into = into};
}

/* Reads bytes of a part: their fronts and their tails at one moment, so that no block is read in part before a write. */
static int read_place(disk *d, uint8_t *into, place at) {
    uint8_t tails[MOST_TAILS];
    uint64_t start = fronts_start(d) + fronts_below(d, at.low);
    uint64_t fronts = fronts_below(d, at.high) - fronts_below(d, at.low);
    uint64_t low = tails_below(d, at.low), high = tails_below(d, at.high);
    topzerad_range ranges[2];
    size_t count = 0;
    if (fronts) ranges[count++] = range_of(at.part, start, start + fronts, into);
    if (low < high) ranges[count++] = range_of(at.part, low, high, tails);
    int refusal = topzerad_read_many(d->pool, ranges, count);
    for (size_t i = 0; i < count; i++) {
        size_t wanted = ranges[i].high - ranges[i].low;
        memset((uint8_t *)ranges[i].into + ranges[i].count, 0, wanted - ranges[i].count);
    }
    if (!refusal && low < high) put_together(d, at.low, at.high, into, tails);
    return refusal;
}

int disk_read(disk *d, uint8_t *into, uint64_t offset, uint64_t count) {
    uint64_t end = offset + count;
    int refusal = 0;
    while (offset < end && !refusal) {
        place at = first_place(offset, end);
        refusal = read_place(d, into, at);
        into += at.high - at.low;
        offset += at.high - at.low;
    }
    return refusal;
}

/* The end of the transaction that begins at `offset`: the last end of a block whose bytes still fit, or `end`. */
static uint64_t transaction_end(uint64_t offset, uint64_t end) {
    uint64_t past = offset + MOST_CONTENT;
    return past < end ? past - past % DISK_BLOCK : end;
}

/* Adds the writes of bytes of a part. */
static int add_writes(const disk *d, topzerad_tx *tx, place at, const uint8_t *bytes) {
    uint8_t *fronts = NULL, *tails = NULL;
    uint64_t start = fronts_below(d, at.low), low = tails_below(d, at.low);
    size_t front_count = fronts_below(d, at.high) - start, tail_count = tails_below(d, at.high) - low;
    uint32_t object = object_of(at.part);
    int refusal = 0;
    if (front_count) refusal = topzerad_tx_write_to(tx, object, fronts_start(d) + start, front_count, &fronts);
    if (!refusal && tail_count) refusal = topzerad_tx_write_to(tx, object, low, tail_count, &tails);
    if (!refusal) take_apart(d, at.low, at.high, bytes, fronts, tails);
    return refusal;
}

/* Makes a transaction of the bytes of a range, in memory with room for them. */
static int make_write(const disk *d, topzerad_tx *tx, void *memory, size_t room, const uint8_t *bytes, uint64_t offset,
                      uint64_t end) {
    int refusal = 0;
    topzerad_tx_start(tx, memory, room);
    while (offset < end && !refusal) {
        place at = first_place(offset, end);
        refusal = add_writes(d, tx, at, bytes);
        bytes += at.high - at.low;
        offset += at.high - at.low;
    }
    return refusal;
}

int disk_write(disk *d, const uint8_t *bytes, uint64_t offset, uint64_t count, int durable) {
    topzerad_tx txs[AT_ONCE];
    uint64_t end = offset + count;
    /* Each transaction but the last has more content than MOST_CONTENT - DISK_BLOCK. */
    size_t most = least(count / (MOST_CONTENT - DISK_BLOCK) + 1, AT_ONCE);
    size_t room = least(count + BESIDES, TOPZERAD_MAX_RECORD);
    uint8_t *memory = malloc(most * room);
    int refusal = memory ? 0 : TOPZERAD_NO_MEMORY;
    while (offset < end && !refusal) {
        size_t used = 0;
        while (used < most && offset < end && !refusal) {
            uint64_t past = transaction_end(offset, end);
            refusal = make_write(d, &txs[used], memory + used * room, room, bytes, offset, past);
            bytes += past - offset;
            offset = past;
            used++;
        }
        if (!refusal) refusal = commit_all(d, txs, used, durable);
    }
    free(memory);
    return refusal;
}

/* Zeros. */

static int write_zeros(disk *d, uint64_t offset, uint64_t end) {
    int refusal = 0;
    while (offset < end && !refusal) {
        uint64_t count = least(end - offset, sizeof ZEROS - offset % DISK_BLOCK);
        refusal = disk_write(d, ZEROS, offset, count, 0);
        offset += count;
    }
    return refusal;
}

/* Adds the operations that make a part zeros from a byte on: on the tails, and on the length of its object. An object
 * that has tails alone may grow by that. Without the second operation a write of a block that comes between could be
 * left in part. */
static int add_cut(const disk *d, topzerad_tx *tx, place at) {
    uint32_t object = object_of(at.part);
    uint64_t low = tails_below(d, at.low), high = tails_below(d, DISK_PART);
    if (!at.low) return topzerad_tx_set_length(tx, object, 0);
    int refusal = low < high ? topzerad_tx_write(tx, object, low, ZEROS, high - low) : 0;
    return refusal ? refusal : topzerad_tx_set_length(tx, object, fronts_start(d) + fronts_below(d, at.low));
}

/* Makes parts zeros from the low ends of these places on, at most GROUP. The first alone may begin inside its part. */
static int cut(disk *d, const place *cuts, size_t count) {
    uint8_t memory[RECORD_HEAD + WRITE_HEAD + MOST_TAILS + 13 * GROUP];
    topzerad_tx tx;
    int refusal = 0;
    topzerad_tx_start(&tx, memory, sizeof memory);
    for (size_t i = 0; i < count && !refusal; i++) refusal = add_cut(d, &tx, cuts[i]);
    return refusal ? refusal : commit(d, &tx, 0);
}

/* Does the same. In a pool that is almost full it cuts one object after the other: each gives space to the next. The
 * first comes last, since a cut inside a part takes space for its tails. */
static int cut_all(disk *d, const place *cuts, size_t count) {
    int refusal = cut(d, cuts, count);
    if (refusal != TOPZERAD_NO_SPACE || count < 2) return refusal;
    refusal = 0;
    while (count && !refusal) refusal = cut(d, &cuts[--count], 1);
    return refusal;
}

/* Clears a range in at most GROUP parts. An object is cut only if the range has its part to the end: another call may
 * write bytes above the range meanwhile. */
static int clear_group(disk *d, uint64_t offset, uint64_t end, int may_write) {
    uint64_t ends[GROUP];
    place cuts[GROUP];
    size_t count = 0;
    uint32_t first = part_of(offset);
    int refusal = get_ends(d, first, parts_of(end), ends);
    while (offset < end && !refusal) {
        place at = first_place(offset, end);
        uint64_t past = offset + (at.high - at.low), bytes_end = ends[at.part - first];
        if (bytes_end > at.low && (at.high == DISK_PART || past == d->size))
            cuts[count++] = at;
        else if (bytes_end > at.low && may_write)
            refusal = write_zeros(d, offset, offset + (least(at.high, bytes_end) - at.low));
        offset = past;
    }
    if (!refusal && count) refusal = cut_all(d, cuts, count);
    return refusal == TOPZERAD_NO_SPACE && !may_write ? 0 : refusal;
}

/* The end of the first GROUP parts of a range, or of the range. */
static uint64_t group_end(uint64_t offset, uint64_t end) {
    return least(end, ((uint64_t)part_of(offset) + GROUP) * DISK_PART);
}

static int clear(disk *d, uint64_t offset, uint64_t count, int may_write) {
    uint64_t end = offset + count;
    int refusal = 0;
    while (offset < end && !refusal) {
        uint64_t past = group_end(offset, end);
        refusal = clear_group(d, offset, past, may_write);
        offset = past;
    }
    return refusal;
}

int disk_zero(disk *d, uint64_t offset, uint64_t count) { return clear(d, offset, count, 1); }

int disk_trim(disk *d, uint64_t offset, uint64_t count) { return clear(d, offset, count, 0); }

int disk_flush(disk *d) { return topzerad_flush(d->pool); }

/* Pieces. */

/* Hands out the pieces of a range in one part, whose bytes end there. */
static int hand_out(uint64_t offset, place at, uint64_t end, disk_taker *take, void *context) {
    uint64_t bytes = end > at.low ? least(end, at.high) - at.low : 0;
    uint64_t zeros = at.high - at.low - bytes;
    int taken = bytes ? take(context, offset, bytes, 0) : 0;
    return !taken && zeros ? take(context, offset + bytes, zeros, 1) : taken;
}

int disk_pieces(disk *d, uint64_t offset, uint64_t count, disk_taker *take, void *context, int *taken) {
    uint64_t end = offset + count, ends[GROUP];
    int refusal = 0;
    *taken = 0;
    while (offset < end && !refusal && !*taken) {
        uint32_t first = part_of(offset);
        uint64_t past = group_end(offset, end);
        refusal = get_ends(d, first, parts_of(past), ends);
        while (offset < past && !refusal && !*taken) {
            place at = first_place(offset, past);
            *taken = hand_out(offset, at, ends[at.part - first], take, context);
            offset += at.high - at.low;
        }
    }
    return refusal;
}
