/* Calls of all threads are queued. The first thread that finds no leader sends all that are queued as one frame, reads
 * the answers into the memory of their callers, and wakes them. While it waits, the next ones gather.
 *
 * A long read is made in pieces, each in a frame of its own. It is the last call of such a frame, and goes back to the
 * front of the queue, so no call comes between its pieces.
 *
 * With a cache a read that it does not have asks for whole units, and the cache follows each answer (cache.c). */
#define _POSIX_C_SOURCE 200809L
#include "internal.h"

#include <inttypes.h>
#include <stdio.h>
#include <string.h>
#include <unistd.h>

enum { LEAST_ROOM = 80, LISTED = 12, RECORD_HEAD = 22, MOST_AT_ONCE = 64 };
enum { TRANSACT = 1, TRANSACT_DURABLY, READ, LENGTH, OBJECTS, STATUS, DURABLE, FLUSH, SYNC, NAME, NOT_DURABLE };

/* A call that waits for its answer, on its caller's stack. */
typedef struct topzerad_call {
    uint8_t number;
    uint8_t fields[20];
    size_t field_count;
    const uint8_t *content;
    size_t content_count;
    size_t room;              /* the bytes that are kept for its answer */
    void *into;               /* where the bytes or the objects of its answer go, and how many fit */
    size_t most, count;
    uint64_t low, high;       /* of a read: where its piece begins, and where its range ends */
    size_t piece;             /* and the most bytes of a piece */
    topzerad_range *kept;     /* of a read that the cache keeps: the range that its caller wants, or NULL */
    uint64_t kept_past;       /* and where the cache has no room for more */
    uint64_t values[7];       /* the numbers of its answer */
    uint64_t kind, address;   /* of a refusal: the block that is damaged */
    int refusal, committed, done;
    int is_followed;          /* by a read that is of the same moment */
    struct topzerad_call *next;
} call;

/* The block that is damaged, by the last call of this thread that was refused for it. */
static _Thread_local struct {
    uint64_t kind, address;
} damage;

void topzerad_set_damage(uint64_t kind, uint64_t address) {
    damage.kind = kind;
    damage.address = address;
}

void topzerad_damage(uint64_t *kind, uint64_t *address) {
    *kind = damage.kind;
    *address = damage.address;
}

/* Transactions: the bytes of a log record, whose group and ordinal stay 0. A frame with one record outside its limits
 * is refused whole, with the calls of other threads. So each limit is tested here. */

void topzerad_tx_start(topzerad_tx *tx, void *memory, size_t size) {
    tx->bytes = memory;
    tx->room = size < TOPZERAD_MAX_RECORD ? size : TOPZERAD_MAX_RECORD;
    tx->length = RECORD_HEAD;
    tx->count = 0;
    if (size < RECORD_HEAD) return;
    memset(tx->bytes, 0, RECORD_HEAD);
    put(tx->bytes, RECORD_HEAD, 4);
}

static uint8_t *add(topzerad_tx *tx, uint8_t tag, size_t size) {
    if (tx->length > tx->room || size > tx->room - tx->length) return NULL;
    uint8_t *op = tx->bytes + tx->length;
    tx->length += size;
    tx->count++;
    put(tx->bytes, tx->length, 4);
    put(tx->bytes + 20, tx->count, 2);
    op[0] = tag;
    return op;
}

static int add_object(topzerad_tx *tx, uint8_t tag, uint32_t object) {
    if (object >= TOPZERAD_OBJECTS) return TOPZERAD_BAD_RANGE;
    uint8_t *op = add(tx, tag, 5);
    if (!op) return TOPZERAD_TOO_LARGE;
    put(op + 1, object, 4);
    return 0;
}

int topzerad_tx_create(topzerad_tx *tx, uint32_t object) { return add_object(tx, 1, object); }

int topzerad_tx_remove(topzerad_tx *tx, uint32_t object) { return add_object(tx, 2, object); }

int topzerad_tx_write_to(topzerad_tx *tx, uint32_t object, uint64_t offset, size_t count, uint8_t **content) {
    if (object >= TOPZERAD_OBJECTS || !count || count > TOPZERAD_MAX_LENGTH || offset > TOPZERAD_MAX_LENGTH - count)
        return TOPZERAD_BAD_RANGE;
    uint8_t *op = add(tx, 3, 17 + count);
    if (!op) return TOPZERAD_TOO_LARGE;
    put(op + 1, object, 4);
    put(op + 5, offset, 8);
    put(op + 13, count, 4);
    *content = op + 17;
    return 0;
}

int topzerad_tx_write(topzerad_tx *tx, uint32_t object, uint64_t offset, const void *bytes, size_t count) {
    uint8_t *content;
    int refusal = topzerad_tx_write_to(tx, object, offset, count, &content);
    if (!refusal) memcpy(content, bytes, count);
    return refusal;
}

int topzerad_tx_set_length(topzerad_tx *tx, uint32_t object, uint64_t length) {
    if (object >= TOPZERAD_OBJECTS || length > TOPZERAD_MAX_LENGTH) return TOPZERAD_BAD_RANGE;
    uint8_t *op = add(tx, 4, 13);
    if (!op) return TOPZERAD_TOO_LARGE;
    put(op + 1, object, 4);
    put(op + 5, length, 8);
    return 0;
}

static int is_letter(char byte) { return (byte >= 'A' && byte <= 'Z') || (byte >= 'a' && byte <= 'z'); }

static int is_name(const char *name, size_t count) {
    if (!count || count > TOPZERAD_MAX_NAME || !is_letter(name[0])) return 0;
    for (size_t i = 1; i < count; i++) {
        int is_digit = name[i] >= '0' && name[i] <= '9', is_sign = name[i] && strchr("-_.", name[i]);
        if (!is_letter(name[i]) && !is_digit && !is_sign) return 0;
    }
    return 1;
}

int topzerad_tx_set_name(topzerad_tx *tx, const void *name, size_t count) {
    if (!is_name(name, count)) return TOPZERAD_BAD_RANGE;
    uint8_t *op = add(tx, 5, 5 + count);
    if (!op) return TOPZERAD_TOO_LARGE;
    put(op + 1, count, 4);
    memcpy(op + 5, name, count);
    return 0;
}

/* Why a transaction can't be sent, or 0. */
static int refusal_of(const topzerad_tx *tx) {
    if (tx->room < RECORD_HEAD || tx->length > TOPZERAD_MAX_RECORD) return TOPZERAD_TOO_LARGE;
    return tx->count ? 0 : TOPZERAD_BAD_RANGE;
}

/* Frames. Functions return 0, or -1 if the process is gone, late, or answers what is no answer. */

static size_t size_of(const call *c) { return 9 + c->field_count + c->content_count; }

/* Whether a read's range goes on after its piece. */
static int goes_on(const call *c) { return c->low + c->most < c->high; }

static int send_frame(topzerad *pool, const call *calls) {
    uint8_t head[HEAD], start[9];
    size_t size = HEAD;
    uint64_t count = 0;
    for (const call *c = calls; c; c = c->next, count++) size += size_of(c);
    put(head, size, 4);
    put(head + 4, VERSION, 2);
    put(head + 6, pool->kind, 2);
    put(head + 8, count, 4);
    pool->used = 0;
    if (topzerad_put_out(pool, head, HEAD)) return -1;
    count = 0;
    for (const call *c = calls; c; c = c->next, count++) {
        put(start, pool->asked + count, 8);
        start[8] = c->number;
        if (topzerad_put_out(pool, start, 9) || topzerad_put_out(pool, c->fields, c->field_count)
            || topzerad_put_out(pool, c->content, c->content_count))
            return -1;
    }
    return topzerad_empty_out(pool);
}

static int read_values(topzerad *pool, call *c, size_t count, size_t *left) {
    uint8_t bytes[56];
    if (topzerad_take_in(pool, bytes, 8 * count, left)) return -1;
    for (size_t i = 0; i < count; i++) c->values[i] = get(bytes + 8 * i, 8);
    return 0;
}

static int read_refusal(topzerad *pool, call *c, size_t *left) {
    uint8_t bytes[17];
    if (topzerad_take_in(pool, bytes, sizeof bytes, left)) return -1;
    c->refusal = bytes[0];
    c->kind = get(bytes + 1, 8);
    c->address = get(bytes + 9, 8);
    return c->refusal >= 1 && c->refusal <= LAST_REFUSAL ? 0 : -1;
}

static int read_count(topzerad *pool, call *c, size_t *left) {
    uint8_t bytes[4];
    if (topzerad_take_in(pool, bytes, 4, left)) return -1;
    c->count = get(bytes, 4);
    return c->count > c->most ? -1 : 0;
}

static int read_objects(topzerad *pool, call *c, size_t *left) {
    topzerad_listed *listed = c->into;
    uint8_t bytes[LISTED];
    if (read_count(pool, c, left)) return -1;
    for (size_t i = 0; i < c->count; i++) {
        if (topzerad_take_in(pool, bytes, LISTED, left)) return -1;
        listed[i].object = (uint32_t)get(bytes, 4);
        listed[i].length = get(bytes + 4, 8);
    }
    return 0;
}

/* Gives the caller of a read what it wants of the bytes from `low` on. */
static void give(const topzerad_range *wanted, uint64_t low, const uint8_t *bytes, size_t count) {
    uint64_t from = low > wanted->low ? low : wanted->low;
    uint64_t past = low + count < wanted->high ? low + count : wanted->high;
    if (from < past) memcpy((uint8_t *)wanted->into + (from - wanted->low), bytes + (from - low), past - from);
}

/* Reads the units of a read that the cache keeps. */
static int read_units(topzerad *pool, call *c, size_t *left) {
    uint8_t unit[TOPZERAD_UNIT];
    if (read_count(pool, c, left)) return -1;
    for (size_t at = 0, count; at < c->count; at += count) {
        count = c->count - at < sizeof unit ? c->count - at : sizeof unit;
        if (topzerad_take_in(pool, unit, count, left)) return -1;
        uint64_t low = c->low + at;
        if (low < c->kept_past) topzerad_cache_keep(pool->cache, c->kept->object, low, unit, count);
        give(c->kept, low, unit, count);
    }
    return 0;
}

/* Reads what came of a call. */
static int read_outcome(topzerad *pool, call *c, uint8_t came, size_t *left) {
    uint8_t byte;
    if (came == 0) return read_refusal(pool, c, left);
    if (came == NOT_DURABLE && c->number == TRANSACT_DURABLY) {
        c->committed = 1;
        return read_values(pool, c, 2, left) || read_refusal(pool, c, left) ? -1 : 0;
    }
    if (came != c->number) return -1;
    switch (came) {
    case TRANSACT:
    case TRANSACT_DURABLY:
        c->committed = 1;
        return read_values(pool, c, 2, left);
    case READ:
        if (c->kept) return read_units(pool, c, left); /* fall through */
    case NAME:
        return read_count(pool, c, left) || topzerad_take_in(pool, c->into, c->count, left) ? -1 : 0;
    case LENGTH:
    case SYNC:
        return read_values(pool, c, 1, left);
    case OBJECTS:
        return read_objects(pool, c, left);
    case STATUS:
        return read_values(pool, c, 7, left);
    case DURABLE:
        if (topzerad_take_in(pool, &byte, 1, left)) return -1;
        c->values[0] = byte;
        return 0;
    default:
        return 0;
    }
}

/* Lets the cache follow an answer. */
static void follow(topzerad_cache *cache, const call *c) {
    int is_suspended = c->refusal == TOPZERAD_WRITE || c->refusal == TOPZERAD_FLUSH || c->refusal == TOPZERAD_SUSPENDED;
    if (c->committed) topzerad_cache_change(cache, c->content, c->content_count);
    if (is_suspended) topzerad_cache_stop(cache);
}

static int read_frame(topzerad *pool, call *calls) {
    uint8_t head[HEAD], start[9];
    size_t left = HEAD;
    uint64_t count = 0;
    pool->used = pool->taken = 0;
    if (topzerad_take_in(pool, head, HEAD, &left)) return -1;
    uint64_t size = get(head, 4), kind = get(head + 6, 2), said = get(head + 8, 4);
    if (get(head + 4, 2) != VERSION || size < HEAD || size > MAX_FRAME) return -1;
    left = size - HEAD;
    if (kind == REFUSED_FRAME) {
        if (said < 1 || said >= TOPZERAD_SYSTEM - TOPZERAD_FRAME) return -1;
        for (call *c = calls; c; c = c->next) c->refusal = TOPZERAD_FRAME + (int)said;
        return left ? -1 : 0;
    }
    if (kind != ANSWERS) return -1;
    for (call *c = calls; c; c = c->next, count++) {
        if (topzerad_take_in(pool, start, 9, &left) || get(start, 8) != pool->asked + count) return -1;
        if (read_outcome(pool, c, start[8], &left)) return -1;
        if (pool->cache) follow(pool->cache, c);
    }
    pool->asked += count;
    return left || said != count || pool->taken != pool->used ? -1 : 0;
}

/* Calls. */

/* The kind of a frame, by its last call. A hub is told that no other program's call may come before the next frame. */
static uint16_t kind_of(const topzerad *pool, const call *last) {
    if (pool->process) return REQUESTS;
    if (pool->holds || last->is_followed) return HOLDING;
    return goes_on(last) ? READING_ON : REQUESTS;
}

/* Takes the calls that fit one frame off the queue. */
static call *take_calls(topzerad *pool) {
    call *first = pool->first, *last = first;
    size_t size = HEAD + size_of(first), room = HEAD + first->room;
    while (last->next && !goes_on(last)) {
        size += size_of(last->next);
        room += last->next->room;
        if (size > MAX_FRAME || room > MAX_FRAME) break;
        last = last->next;
    }
    pool->first = last->next;
    if (!pool->first) pool->last = &pool->first;
    last->next = NULL;
    pool->kind = kind_of(pool, last);
    return first;
}

/* Makes a read ask for the piece of its range that begins at `low`. */
static void ask_piece(call *c) {
    c->most = c->high > c->low ? c->high - c->low : 0;
    if (c->most > c->piece) c->most = c->piece;
    c->room = LEAST_ROOM + c->most;
    put(c->fields + 4, c->low, 8);
    put(c->fields + 12, goes_on(c) ? c->low + c->most : c->high, 8);
}

/* After the answer to a piece: puts the read back to the front of the queue for the next one, if there is one. */
static int put_back(topzerad *pool, call *c) {
    if (c->refusal || c->count < c->most || !goes_on(c)) return 0;
    if (!c->kept) c->into = (uint8_t *)c->into + c->most;
    c->low += c->most;
    ask_piece(c);
    c->next = pool->first;
    if (!c->next) pool->last = &c->next;
    pool->first = c;
    return 1;
}

int topzerad_is_forked(const topzerad *pool) { return pool->opener != getpid(); }

/* Sends calls in one frame and reads their answers. Returns 0, or a refusal of all of them. */
static int exchange(topzerad *pool, call *calls) {
    pool->deadline = topzerad_deadline(pool->timeout);
    pool->is_late = 0;
    if (!send_frame(pool, calls) && !read_frame(pool, calls)) return 0;
    return pool->is_late ? TOPZERAD_TIMED_OUT : TOPZERAD_ENDED;
}

/* Ends calls of a frame whose answers have come. */
static void take_answers(topzerad *pool, call *calls) {
    for (call *next; calls; calls = next) {
        next = calls->next;
        calls->done = !put_back(pool, calls);
    }
}

/* Ends calls that get no answer. */
static void refuse(call *calls, int refusal) {
    for (; calls; calls = calls->next) {
        calls->refusal = refusal;
        calls->done = 1;
    }
}

/* Ends the calls of a frame, and the connection with all calls that are queued: an answer may still come, and would be
 * taken for that of another call. */
static void end_all(topzerad *pool, call *calls, int refusal) {
    pool->ended = 1;
    if (pool->cache) topzerad_cache_stop(pool->cache);
    refuse(calls, refusal);
    refuse(pool->first, refusal);
    pool->first = NULL;
    pool->last = &pool->first;
}

/* Queues calls, and returns once all are answered: the last is answered last. */
static void lead_all(topzerad *pool, call *first, call *last) {
    pthread_mutex_lock(&pool->lock);
    if (pool->ended) {
        refuse(first, TOPZERAD_ENDED);
    } else {
        *pool->last = first;
        pool->last = &last->next;
    }
    while (!last->done) {
        if (pool->led) {
            pthread_cond_wait(&pool->turn, &pool->lock);
            continue;
        }
        call *calls = take_calls(pool);
        pool->led = 1;
        pthread_mutex_unlock(&pool->lock);
        int refusal = exchange(pool, calls);
        pthread_mutex_lock(&pool->lock);
        if (refusal)
            end_all(pool, calls, refusal);
        else
            take_answers(pool, calls);
        pool->led = 0;
        pthread_cond_broadcast(&pool->turn);
    }
    pthread_mutex_unlock(&pool->lock);
}

/* Makes those of the calls that have no refusal yet, in their order. A thread that is cancelled while it leads would
 * leave the others waiting for ever, and its calls on a stack that is gone, so it is cancelled afterwards. */
static void make_all(topzerad *pool, call *made, size_t count) {
    call *first = NULL, *last = NULL, **end = &first;
    int state;
    for (size_t i = 0; i < count; i++) {
        if (made[i].refusal) continue;
        *end = last = &made[i];
        end = &last->next;
    }
    if (!first) return;
    if (pool->socket < 0 || topzerad_is_forked(pool)) {
        refuse(first, pool->socket < 0 ? TOPZERAD_ENDED : TOPZERAD_FORKED);
        return;
    }
    pthread_setcancelstate(PTHREAD_CANCEL_DISABLE, &state);
    lead_all(pool, first, last);
    pthread_setcancelstate(state, NULL);
}

/* The refusal of a call that was made, of which the caller is told. */
static int told(const call *c) {
    if (c->refusal == TOPZERAD_DAMAGED) topzerad_set_damage(c->kind, c->address);
    return c->refusal;
}

/* Makes a call, and returns its refusal. */
static int make(topzerad *pool, call *c) {
    make_all(pool, c, 1);
    return told(c);
}

static void add_field(call *c, uint64_t value, size_t count) {
    put(c->fields + c->field_count, value, count);
    c->field_count += count;
}

static call new_call(uint8_t number) {
    call c;
    memset(&c, 0, sizeof c);
    c.number = number;
    c.room = LEAST_ROOM;
    return c;
}

static call new_transact(uint8_t number, const topzerad_tx *tx) {
    call c = new_call(number);
    c.content = tx->bytes;
    c.content_count = tx->length;
    c.refusal = refusal_of(tx);
    return c;
}

static topzerad_receipt receipt_of(const call *c) { return (topzerad_receipt){c->values[0], c->values[1]}; }

static int transact(topzerad *pool, uint8_t number, const topzerad_tx *tx, topzerad_receipt *receipt, int *committed) {
    call c = new_transact(number, tx);
    int refusal = make(pool, &c);
    if (receipt) *receipt = receipt_of(&c);
    if (committed) *committed = c.committed;
    return refusal;
}

int topzerad_transact(topzerad *pool, const topzerad_tx *tx, topzerad_receipt *receipt) {
    return transact(pool, TRANSACT, tx, receipt, NULL);
}

int topzerad_transact_durably(topzerad *pool, const topzerad_tx *tx, topzerad_receipt *receipt, int *committed) {
    return transact(pool, TRANSACT_DURABLY, tx, receipt, committed);
}

static topzerad_outcome outcome_of(const call *c) {
    return (topzerad_outcome){c->refusal, c->committed, receipt_of(c), c->kind, c->address};
}

static int transact_many(topzerad *pool, uint8_t number, const topzerad_tx *txs, size_t count,
                         topzerad_outcome *outcomes) {
    call calls[MOST_AT_ONCE];
    int first = 0;
    while (count) {
        size_t now = count < MOST_AT_ONCE ? count : MOST_AT_ONCE;
        for (size_t i = 0; i < now; i++) calls[i] = new_transact(number, &txs[i]);
        make_all(pool, calls, now);
        for (size_t i = 0; i < now; i++) {
            outcomes[i] = outcome_of(&calls[i]);
            if (!first) first = told(&calls[i]);
        }
        txs += now;
        outcomes += now;
        count -= now;
    }
    return first;
}

int topzerad_transact_many(topzerad *pool, const topzerad_tx *txs, size_t count, topzerad_outcome *outcomes) {
    return transact_many(pool, TRANSACT, txs, count, outcomes);
}

int topzerad_transact_many_durably(topzerad *pool, const topzerad_tx *txs, size_t count, topzerad_outcome *outcomes) {
    return transact_many(pool, TRANSACT_DURABLY, txs, count, outcomes);
}

static int is_range(const topzerad_range *range) {
    return range->object < TOPZERAD_OBJECTS && range->low < range->high && range->high <= TOPZERAD_MAX_LENGTH;
}

/* A read of a range, of the units that it lies in if it is to be kept. */
static call new_read(topzerad *pool, topzerad_range *range, int keeps) {
    call c = new_call(READ);
    add_field(&c, range->object, 4);
    c.field_count += 16;
    c.into = range->into;
    c.low = range->low;
    c.high = range->high;
    c.piece = TOPZERAD_PIECE;
    c.refusal = is_range(range) ? 0 : TOPZERAD_BAD_RANGE;
    if (keeps && !c.refusal) {
        topzerad_plan plan = topzerad_cache_plan(pool->cache, range);
        c.kept = range;
        c.low = plan.low;
        c.high = plan.high;
        c.kept_past = plan.past;
        if (range->high - range->low <= TOPZERAD_PIECE) c.piece = TOPZERAD_MOST_AHEAD;
    }
    ask_piece(&c);
    return c;
}

/* Sets what came of a range. */
static void take_read(topzerad_range *range, const call *c) {
    uint64_t end = c->low + c->count < range->high ? c->low + c->count : range->high;
    range->refusal = c->refusal;
    range->count = c->refusal || end < range->low ? 0 : end - range->low;
    range->kind = c->kind;
    range->address = c->address;
}

/* Asks the process for ranges. */
static void ask(topzerad *pool, topzerad_range *ranges, call *calls, size_t count, int keeps) {
    for (size_t i = 0; i < count; i++) calls[i] = new_read(pool, &ranges[i], keeps);
    for (size_t i = count, last = 0; i--;) {
        calls[i].is_followed = last && !calls[i].refusal;
        if (!calls[i].refusal) last = 1;
    }
    make_all(pool, calls, count);
    for (size_t i = 0; i < count; i++) take_read(&ranges[i], &calls[i]);
}

/* Whether a range was refused for what else was asked for, perhaps. */
static int is_for_more(const call *calls, size_t count) {
    for (size_t i = 0; i < count; i++) {
        int refusal = calls[i].refusal;
        if (calls[i].kept && refusal && refusal != TOPZERAD_NO_OBJECT && refusal < TOPZERAD_SYSTEM) return 1;
    }
    return 0;
}

/* Reads ranges, from the cache if it has them all. */
static void read_ranges(topzerad *pool, topzerad_range *ranges, call *calls, size_t count) {
    int keeps = topzerad_cache_is_usable(pool);
    if (keeps && topzerad_cache_read(pool->cache, ranges, count) && topzerad_is_connected(pool)) return;
    ask(pool, ranges, calls, count, keeps);
    if (is_for_more(calls, count)) ask(pool, ranges, calls, count, 0);
}

/* Reads ranges, for which there are as many calls. Returns 0 or the first refusal. */
static int read_all(topzerad *pool, topzerad_range *ranges, call *calls, size_t count) {
    int first = 0, state;
    for (size_t i = 0; i < count; i++) {
        ranges[i].refusal = is_range(&ranges[i]) ? 0 : TOPZERAD_BAD_RANGE;
        ranges[i].count = 0;
        ranges[i].kind = ranges[i].address = 0;
    }
    pthread_setcancelstate(PTHREAD_CANCEL_DISABLE, &state);
    read_ranges(pool, ranges, calls, count);
    pthread_setcancelstate(state, NULL);
    for (size_t i = 0; i < count && !first; i++) {
        first = ranges[i].refusal;
        if (first == TOPZERAD_DAMAGED) topzerad_set_damage(ranges[i].kind, ranges[i].address);
    }
    return first;
}

int topzerad_read_many(topzerad *pool, topzerad_range *ranges, size_t count) {
    call calls[TOPZERAD_MAX_RANGES];
    return count > TOPZERAD_MAX_RANGES ? TOPZERAD_TOO_MANY : read_all(pool, ranges, calls, count);
}

int topzerad_read(topzerad *pool, uint32_t object, uint64_t low, uint64_t high, void *into, size_t *count) {
    topzerad_range range = {.object = object, .low = low, .high = high, .into = into};
    call c;
    int refusal = read_all(pool, &range, &c, 1);
    *count = range.count;
    return refusal;
}

int topzerad_length(topzerad *pool, uint32_t object, uint64_t *length) {
    call c = new_call(LENGTH);
    add_field(&c, object, 4);
    int refusal = make(pool, &c);
    *length = c.values[0];
    return refusal;
}

int topzerad_objects(topzerad *pool, uint32_t first, uint32_t past, topzerad_listed *into, size_t *count) {
    call c = new_call(OBJECTS);
    add_field(&c, first, 4);
    add_field(&c, past, 4);
    c.into = into;
    c.most = past > first ? past - first : 0;
    if (c.most > TOPZERAD_OBJECTS) c.most = TOPZERAD_OBJECTS;
    c.room += LISTED * c.most;
    int refusal = make(pool, &c);
    *count = refusal ? 0 : c.count;
    return refusal;
}

int topzerad_state(topzerad *pool, topzerad_status *status) {
    call c = new_call(STATUS);
    int refusal = make(pool, &c);
    const uint64_t *v = c.values;
    *status = (topzerad_status){v[0], v[1], v[2], v[3], v[4], v[5], v[6]};
    return refusal;
}

int topzerad_durable(topzerad *pool, topzerad_receipt receipt, int *durable) {
    call c = new_call(DURABLE);
    add_field(&c, receipt.ordinal, 8);
    add_field(&c, receipt.group, 8);
    int refusal = make(pool, &c);
    *durable = c.values[0] != 0;
    return refusal;
}

int topzerad_flush(topzerad *pool) {
    call c = new_call(FLUSH);
    return make(pool, &c);
}

int topzerad_sync(topzerad *pool, uint64_t *group) {
    call c = new_call(SYNC);
    int refusal = make(pool, &c);
    if (group) *group = c.values[0];
    return refusal;
}

void topzerad_hold(topzerad *pool, int holds) {
    topzerad_status status;
    if (pool->process) return;
    pthread_mutex_lock(&pool->lock);
    pool->holds = holds;
    pthread_mutex_unlock(&pool->lock);
    if (!holds) topzerad_state(pool, &status); /* a frame that doesn't hold the turn */
}

int topzerad_name(topzerad *pool, char name[TOPZERAD_MAX_NAME + 1]) {
    call c = new_call(NAME);
    c.into = name;
    c.most = TOPZERAD_MAX_NAME;
    int refusal = make(pool, &c);
    name[refusal ? 0 : c.count] = 0;
    return refusal;
}

/* Texts. */

static const char *damaged_text(void) {
    static _Thread_local char text[96];
    snprintf(text, sizeof text, "the block of kind %" PRIu64 " at byte %" PRIu64 " is damaged", damage.kind,
             damage.address);
    return text;
}

const char *topzerad_text(int refusal) {
    static const char *const texts[] = {
        "done",
        "there is no memory for the call",
        "the device refused a read",
        "the device refused a write",
        "the device refused a flush",
        "the pool is suspended: a write or a flush was refused before",
        "the device holds no pool: no label has a valid uberblock with a config",
        "the block of kind {kind} at byte {address} is damaged",
        "a pool can't have the size of this device",
        "there is no such object",
        "the object exists already",
        "a number, a range, a plan, a name or a limit is out of bounds",
        "the operations are not those of the transaction's plan",
        "no lock of the owner covers the range",
        "the range overlaps one that is locked",
        "an open transaction uses the lock",
        "there are not enough free blocks",
        "too many bytes are not synced yet: sync a group first",
        "the transaction's log record would have more than 65536 bytes",
        "no such transaction is open",
        "the transaction groups are not ready for this step",
        "the owner holds no such lock",
        "there are as many locks or transactions as there may be, or no number is left",
        "there is no block for the log, or no log number is left",
    };
    if (refusal == TOPZERAD_DAMAGED) return damaged_text();
    if (refusal >= 0 && refusal <= LAST_REFUSAL) return texts[refusal];
    if (refusal == TOPZERAD_SYSTEM) return "a call of the system failed";
    if (refusal == TOPZERAD_ENDED) return "the process with the pool ended";
    if (refusal == TOPZERAD_FORKED) return "the pool was opened before a fork, by the parent";
    if (refusal == TOPZERAD_UNUSABLE) return "the file can't be used";
    if (refusal == TOPZERAD_TIMED_OUT) return "the process with the pool did not answer in time";
    if (refusal == TOPZERAD_NO_OPENING) return "the program did not say whether the pool is open";
    return "the frame was refused";
}
