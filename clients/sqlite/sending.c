/* The transaction that gathers, and what is sent (vfs.h, rules 1 and 3). */
#include "vfs.h"

/* A data block of a pool has RECORD bytes, and an indirect one leads to STRIP bytes. */
enum { RECORD = 4032, STRIP = 84 * RECORD };
enum { CREATE_CHARGE = 2, LENGTH_CHARGE = 5, WRITE_CHARGE = 3 };
/* The blocks that are kept for taking changes back, and those that the log of one transaction takes at most. */
enum { RESERVE = 128, LOG_BLOCKS = 64 };

static uint64_t touched(uint64_t unit, uint64_t at, uint64_t count) { return (at + count - 1) / unit - at / unit + 1; }

uint64_t write_charge(uint64_t at, uint64_t count) {
    return touched(RECORD, at, count) + touched(STRIP, at, count) + WRITE_CHARGE;
}

void gather_start(pool *p) {
    topzerad_tx_start(&p->tx, p->record, sizeof p->record);
    pthread_mutex_lock(&p->lock);
    p->number++;
    p->charge = 0;
    p->span_count = 0;
    pthread_mutex_unlock(&p->lock);
}

/* Asks how many blocks the pool has. */
static int ask_space(pool *p) {
    topzerad_status status;
    int refusal = topzerad_state(&p->handle, &status);
    p->available = refusal ? 0 : status.available;
    return refusal;
}

/* Whether the pool has space for what is gathered and so many blocks more. A sync gives back what was replaced. */
static int have_space(pool *p, uint64_t blocks) {
    if (p->charge + blocks <= p->available) return 0;
    int refusal = ask_space(p);
    if (refusal || p->charge + blocks <= p->available) return refusal;
    refusal = pool_send(p, 0);
    if (!refusal) refusal = topzerad_sync(&p->handle, NULL);
    if (!refusal) refusal = ask_space(p);
    return refusal || blocks <= p->available ? refusal : TOPZERAD_NO_SPACE;
}

int gather_room(pool *p, demand wanted) {
    int fits = p->tx.length + wanted.bytes <= p->tx.room && p->tx.count + wanted.operations <= MOST_OPERATIONS &&
               p->charge + wanted.charge <= p->most_charge;
    int refusal = fits || !p->tx.count ? 0 : pool_send(p, 0);
    if (refusal || p->is_shared) return refusal;
    return have_space(p, wanted.charge + (wanted.grows ? RESERVE : 0));
}

/* After an operation was added: notes the bytes that it changes. Those behind others are joined. */
static int note(pool *p, int refusal, span changed, uint64_t charge) {
    if (refusal) return refusal;
    pthread_mutex_lock(&p->lock);
    span *last = p->span_count ? &p->spans[p->span_count - 1] : NULL;
    if (last && last->object == changed.object && last->high == changed.low)
        last->high = changed.high;
    else
        p->spans[p->span_count++] = changed;
    p->charge += charge;
    pthread_mutex_unlock(&p->lock);
    return 0;
}

static span whole(uint32_t object) { return (span){object, 0, TOPZERAD_MAX_LENGTH}; }

int gather_create(pool *p, uint32_t object) {
    return note(p, topzerad_tx_create(&p->tx, object), whole(object), CREATE_CHARGE);
}

int gather_remove(pool *p, uint32_t object) {
    return note(p, topzerad_tx_remove(&p->tx, object), whole(object), CREATE_CHARGE);
}

int gather_length(pool *p, uint32_t object, uint64_t length) {
    return note(p, topzerad_tx_set_length(&p->tx, object, length), whole(object), LENGTH_CHARGE);
}

int gather_write(pool *p, uint32_t object, uint64_t at, const void *bytes, size_t count) {
    span changed = {object, at, at + count};
    return note(p, topzerad_tx_write(&p->tx, object, at, bytes, count), changed, write_charge(at, count));
}

int is_gathered(const pool *p, uint32_t object, uint64_t low, uint64_t high) {
    for (uint32_t i = 0; i < p->span_count; i++)
        if (p->spans[i].object == object && p->spans[i].low < high && low < p->spans[i].high) return 1;
    return 0;
}

static int transact(pool *p, const topzerad_tx *tx, int durable) {
    return durable ? topzerad_transact_durably(&p->handle, tx, NULL, NULL) : topzerad_transact(&p->handle, tx, NULL);
}

static int flush(pool *p) {
    int refusal = p->is_dirty ? topzerad_flush(&p->handle) : 0;
    if (!refusal) p->is_dirty = 0;
    return refusal;
}

/* A durable transaction makes those before it durable that conflict with it, and no others: a flush does. */
int pool_commit(pool *p, const topzerad_tx *tx, int durable) {
    int is_alone = durable && !p->is_dirty;
    int refusal = transact(p, tx, is_alone);
    if (refusal == TOPZERAD_NO_SPACE) {
        refusal = topzerad_sync(&p->handle, NULL);
        if (!refusal) refusal = transact(p, tx, is_alone);
    }
    if (refusal) return refusal;
    p->is_dirty = !is_alone;
    return durable ? flush(p) : 0;
}

/* Lets all be read anew that is known of the pool. */
static void forget(pool *p) {
    pthread_mutex_lock(&p->lock);
    p->is_table_stale = 1;
    for (file *f = p->files; f; f = f->next) f->is_stale = 1;
    pthread_mutex_unlock(&p->lock);
}

int pool_send(pool *p, int durable) {
    if (!p->tx.count) return durable ? flush(p) : 0;
    int refusal = pool_commit(p, &p->tx, durable);
    if (refusal && !p->is_shared) return refusal;
    p->available -= least(p->available, p->charge + LOG_BLOCKS);
    gather_start(p);
    if (refusal) forget(p);
    return refusal;
}
