/* Atomic writes of SQLite, by which a commit needs no journal: what they write is one transaction of the pool. It is
 * durable once it is committed, so that the sync that SQLite asks for then finds nothing to do. */
#include "vfs.h"

#include <string.h>
SQLITE_EXTENSION_INIT3

enum { LENGTH_BLOCKS = 5 };

int atomic_begin(handle *h) {
    if (h->batch) return SQLITE_IOERR_BEGIN_ATOMIC;
    batch *b = sqlite3_malloc64(sizeof *b);
    if (!b) return SQLITE_IOERR_NOMEM;
    topzerad_tx_start(&b->tx, b->record, sizeof b->record);
    b->size = h->file->layout.size;
    b->charge = LENGTH_BLOCKS;
    b->is_full = 0;
    h->batch = b;
    return SQLITE_OK;
}

/* Adds bytes. The first that let the file grow add a length before, for the reason that vfs.h, rule 2 has. */
static int add(batch *b, const file *f, const uint8_t *bytes, uint64_t count, uint64_t at) {
    uint32_t object = f->layout.pieces[at / PIECE];
    uint64_t low = at % PIECE, end = at + count;
    int refusal = 0;
    if (end > b->size && b->size == f->layout.size) refusal = topzerad_tx_set_length(&b->tx, object, low + count);
    if (!refusal) refusal = topzerad_tx_write(&b->tx, object, low, bytes, count);
    if (end > b->size) b->size = end;
    b->charge += write_charge(low, count);
    return refusal;
}

/* SQLite takes a journal after this code. */
int atomic_write(handle *h, const uint8_t *bytes, uint64_t count, uint64_t at) {
    batch *b = h->batch;
    const file *f = h->file;
    int is_in_pieces = at / PIECE < f->layout.count && at % PIECE + count <= PIECE;
    if (!is_in_pieces || b->is_full || add(b, f, bytes, count, at)) b->is_full = 1;
    if (b->tx.count > MOST_OPERATIONS || b->charge > f->pool->most_charge) b->is_full = 1;
    return b->is_full ? SQLITE_IOERR_WRITE : SQLITE_OK;
}

int atomic_commit(handle *h) {
    batch *b = h->batch;
    pool *p = h->file->pool;
    if (!b || b->is_full) return SQLITE_IOERR_COMMIT_ATOMIC;
    pthread_mutex_lock(&p->sending);
    int refusal = pool_send(p, 0);
    if (!refusal && b->tx.count) refusal = pool_commit(p, &b->tx, 1);
    if (!refusal) {
        pthread_mutex_lock(&p->lock);
        h->file->layout.size = b->size;
        pthread_mutex_unlock(&p->lock);
    }
    pthread_mutex_unlock(&p->sending);
    if (!refusal) atomic_give_up(h);
    return code_of(refusal, SQLITE_IOERR_COMMIT_ATOMIC, "atomic write of", h->file->name);
}

void atomic_give_up(handle *h) {
    sqlite3_free(h->batch);
    h->batch = NULL;
}
