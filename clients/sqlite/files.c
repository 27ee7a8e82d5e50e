/* Files: what SQLite reads and writes, in the pieces of a file (vfs.h). */
#include "vfs.h"

#include <string.h>
SQLITE_EXTENSION_INIT3

/* What one operation writes at most. A page of up to 32 KiB is written by one, and so whole or not at all. */
enum { MOST_WRITE = 61440, WRITE_HEAD = 17, LENGTH_SIZE = 13, LENGTH_BLOCKS = 5 };

static demand grown(demand wanted) {
    wanted.grows = 1;
    return wanted;
}

/* The name of a piece, from 0 on. */
static void name_piece(char name[NAME_ROOM], const char *file, uint32_t piece) {
    if (piece)
        sqlite3_snprintf(NAME_ROOM, name, "%s#%u", file, piece + 1);
    else
        sqlite3_snprintf(NAME_ROOM, name, "%s", file);
}

/* Layouts. */

/* The objects that have the names of pieces. */
static void find_pieces(const pool *p, const char *name, layout *l) {
    char piece[NAME_ROOM];
    for (l->count = 0; l->count < MOST_PIECES; l->count++) {
        name_piece(piece, name, l->count);
        uint32_t object = names_find(p, piece);
        if (!object) return;
        l->pieces[l->count] = object;
    }
}

/* Reads where the pieces of a file are, and its size. A piece whose object isn't there is none. */
static int read_layout(pool *p, const char *name, layout *l) {
    uint64_t length = 0;
    memset(l, 0, sizeof *l);
    int refusal = names_load(p);
    if (refusal) return refusal;
    find_pieces(p, name, l);
    while (l->count) {
        refusal = topzerad_length(&p->handle, l->pieces[l->count - 1], &length);
        if (refusal != TOPZERAD_NO_OBJECT) break;
        l->count--;
        refusal = 0;
    }
    if (l->count) l->size = (uint64_t)(l->count - 1) * PIECE + length;
    return refusal;
}

static void set_layout(file *f, const layout *l) {
    pthread_mutex_lock(&f->pool->lock);
    f->layout = *l;
    f->is_stale = 0;
    pthread_mutex_unlock(&f->pool->lock);
}

static void set_size(file *f, uint64_t size) {
    pthread_mutex_lock(&f->pool->lock);
    f->layout.size = size;
    pthread_mutex_unlock(&f->pool->lock);
}

/* Reads the layout of an open file anew. The caller has `sending`. */
static int reload(file *f) {
    layout found;
    int refusal = pool_send(f->pool, 0);
    if (!refusal) refusal = read_layout(f->pool, f->name, &found);
    if (!refusal) set_layout(f, &found);
    return refusal;
}

/* Makes what is known of a file true, if it may not be. The caller has `sending`. */
static int freshen(file *f) { return f->is_stale && !f->is_gone ? reload(f) : 0; }

int file_refresh(file *f) {
    pthread_mutex_lock(&f->pool->sending);
    int refusal = f->is_gone ? 0 : reload(f);
    pthread_mutex_unlock(&f->pool->sending);
    return refusal;
}

/* Files by name. The caller has `sending`. */

static file *find_open(const pool *p, const char *name) {
    for (file *f = p->files; f; f = f->next)
        if (!f->is_gone && !strcmp(f->name, name)) return f;
    return NULL;
}

/* Finds a file, open or not. */
static int look(pool *p, const char *name, layout *found) {
    file *f = find_open(p, name);
    if (!f) return read_layout(p, name, found);
    int refusal = p->is_shared ? reload(f) : freshen(f);
    if (!refusal) *found = f->layout;
    return refusal;
}

/* Makes a file without bytes, and sends that. Another program may have made it meanwhile. */
static int make(pool *p, const char *name, layout *made) {
    uint32_t object = 0;
    int refusal = pool_send(p, 0);
    if (refusal) return refusal;
    refusal = names_begin(p);
    if (!refusal) refusal = read_layout(p, name, made);
    if (!refusal && !made->count) refusal = gather_room(p, grown(NAME_DEMAND));
    if (!refusal && !made->count) refusal = names_add(p, name, &object);
    if (!refusal && object) *made = (layout){.pieces = {object}, .count = 1};
    refusal = names_end(p, refusal);
    return refusal ? refusal : pool_send(p, 0);
}

static file *add_file(pool *p, const char *name, const layout *l) {
    size_t count = strlen(name) + 1;
    file *f = sqlite3_malloc64(sizeof *f + count);
    if (!f) return NULL;
    memset(f, 0, sizeof *f);
    memcpy(f->name, name, count);
    f->pool = p;
    f->layout = *l;
    pthread_mutex_lock(&p->lock);
    f->next = p->files;
    p->files = f;
    pthread_mutex_unlock(&p->lock);
    return f;
}

/* Finds the file or makes it. */
static int find_or_make(pool *p, const char *name, int flags, layout *found) {
    int refusal = look(p, name, found);
    int is_new = (flags & SQLITE_OPEN_CREATE) && (flags & SQLITE_OPEN_EXCLUSIVE);
    if (refusal || found->count) return refusal || !is_new ? refusal : TOPZERAD_EXISTS;
    if (!(flags & SQLITE_OPEN_CREATE)) return TOPZERAD_NO_OBJECT;
    if (flags & SQLITE_OPEN_MAIN_DB) refusal = names_check(p, name); /* others have the name of one, and more behind */
    return refusal ? refusal : make(p, name, found);
}

static int open_file(pool *p, const char *name, int flags, file **opened) {
    layout found;
    int refusal = find_or_make(p, name, flags, &found);
    if (refusal) return refusal;
    file *f = find_open(p, name);
    if (!f) f = add_file(p, name, &found);
    if (!f) return TOPZERAD_NO_MEMORY;
    set_layout(f, &found);
    f->users++;
    *opened = f;
    return 0;
}

int file_open(pool *p, const char *name, int flags, file **opened) {
    pthread_mutex_lock(&p->sending);
    int refusal = open_file(p, name, flags, opened);
    pthread_mutex_unlock(&p->sending);
    return refusal;
}

static void take_off(file *f) {
    pool *p = f->pool;
    pthread_mutex_lock(&p->lock);
    file **at = &p->files;
    while (*at != f) at = &(*at)->next;
    *at = f->next;
    pthread_mutex_unlock(&p->lock);
    sqlite3_free(f);
}

int file_close(file *f) {
    pool *p = f->pool;
    pthread_mutex_lock(&p->sending);
    int refusal = pool_send(p, 0);
    if (!--f->users) take_off(f);
    pthread_mutex_unlock(&p->sending);
    return refusal;
}

int file_look(pool *p, const char *name, layout *found) {
    pthread_mutex_lock(&p->sending);
    int refusal = look(p, name, found);
    pthread_mutex_unlock(&p->sending);
    return refusal;
}

/* Pieces. The caller has `sending`. */

/* Adds a piece behind the others. The last of them becomes full in the same transaction. */
static int add_piece(file *f) {
    pool *p = f->pool;
    layout *l = &f->layout;
    char name[NAME_ROOM];
    uint32_t object = 0;
    uint64_t full = (uint64_t)l->count * PIECE;
    demand wanted = grown(NAME_DEMAND);
    wanted.bytes += LENGTH_SIZE;
    wanted.operations++;
    wanted.charge += LENGTH_BLOCKS;
    if (l->count == MOST_PIECES) return TOPZERAD_NO_SPACE;
    name_piece(name, f->name, l->count);
    int refusal = names_begin(p);
    if (!refusal) refusal = gather_room(p, wanted);
    if (!refusal) refusal = gather_length(p, l->pieces[l->count - 1], PIECE);
    if (!refusal) refusal = names_add(p, name, &object);
    if (!refusal) {
        pthread_mutex_lock(&p->lock);
        l->pieces[l->count++] = object;
        l->size = full;
        f->growth = p->number;
        pthread_mutex_unlock(&p->lock);
        }
    return names_end(p, refusal);
}

/* Makes a file have so many pieces. */
static int have_pieces(file *f, uint64_t count) {
    int refusal = 0;
    while (f->layout.count < count && !refusal) refusal = add_piece(f);
    return refusal;
}

/* Gathers that the last pieces go, until so many are left. Many of them may take more than one transaction. */
static int drop_pieces(pool *p, layout *l, uint32_t left) {
    int refusal = 0;
    while (l->count > left && !refusal) {
        refusal = gather_room(p, NAME_DEMAND);
        if (!refusal) refusal = names_remove(p, l->pieces[l->count - 1]);
        if (!refusal) l->count--;
    }
    return refusal;
}

static int remove_pieces(pool *p, const char *name, int durable) {
    layout found;
    int refusal = pool_send(p, 0);
    if (refusal) return refusal;
    refusal = names_begin(p);
    if (!refusal) refusal = read_layout(p, name, &found);
    if (!refusal && !found.count) refusal = TOPZERAD_NO_OBJECT;
    if (!refusal) refusal = drop_pieces(p, &found, 0);
    refusal = names_end(p, refusal);
    return refusal ? refusal : pool_send(p, durable);
}

int file_remove(pool *p, const char *name, int durable) {
    static const layout none;
    pthread_mutex_lock(&p->sending);
    int refusal = remove_pieces(p, name, durable);
    file *f = refusal ? NULL : find_open(p, name);
    if (f) {
        set_layout(f, &none);
        f->is_gone = 1;
    }
    pthread_mutex_unlock(&p->sending);
    return refusal;
}

/* Reads. */

/* Waits until a read finds what was written, and what is known of the file is true. */
static int prepare_read(file *f) {
    pool *p = f->pool;
    pthread_mutex_lock(&p->sending);
    int refusal = pool_send(p, 0);
    if (!refusal) refusal = freshen(f);
    pthread_mutex_unlock(&p->sending);
    return refusal;
}

/* Where the next bytes of a read lie. */
typedef struct {
    uint32_t object;
    uint64_t low, high;
    int is_there, is_last;
} place;

/* The place of the bytes of a file from `at` on, in one piece. Returns whether it has to be prepared. */
static int find_place(const file *f, uint64_t at, uint64_t count, place *found) {
    const layout *l = &f->layout;
    uint64_t piece = at / PIECE, low = at % PIECE;
    *found = (place){0, low, least(low + count, PIECE), piece < l->count, piece + 1 == l->count};
    if (found->is_there) found->object = l->pieces[piece];
    return f->is_stale || (found->is_there && is_gathered(f->pool, found->object, low, found->high));
}

/* The same, once a read finds there what was written. */
static int take_place(file *f, uint64_t at, uint64_t count, place *found) {
    pool *p = f->pool;
    pthread_mutex_lock(&p->lock);
    int waits = find_place(f, at, count, found);
    pthread_mutex_unlock(&p->lock);
    if (!waits) return 0;
    int refusal = prepare_read(f);
    pthread_mutex_lock(&p->lock);
    find_place(f, at, count, found);
    pthread_mutex_unlock(&p->lock);
    return refusal;
}

/* Below the end of a file the bytes past the length of a piece are zeros. */
int file_read(file *f, uint8_t *into, uint64_t count, uint64_t at, uint64_t *got) {
    *got = 0;
    while (*got < count) {
        place from;
        size_t there = 0;
        int refusal = take_place(f, at + *got, count - *got, &from);
        if (refusal || !from.is_there) return refusal;
        refusal = topzerad_read(&f->pool->handle, from.object, from.low, from.high, into + *got, &there);
        if (refusal) return refusal;
        uint64_t wanted = from.high - from.low;
        if (there < wanted && from.is_last) {
            *got += there;
            return 0;
        }
        memset(into + *got + there, 0, wanted - there);
        *got += wanted;
    }
    return 0;
}

/* Writes. The caller has `sending`. */

/* Gathers bytes that lie in one piece, and are one operation. */
static int write_piece(file *f, const uint8_t *bytes, size_t count, uint64_t at) {
    pool *p = f->pool;
    uint64_t low = at % PIECE, end = at + count;
    int grows = end > f->layout.size;
    demand wanted = {WRITE_HEAD + count + LENGTH_SIZE, 2, write_charge(low, count) + LENGTH_BLOCKS, grows};
    int refusal = gather_room(p, wanted);
    uint32_t object = f->layout.pieces[at / PIECE];
    if (!refusal && grows && f->growth != p->number) {
        refusal = gather_length(p, object, low + count);
        f->growth = p->number;
    }
    if (!refusal) refusal = gather_write(p, object, low, bytes, count);
    if (!refusal && grows) set_size(f, end);
    return refusal;
}

static int write_file(file *f, const uint8_t *bytes, uint64_t count, uint64_t at) {
    int refusal = freshen(f), is_end = commits_is_end(f, bytes, count, at);
    commits_follow(f, 0);
    if (!refusal && !f->layout.count) refusal = TOPZERAD_NO_OBJECT;
    while (count && !refusal) {
        uint64_t some = least(least(count, PIECE - at % PIECE), MOST_WRITE);
        refusal = have_pieces(f, at / PIECE + 1);
        if (!refusal) refusal = write_piece(f, bytes, some, at);
        bytes += some;
        at += some;
        count -= some;
    }
    if (!refusal && (f->is_checkpoint || f->pool->is_shared)) refusal = pool_send(f->pool, 0);
    return refusal || !is_end ? refusal : commits_send(f);
}

int file_write(file *f, const uint8_t *bytes, uint64_t count, uint64_t at) {
    pthread_mutex_lock(&f->pool->sending);
    int refusal = write_file(f, bytes, count, at);
    pthread_mutex_unlock(&f->pool->sending);
    return refusal;
}

/* Lengths. The caller has `sending`. */

/* Sets the length of the last piece, so that the file has this size. */
static int set_end(file *f, uint64_t size) {
    pool *p = f->pool;
    const layout *l = &f->layout;
    int refusal = gather_room(p, (demand){LENGTH_SIZE, 1, LENGTH_BLOCKS, size > l->size});
    if (!refusal) refusal = gather_length(p, l->pieces[l->count - 1], size - (uint64_t)(l->count - 1) * PIECE);
    if (refusal) return refusal;
    f->growth = p->number;
    set_size(f, size);
    return 0;
}

static int cut_pieces(file *f, uint32_t left) {
    layout rest = f->layout;
    int refusal = names_begin(f->pool);
    if (!refusal) refusal = drop_pieces(f->pool, &rest, left);
    if (rest.count < f->layout.count) rest.size = (uint64_t)rest.count * PIECE;
    set_layout(f, &rest);
    return names_end(f->pool, refusal);
}

/* A file that is cut to nothing is a journal whose commit ends. */
static int truncate_file(file *f, uint64_t size) {
    uint64_t pieces = size ? (size - 1) / PIECE + 1 : 1;
    int refusal = freshen(f);
    commits_follow(f, 0);
    if (!refusal && !f->layout.count) refusal = TOPZERAD_NO_OBJECT;
    if (!refusal && pieces < f->layout.count) refusal = cut_pieces(f, (uint32_t)pieces);
    if (!refusal) refusal = have_pieces(f, pieces);
    if (!refusal && f->layout.size != size) refusal = set_end(f, size);
    if (!refusal && f->pool->is_shared) refusal = pool_send(f->pool, 0);
    return refusal || size ? refusal : commits_send(f);
}

int file_truncate(file *f, uint64_t size) {
    pthread_mutex_lock(&f->pool->sending);
    int refusal = truncate_file(f, size);
    pthread_mutex_unlock(&f->pool->sending);
    return refusal;
}

/* While a handle has a lock, no other program changes the size. */
int file_size(file *f, int is_locked, uint64_t *size) {
    pool *p = f->pool;
    int refusal = p->is_shared && !is_locked ? file_refresh(f) : 0;
    pthread_mutex_lock(&p->lock);
    int is_stale = f->is_stale;
    *size = f->layout.size;
    pthread_mutex_unlock(&p->lock);
    if (refusal || !is_stale) return refusal;
    refusal = prepare_read(f);
    pthread_mutex_lock(&p->lock);
    *size = f->layout.size;
    pthread_mutex_unlock(&p->lock);
    return refusal;
}

int file_sync(file *f) {
    pthread_mutex_lock(&f->pool->sending);
    commits_follow(f, 1);
    int refusal = pool_send(f->pool, 1);
    pthread_mutex_unlock(&f->pool->sending);
    return refusal;
}

int file_commit(file *f) {
    pthread_mutex_lock(&f->pool->sending);
    int refusal = commits_send(f);
    pthread_mutex_unlock(&f->pool->sending);
    return refusal;
}

void file_checkpoint(file *f, int begins) {
    pthread_mutex_lock(&f->pool->sending);
    f->is_checkpoint = begins;
    pthread_mutex_unlock(&f->pool->sending);
}

int file_settle(file *f) {
    pthread_mutex_lock(&f->pool->sending);
    int refusal = pool_send(f->pool, 0);
    pthread_mutex_unlock(&f->pool->sending);
    return refusal;
}
