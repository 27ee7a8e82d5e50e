/* Names of files: the pool's table of names (docs/FORMATS.md, "Names of objects"). While no other program has the pool
 * what was read of it stays true, and changes are made here, too. */
#include "vfs.h"

#include <string.h>
SQLITE_EXTENSION_INIT3

enum { SLOT = 256, FIRST_ROOM = 256 * SLOT, MOST_ROOM = SLOT * TOPZERAD_OBJECTS };

static const uint8_t header[SLOT] = "topzerad names 1";
static const uint8_t empty_slot[SLOT];

static int is_there(const pool *p, uint32_t object) { return p->there[object / 8] >> object % 8 & 1; }

static void set_there(pool *p, uint32_t object, int is) {
    uint8_t bit = (uint8_t)(1u << object % 8);
    p->there[object / 8] = (uint8_t)(is ? p->there[object / 8] | bit : p->there[object / 8] & ~bit);
}

/* Lets the table have room for so many bytes. */
static int reserve(pool *p, size_t room) {
    if (room <= p->table_room) return 0;
    uint8_t *table = sqlite3_realloc64(p->table, room);
    if (!table) return TOPZERAD_NO_MEMORY;
    p->table = table;
    p->table_room = room;
    return 0;
}

/* Reads object 0 whole by one call, unless it has grown past the room that there was. */
static int read_table(pool *p) {
    size_t count = 0;
    int refusal = reserve(p, FIRST_ROOM);
    p->table_size = 0;
    while (!refusal) {
        refusal = topzerad_read(&p->handle, 0, 0, p->table_room, p->table, &count);
        if (refusal == TOPZERAD_NO_OBJECT) return 0;
        if (refusal || count < p->table_room || p->table_room >= MOST_ROOM) break;
        refusal = reserve(p, least(4 * p->table_room, MOST_ROOM));
    }
    if (refusal) return refusal;
    if (count % SLOT || (count && memcmp(p->table, header, SLOT))) return TOPZERAD_BAD_RANGE;
    p->table_size = count;
    return 0;
}

/* Reads which objects are there. */
static int read_objects(pool *p) {
    size_t count;
    topzerad_listed *listed = sqlite3_malloc64(TOPZERAD_OBJECTS * sizeof *listed);
    if (!listed) return TOPZERAD_NO_MEMORY;
    int refusal = topzerad_objects(&p->handle, 0, TOPZERAD_OBJECTS, listed, &count);
    if (!refusal) memset(p->there, 0, sizeof p->there);
    for (size_t i = 0; !refusal && i < count; i++) set_there(p, listed[i].object, 1);
    sqlite3_free(listed);
    return refusal;
}

/* Without a hub, both are read once, and again after a refusal. */
int names_load(pool *p) {
    if (!p->is_shared && !p->is_table_stale) return 0;
    int refusal = read_table(p);
    if (!refusal && !p->is_shared) refusal = read_objects(p);
    if (!refusal) p->is_table_stale = 0;
    return refusal;
}

int names_begin(pool *p) {
    if (!p->is_shared) return names_load(p);
    int refusal = pool_send(p, 0);
    if (refusal) return refusal;
    topzerad_hold(&p->handle, 1);
    refusal = read_table(p);
    return refusal ? refusal : read_objects(p);
}

int names_end(pool *p, int refusal) {
    if (!p->is_shared) return refusal;
    int sent = refusal ? 0 : pool_send(p, 0);
    topzerad_hold(&p->handle, 0);
    return refusal ? refusal : sent;
}

uint32_t names_find(const pool *p, const char *name) {
    size_t count = strlen(name);
    for (size_t at = SLOT; at < p->table_size; at += SLOT) {
        const uint8_t *slot = p->table + at;
        if (slot[0] == count && !slot[1] && !memcmp(slot + 2, name, count)) return (uint32_t)(at / SLOT);
    }
    return 0;
}

/* The lowest number from 1 on without a name and an object, or 0. */
static uint32_t free_number(const pool *p) {
    for (uint32_t number = 1; number < TOPZERAD_OBJECTS; number++) {
        size_t at = (size_t)SLOT * number;
        if (!is_there(p, number) && (at >= p->table_size || !p->table[at])) return number;
    }
    return 0;
}

/* Writes a slot to what is known of the table, which has room for it. */
static void set_slot(pool *p, uint32_t number, const uint8_t slot[SLOT]) {
    size_t at = (size_t)SLOT * number;
    if (!p->table_size) {
        memcpy(p->table, header, SLOT);
        p->table_size = SLOT;
    }
    if (at >= p->table_size) {
        memset(p->table + p->table_size, 0, at + SLOT - p->table_size);
        p->table_size = at + SLOT;
    }
    memcpy(p->table + at, slot, SLOT);
}

/* Gathers the operations of a new name. An object that was removed by its number has kept its name. */
static int gather_name(pool *p, uint32_t number, const uint8_t slot[SLOT]) {
    int refusal = is_there(p, 0) ? 0 : gather_create(p, 0);
    if (!refusal) set_there(p, 0, 1);
    if (!refusal && !p->table_size) refusal = gather_write(p, 0, 0, header, SLOT);
    if (!refusal) refusal = gather_create(p, number);
    if (!refusal) refusal = gather_write(p, 0, (uint64_t)SLOT * number, slot, SLOT);
    return refusal;
}

int names_add(pool *p, const char *name, uint32_t *object) {
    uint8_t slot[SLOT] = {(uint8_t)strlen(name)};
    uint32_t kept = names_find(p, name), number = kept ? kept : free_number(p);
    if (!number) return TOPZERAD_TOO_MANY;
    memcpy(slot + 2, name, slot[0]);
    int refusal = reserve(p, (size_t)SLOT * (number + 1));
    if (!refusal) refusal = gather_name(p, number, slot);
    if (refusal) return refusal;
    set_slot(p, number, slot);
    set_there(p, number, 1);
    *object = number;
    return 0;
}

int names_remove(pool *p, uint32_t object) {
    int refusal = gather_remove(p, object);
    if (!refusal) refusal = gather_write(p, 0, (uint64_t)SLOT * object, empty_slot, SLOT);
    if (refusal) return refusal;
    set_slot(p, object, empty_slot);
    set_there(p, object, 0);
    return 0;
}

int names_check(pool *p, const char *name) {
    uint32_t object;
    int refusal = topzerad_find_named(&p->handle, name, &object);
    return refusal == TOPZERAD_NO_OBJECT ? 0 : refusal;
}
