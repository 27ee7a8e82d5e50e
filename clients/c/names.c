/* Objects by name: the bytes of object 0 as a table of names (docs/FORMATS.md, "Names of objects").
 *
 * One thread at a time reads the table and changes it, under the pool's lock of names, and a hub lets one program at a
 * time do so. So two that put one new name make one object. Its memory is the pool's: first the hashes of the names,
 * and then the record of the transaction. */
#define _POSIX_C_SOURCE 200809L
#include "internal.h"

#include <string.h>

enum { SLOT = 256, SLOTS = 16, MOST_NAME = TOPZERAD_MAX_OBJECT_NAME, LISTED = 128 };
enum { PUT_PIECE = 64512 }; /* ends where a record of the object does, so that no record is written twice */

static const uint8_t header[SLOT] = "topzerad names 1";
static const uint8_t empty_slot[SLOT];

/* Which numbers are in a set of objects. */
typedef struct {
    uint8_t bits[(TOPZERAD_OBJECTS + 7) / 8];
} numbers;

static void set_in(numbers *set, uint32_t number) { set->bits[number / 8] |= (uint8_t)(1u << number % 8); }

static int is_in(const numbers *set, uint32_t number) { return set->bits[number / 8] >> number % 8 & 1; }

/* What the table says of one name: its object, or 0; the numbers that have names; and the length of object 0. */
typedef struct {
    uint32_t object;
    uint64_t length;
    numbers named;
} name_table;

/* The bytes of the character of UTF-8 that stands here, or 0 if there is none. `*character` is its number. */
static size_t character_at(const uint8_t *bytes, size_t count, uint32_t *character) {
    static const uint32_t least[] = {0, 0, 0x80, 0x800, 0x10000};
    uint8_t lead = bytes[0];
    size_t size = lead < 0x80 ? 1 : lead < 0xc0 ? 0 : lead < 0xe0 ? 2 : lead < 0xf0 ? 3 : lead < 0xf8 ? 4 : 0;
    if (!size || size > count) return 0;
    *character = size == 1 ? lead : lead & (0x7fu >> size);
    for (size_t i = 1; i < size; i++) {
        if (bytes[i] >> 6 != 2) return 0;
        *character = *character << 6 | (bytes[i] & 0x3f);
    }
    int is_surrogate = *character >= 0xd800 && *character < 0xe000;
    return *character < least[size] || *character > 0x10ffff || is_surrogate ? 0 : size;
}

static int is_name(const uint8_t *name, size_t count) {
    uint32_t character;
    if (!count || count > MOST_NAME) return 0;
    for (size_t at = 0, size; at < count; at += size) {
        size = character_at(name + at, count - at, &character);
        if (!size || character < 0x20 || character == '/' || (character >= 0x7f && character < 0xa0)) return 0;
    }
    return 1;
}

static void slot_of(uint8_t slot[SLOT], const char *name) {
    size_t count = strlen(name);
    memset(slot, 0, SLOT);
    slot[0] = (uint8_t)count;
    memcpy(slot + 2, name, count);
}

/* FNV-1a, of 64 bits. Names with one hash are compared. */
static uint64_t hash_of(const uint8_t slot[SLOT]) {
    uint64_t hash = 0xcbf29ce484222325u;
    for (size_t i = 0; i < SLOT; i++) hash = (hash ^ slot[i]) * 0x100000001b3u;
    return hash;
}

/* Whether a slot that isn't empty has a name, and is spelled as it has to be. */
static int is_slot(const uint8_t slot[SLOT]) {
    size_t count = get(slot, 2);
    return count <= MOST_NAME && is_name(slot + 2, count) && !memcmp(slot + 2 + count, empty_slot, SLOT - 2 - count);
}

/* Whether an earlier slot is the same. Slots of one hash are read again. */
static int is_double(topzerad *pool, const uint8_t slot[SLOT], uint32_t number, int *is) {
    const uint64_t *hashes = pool->names.hashes;
    uint8_t other[SLOT];
    size_t count;
    *is = 0;
    for (uint32_t i = 1; i < number && !*is; i++) {
        if (hashes[i] != hashes[number]) continue;
        int refusal = topzerad_read(pool, 0, (uint64_t)SLOT * i, (uint64_t)SLOT * (i + 1), other, &count);
        if (refusal) return refusal;
        *is = count == SLOT && !memcmp(other, slot, SLOT);
    }
    return 0;
}

/* Takes in the slot of an object. `wanted` is that of the name that is looked up, or NULL. */
static int take_slot(topzerad *pool, name_table *table, uint32_t number, const uint8_t slot[SLOT],
                     const uint8_t *wanted) {
    int is = 0, refusal;
    if (!number) return memcmp(slot, header, SLOT) ? TOPZERAD_BAD_RANGE : 0;
    int is_empty = !memcmp(slot, empty_slot, SLOT);
    pool->names.hashes[number] = is_empty ? 0 : hash_of(slot);
    if (is_empty) return 0;
    if (!is_slot(slot)) return TOPZERAD_BAD_RANGE;
    refusal = is_double(pool, slot, number, &is);
    if (refusal || is) return refusal ? refusal : TOPZERAD_BAD_RANGE;
    set_in(&table->named, number);
    if (wanted && !memcmp(slot, wanted, SLOT)) table->object = number;
    return 0;
}

/* Reads the table, all of which is tested. TOPZERAD_BAD_RANGE if object 0 is none. */
static int read_table(topzerad *pool, const char *name, name_table *table) {
    uint8_t wanted[SLOT], slots[SLOTS * SLOT];
    size_t count;
    memset(table, 0, sizeof *table);
    if (name) slot_of(wanted, name);
    int refusal = topzerad_length(pool, 0, &table->length);
    if (refusal == TOPZERAD_NO_OBJECT) return 0;
    if (refusal) return refusal;
    if (table->length % SLOT || table->length > (uint64_t)SLOT * TOPZERAD_OBJECTS) return TOPZERAD_BAD_RANGE;
    for (uint64_t at = 0; at < table->length; at += count) {
        uint64_t end = table->length - at < sizeof slots ? table->length : at + sizeof slots;
        refusal = topzerad_read(pool, 0, at, end, slots, &count);
        if (!refusal && count != end - at) refusal = TOPZERAD_BAD_RANGE;
        for (size_t i = 0; !refusal && i < count; i += SLOT)
            refusal = take_slot(pool, table, (uint32_t)((at + i) / SLOT), slots + i, name ? wanted : NULL);
        if (refusal) return refusal;
    }
    return 0;
}

/* Which objects are there. */
static int list_objects(topzerad *pool, numbers *there) {
    topzerad_listed listed[LISTED];
    size_t count;
    memset(there, 0, sizeof *there);
    for (uint32_t first = 0; first < TOPZERAD_OBJECTS; first += LISTED) {
        int refusal = topzerad_objects(pool, first, first + LISTED, listed, &count);
        if (refusal) return refusal;
        for (size_t i = 0; i < count; i++) set_in(there, listed[i].object);
    }
    return 0;
}

/* The lowest number from 1 on without a name and an object, or 0. */
static uint32_t free_number(const name_table *table, const numbers *there) {
    for (uint32_t number = 1; number < TOPZERAD_OBJECTS; number++)
        if (!is_in(&table->named, number) && !is_in(there, number)) return number;
    return 0;
}

/* Commits the first piece of a put. `*object` is the number that it takes. */
static int put_first(topzerad *pool, const char *name, const void *bytes, size_t count, uint32_t *object) {
    name_table table;
    numbers there;
    uint8_t slot[SLOT];
    topzerad_tx tx;
    int refusal = read_table(pool, name, &table);
    if (!refusal) refusal = list_objects(pool, &there);
    if (refusal) return refusal;
    int is_new = !table.object;
    *object = is_new ? free_number(&table, &there) : table.object;
    if (!*object) return TOPZERAD_TOO_MANY;
    slot_of(slot, name);
    topzerad_tx_start(&tx, pool->names.record, sizeof pool->names.record);
    if (is_new && !is_in(&there, 0)) refusal = topzerad_tx_create(&tx, 0);
    if (!refusal && is_new && !table.length) refusal = topzerad_tx_write(&tx, 0, 0, header, SLOT);
    if (!refusal && is_new) refusal = topzerad_tx_write(&tx, 0, (uint64_t)SLOT * *object, slot, SLOT);
    if (!refusal) {
        int is_there = is_in(&there, *object);
        refusal = is_there ? topzerad_tx_set_length(&tx, *object, 0) : topzerad_tx_create(&tx, *object);
    }
    if (!refusal && count) refusal = topzerad_tx_write(&tx, *object, 0, bytes, count);
    return refusal ? refusal : topzerad_transact(pool, &tx, NULL);
}

static int put_rest(topzerad *pool, uint32_t object, uint64_t offset, const uint8_t *bytes, size_t count) {
    topzerad_tx tx;
    for (size_t at = 0; at < count; at += PUT_PIECE) {
        size_t piece = count - at < PUT_PIECE ? count - at : PUT_PIECE;
        topzerad_tx_start(&tx, pool->names.record, sizeof pool->names.record);
        int refusal = topzerad_tx_write(&tx, object, offset + at, bytes + at, piece);
        if (!refusal) refusal = topzerad_transact(pool, &tx, NULL);
        if (refusal) return refusal;
    }
    return topzerad_flush(pool);
}

/* If a transaction of another thread has taken the number meanwhile, the next one is taken. */
static int put_named(topzerad *pool, const char *name, const uint8_t *bytes, size_t count, uint32_t *object) {
    size_t first = count < PUT_PIECE ? count : PUT_PIECE;
    uint32_t tried = 0;
    int refusal = put_first(pool, name, bytes, first, object);
    while (refusal == TOPZERAD_EXISTS && *object != tried) {
        tried = *object;
        refusal = put_first(pool, name, bytes, first, object);
    }
    if (!refusal && count > PUT_PIECE) topzerad_hold(pool, 0); /* other programs needn't wait for the rest */
    return refusal ? refusal : put_rest(pool, *object, first, bytes + first, count - first);
}

static int find_named(topzerad *pool, const char *name, uint32_t *object) {
    name_table table;
    int refusal = read_table(pool, name, &table);
    *object = table.object;
    return refusal ? refusal : table.object ? 0 : TOPZERAD_NO_OBJECT;
}

static int get_named(topzerad *pool, const char *name, void *into, size_t room, uint64_t *length) {
    uint32_t object;
    size_t count = 0;
    int refusal = find_named(pool, name, &object);
    if (!refusal) refusal = topzerad_length(pool, object, length);
    if (refusal || !room) return refusal;
    if (room > TOPZERAD_MAX_LENGTH) room = TOPZERAD_MAX_LENGTH;
    return topzerad_read(pool, object, 0, room, into, &count);
}

static int remove_named(topzerad *pool, const char *name) {
    uint32_t object;
    uint64_t length;
    topzerad_tx tx;
    int refusal = find_named(pool, name, &object);
    if (refusal) return refusal;
    int is_there = topzerad_length(pool, object, &length);
    if (is_there && is_there != TOPZERAD_NO_OBJECT) return is_there;
    topzerad_tx_start(&tx, pool->names.record, sizeof pool->names.record);
    if (!is_there) refusal = topzerad_tx_remove(&tx, object);
    if (!refusal) refusal = topzerad_tx_write(&tx, 0, (uint64_t)SLOT * object, empty_slot, SLOT);
    return refusal ? refusal : topzerad_transact_durably(pool, &tx, NULL, NULL);
}

static int list_names(topzerad *pool, uint32_t first, topzerad_named *into, size_t room, size_t *count) {
    name_table table;
    uint8_t slot[SLOT];
    size_t read;
    int refusal = read_table(pool, NULL, &table);
    for (uint32_t number = first; !refusal && number < TOPZERAD_OBJECTS && *count < room; number++) {
        if (!is_in(&table.named, number)) continue;
        refusal = topzerad_read(pool, 0, (uint64_t)SLOT * number, (uint64_t)SLOT * (number + 1), slot, &read);
        if (!refusal && (read != SLOT || !is_slot(slot))) refusal = TOPZERAD_BAD_RANGE;
        if (refusal) break;
        topzerad_named *named = &into[(*count)++];
        named->object = number;
        memset(named->name, 0, sizeof named->name);
        memcpy(named->name, slot + 2, slot[0]);
    }
    if (refusal) *count = 0;
    return refusal;
}

/* Takes the lock of names. A thread isn't cancelled while it has it. In a child of a fork another thread of the parent
 * may have had it. */
static int begin(topzerad *pool, const char *name, int *state) {
    if (name && !is_name((const uint8_t *)name, strlen(name))) return TOPZERAD_BAD_RANGE;
    if (pool->socket < 0) return TOPZERAD_ENDED;
    if (topzerad_is_forked(pool)) return TOPZERAD_FORKED;
    pthread_setcancelstate(PTHREAD_CANCEL_DISABLE, state);
    pthread_mutex_lock(&pool->naming);
    topzerad_hold(pool, 1);
    return 0;
}

static int end(topzerad *pool, int state, int refusal) {
    topzerad_hold(pool, 0);
    pthread_mutex_unlock(&pool->naming);
    pthread_setcancelstate(state, NULL);
    return refusal;
}

int topzerad_put_named(topzerad *pool, const char *name, const void *bytes, size_t count, uint32_t *object) {
    uint32_t number = 0;
    int state;
    if (count > TOPZERAD_MAX_LENGTH) return TOPZERAD_BAD_RANGE;
    int refusal = begin(pool, name, &state);
    if (refusal) return refusal;
    refusal = end(pool, state, put_named(pool, name, bytes, count, &number));
    if (object) *object = number;
    return refusal;
}

int topzerad_find_named(topzerad *pool, const char *name, uint32_t *object) {
    int state, refusal = begin(pool, name, &state);
    return refusal ? refusal : end(pool, state, find_named(pool, name, object));
}

int topzerad_get_named(topzerad *pool, const char *name, void *into, size_t room, uint64_t *length) {
    int state, refusal = begin(pool, name, &state);
    *length = 0;
    return refusal ? refusal : end(pool, state, get_named(pool, name, into, room, length));
}

int topzerad_remove_named(topzerad *pool, const char *name) {
    int state, refusal = begin(pool, name, &state);
    return refusal ? refusal : end(pool, state, remove_named(pool, name));
}

int topzerad_names(topzerad *pool, uint32_t first, topzerad_named *into, size_t room, size_t *count) {
    int state, refusal = begin(pool, NULL, &state);
    *count = 0;
    return refusal ? refusal : end(pool, state, list_names(pool, first, into, room, count));
}
