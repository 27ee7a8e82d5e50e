/* Objects by name, on a pool without objects. */
#include "check.h"
#include "topzerad.h"

#include <pthread.h>
#include <string.h>

enum { LONG = 200000, PUT = 100000, THREADS = 4, MANY = 5291, SLOT = 256 };

static topzerad pool;
static uint8_t memory[TOPZERAD_MAX_RECORD], bytes[LONG], back[SLOT * TOPZERAD_OBJECTS];
static uint8_t good[SLOT * (TOPZERAD_OBJECTS + 1)];
static topzerad_named named[MANY];

static int put_text(const char *name, const char *text, uint32_t *object) {
    return topzerad_put_named(&pool, name, text, strlen(text), object);
}

static void want_text(const char *name, const char *text) {
    uint64_t length;
    WANT(topzerad_get_named(&pool, name, back, sizeof back, &length) == 0);
    WANT(length == strlen(text) && memcmp(back, text, length) == 0);
}

static void transact(int (*add)(topzerad_tx *, uint32_t), uint32_t object) {
    topzerad_tx tx;
    topzerad_tx_start(&tx, memory, sizeof memory);
    WANT(add(&tx, object) == 0 && topzerad_transact(&pool, &tx, NULL) == 0);
}

/* Gives object 0 these bytes alone. */
static void replace(const uint8_t *content, size_t count) {
    topzerad_tx tx;
    topzerad_tx_start(&tx, memory, sizeof memory);
    WANT(topzerad_tx_set_length(&tx, 0, 0) == 0 && topzerad_transact(&pool, &tx, NULL) == 0);
    for (size_t at = 0; at < count; at += 60000) {
        topzerad_tx_start(&tx, memory, sizeof memory);
        WANT(topzerad_tx_write(&tx, 0, at, content + at, count - at < 60000 ? count - at : 60000) == 0);
        WANT(topzerad_transact(&pool, &tx, NULL) == 0);
    }
}

static void name_objects(void) {
    topzerad_listed listed[8];
    uint32_t object;
    uint64_t length;
    size_t count;
    WANT(topzerad_names(&pool, 0, named, MANY, &count) == 0 && count == 0);
    WANT(topzerad_get_named(&pool, "report.pdf", back, sizeof back, &length) == TOPZERAD_NO_OBJECT && length == 0);
    WANT(topzerad_remove_named(&pool, "report.pdf") == TOPZERAD_NO_OBJECT);
    WANT(topzerad_objects(&pool, 0, 8, listed, &count) == 0 && count == 0);
    WANT(put_text("report.pdf", "one", &object) == 0 && object == 1);
    WANT(topzerad_objects(&pool, 0, 8, listed, &count) == 0 && count == 2);
    WANT(listed[0].length == 2 * SLOT && listed[1].length == 3);
    transact(topzerad_tx_create, 2);
    WANT(put_text("b c", "", &object) == 0 && object == 3);
    WANT(put_text("\303\244\342\202\254\360\237\230\200", "4", NULL) == 0);
    WANT(put_text("report.pdf", "2", &object) == 0 && object == 1);
    want_text("report.pdf", "2");
    want_text("b c", "");
    WANT(topzerad_get_named(&pool, "report.pdf", NULL, 0, &length) == 0 && length == 1);
    WANT(topzerad_remove_named(&pool, "b c") == 0);
    WANT(topzerad_find_named(&pool, "b c", &object) == TOPZERAD_NO_OBJECT);
    for (size_t i = 0; i < LONG; i++) bytes[i] = (uint8_t)(i % 251);
    WANT(topzerad_put_named(&pool, "after", bytes, LONG, &object) == 0 && object == 3);
    WANT(topzerad_get_named(&pool, "after", back, sizeof back, &length) == 0 && length == LONG);
    WANT(memcmp(back, bytes, LONG) == 0);
    transact(topzerad_tx_remove, 1);
    WANT(topzerad_get_named(&pool, "report.pdf", back, sizeof back, &length) == TOPZERAD_NO_OBJECT);
    WANT(put_text("report.pdf", "again", &object) == 0 && object == 1);
    transact(topzerad_tx_remove, 1);
    WANT(topzerad_remove_named(&pool, "report.pdf") == 0);
    WANT(topzerad_names(&pool, 0, named, MANY, &count) == 0 && count == 2);
    WANT(named[0].object == 3 && !strcmp(named[0].name, "after"));
    WANT(named[1].object == 4 && !strcmp(named[1].name, "\303\244\342\202\254\360\237\230\200"));
    WANT(topzerad_names(&pool, 4, named, 1, &count) == 0 && count == 1 && named[0].object == 4);
}

static void refuse_names(void) {
    const char *const bad[] = {"",         "a/b",  "\n",          "\177",    "\302\205",        "\377", "\300\200",
                               "\340\200\200", "\355\240\200", "\364\220\200\200", "\342\202"};
    char longest[256];
    size_t count;
    for (size_t i = 0; i < sizeof bad / sizeof *bad; i++) WANT(put_text(bad[i], "1", NULL) == TOPZERAD_BAD_RANGE);
    memset(longest, 'x', sizeof longest);
    longest[255] = 0;
    WANT(put_text(longest, "1", NULL) == TOPZERAD_BAD_RANGE);
    longest[254] = 0;
    WANT(put_text(longest, "1", NULL) == 0);
    want_text(longest, "1");
    WANT(topzerad_remove_named(&pool, longest) == 0);
    WANT(topzerad_names(&pool, 0, named, MANY, &count) == 0 && count == 2);
}

/* An object 0 of another use is left as it is. */
static void want_foreign(const uint8_t *content, size_t count) {
    uint64_t length;
    size_t listed, read;
    replace(content, count);
    WANT(put_text("new", "3", NULL) == TOPZERAD_BAD_RANGE);
    WANT(topzerad_remove_named(&pool, "after") == TOPZERAD_BAD_RANGE);
    WANT(topzerad_get_named(&pool, "after", back, sizeof back, &length) == TOPZERAD_BAD_RANGE);
    WANT(topzerad_names(&pool, 0, named, MANY, &listed) == TOPZERAD_BAD_RANGE && listed == 0);
    WANT(topzerad_read(&pool, 0, 0, sizeof back, back, &read) == 0);
    WANT(read == (count < sizeof back ? count : sizeof back));
    WANT(memcmp(back, content, read) == 0);
}

static void refuse_foreign_objects(void) {
    uint32_t object;
    size_t end, count;
    WANT(topzerad_read(&pool, 0, 0, sizeof back, good, &end) == 0 && end == 5 * SLOT);
    want_foreign(good, end - 1);
    want_foreign(good, sizeof good);
    memset(good + end, 0, SLOT);
    good[end] = 255; /* a name of 255 bytes */
    memset(good + end + 2, 'x', SLOT - 2);
    want_foreign(good, end + SLOT);
    memcpy(good + end, good + 3 * SLOT, SLOT); /* a name that stands twice */
    want_foreign(good, end + SLOT);
    good[end + SLOT - 1] = 1; /* no zeros behind the name */
    want_foreign(good, end + SLOT);
    memset(good + end, 0, SLOT);
    good[end + 1] = 1; /* a high byte of the length */
    want_foreign(good, end + SLOT);
    good[end + 1] = 0;
    good[0] = 'T';
    want_foreign(good, end);
    good[0] = 't';
    replace(good, sizeof back);
    WANT(topzerad_names(&pool, 0, named, MANY, &count) == 0 && count == 2);
    WANT(put_text("three", "3", &object) == 0 && object == 1);
}

static void use_all_numbers(void) {
    uint32_t object;
    size_t count;
    memset(good + SLOT, 0, sizeof good - SLOT);
    for (uint32_t number = 1; number < MANY; number++) {
        uint8_t *slot = good + SLOT * number;
        slot[0] = (uint8_t)snprintf((char *)slot + 2, 16, "%u", number);
    }
    replace(good, SLOT * MANY);
    WANT(put_text("last", "1", &object) == 0 && object == 5291);
    WANT(put_text("one more", "1", NULL) == TOPZERAD_TOO_MANY);
    WANT(topzerad_names(&pool, 0, named, MANY, &count) == 0 && count == MANY);
    WANT(topzerad_remove_named(&pool, "17") == 0 && put_text("one more", "1", &object) == 0 && object == 17);
    replace(good, SLOT);
}

static void *put_each(void *of) {
    static const char *const names[] = {"a", "b", "c", "d"};
    static uint8_t content[THREADS][PUT];
    uint8_t *own = content[(size_t)of];
    uint32_t object, found;
    memset(own, (int)(size_t)of, PUT);
    for (size_t i = 0; i < 4; i++) {
        WANT(topzerad_put_named(&pool, names[i], own, PUT, &object) == 0);
        WANT(topzerad_find_named(&pool, names[i], &found) == 0 && found == object);
    }
    return NULL;
}

static void put_by_threads(void) {
    pthread_t threads[THREADS];
    uint64_t length;
    size_t count;
    for (size_t i = 0; i < THREADS; i++) WANT(pthread_create(&threads[i], NULL, put_each, (void *)i) == 0);
    for (size_t i = 0; i < THREADS; i++) WANT(pthread_join(threads[i], NULL) == 0);
    WANT(topzerad_names(&pool, 0, named, MANY, &count) == 0 && count == 4);
    for (size_t i = 0; i < count; i++) {
        WANT(topzerad_get_named(&pool, named[i].name, back, sizeof back, &length) == 0 && length == PUT);
        WANT(memcmp(back, back + 1, PUT - 1) == 0);
    }
}

int main(int count, char **words) {
    topzerad_listed listed[TOPZERAD_OBJECTS];
    size_t objects;
    open_pool(&pool, count, words);
    name_objects();
    refuse_names();
    refuse_foreign_objects();
    use_all_numbers();
    put_by_threads();
    WANT(topzerad_objects(&pool, 0, TOPZERAD_OBJECTS, listed, &objects) == 0);
    for (size_t i = 0; i < objects; i++) transact(topzerad_tx_remove, listed[i].object);
    WANT(topzerad_close(&pool) == 0);
    WANT(topzerad_names(&pool, 0, named, MANY, &objects) == TOPZERAD_ENDED);
    puts("check: objects by name are right");
    return 0;
}
