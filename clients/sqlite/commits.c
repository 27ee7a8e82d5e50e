/* How SQLite ends a commit. What it wrote is sent then, and not only gathered: a refusal is told of while SQLite can
 * still take the commit back, and the end of this process loses no commit. */
#include "vfs.h"

#include <string.h>

/* The header of a frame of a write-ahead log: bytes 4 to 8 aren't zeros if the frame ends a commit. A page follows. */
enum { FRAME_HEADER = 24, SIZE_AT = 4, SIZE_PAST = 8 };
/* What SQLite writes over the header of a journal that it keeps. */
enum { JOURNAL_HEADER = 28 };

/* Whether the name of a file ends so. */
static int ends_with(const file *f, const char *suffix) {
    size_t count = strlen(f->name), size = strlen(suffix);
    return count > size && !strcmp(f->name + count - size, suffix);
}

/* The database of a journal or a log, if it is open; else the file itself. */
static file *owner_of(file *f) {
    const char *suffix = ends_with(f, "-journal") ? "-journal" : ends_with(f, "-wal") ? "-wal" : NULL;
    if (!suffix) return f;
    size_t count = strlen(f->name) - strlen(suffix);
    for (file *other = f->pool->files; other; other = other->next)
        if (!other->is_gone && strlen(other->name) == count && !memcmp(other->name, f->name, count)) return other;
    return f;
}

/* Whether a write ends a commit in a log. A header that is written once more has no page behind. */
static int ends_in_log(file *f, const uint8_t *bytes, uint64_t count, uint64_t at) {
    static const uint8_t none[SIZE_PAST - SIZE_AT];
    if (count != FRAME_HEADER) return at == f->commit_at + FRAME_HEADER;
    if (!memcmp(bytes + SIZE_AT, none, sizeof none)) return 0;
    int is_repeated = f->commit_at == at;
    f->commit_at = at;
    return is_repeated;
}

int commits_is_end(file *f, const uint8_t *bytes, uint64_t count, uint64_t at) {
    if (ends_with(f, "-wal")) return ends_in_log(f, bytes, count, at);
    return ends_with(f, "-journal") && !at && count == JOURNAL_HEADER;
}

/* A commit that a sync follows is made durable at once, so that the sync finds nothing to do. One follows if it did the
 * last time. */
int commits_send(file *f) {
    file *owner = owner_of(f);
    commit_end end = owner == f ? OF_DATABASE : ends_with(f, "-wal") ? OF_LOG : OF_JOURNAL;
    owner->awaited = end;
    return pool_send(f->pool, owner->syncs[end]);
}

void commits_follow(file *f, int is_sync) {
    file *owner = owner_of(f);
    if (owner->awaited != OF_NONE) owner->syncs[owner->awaited] = (uint8_t)is_sync;
    owner->awaited = OF_NONE;
}
