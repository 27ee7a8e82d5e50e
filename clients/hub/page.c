/* The page of metrics, in the text format of Prometheus, version 0.0.4. */
#include "hub.h"

#include <inttypes.h>
#include <stdarg.h>
#include <stdio.h>

enum { BLOCK = 4096 }; /* the bytes of a block of a pool */

#define NANOSECONDS UINT64_C(1000000000)
#define MICROSECONDS UINT64_C(1000000)

/* Bytes that are written from the front. Room for the longest numbers is there. */
typedef struct {
    char *at;
    size_t left;
} sheet;

__attribute__((format(printf, 2, 3))) static void add(sheet *s, const char *format, ...) {
    va_list arguments;
    va_start(arguments, format);
    int count = vsnprintf(s->at, s->left, format, arguments);
    va_end(arguments);
    if (count < 0 || (size_t)count >= s->left) return;
    s->at += count;
    s->left -= (size_t)count;
}

static void add_help(sheet *s, const char *name, const char *type, const char *help) {
    add(s, "# HELP ztxg_%s %s\n# TYPE ztxg_%s %s\n", name, help, name, type);
}

static void add_seconds(sheet *s, uint64_t nanoseconds) {
    add(s, "%" PRIu64 ".%09" PRIu64 "\n", nanoseconds / NANOSECONDS, nanoseconds % NANOSECONDS);
}

/* A number by itself. */
static void add_one(sheet *s, const char *name, const char *type, const char *help, uint64_t value) {
    add_help(s, name, type, help);
    add(s, "ztxg_%s %" PRIu64 "\n", name, value);
}

/* Numbers with one label. */
static void add_all(sheet *s, const char *name, const char *help, const char *label, const char *const labels[],
                    const uint64_t values[], size_t count) {
    add_help(s, name, "counter", help);
    for (size_t i = 0; i < count; i++)
        add(s, "ztxg_%s{%s=\"%s\"} %" PRIu64 "\n", name, label, labels[i], values[i]);
}

static void add_calls(sheet *s, const numbers *n) {
    add_all(s, "requests_total", "Requests that were answered.", "kind", hub_call_names, n->requests, CALLS);
    add_all(s, "refused_requests_total", "Requests that the pool refused.", "refusal", hub_refusal_names + 1,
            n->refused_requests, LAST_REFUSAL);
    add_all(s, "refused_frames_total", "Frames that were refused whole.", "refusal", hub_frame_refusal_names,
            n->refused_frames, FRAME_REFUSALS);
    add_one(s, "commits_total", "counter", "Transactions that were committed.", n->commits);
    add_one(s, "durable_commits_total", "counter", "Transactions that were committed and made durable.",
            n->durable_commits);
    add_one(s, "undurable_commits_total", "counter", "Transactions that were committed and could not be made durable.",
            n->undurable_commits);
    add_one(s, "read_bytes_total", "counter", "Bytes that clients read.", n->read_bytes);
    add_one(s, "written_bytes_total", "counter", "Bytes that committed transactions wrote.", n->written_bytes);
    add_one(s, "syncs_total", "counter", "Groups that became synced.", n->syncs);
}

static void add_clients(sheet *s, const numbers *n) {
    add_help(s, "uptime_seconds", "gauge", "Seconds since the hub began.");
    add(s, "ztxg_uptime_seconds ");
    add_seconds(s, n->age);
    add_one(s, "clients", "gauge", "Clients that are connected.", n->clients);
    add_one(s, "most_clients", "gauge", "The most clients at once.", n->most_clients);
    add_one(s, "connections_total", "counter", "Clients that were let in.", n->connections);
    add_one(s, "turned_away_total", "counter", "Clients that were not let in.", n->turned_away);
    add_one(s, "waiting_frames", "gauge", "Frames of clients that are not answered yet.", n->waiting_frames);
    add_one(s, "frames_total", "counter", "Frames of clients that were taken.", n->frames);
    add_one(s, "server_frames_total", "counter", "Frames to the server, which clients share.", n->server_frames);
    add_one(s, "most_shared_frames", "gauge", "The most frames of clients that shared one to the server.",
            n->most_shared);
}

/* The histogram of one kind of call. A bucket counts the shorter calls, too. */
static void add_histogram(sheet *s, const char *kind, const times *t) {
    uint64_t count = 0;
    for (size_t i = 0; i < BOUNDS; i++) {
        uint64_t bound = UINT64_C(1) << i;
        count += t->counts[i];
        add(s, "ztxg_call_seconds_bucket{kind=\"%s\",le=\"%" PRIu64 ".%06" PRIu64 "\"} %" PRIu64 "\n", kind,
            bound / MICROSECONDS, bound % MICROSECONDS, count);
    }
    count += t->counts[BOUNDS];
    add(s, "ztxg_call_seconds_bucket{kind=\"%s\",le=\"+Inf\"} %" PRIu64 "\n", kind, count);
    add(s, "ztxg_call_seconds_sum{kind=\"%s\"} ", kind);
    add_seconds(s, t->sum);
    add(s, "ztxg_call_seconds_count{kind=\"%s\"} %" PRIu64 "\n", kind, count);
}

static void add_times(sheet *s, const times t[TIMED]) {
    add_help(s, "call_seconds", "histogram", "Time from a whole frame to the answers of its calls.");
    for (size_t i = 0; i < TIMED; i++) add_histogram(s, hub_timed_names[i], &t[i]);
    add_help(s, "longest_call_seconds", "gauge", "The longest time of a call since the hub began.");
    for (size_t i = 0; i < TIMED; i++) {
        add(s, "ztxg_longest_call_seconds{kind=\"%s\"} ", hub_timed_names[i]);
        add_seconds(s, t[i].longest);
    }
}

static void add_pool(sheet *s, const topzerad_status *pool) {
    add_one(s, "synced_group", "gauge", "The group that was synced last.", pool->synced);
    add_one(s, "syncing_group", "gauge", "The group that is being synced, or 0.", pool->syncing);
    add_one(s, "middle_group", "gauge", "The group that waits to be synced, or 0.", pool->middle);
    add_one(s, "open_group", "gauge", "The group that takes transactions, or 0.", pool->open);
    add_one(s, "dirty_bytes", "gauge", "Bytes that are charged to groups that are not synced.", pool->dirty);
    add_one(s, "free_bytes", "gauge", "Bytes of the blocks that are free.", pool->free * BLOCK);
    add_one(s, "available_bytes", "gauge", "Bytes of the blocks that transactions may take.", pool->available * BLOCK);
}

size_t hub_write_page(char page[MOST_PAGE], const numbers *n, const topzerad_status *pool) {
    sheet s = {page, MOST_PAGE};
    add_one(&s, "up", "gauge", "1 if the pool told its numbers within a second.", pool != NULL);
    add_one(&s, "dirty_limit_bytes", "gauge", "The most bytes that may be charged.", n->dirty_limit);
    if (pool) add_pool(&s, pool);
    add_clients(&s, n);
    add_calls(&s, n);
    add_times(&s, n->times);
    return MOST_PAGE - s.left;
}
