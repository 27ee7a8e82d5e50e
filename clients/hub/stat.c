/* `ztxg-ctl SOCKET stat`: the numbers of the pool and of its hub, as lines, as JSON, or again and again with rates. */
#define _GNU_SOURCE
#include "ctl.h"

#include <inttypes.h>
#include <poll.h>
#include <stdio.h>

enum { BAD_KIND = 5, HEADED = 20 }; /* the refusal of a hub that counts nothing; the rows of a table below one header */

#define NANOSECONDS 1e9

/* What was asked at one moment. */
typedef struct {
    topzerad_status pool;
    numbers hub;
} sample;

/* Asking. */

/* The connection can't be used any more. Returns a refusal. */
static int gone(topzerad *pool) {
    pool->ended = 1;
    return pool->is_late ? TOPZERAD_TIMED_OUT : TOPZERAD_ENDED;
}

/* Takes the numbers that this program knows. A later hub may have more. */
static int take_numbers(topzerad *pool, size_t left, numbers *n) {
    uint8_t bytes[8 * NUMBER_COUNT], more[8];
    if (topzerad_take_in(pool, bytes, sizeof bytes, &left)) return gone(pool);
    hub_get_numbers(bytes, n);
    while (left)
        if (topzerad_take_in(pool, more, sizeof more, &left)) return gone(pool);
    return 0;
}

static int ask_numbers(topzerad *pool, numbers *n) {
    uint8_t head[HEAD];
    size_t left = HEAD;
    hub_put_head(head, HEAD, ASK_NUMBERS, 0);
    pool->deadline = topzerad_deadline(pool->timeout);
    pool->is_late = 0;
    pool->used = 0;
    if (topzerad_put_out(pool, head, HEAD) || topzerad_empty_out(pool)) return gone(pool);
    pool->used = pool->taken = 0;
    if (topzerad_take_in(pool, head, HEAD, &left)) return gone(pool);
    uint64_t size = get(head, 4), kind = get(head + 6, 2), count = get(head + 8, 4);
    if (kind == REFUSED_FRAME && size == HEAD && count < TOPZERAD_SYSTEM - TOPZERAD_FRAME)
        return TOPZERAD_FRAME + (int)count;
    if (kind != NUMBERS || count < NUMBER_COUNT || size != HEAD + 8 * count) return gone(pool);
    return take_numbers(pool, (size_t)size - HEAD, n);
}

/* Asks for all numbers. Returns 0 or a status. */
static int take_sample(run *r, sample *s) {
    int refusal = topzerad_state(&r->pool, &s->pool);
    if (!refusal) refusal = ask_numbers(&r->pool, &s->hub);
    if (!refusal) return 0;
    if (refusal != TOPZERAD_FRAME + BAD_KIND) return ctl_refused(r, refusal, NULL);
    ctl_tell("the hub is older than ztxg-ctl, and counts nothing");
    return UNUSABLE;
}

/* Times. */

static uint64_t microseconds(uint64_t nanoseconds) { return nanoseconds / 1000 + (nanoseconds % 1000 > 0); }

/* The microseconds within which so many of a hundred calls were answered: the bound of a power of two, or the longest
 * time if that is less. There are calls. */
static uint64_t percentile(const times *t, uint64_t percent) {
    uint64_t calls = hub_count_calls(t), needed = calls - calls * (100 - percent) / 100, count = 0;
    uint64_t longest = microseconds(t->longest);
    for (size_t i = 0; i < BOUNDS; i++) {
        count += t->counts[i];
        if (count >= needed) return UINT64_C(1) << i < longest ? UINT64_C(1) << i : longest;
    }
    return longest;
}

/* The calls that came between two moments. Their longest is that of all. */
static times times_between(const times *before, const times *after) {
    times t = *after;
    t.sum -= before->sum;
    for (size_t i = 0; i < TIMES; i++) t.counts[i] -= before->counts[i];
    return t;
}

/* Printing: lines of a path and a number, or an object of JSON with the same keys. */

enum { DEPTH = 2 };

typedef struct {
    int is_json, is_next;
    size_t depth;
    const char *path[DEPTH];
} form;

static void print_key(form *f, const char *key) {
    if (f->is_json) {
        printf("%s\"%s\":", f->is_next ? "," : "", key);
    } else {
        for (size_t i = 0; i < f->depth; i++) printf("%s.", f->path[i]);
        printf("%s ", key);
    }
    f->is_next = 1;
}

static void end_value(const form *f) {
    if (!f->is_json) putchar('\n');
}

static void print_number(form *f, const char *key, uint64_t value) {
    print_key(f, key);
    printf("%" PRIu64, value);
    end_value(f);
}

static void print_decimal(form *f, const char *key, double value) {
    print_key(f, key);
    printf("%.3f", value);
    end_value(f);
}

static void begin_group(form *f, const char *key) {
    if (f->is_json) printf("%s\"%s\":{", f->is_next ? "," : "", key);
    f->path[f->depth++] = key;
    f->is_next = 0;
}

static void end_group(form *f) {
    if (f->is_json) putchar('}');
    f->depth--;
    f->is_next = 1;
}

/* Numbers with names. Lines leave zeros out. */
static void print_all(form *f, const char *key, const char *const keys[], const uint64_t values[], size_t count) {
    begin_group(f, key);
    for (size_t i = 0; i < count; i++)
        if (f->is_json || values[i]) print_number(f, keys[i], values[i]);
    end_group(f);
}

/* A percentile, if there are calls. */
static void print_percentile(form *f, const char *key, const times *t, uint64_t percent) {
    print_key(f, key);
    if (hub_count_calls(t))
        printf("%" PRIu64, percentile(t, percent));
    else
        fputs(f->is_json ? "null" : "-", stdout);
    end_value(f);
}

static void print_percentiles(form *f, const times *t) {
    print_percentile(f, "median_us", t, 50);
    print_percentile(f, "percentile_99_us", t, 99);
}

static void print_counts(form *f, const times *t) {
    print_key(f, "counts");
    for (size_t i = 0; i < TIMES; i++)
        printf("%s%" PRIu64, i ? f->is_json ? "," : " " : f->is_json ? "[" : "", t->counts[i]);
    if (f->is_json) putchar(']');
    end_value(f);
}

static void print_times(form *f, const times *t) {
    print_number(f, "calls", hub_count_calls(t));
    print_number(f, "sum_us", microseconds(t->sum));
    print_number(f, "longest_us", microseconds(t->longest));
    print_percentiles(f, t);
    print_counts(f, t);
}

static void print_pool(form *f, const sample *s) {
    print_number(f, "synced", s->pool.synced);
    print_number(f, "syncing", s->pool.syncing);
    print_number(f, "middle", s->pool.middle);
    print_number(f, "open", s->pool.open);
    print_number(f, "dirty", s->pool.dirty);
    print_number(f, "free", s->pool.free);
    print_number(f, "available", s->pool.available);
    print_number(f, "dirty_limit", s->hub.dirty_limit);
}

static void print_hub(form *f, const numbers *n) {
    print_decimal(f, "seconds", (double)n->age / NANOSECONDS);
    print_number(f, "clients", n->clients);
    print_number(f, "most_clients", n->most_clients);
    print_number(f, "connections", n->connections);
    print_number(f, "turned_away", n->turned_away);
    print_number(f, "waiting_frames", n->waiting_frames);
    print_number(f, "frames", n->frames);
    print_number(f, "server_frames", n->server_frames);
    print_number(f, "most_shared_frames", n->most_shared);
    print_number(f, "commits", n->commits);
    print_number(f, "durable_commits", n->durable_commits);
    print_number(f, "undurable_commits", n->undurable_commits);
    print_number(f, "syncs", n->syncs);
    print_number(f, "read_bytes", n->read_bytes);
    print_number(f, "written_bytes", n->written_bytes);
    print_all(f, "requests", hub_call_names, n->requests, CALLS);
    print_all(f, "refused_requests", hub_refusal_names + 1, n->refused_requests, LAST_REFUSAL);
    print_all(f, "refused_frames", hub_frame_refusal_names, n->refused_frames, FRAME_REFUSALS);
    begin_group(f, "times");
    for (size_t i = 0; i < TIMED; i++) {
        begin_group(f, hub_timed_names[i]);
        print_times(f, &n->times[i]);
        end_group(f);
    }
    end_group(f);
}

/* Rates. */

/* What came between two moments, a second. */
typedef struct {
    double seconds, reads, commits, durable_commits, read_bytes, written_bytes;
    times times[TIMED];
} rates;

static double rate(uint64_t before, uint64_t after, double seconds) {
    return seconds > 0 ? (double)(after - before) / seconds : 0;
}

static void set_rates(rates *r, const numbers *before, const numbers *after) {
    double seconds = (double)(after->age - before->age) / NANOSECONDS;
    for (size_t i = 0; i < TIMED; i++) r->times[i] = times_between(&before->times[i], &after->times[i]);
    r->seconds = seconds;
    r->reads = rate(0, hub_count_calls(&r->times[TIMED_READ]), seconds);
    r->commits = rate(before->commits, after->commits, seconds);
    r->durable_commits = rate(before->durable_commits, after->durable_commits, seconds);
    r->read_bytes = rate(before->read_bytes, after->read_bytes, seconds);
    r->written_bytes = rate(before->written_bytes, after->written_bytes, seconds);
}

static void print_rates(form *f, const rates *r) {
    begin_group(f, "rates");
    print_decimal(f, "seconds", r->seconds);
    print_decimal(f, "reads", r->reads);
    print_decimal(f, "commits", r->commits);
    print_decimal(f, "durable_commits", r->durable_commits);
    print_decimal(f, "read_bytes", r->read_bytes);
    print_decimal(f, "written_bytes", r->written_bytes);
    for (size_t i = 0; i < TIMED; i++) {
        begin_group(f, hub_timed_names[i]);
        print_percentiles(f, &r->times[i]);
        end_group(f);
    }
    end_group(f);
}

static void print_header(void) {
    printf("%10s %10s %10s %12s %12s", "reads/s", "commits/s", "durable/s", "read_B/s", "written_B/s");
    printf(" %9s %9s %9s %9s %9s %9s", "read_50%", "read_99%", "comm_50%", "comm_99%", "dur_50%", "dur_99%");
    printf(" %12s %10s\n", "dirty", "free");
}

static void print_cell(const times *t, uint64_t percent) {
    if (hub_count_calls(t))
        printf(" %9" PRIu64, percentile(t, percent));
    else
        printf(" %9s", "-");
}

static void print_row(const sample *s, const rates *r) {
    printf("%10.1f %10.1f %10.1f %12.0f %12.0f", r->reads, r->commits, r->durable_commits, r->read_bytes,
           r->written_bytes);
    for (size_t i = 0; i < TIMED; i++) {
        print_cell(&r->times[i], 50);
        print_cell(&r->times[i], 99);
    }
    printf(" %12" PRIu64 " %10" PRIu64 "\n", s->pool.dirty, s->pool.free);
}

/* Commands. */

static void print_object(const sample *s, const rates *r) {
    form f = {.is_json = 1};
    putchar('{');
    print_pool(&f, s);
    print_hub(&f, &s->hub);
    if (r) print_rates(&f, r);
    puts("}");
}

static int print_once(run *r) {
    sample s;
    form f = {.is_json = 0};
    int status = take_sample(r, &s);
    if (status) return status;
    if (r->is_json) {
        print_object(&s, NULL);
    } else {
        print_pool(&f, &s);
        print_hub(&f, &s.hub);
    }
    return ctl_output_failed();
}

/* Waits until it is time. The end of the hub ends that early. */
static void pause_until(const run *r, uint64_t *next) {
    uint64_t now = topzerad_now();
    *next += (uint64_t)(r->watch * NANOSECONDS);
    if (*next < now) *next = now;
    (void)topzerad_wait_ready(r->pool.socket, POLLIN, *next);
}

static int watch(run *r) {
    sample before, now;
    rates rates;
    uint64_t next = topzerad_now();
    int status = take_sample(r, &before);
    for (unsigned row = 0; !status; row = (row + 1) % HEADED) {
        pause_until(r, &next);
        status = take_sample(r, &now);
        if (status) break;
        set_rates(&rates, &before.hub, &now.hub);
        if (!r->is_json && !row) print_header();
        if (r->is_json)
            print_object(&now, &rates);
        else
            print_row(&now, &rates);
        before = now;
        status = ctl_output_failed();
    }
    return status;
}

int ctl_print_stat(run *r) { return r->watch > 0 ? watch(r) : print_once(r); }
