/* ztxg-hub: several processes share a pool. hub.h has its rules. */
#define _GNU_SOURCE
#include "hub.h"

#include <errno.h>
#include <limits.h>
#include <stdlib.h>
#include <string.h>
#include <sys/resource.h>

enum { LISTENER, SERVER, METRICS, FIRST_CLIENT };
enum { OTHER_FILES = 16 + 1 + VIEWERS, NANOSECONDS_OF_A_MILLISECOND = 1000000 };

/* The only one: the handler of signals needs it. */
static hub the_hub;

static void count_stop(int number) {
    (void)number;
    the_hub.stops++;
}

/* Lets a signal stop the hub while it waits, and never else. One that the hub's parent ignores stays ignored, but for
 * SIGTERM. */
static int stop_at(int number, sigset_t *blocked) {
    struct sigaction before, action;
    memset(&action, 0, sizeof action);
    action.sa_handler = count_stop;
    if (sigaction(number, NULL, &before)) return -1;
    if (before.sa_handler == SIG_IGN && number != SIGTERM) return 0;
    return sigaddset(blocked, number) || sigaction(number, &action, NULL) ? -1 : 0;
}

/* Blocks the signals that stop the hub, except while it waits. `open` is what is blocked then. */
static int take_signals(sigset_t *open) {
    sigset_t blocked;
    sigemptyset(&blocked);
    if (stop_at(SIGTERM, &blocked) || stop_at(SIGINT, &blocked) || stop_at(SIGHUP, &blocked)) return -1;
    if (signal(SIGPIPE, SIG_IGN) == SIG_ERR) return -1;
    return sigprocmask(SIG_BLOCK, &blocked, open);
}

/* Takes all memory that there will be. */
static int take_memory(hub *h) {
    size_t most = h->options.most;
    h->memory = calloc(most + 2, MAX_FRAME);
    h->clients = calloc(most, sizeof *h->clients);
    h->polled = calloc(most + FIRST_CLIENT + VIEWERS, sizeof *h->polled);
    h->shown = calloc(most, sizeof *h->shown);
    if (!h->memory || !h->clients || !h->polled || !h->shown) return -1;
    if ((h->metrics.path || h->metrics.is_given) && hub_prepare_viewers(h)) return -1;
    h->server.out = h->memory + most * MAX_FRAME;
    h->server.in = h->server.out + MAX_FRAME;
    for (size_t i = 0; i < most; i++) {
        h->clients[i].socket = -1;
        h->clients[i].bytes = h->memory + i * MAX_FRAME;
    }
    return 0;
}

static void give_memory_back(hub *h) {
    free(h->memory);
    free(h->clients);
    free(h->polled);
    free(h->shown);
    free(h->viewers);
    free(h->pages);
}

/* Lets the process have as many files as it needs, if it may. */
static void raise_limit_of_files(const hub *h) {
    struct rlimit limit;
    rlim_t needed = h->options.most + OTHER_FILES;
    if (getrlimit(RLIMIT_NOFILE, &limit) || limit.rlim_cur >= needed) return;
    limit.rlim_cur = needed < limit.rlim_max ? needed : limit.rlim_max;
    if (setrlimit(RLIMIT_NOFILE, &limit)) hub_tell("the limit of files can't be raised");
}

/* Stopping. */

static void begin_stop(hub *h) {
    h->is_stopping = 1;
    hub_end_listening(h);
}

static void close_all(hub *h) {
    for (size_t i = 0; i < h->options.most; i++) {
        client *c = &h->clients[i];
        if (hub_is_awaited(c))
            hub_close_client(h, c, NULL);
        else if (c->stage != FREE)
            c->is_gone = 1;
    }
}

/* The server is gone: the clients lose their connections, but for those whose answers are being written. */
static void lose_server(hub *h) {
    h->server.is_gone = 1;
    h->server.out_size = h->server.out_done = 0;
    begin_stop(h);
    hub_end_look(h, 0);
    h->holder = NULL;
    h->waiting = (line){NULL, &h->waiting.first};
    h->asked = (line){NULL, &h->asked.first};
    for (size_t i = 0; i < h->options.most; i++) {
        client *c = &h->clients[i];
        if (c->stage != FREE && c->stage != ANSWERING) hub_close_client(h, c, NULL);
    }
}

/* Takes in the signals that came. The first lets all that is under way end, and the second doesn't. */
static void notice_stops(hub *h) {
    if (h->stops && !h->is_stopping) begin_stop(h);
    if (h->stops > 1) close_all(h);
    hub_tend_clients(h, topzerad_now());
    hub_tend_viewers(h, topzerad_now());
    int is_last = h->is_stopping && (!h->count || h->stops > 1);
    if (is_last && !h->server.is_gone && !h->server.is_closing) hub_close_server(h);
}

/* Waiting. */

/* What is waited for of a client. One that is gone is left alone until its frame was answered. poll refuses more
 * entries than the process may have files, so only clients that are there have one. */
static struct pollfd polled_client(const client *c) {
    short events = c->stage == READING ? POLLIN : c->stage == ANSWERING ? POLLOUT : 0;
    return (struct pollfd){c->is_gone ? -1 : c->socket, events, 0};
}

static struct pollfd polled_listener(const listener *l, uint64_t now) {
    return (struct pollfd){now < l->pause ? -1 : l->file, POLLIN, 0};
}

/* Sets what is waited for. Returns how many entries it has. */
static size_t set_polled(hub *h, uint64_t now) {
    const server *s = &h->server;
    short out = s->out_done < s->out_size ? POLLOUT : 0;
    h->polled[LISTENER] = polled_listener(&h->listener, now);
    h->polled[METRICS] = polled_listener(&h->metrics, now);
    if (!hub_free_viewer(h)) h->polled[METRICS].fd = -1; /* others wait until one has ended */
    h->polled[SERVER] = (struct pollfd){s->is_gone ? -1 : s->socket, (short)(POLLIN | out), 0};
    h->shown_count = 0;
    for (size_t i = 0; i < h->options.most; i++) {
        if (h->clients[i].stage == FREE) continue;
        h->polled[FIRST_CLIENT + h->shown_count] = polled_client(&h->clients[i]);
        h->shown[h->shown_count++] = i;
    }
    return hub_poll_viewers(h, FIRST_CLIENT + h->shown_count);
}

static uint64_t least(uint64_t one, uint64_t other) { return one < other ? one : other; }

/* When a socket lets in again. */
static uint64_t end_of_pause(const listener *l, uint64_t now) { return l->pause > now ? l->pause : NO_DEADLINE; }

/* When something is due that no file tells. */
static uint64_t next_deadline(const hub *h, uint64_t now) {
    uint64_t next = least(end_of_pause(&h->listener, now), end_of_pause(&h->metrics, now));
    next = least(next, hub_viewer_deadline(h));
    if (h->holder && hub_is_awaited(h->holder) && h->hold_end < next) next = h->hold_end;
    for (size_t i = 0; i < h->options.most; i++) {
        const client *c = &h->clients[i];
        if (hub_is_awaited(c) && c->deadline < next) next = c->deadline;
    }
    return next;
}

/* Waits for files, for a signal, or for the next deadline. */
static int wait_for_files(hub *h, const sigset_t *open) {
    uint64_t now = topzerad_now(), next = next_deadline(h, now);
    uint64_t left = next > now ? next - now : NANOSECONDS_OF_A_MILLISECOND;
    struct timespec time = {(time_t)(left / SECOND), (long)(left % SECOND)};
    size_t count = set_polled(h, now);
    int ready = ppoll(h->polled, count, next == NO_DEADLINE ? NULL : &time, open);
    return ready < 0 && errno != EINTR ? -1 : ready;
}

static void serve_client(hub *h, client *c, short came) {
    if (c->stage == READING && came)
        hub_read_client(h, c);
    else if (c->stage == ANSWERING && came)
        hub_write_client(h, c);
    else if (came & (POLLHUP | POLLERR))
        hub_lose_client(h, c);
}

/* Does what can be done at once. A slot has the client that was polled, or none: clients come in last. */
static void serve_files(hub *h) {
    if (h->polled[SERVER].revents && hub_read_server(h)) lose_server(h);
    for (size_t i = 0; i < h->shown_count; i++) {
        const struct pollfd *polled = &h->polled[FIRST_CLIENT + i];
        client *c = &h->clients[h->shown[i]];
        if (polled->revents && c->socket == polled->fd) serve_client(h, c, polled->revents);
    }
    hub_serve_viewers(h);
    if (h->polled[LISTENER].revents && h->listener.file >= 0) hub_let_in(h, &h->listener);
    if (h->polled[METRICS].revents && h->metrics.file >= 0) hub_let_in(h, &h->metrics);
}

/* Runs until the server is gone and the last answer was written. */
static int run(hub *h, const sigset_t *open) {
    for (;;) {
        notice_stops(h);
        hub_make_batch(h);
        if (!h->server.is_gone && hub_write_server(h)) lose_server(h);
        if (h->server.is_gone && !h->count) return 0;
        int ready = wait_for_files(h, open);
        if (ready < 0 && errno != EINTR) return -1;
        if (ready > 0) serve_files(h);
    }
}

static int serve(hub *h) {
    sigset_t open;
    int status = hub_start_server(h);
    if (status) return status;
    hub_begin_counting(h);
    status = take_signals(&open) ? hub_cannot_use("signals", NULL, errno) : hub_listen(h);
    if (!status && run(h, &open)) status = hub_cannot_use("poll", NULL, errno);
    hub_end_listening(h);
    hub_close_viewers(h);
    if (status) hub_close_server(h);
    int ended = hub_end_server(h);
    return status ? status : ended;
}

int main(int count, char **words) {
    hub *h = &the_hub;
    h->listener.file = h->metrics.file = h->server.socket = -1;
    h->waiting.last = &h->waiting.first;
    h->asked.last = &h->asked.first;
    int status = hub_read_options(&h->options, count, words);
    if (status >= 0) return status;
    status = hub_prepare(h);
    if (status) return status;
    raise_limit_of_files(h);
    status = take_memory(h) ? hub_cannot_use("memory", NULL, errno) : serve(h);
    give_memory_back(h);
    return status;
}
