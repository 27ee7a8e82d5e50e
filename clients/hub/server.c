/* The server, `ztxg serve FILE`: it is started, asked by one batch after the other, and ended. */
#define _GNU_SOURCE
#include "hub.h"

#include <errno.h>
#include <sys/socket.h>
#include <sys/wait.h>
#include <time.h>
#include <unistd.h>

#define GRACE (10 * SECOND) /* how long a server that ended its output may take to end */

enum { MOST_WORDS = 16 };

/* Starting. */

static void add_option(const char **words, size_t *count, const char *option, const char *value) {
    if (!value) return;
    words[(*count)++] = option;
    words[(*count)++] = value;
}

static void put_opening(uint8_t opening[OPENING_SIZE], topzerad_opening opened) {
    hub_put_head(opening, OPENING_SIZE, OPENED, 0);
    put(opening + HEAD, opened.guid, 8);
    put(opening + HEAD + 8, opened.group, 8);
    put(opening + HEAD + 16, opened.records, 8);
}

/* The status for a pool that isn't open. A server that said why has told it on standard error, too. */
static int status_of(const hub *h, int refusal) {
    const char *cause = topzerad_cause(&h->server.pool);
    int is_told = h->server.pool.process && refusal != TOPZERAD_NO_OPENING;
    if (!is_told) hub_cannot_use(h->options.file, cause, 0);
    return refusal >= 1 && refusal <= LAST_REFUSAL ? REFUSED : UNUSABLE;
}

int hub_start_server(hub *h) {
    const options *o = &h->options;
    const char *words[MOST_WORDS] = {o->program, "serve"};
    size_t count = 2;
    add_option(words, &count, "--dirty", o->dirty);
    add_option(words, &count, "--cache", o->cache);
    add_option(words, &count, "--moment", o->moment);
    add_option(words, &count, "--wait", o->wait);
    add_option(words, &count, "--", o->file);
    int refusal = topzerad_open_with(&h->server.pool, words);
    if (refusal) return status_of(h, refusal);
    h->server.socket = h->server.pool.socket;
    put_opening(h->server.opening, topzerad_opened(&h->server.pool));
    return 0;
}

/* Batches. */

static int is_later(ssize_t done) { return done < 0 && (errno == EAGAIN || errno == EWOULDBLOCK || errno == EINTR); }

int hub_write_server(hub *h) {
    server *s = &h->server;
    while (s->out_done < s->out_size) {
        ssize_t sent = send(s->socket, s->out + s->out_done, s->out_size - s->out_done, MSG_NOSIGNAL | MSG_DONTWAIT);
        if (is_later(sent)) return 0;
        if (sent <= 0) return -1;
        s->out_done += (size_t)sent;
    }
    return 0;
}

/* The bytes of an answer that are to be read: its head, or all. 0 if its length is no frame's. */
static size_t wanted(const server *s) {
    if (s->in_done < HEAD) return HEAD;
    size_t size = get(s->in, 4);
    return size < HEAD || size > MAX_FRAME ? 0 : size;
}

static int no_answer(void) {
    hub_tell("the server answered what is no answer");
    return -1;
}

int hub_read_server(hub *h) {
    server *s = &h->server;
    for (;;) {
        size_t size = wanted(s);
        if (!size) return no_answer();
        if (s->in_done == size) {
            s->in_done = 0;
            return hub_take_answer(h) ? no_answer() : 0;
        }
        ssize_t got = recv(s->socket, s->in + s->in_done, size - s->in_done, MSG_DONTWAIT);
        if (is_later(got)) return 0;
        if (got <= 0) return -1;
        s->in_done += (size_t)got;
    }
}

/* The end. */

void hub_close_server(hub *h) {
    h->server.is_closing = 1;
    shutdown(h->server.socket, SHUT_WR); /* it fails if the server is gone, as its status says */
}

/* Waits for the end of the server's process, and kills it if it was to end by itself and doesn't. */
static int wait_for_end(const server *s) {
    const struct timespec pause = {0, 5000000};
    uint64_t deadline = s->is_closing ? NO_DEADLINE : topzerad_now() + GRACE;
    int status;
    for (;;) {
        pid_t waited = waitpid(s->pool.process, &status, s->is_closing ? 0 : WNOHANG);
        if (waited == s->pool.process) return status;
        if (waited < 0 && errno != EINTR) return UNUSABLE << 8;
        if (topzerad_now() >= deadline) kill(s->pool.process, SIGKILL);
        if (!s->is_closing) nanosleep(&pause, NULL);
    }
}

int hub_end_server(hub *h) {
    close(h->server.socket);
    int status = wait_for_end(&h->server);
    if (WIFSIGNALED(status)) {
        hub_tell("the server was ended by signal %d", WTERMSIG(status));
        return BY_SIGNAL + WTERMSIG(status);
    }
    if (!WEXITSTATUS(status) && !h->server.is_closing) return UNUSABLE;
    return WEXITSTATUS(status);
}
