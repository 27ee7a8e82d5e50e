/* Clients: their frames are read, and their answers written. */
#define _GNU_SOURCE
#include "hub.h"

#include <errno.h>
#include <string.h>
#include <sys/socket.h>
#include <unistd.h>

enum { LENGTH_SIZE = 4 }; /* the bytes of a frame that say its length */

void hub_add_to_line(line *l, client *c) {
    c->next = NULL;
    *l->last = c;
    l->last = &c->next;
}

client *hub_free_slot(hub *h) {
    for (size_t i = 0; i < h->options.most; i++)
        if (h->clients[i].stage == FREE) return &h->clients[i];
    return NULL;
}

/* Begins to read the next frame. */
static void await_frame(hub *h, client *c) {
    c->stage = READING;
    c->size = LENGTH_SIZE;
    c->done = 0;
    c->deadline = NO_DEADLINE;
    if (h->is_stopping && h->holder != c) hub_close_client(h, c, NULL);
}

void hub_add_client(hub *h, client *c, int socket, uid_t user, pid_t process) {
    c->socket = socket;
    c->user = user;
    c->process = process;
    c->is_gone = c->is_last = c->is_alone = c->holds = 0;
    h->count++;
    h->numbers.connections++;
    if (h->count > h->numbers.most_clients) h->numbers.most_clients = h->count;
    memcpy(c->bytes, h->server.opening, OPENING_SIZE);
    hub_answer(h, c, OPENING_SIZE);
}

static void tell_of(const client *c, const char *what, const char *cause) {
    hub_tell("%s a client of user %lu, process %ld: %s", what, (unsigned long)c->user, (long)c->process, cause);
}

void hub_close_client(hub *h, client *c, const char *cause) {
    if (cause) tell_of(c, "closed", cause);
    if (h->holder == c) h->holder = NULL;
    close(c->socket);
    c->socket = -1;
    c->stage = FREE;
    h->count--;
}

void hub_lose_client(hub *h, client *c) {
    if (c->stage == WAITING || c->stage == ASKED)
        c->is_gone = 1;
    else
        hub_close_client(h, c, NULL);
}

/* Whether a call of the socket can be made again later. */
static int is_later(ssize_t done) { return done < 0 && (errno == EAGAIN || errno == EWOULDBLOCK || errno == EINTR); }

/* Answers. */

void hub_answer(hub *h, client *c, size_t size) {
    c->stage = ANSWERING;
    c->size = size;
    c->done = 0;
    c->deadline = topzerad_now() + h->options.timeout;
    hub_write_client(h, c);
}

void hub_refuse_frame(hub *h, client *c, uint32_t number) {
    if (number >= 1 && number <= FRAME_REFUSALS) h->numbers.refused_frames[number - 1]++;
    hub_put_head(c->bytes, HEAD, REFUSED_FRAME, number);
    hub_answer(h, c, HEAD);
}

void hub_write_client(hub *h, client *c) {
    while (c->done < c->size) {
        ssize_t sent = send(c->socket, c->bytes + c->done, c->size - c->done, MSG_NOSIGNAL | MSG_DONTWAIT);
        if (is_later(sent)) return;
        if (sent <= 0) {
            hub_close_client(h, c, NULL);
            return;
        }
        c->done += (size_t)sent;
    }
    if (c->is_last)
        hub_close_client(h, c, NULL);
    else
        await_frame(h, c);
}

/* Frames. */

/* The client can't be told apart from its bytes any more: it is refused, and then closed. */
static void refuse_last(hub *h, client *c, const char *cause) {
    tell_of(c, "refused", cause);
    c->is_last = 1;
    hub_refuse_frame(h, c, CUT_OFF);
}

static void answer_numbers(hub *h, client *c) {
    hub_put_numbers(c->bytes, hub_tell_numbers(h));
    hub_answer(h, c, NUMBERS_SIZE);
}

/* A frame is there. A refused one ends the turn that its client holds. */
static void take_frame(hub *h, client *c) {
    uint32_t refusal = hub_check_frame(c);
    if (refusal) {
        if (h->holder == c) h->holder = NULL;
        hub_refuse_frame(h, c, refusal);
        return;
    }
    if (hub_asks_for_numbers(c)) {
        answer_numbers(h, c);
        return;
    }
    h->numbers.frames++;
    c->stage = WAITING;
    c->deadline = NO_DEADLINE;
    c->begun = topzerad_now();
    hub_add_to_line(&h->waiting, c);
}

/* The length of a frame is there. */
static void take_length(hub *h, client *c) {
    c->size = get(c->bytes, LENGTH_SIZE);
    if (c->size < HEAD || c->size > MAX_FRAME) refuse_last(h, c, "a length that is no frame's");
}

/* Takes in that nothing more can be read: the client has ended, or it has ended its frame too early. */
static void end_reading(hub *h, client *c, ssize_t got) {
    if (got == 0 && c->done)
        refuse_last(h, c, "the frame was cut off");
    else
        hub_close_client(h, c, NULL);
}

/* One frame at most, so that no client keeps the others waiting. */
void hub_read_client(hub *h, client *c) {
    for (int is_whole = 0; c->stage == READING && !is_whole;) {
        ssize_t got = recv(c->socket, c->bytes + c->done, c->size - c->done, MSG_DONTWAIT);
        if (is_later(got)) return;
        if (got <= 0) {
            end_reading(h, c, got);
            return;
        }
        if (!c->done) c->deadline = topzerad_now() + h->options.timeout;
        c->done += (size_t)got;
        if (c->done < c->size) continue;
        is_whole = c->size > LENGTH_SIZE;
        if (is_whole)
            take_frame(h, c);
        else
            take_length(h, c);
    }
}

/* Deadlines. */

static void end_late(hub *h, client *c) {
    if (c->stage == READING)
        refuse_last(h, c, "the frame came too slowly");
    else
        hub_close_client(h, c, "its answer wasn't read in time");
}

int hub_is_awaited(const client *c) { return c->stage == READING || c->stage == ANSWERING; }

static int is_idle(const hub *h, const client *c) { return c->stage == READING && !c->done && c != h->holder; }

void hub_tend_clients(hub *h, uint64_t now) {
    if (h->holder && hub_is_awaited(h->holder) && now >= h->hold_end)
        hub_close_client(h, h->holder, "it held the turn too long");
    for (size_t i = 0; i < h->options.most; i++) {
        client *c = &h->clients[i];
        if (h->is_stopping && is_idle(h, c)) hub_read_client(h, c); /* it may have sent a frame already */
        if (h->is_stopping && is_idle(h, c))
            hub_close_client(h, c, NULL);
        else if (hub_is_awaited(c) && now >= c->deadline)
            end_late(h, c);
    }
}
