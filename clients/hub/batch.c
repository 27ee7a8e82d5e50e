/* Batches: one frame for the server of the frames of several clients, and its answer. */
#include "hub.h"

#include <string.h>

enum { LOOK_SIZE = 9, LOOK_ROOM = 80 }; /* the hub's own request, and the room for its answer */

/* Takes the first of a line off. */
static client *take_first(line *l) {
    client *c = l->first;
    l->first = c->next;
    if (!l->first) l->last = &l->first;
    return c;
}

/* Takes one off a line. Returns whether it was there. */
static int take_off(line *l, client *wanted) {
    for (client **at = &l->first; *at; at = &(*at)->next) {
        if (*at != wanted) continue;
        *at = wanted->next;
        if (!*at) l->last = at;
        return 1;
    }
    return 0;
}

/* What a batch has so far: its bytes, the room for its answer, its requests, and the frames of clients. */
typedef struct {
    size_t size, room;
    uint32_t count;
    uint64_t frames;
} sizes;

/* Adds a client's frame to the batch, with numbers of the hub's own. */
static void add_frame(hub *h, client *c, sizes *s) {
    uint8_t *at = h->server.out + s->size;
    memcpy(at, c->bytes + HEAD, c->size - HEAD);
    for (uint32_t i = 0; i < c->count; i++) {
        size_t size = hub_request_size(at);
        put(at, h->server.asked + s->count + i, 8);
        at += size;
    }
    s->size += c->size - HEAD;
    s->room += c->room;
    s->count += c->count;
    s->frames++;
    c->stage = ASKED;
    hub_add_to_line(&h->asked, c);
}

static int fits(const client *c, const sizes *s) {
    return s->size + c->size - HEAD <= MAX_FRAME && s->room + c->room <= MAX_FRAME;
}

/* Adds the frames that may go together. */
static void gather(hub *h, sizes *s) {
    int is_full = 0;
    if (h->holder) {
        client *c = h->holder;
        if (!take_off(&h->waiting, c)) return;
        is_full = c->holds || c->is_alone;
        add_frame(h, c, s);
        if (!c->holds) h->holder = NULL;
    }
    while (h->waiting.first && !is_full) {
        client *c = h->waiting.first;
        if (!fits(c, s) || (c->is_alone && h->asked.first)) return;
        is_full = c->holds || c->is_alone;
        add_frame(h, take_first(&h->waiting), s);
        if (!c->holds) continue;
        h->holder = c;
        h->hold_end = topzerad_now() + (h->options.timeout < HOLD ? h->options.timeout : HOLD);
    }
}

/* Adds the hub's own request, if there is one and room for it. A frame that is asked by itself stays so. */
static void add_look(hub *h, sizes *s) {
    int is_alone = h->asked.first && h->asked.first->is_alone;
    int is_room = s->size + LOOK_SIZE <= MAX_FRAME && s->room + LOOK_ROOM <= MAX_FRAME;
    if (h->look != LOOK_WANTED || is_alone || !is_room) return;
    s->size += hub_put_look(h->server.out + s->size, h->server.asked + s->count);
    s->count++;
    h->look = LOOK_ASKED;
}

/* Whether a batch is under way. */
static int is_asking(const hub *h) { return h->asked.first || h->look == LOOK_ASKED; }

static void count_batch(numbers *n, uint64_t frames) {
    if (!frames) return; /* the hub asks for itself */
    n->server_frames++;
    if (frames > n->most_shared) n->most_shared = frames;
}

void hub_make_batch(hub *h) {
    sizes s = {HEAD, HEAD, 0, 0};
    if (is_asking(h) || h->server.is_gone || h->server.is_closing) return;
    gather(h, &s);
    add_look(h, &s);
    if (!is_asking(h)) return;
    count_batch(&h->numbers, s.frames);
    hub_put_head(h->server.out, s.size, REQUESTS, s.count);
    h->server.out_size = s.size;
    h->server.out_done = 0;
}

/* Answers. */

/* Puts the client's numbers in the place of the hub's in answers of so many bytes. Returns the bytes of its answers, or
 * 0 if they aren't its answers. */
static size_t restore_numbers(hub *h, client *c, uint8_t *answers, size_t most, uint64_t now) {
    const uint8_t *request = c->bytes + HEAD;
    size_t done = 0;
    int is_full = 0;
    for (uint32_t i = 0; i < c->count; i++) {
        uint8_t *answer = answers + done;
        size_t size = hub_answer_size(answer, most - done);
        if (!size || get(answer, 8) != h->server.asked) return 0;
        is_full = hub_is_full_read(request, answer);
        hub_count_answer(h, request, answer, now - c->begun);
        memcpy(answer, request, 8);
        request += hub_request_size(request);
        done += size;
        h->server.asked++;
    }
    if (h->holder == c && c->holds == READING_ON && !is_full) h->holder = NULL;
    return done;
}

/* Ends what was asked of a client. One that is gone is closed. */
static void end_frame(hub *h, client *c) {
    c->is_alone = 0;
    if (c->is_gone) hub_close_client(h, c, NULL);
}

/* Takes the answer to the hub's own request, which is the last one. */
static int take_look(hub *h, const uint8_t *answer, size_t left) {
    if (hub_answer_size(answer, left) != left || !left || get(answer, 8) != h->server.asked) return -1;
    h->server.asked++;
    hub_end_look(h, !hub_take_look(h, answer));
    return 0;
}

static int hand_out(hub *h, size_t size) {
    uint8_t *answers = h->server.in + HEAD;
    size_t left = size - HEAD;
    uint64_t now = topzerad_now();
    while (h->asked.first) {
        client *c = take_first(&h->asked);
        size_t own = restore_numbers(h, c, answers, left, now);
        if (c->count && !own) return -1;
        hub_put_head(c->bytes, HEAD + own, ANSWERS, c->count);
        memcpy(c->bytes + HEAD, answers, own);
        answers += own;
        left -= own;
        end_frame(h, c);
        if (c->stage == ASKED) hub_answer(h, c, HEAD + own);
    }
    if (h->look == LOOK_ASKED) return take_look(h, answers, left);
    return left ? -1 : 0;
}

/* Lets the clients of a batch wait again, each by itself, before those that wait already. */
static void ask_again(hub *h) {
    line again = {NULL, &again.first};
    while (h->asked.first) {
        client *c = take_first(&h->asked);
        c->stage = WAITING;
        c->is_alone = 1;
        hub_add_to_line(&again, c);
    }
    *again.last = h->waiting.first;
    if (!h->waiting.first) h->waiting.last = again.last;
    h->waiting.first = again.first;
}

/* The server refused the batch, so nothing of it was made. A turn is held again once it was asked again. */
static void take_refusal(hub *h, uint32_t number) {
    client *c = h->asked.first;
    int has_look = h->look == LOOK_ASKED;
    h->holder = NULL;
    if (!c) {
        hub_end_look(h, 0);
        return;
    }
    if (has_look) h->look = LOOK_WANTED;
    if (c->next || has_look) {
        ask_again(h);
        return;
    }
    take_first(&h->asked);
    end_frame(h, c);
    if (c->stage == ASKED) hub_refuse_frame(h, c, number);
}

/* How many requests the batch has. */
static uint32_t asked_count(const hub *h) { return (uint32_t)get(h->server.out + 8, 4); }

int hub_take_answer(hub *h) {
    const uint8_t *head = h->server.in;
    uint64_t size = get(head, 4), kind = get(head + 6, 2), number = get(head + 8, 4);
    if (get(head + 4, 2) != VERSION || !is_asking(h) || h->server.out_done < h->server.out_size) return -1;
    if (kind == REFUSED_FRAME && size == HEAD) {
        take_refusal(h, (uint32_t)number);
        return 0;
    }
    return kind == ANSWERS && number == asked_count(h) ? hand_out(h, size) : -1;
}
